//! Wrong walkers: each is noticed by what differs first, where the right one passes.

use super::{check, Case, Seen};
use crate::memories::failure;
use reference::front::accept;
use reference::generate::Random;
use reference::meaning::End;
use reference::table::Row;
use reference::walker::{data, flaws, kind, parts, rows, walk, Flaw, Part, State, Thing, Walk};
use tests::{second, Walked, Walker, CODE_BYTES, TABLE_WORDS};

/// The ways in which a walker can be wrong before it hands anything back.
struct Way {
    refuses: fn(&[u32]) -> bool,
    needs: fn(&[Row]) -> u64,
    run: fn(&mut State, u64),
}

const RIGHT: Way =
    Way { refuses: |table| !flaws(table).is_empty(), needs: data, run: |state, limit| state.run(limit) };

impl Way {
    fn walk(&self, table: &[u32], memory: &mut [u32], limit: u64, first: u64, cells: &mut [u32]) -> Walked {
        let rows = rows(table);
        let short = (memory.len() as u64) < (self.needs)(&rows);
        if (self.refuses)(table) || short {
            let status = if (self.refuses)(table) { 36 } else { 33 };
            return Walked { status, ..Walked::default() };
        }
        let mut state = State::start(&rows, memory);
        (self.run)(&mut state, limit);
        let State { words, accesses, steps, end, .. } = state;
        let (status, number) = end.map_or((0, 0), |end| (1, end as u32));
        second::hand_back(&Walk { status, number, steps, words, accesses }, memory, first, cells)
    }
}

/// A run in which `other` is tried before each thing to do, and what it does stands for that thing.
fn run_with(state: &mut State, limit: u64, other: fn(&mut State) -> bool) {
    while state.end.is_none() && !(state.begins() && state.steps >= limit) {
        if !other(state) {
            state.step();
        }
    }
}

/// A while's row is begun once, and then only its condition again.
fn while_once(state: &mut State) -> bool {
    let Some(&Thing::Choose(row)) = state.to_do.last() else { return false };
    let [kind, condition, ..] = state.rows[row as usize];
    let again = kind == kind::WHILE && state.pile.last() != Some(&0);
    state.step();
    if again {
        // under the body
        let at = state.to_do.len() - 2;
        state.to_do.splice(at..=at, [Thing::Choose(row), Thing::Begin(condition)]);
    }
    true
}

fn load_not_listed(state: &mut State) -> bool {
    let load = matches!(state.to_do.last(), Some(Thing::Load(_)));
    if load {
        state.step();
        state.accesses.pop();
    }
    load
}

/// The right operand of `or` isn't worked out if the left one isn't 0.
fn short_or(state: &mut State) -> bool {
    let &[.., Thing::Work(row), Thing::Begin(_)] = &state.to_do[..] else { return false };
    let decided = matches!(state.rows[row as usize], [kind::DIADIC, 5, ..]) && state.pile.last() != Some(&0);
    if decided {
        state.to_do.truncate(state.to_do.len() - 2);
    }
    decided
}

/// An assigned element's subscript is checked when the value is there.
fn late_check(state: &mut State) -> bool {
    match state.to_do[..] {
        [.., Thing::Begin(_), Thing::Check(_)] => {
            state.to_do.pop();
            true
        }
        [.., Thing::Store(array)] => {
            let bad = state.pile[state.pile.len() - 2] >= state.rows[array as usize][2];
            if bad {
                state.end = Some(End::BadSubscript);
            }
            bad
        }
        _ => false,
    }
}

/// The row past the limit is begun before the limit is looked at.
fn late_limit(state: &mut State, limit: u64) {
    state.run(limit.saturating_add(1));
    state.steps = state.steps.min(limit);
}

/// A table in which a reference to the row itself is one to the row before.
fn itself_as_before(table: &[u32]) -> Vec<u32> {
    let mut rows = rows(table);
    for (number, row) in rows.iter_mut().enumerate() {
        let references = parts(row[0]).into_iter().flatten().zip(&mut row[1..]);
        for (part, word) in references {
            let reference = matches!(part, Part::Variable | Part::Array | Part::Value | Part::Process);
            if reference && *word as usize == number {
                *word -= 1;
            }
        }
    }
    rows.concat()
}

/// The words of the declarations that another row names.
fn used_data(rows: &[Row]) -> u64 {
    let names =
        |row: &Row| matches!(row[0], kind::VARIABLE | kind::ELEMENT | kind::ASSIGN | kind::ASSIGN_ELEMENT);
    let used = |number: u32| rows.iter().any(|row| names(row) && row[1] == number);
    let counted = rows.iter().enumerate().filter(|(number, _)| used(*number as u32));
    data(&counted.map(|(_, row)| *row).collect::<Vec<_>>())
}

/// A walker that overlooks one of the reasons for 36.
fn overlooks<const FLAW: u8>(
    table: &[u32],
    memory: &mut [u32],
    limit: u64,
    first: u64,
    cells: &mut [u32],
) -> Walked {
    let refuses = |table: &[u32]| flaws(table).iter().any(|flaw| *flaw as u8 != FLAW);
    Way { refuses, ..RIGHT }.walk(table, memory, limit, first, cells)
}

fn noticed(what: &str, walker: Walker, table: &[u32], memory: &[u32], limit: u64, window: (u64, usize)) {
    let want = walk(table, memory, limit);
    let case = Case { table, memory, limit, first: window.0, cells: window.1 };
    let run = |walker: Walker| check(walker, &mut Random::new(5), case, &want, &mut Seen::default());
    run(second::walk);
    let said = failure(|| run(walker));
    assert!(said.contains(what), "{what}: {said}");
}

/// The table of a source.
fn of(source: &str) -> Vec<u32> {
    accept(source.as_bytes(), TABLE_WORDS, CODE_BYTES).expect(source).rows.concat()
}

const ENOUGH: u64 = 1_000;
const ALL: (u64, usize) = (0, 40);

/// Each reason for 36 overlooked, and a reference to the row itself taken for one to an earlier row.
#[test]
fn wrong_judgements_of_tables_are_noticed() {
    let skip = [8, 0, 0, 0];
    let itself: Walker = |t, m, l, f, c| {
        Way { refuses: |table| !flaws(&itself_as_before(table)).is_empty(), ..RIGHT }.walk(t, m, l, f, c)
    };
    let many = vec![skip; 1_025];
    for (walker, rows) in [
        (itself, &[[3, 1, 0, 0], skip, [14, 0, 2, 0]][..]),
        (itself, &[[1, 0, 1, 0], [3, 1, 0, 0], [6, 1, 2, 0], [10, 0, 1, 0]]),
        (overlooks::<{ Flaw::UnknownKind as u8 }>, &[[15, 0, 0, 0], skip]),
        (overlooks::<{ Flaw::Reference as u8 }>, &[[3, 0, 0, 0], [12, 2, 2, 0], skip]),
        (overlooks::<{ Flaw::Reference as u8 }>, &[[2, 0, 1, 0], [4, 0, 0, 0], skip]),
        (overlooks::<{ Flaw::Operator as u8 }>, &[[3, 0, 0, 0], [7, 15, 0, 0], skip]),
        (overlooks::<{ Flaw::Offset as u8 }>, &[[1, 1, 1, 0], skip]),
        (overlooks::<{ Flaw::Offset as u8 }>, &[[1, 0, 1, 0], [2, 2, 3, 0], skip]),
        (overlooks::<{ Flaw::Length as u8 }>, &[[1, 0, 2, 0], skip]),
        (overlooks::<{ Flaw::Length as u8 }>, &[[2, 0, 0, 0], skip]),
        (overlooks::<{ Flaw::UnusedWord as u8 }>, &[[8, 0, 0, 1]]),
        (overlooks::<{ Flaw::TooMuchData as u8 }>, &[[2, 0, 8_192, 0], [1, 8_192, 1, 0], skip]),
        (overlooks::<{ Flaw::TooManyRows as u8 }>, &many),
        (overlooks::<{ Flaw::NoProcess as u8 }>, &[skip, [3, 0, 0, 0]]),
    ] {
        noticed("answer", walker, &rows.concat(), &[7; 9_000], ENOUGH, ALL);
    }
    noticed("answer", overlooks::<{ Flaw::PartRow as u8 }>, &[8, 0, 0, 0, 8], &[], ENOUGH, ALL);
}

/// Refusals that no reason asks for: sources can't have such tables, so only made ones show them.
#[test]
fn too_strict_walkers_are_noticed() {
    let names: Walker = |t, m, l, f, c| {
        let many = |table: &[u32]| rows(table).iter().filter(|row| row[0] <= kind::ARRAY).count() > 256;
        Way { refuses: many, ..RIGHT }.walk(t, m, l, f, c)
    };
    let late: Walker = |t, m, l, f, c| {
        let behind = |table: &[u32]| rows(table).windows(2).any(|two| two[0][0] > 2 && two[1][0] <= 2);
        Way { refuses: behind, ..RIGHT }.walk(t, m, l, f, c)
    };
    let left: Walker = |t, m, l, f, c| {
        let grouped = |table: &[u32]| {
            let rows = rows(table);
            rows.iter().any(|row| row[0] == kind::SEQUENCE && rows[row[1] as usize][0] == kind::SEQUENCE)
        };
        Way { refuses: grouped, ..RIGHT }.walk(t, m, l, f, c)
    };
    let long_memory: Walker = |t, m, l, f, c| match m.len() {
        0..=16_384 => second::walk(t, m, l, f, c),
        _ => Walked { status: 32, ..Walked::default() },
    };
    let vars: Vec<Row> = (0..257).map(|offset| [1, offset, 1, 0]).chain([[8, 0, 0, 0]]).collect();
    let behind = [[8, 0, 0, 0], [1, 0, 1, 0], [8, 0, 0, 0]];
    let grouped = [[8, 0, 0, 0], [12, 0, 0, 0], [12, 1, 0, 0]];
    let memory = vec![3; 16_385];
    noticed("answer", names, &vars.concat(), &memory, ENOUGH, ALL);
    noticed("answer", late, &behind.concat(), &memory, ENOUGH, ALL);
    noticed("answer", left, &grouped.concat(), &memory, ENOUGH, ALL);
    noticed("answer", long_memory, &of("skip"), &memory, ENOUGH, ALL);
}

/// What a table asks for in words, and the order of 36 and 33.
#[test]
fn wrong_refusals_by_33_are_noticed() {
    let used: Walker = |t, m, l, f, c| Way { needs: used_data, ..RIGHT }.walk(t, m, l, f, c);
    let before_36: Walker = |t, m, l, f, c| {
        let short = (m.len() as u64) < data(&rows(t));
        if short {
            return Walked { status: 33, ..Walked::default() };
        }
        second::walk(t, m, l, f, c)
    };
    let touches: Walker = |t, m, l, f, c| {
        let got = second::walk(t, m, l, f, c);
        if got.status == 33 {
            m.fill(0);
        }
        got
    };
    let clears_cells: Walker = |t, m, l, f, c| {
        let got = second::walk(t, m, l, f, c);
        if got.status > 1 {
            c.fill(0);
        }
        got
    };
    let unused = of("var x; array v[5]; x := 1");
    noticed("answer", used, &unused, &[7; 5], ENOUGH, ALL);
    noticed("answer", before_36, &[&unused[..], &[0; 4]].concat(), &[7; 5], ENOUGH, ALL);
    noticed("words", touches, &unused, &[7; 5], ENOUGH, ALL);
    noticed("cells", clears_cells, &unused, &[7; 5], ENOUGH, ALL);
    noticed("cells", clears_cells, &[0; 4], &[7; 5], ENOUGH, ALL);
}

/// Runs that count, stop, check or list otherwise.
#[test]
fn wrong_runs_are_noticed() {
    let once: Walker =
        |t, m, l, f, c| Way { run: |s, l| run_with(s, l, while_once), ..RIGHT }.walk(t, m, l, f, c);
    let unlisted: Walker =
        |t, m, l, f, c| Way { run: |s, l| run_with(s, l, load_not_listed), ..RIGHT }.walk(t, m, l, f, c);
    let short: Walker =
        |t, m, l, f, c| Way { run: |s, l| run_with(s, l, short_or), ..RIGHT }.walk(t, m, l, f, c);
    let check_later: Walker =
        |t, m, l, f, c| Way { run: |s, l| run_with(s, l, late_check), ..RIGHT }.walk(t, m, l, f, c);
    let limit_later: Walker = |t, m, l, f, c| Way { run: late_limit, ..RIGHT }.walk(t, m, l, f, c);
    let undoes: Walker = |t, m, l, f, c| {
        let before = m.to_vec();
        let got = second::walk(t, m, l, f, c);
        if got.status == 0 {
            m.copy_from_slice(&before);
        }
        got
    };
    let past_data: Walker = |t, m, l, f, c| {
        let got = second::walk(t, m, l, f, c);
        m[2] = 0;
        got
    };
    let down = of("var x; while x do x := x - 1");
    let either = of("var x; array v[1]; x := x or v[0]");
    let two = of("var a; var b; {a := 1; b := 2}");
    noticed("answer", once, &down, &[3], ENOUGH, ALL);
    noticed("answer", once, &down, &[3], 17, ALL);
    noticed("answer", unlisted, &either, &[1, 2], ENOUGH, ALL);
    noticed("answer", short, &either, &[1, 2], ENOUGH, ALL);
    noticed("answer", check_later, &of("array a[2]; a[2] := a[0]"), &[1, 2], ENOUGH, ALL);
    noticed("answer", limit_later, &of("stop"), &[], 0, ALL);
    noticed("words", limit_later, &two, &[8, 9], 2, ALL);
    noticed("words", undoes, &two, &[8, 9], 3, ALL);
    noticed("words", past_data, &two, &[8, 9, 10], ENOUGH, ALL);
}

/// Windows of the access list that are written or counted otherwise.
#[test]
fn wrong_windows_are_noticed() {
    let from_0: Walker = |t, m, l, _, c| second::walk(t, m, l, 0, c);
    let wraps: Walker = |t, m, l, f, c| second::walk(t, m, l, f << 2 >> 2, c);
    let fitting: Walker = |t, m, l, f, c| {
        let got = second::walk(t, m, l, f, c);
        Walked { accesses: got.accesses.min(c.len() as u64 / 4), ..got }
    };
    let behind: Walker = |t, m, l, f, c| {
        let got = second::walk(t, m, l, f, c);
        Walked { accesses: got.accesses.saturating_sub(f), ..got }
    };
    // an entry of which a part fits is written in part
    let part: Walker = |t, m, l, f, c| {
        let length = c.len();
        let mut longer = c.to_vec();
        longer.resize(length + 4, 0);
        let got = second::walk(t, m, l, f, &mut longer);
        c.copy_from_slice(&longer[..length]);
        got
    };
    let rest: Walker = |t, m, l, f, c| {
        let got = second::walk(t, m, l, f, c);
        let listed = got.accesses.saturating_sub(f) as usize;
        c.chunks_mut(4).skip(listed).for_each(|cells| cells.fill(0));
        got
    };
    let table = of("array v[3]; {v[0] := v[1]; v[1] := v[2]}");
    for (what, walker, window) in [
        ("cells", from_0, (1, 16)),
        ("cells", wraps, (1 << 62, 16)),
        ("answer", fitting, (0, 12)),
        ("answer", behind, (2, 16)),
        ("cells", part, (0, 6)),
        ("cells", part, (3, 3)),
        ("cells", rest, (0, 18)),
    ] {
        noticed(what, walker, &table, &[5, 6, 7, 8], ENOUGH, window);
    }
}
