//! Tables walked by the proved walker, against the second one: answer, every lent word and every cell of the access
//! list; and, for tables of sources, against the image's run.

use crate::calls::Arrays;
use crate::print;
use crate::runs::{program, Shown};
use reference::front::{accept, Accepted};
use reference::generate::{edges, starting_words, table, table_edges, Random};
use reference::meaning::{Access, AccessKind};
use reference::walker::{data, flaws, rows, walk, Flaw, Walk};
use std::collections::BTreeMap;
use tests::{
    arm, needed_words, plain_walk, proved, second, Translation, Walked, Walker, CODE_BYTES, TABLE_WORDS,
};

mod wrong;

/// Words on either side of lent ones, which a walk has to leave alone.
const MARGIN: usize = 8;
/// No row takes more instructions than this,
const INSTRUCTIONS_A_ROW: u64 = 80;
/// and between two instructions no more rows are begun than this: no program has more tokens.
const ROWS_AN_INSTRUCTION: u64 = 1_100;
/// The most rows of a walk, if nothing else says how many.
const LIMIT: u64 = 1_500;

/// A table with its starting words, and what is asked for.
#[derive(Clone, Copy)]
struct Case<'c> {
    table: &'c [u32],
    memory: &'c [u32],
    limit: u64,
    /// The number of the first entry, and the number of lent cells.
    first: u64,
    cells: usize,
}

/// What a number of walks went through.
#[derive(Default)]
struct Seen {
    tables: u64,
    /// Those without a reason for 36.
    legal: u64,
    walks: u64,
    steps: u64,
    accesses: u64,
    /// Entries that were handed back.
    entries: u64,
    /// Walks to finish, stop and bad subscript, to the limit, and refused by 33 and 36.
    ends: [u64; 6],
    /// Refused tables by their reasons: all that have one, and those that have no other.
    reasons: BTreeMap<Flaw, [u64; 2]>,
}

impl Seen {
    fn add(&mut self, want: &Walk, entries: u64) {
        self.walks += 1;
        self.steps += want.steps;
        self.accesses += want.accesses.len() as u64;
        self.entries += entries;
        let end = match want.status {
            0 => 3,
            1 => want.number as usize,
            33 => 4,
            _ => 5,
        };
        self.ends[end] += 1;
    }

    fn add_table(&mut self, table: &[u32]) {
        let flaws = flaws(table);
        self.tables += 1;
        self.legal += u64::from(flaws.is_empty());
        for flaw in &flaws {
            let [all, alone] = self.reasons.entry(*flaw).or_default();
            *all += 1;
            *alone += u64::from(flaws.len() == 1);
        }
    }

    fn print(&self, what: &str) {
        let [finish, stop, bad, limit, short, refused] = self.ends;
        print(&format!(
            "{what}: {} tables, {} of them legal; {} walks, {} steps, {} accesses, {} handed back",
            self.tables, self.legal, self.walks, self.steps, self.accesses, self.entries
        ));
        print(&format!(
            "  finish {finish}, stop {stop}, bad subscript {bad}, limit {limit}, refused by 33 {short}, by 36 {refused}"
        ));
        if !self.reasons.is_empty() {
            let counts = self.reasons.iter().map(|(flaw, [all, alone])| format!("{flaw:?} {all} ({alone})"));
            print(&format!(
                "  refused tables by reason (for it alone): {}",
                counts.collect::<Vec<_>>().join(", ")
            ));
        }
    }
}

/// Random words, a number for two.
fn any_words(random: &mut Random, count: usize) -> Vec<u32> {
    let numbers = (0..count.div_ceil(2)).map(|_| random.number());
    let mut words: Vec<u32> = numbers.flat_map(|number| [number as u32, (number >> 32) as u32]).collect();
    words.truncate(count);
    words
}

/// Words with random ones on either side.
fn framed(random: &mut Random, words: &[u32]) -> Vec<u32> {
    [any_words(random, MARGIN), words.to_vec(), any_words(random, MARGIN)].concat()
}

/// What the lent cells hold after a walk, from what they held before: each that belongs to an entry which is there and
/// fits whole is that entry's, all others stay.
fn cells_after(before: &[u32], accesses: &[Access], first: u64) -> Vec<u32> {
    let whole = before.len() / 4;
    let held = |(cell, old): (usize, &u32)| {
        let number = first.checked_add(cell as u64 / 4).and_then(|number| usize::try_from(number).ok());
        let access = number.and_then(|number| accesses.get(number)).filter(|_| cell / 4 < whole);
        access.map_or(*old, |access| second::entry(access)[cell % 4])
    };
    before.iter().enumerate().map(held).collect()
}

/// One walk, against what the second walker comes to.
fn check(walker: Walker, random: &mut Random, case: Case, want: &Walk, seen: &mut Seen) {
    let Case { table, memory, limit, first, cells } = case;
    let shown = || format!("limit {limit}, entry {first}, {cells} cells, {} words", memory.len());
    let mut lent = framed(random, memory);
    let mut wanted = lent.clone();
    wanted[MARGIN..MARGIN + memory.len()].copy_from_slice(&want.words);
    let mut listed = any_words(random, cells + 2 * MARGIN);
    let mut wanted_listed = listed.clone();
    let inside = MARGIN..MARGIN + cells;
    let after = cells_after(&listed[inside.clone()], &want.accesses, first);
    wanted_listed[inside.clone()].copy_from_slice(&after);
    // behind the table stand rows that would run
    let behind = [table, &[8, 0, 0, 0, 8, 0, 0, 0]].concat();

    let lent_words = &mut lent[MARGIN..MARGIN + memory.len()];
    let got = walker(&behind[..table.len()], lent_words, limit, first, &mut listed[inside]);

    let answer = Walked {
        status: want.status.into(),
        number: want.number.into(),
        steps: want.steps,
        accesses: want.accesses.len() as u64,
    };
    assert_eq!(got, answer, "answer, {}", shown());
    assert!(lent == wanted, "words, {}", shown());
    assert!(listed == wanted_listed, "cells, {}", shown());
    seen.add(want, (want.accesses.len() as u64).saturating_sub(first).min(cells as u64 / 4));
}

/// A window on a list of so many entries: the number of its first, and its cells.
fn window(random: &mut Random, entries: usize) -> (u64, usize) {
    let total = entries as u64;
    let first = match random.below(8) {
        0..=2 => 0,
        3 | 4 => random.below(entries + 1) as u64,
        5 => total.saturating_sub(1) + random.below(3) as u64,
        6 => *random.pick(&[1 << 30, 1 << 32, 1 << 61, 1 << 62, 1 << 63]),
        _ => u64::MAX - random.below(4) as u64,
    };
    let exact = 4 * total.saturating_sub(first) as usize;
    let cells = match random.below(8) {
        0 => 0,
        1 => random.between(1, 7),
        2 | 3 => exact,
        4 => exact.saturating_sub(1),
        5 => exact + random.between(1, 9),
        6 => random.below(exact + 1),
        _ => 4 * random.below(20),
    };
    (first, cells)
}

/// A walk at this limit, with a random window.
fn check_limit(
    walker: Walker,
    random: &mut Random,
    table: &[u32],
    memory: &[u32],
    limit: u64,
    seen: &mut Seen,
) -> Walk {
    let want = walk(table, memory, limit);
    let (first, cells) = window(random, want.accesses.len());
    check(walker, random, Case { table, memory, limit, first, cells }, &want, seen);
    want
}

/// Limits about where a walk ended: one fewer, as many, one more, any fewer, and far more.
fn limits_about(random: &mut Random, steps: u64) -> [u64; 5] {
    let fewer = random.below(steps as usize + 1) as u64;
    [steps.saturating_sub(1), steps, steps + 1, fewer, *random.pick(&[1 << 32, 1 << 63, u64::MAX])]
}

/// What an image comes to.
struct Ran {
    end: Option<u32>,
    words: Vec<u32>,
    accesses: Vec<Access>,
    instructions: u64,
}

/// Runs an image on the second interpreter and lists the loads and stores in arrays' words.
fn run_image(accepted: &Accepted, got: Translation, image: &[u8], memory: &[u32], limit: u64) -> Ran {
    let arrays = Arrays::of(accepted);
    let (status, mut state) = arm::start(image, memory, got.data, got.depth);
    assert_eq!(status, 0, "start");
    let mut ran = Ran { end: None, words: memory.to_vec(), accesses: Vec::new(), instructions: 0 };
    while ran.instructions < limit && ran.end.is_none() {
        let mut touch = None;
        let (status, number) = arm::watched_step(&mut state, image, &mut ran.words, &mut touch);
        assert!(status <= 1, "fault {status} at {:#x}", state.pc);
        ran.instructions += 1;
        ran.end = (status == 1).then_some(number);
        if let Some(touch) = touch.filter(|touch| arrays.have(touch.word)) {
            let kind = if touch.store { AccessKind::Store } else { AccessKind::Load };
            ran.accesses.push(Access { kind, offset: touch.word, old: touch.old, new: touch.new });
        }
    }
    ran.words.truncate(got.data as usize);
    ran
}

/// "it ends, given enough steps, exactly if and as the image does, with the same D words and the same list of array
/// accesses": the walk to a limit by which it has to have ended if the image has, and can't have if the image hasn't.
fn check_beside(
    walker: Walker,
    random: &mut Random,
    table: &[u32],
    memory: &[u32],
    ran: &Ran,
    seen: &mut Seen,
) {
    if ran.end.is_some() {
        let limit = (ran.instructions + 1) * ROWS_AN_INSTRUCTION;
        let whole = check_limit(walker, random, table, memory, limit, seen);
        assert_eq!((whole.status, Some(whole.number)), (1, ran.end), "end beside the image's");
        assert!(whole.words[..ran.words.len()] == ran.words, "declared words beside the image's");
        assert!(whole.accesses == ran.accesses, "accesses beside the image's");
        for limit in limits_about(random, whole.steps) {
            check_limit(walker, random, table, memory, limit, seen);
        }
    } else {
        let limit = ran.instructions / INSTRUCTIONS_A_ROW;
        let sure = check_limit(walker, random, table, memory, limit, seen);
        assert_eq!(sure.status, 0, "the walk ended, the image did not");
        assert!(ran.accesses.starts_with(&sure.accesses), "an access that the image did not make");
        let further = random.below(LIMIT as usize) as u64;
        check_limit(walker, random, table, memory, further, seen);
    }
}

/// An accepted source's table, cut to its rows, beside its image; a failure shows the source.
fn compare_source(walker: Walker, source: &[u8], random: &mut Random, limit: u64, seen: &mut Seen) {
    let shown = Shown(source);
    let accepted = accept(source, TABLE_WORDS, CODE_BYTES).expect("accepted by the reference");
    let (mut table, mut code) = (vec![9; 4 * accepted.tokens], vec![9; 48 * accepted.tokens + 256]);
    let got = proved::translate(source, &mut table, &mut code);
    let (table, image) = (&table[..4 * got.rows as usize], &code[..got.code as usize]);
    let past = *random.pick(&[0, 0, 1, 5, 40]);
    let memory = starting_words(random, needed_words(got.data, got.depth) + past);
    let ran = run_image(&accepted, got, image, &memory, limit);
    check_beside(walker, random, table, &memory, &ran, seen);
    seen.add_table(table);
    std::mem::forget(shown);
}

fn sources(walker: Walker, seeds: std::ops::Range<u64>, seen: &mut Seen) {
    for seed in seeds {
        let (source, limit, mut random) = program(seed);
        compare_source(walker, &source, &mut random, limit, seen);
    }
}

/// The accepted sources at the limits.
fn source_edges(walker: Walker, seen: &mut Seen) {
    let mut random = Random::new(19);
    for edge in edges().into_iter().filter(|edge| edge.status == 0) {
        compare_source(walker, &edge.source, &mut random, LIMIT, seen);
    }
}

/// Starting words for a table: mostly enough, at times just too few, or more than the machine takes.
fn words_for(random: &mut Random, table: &[u32]) -> Vec<u32> {
    // a refused table may declare more than could be lent
    let data = data(&rows(table)).min(9_000) as usize;
    let count = match random.below(10) {
        0 => data.saturating_sub(1),
        1 => random.below(data + 1),
        2..=5 => data,
        6 if random.one_in(40) => data + arm::MEMORY_LIMIT,
        _ => data + random.below(40),
    };
    if random.one_in(8) {
        return vec![0; count];
    }
    starting_words(random, count)
}

/// A table over words of its own, to the limit and to others about its end; a failure shows the table.
fn compare_table(walker: Walker, random: &mut Random, table: &[u32], seen: &mut Seen) {
    let shown = ShownTable(table);
    let memory = words_for(random, table);
    let whole = check_limit(walker, random, table, &memory, LIMIT, seen);
    let limits = limits_about(random, whole.steps);
    // to the end, but not where there may be none
    let last = limits.len() - usize::from(whole.status == 0);
    for _ in 0..2 {
        let limit = *random.pick(&limits[..last]);
        check_limit(walker, random, table, &memory, limit, seen);
    }
    seen.add_table(table);
    std::mem::forget(shown);
}

/// Prints its table if it is dropped, which is if a comparison failed.
struct ShownTable<'t>(&'t [u32]);

impl Drop for ShownTable<'_> {
    fn drop(&mut self) {
        let rows: Vec<_> = self.0.chunks(4).take(40).map(|row| format!("{row:?}")).collect();
        print(&format!("of {} words: {}", self.0.len(), rows.join(" ")));
    }
}

fn tables(walker: Walker, seeds: std::ops::Range<u64>, seen: &mut Seen) {
    for seed in seeds {
        let mut random = Random::new(seed);
        let table = table(&mut random);
        compare_table(walker, &mut random, &table, seen);
    }
}

fn tables_at_the_edges(walker: Walker, seen: &mut Seen) {
    let mut random = Random::new(23);
    for edge in table_edges() {
        for _ in 0..2 {
            compare_table(walker, &mut random, &edge.table, seen);
        }
    }
}

#[test]
fn generated_sources() {
    let mut seen = Seen::default();
    sources(proved::walk, 500_000..521_000, &mut seen);
    source_edges(proved::walk, &mut seen);
    assert!(seen.tables >= 20_000);
    assert!(seen.ends[..4].iter().all(|&count| count > 100), "every end is seen");
    assert_eq!(seen.ends[4..], [0, 0], "no source's table is refused");
    seen.print("walks of sources beside their images");
}

#[test]
fn tables_of_any_sort() {
    let mut seen = Seen::default();
    tables_at_the_edges(proved::walk, &mut seen);
    tables(proved::walk, 600_000..660_000, &mut seen);
    assert!(seen.tables >= 50_000);
    assert!(seen.ends.iter().all(|&count| count > 100), "every end is seen");
    assert!(seen.reasons.len() == 10 && seen.reasons.values().all(|[_, alone]| *alone > 50), "every reason");
    seen.print("walks of tables");
}

/// A long list is had piece by piece: the walk again from the same words, with a higher first entry.
fn pieces(walker: Walker, table: &[u32], memory: &[u32], limit: u64, cells: usize) -> (Vec<[u32; 4]>, u64) {
    let (mut list, mut walks) = (Vec::new(), 0);
    loop {
        let (mut words, mut piece) = (memory.to_vec(), vec![9; cells]);
        let got = walker(table, &mut words, limit, list.len() as u64, &mut piece);
        let left = got.accesses - list.len() as u64;
        let (whole, rest) = piece.as_chunks();
        let here = whole.len().min(left as usize);
        list.extend(&whole[..here]);
        assert!(whole[here..].iter().flatten().chain(rest).all(|&cell| cell == 9), "cells behind the piece");
        walks += 1;
        if list.len() as u64 == got.accesses {
            return (list, walks);
        }
    }
}

#[test]
fn a_list_in_pieces_is_the_whole_list() {
    const LOOP: &str = "var i; array v[50]; while i < 50 do {v[i] := v[i] + (v[49] * i); i := i + 1}";
    let (mut lists, mut entries, mut walks) = (0, 0, 0);
    let made = (700_000..700_600).map(program).map(|(source, ..)| source);
    for source in [LOOP.into()].into_iter().chain(made) {
        let accepted = accept(&source, TABLE_WORDS, CODE_BYTES).expect("accepted by the reference");
        let (table, memory) = (accepted.rows.concat(), vec![0; accepted.needed_words()]);
        let whole = walk(&table, &memory, 2_000);
        let want: Vec<[u32; 4]> = whole.accesses.iter().map(second::entry).collect();
        for cells in [4, 4 * 3 + 1, 4 * 7 + 3, 4 * 64] {
            let (list, times) = pieces(proved::walk, &table, &memory, 2_000, cells);
            assert!(list == want, "{} in pieces of {cells} cells", String::from_utf8_lossy(&source));
            walks += times;
        }
        lists += 1;
        entries += want.len();
    }
    print(&format!("walks: {lists} access lists of {entries} entries in {walks} pieces"));
}

/// The comparison itself: the second walker passes it.
#[test]
fn the_second_walker_passes() {
    let mut seen = Seen::default();
    tables_at_the_edges(second::walk, &mut seen);
    tables(second::walk, 670_000..673_000, &mut seen);
    sources(second::walk, 524_000..525_000, &mut seen);
    seen.print("the second walker's walks");
}

/// The yardstick comes to the same.
#[test]
fn the_plain_walker_passes() {
    let mut seen = Seen::default();
    tables_at_the_edges(plain_walk::walk, &mut seen);
    tables(plain_walk::walk, 660_000..670_000, &mut seen);
    sources(plain_walk::walk, 521_000..524_000, &mut seen);
    seen.print("the plain walker's walks");
}
