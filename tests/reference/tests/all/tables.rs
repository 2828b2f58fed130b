//! Generated tables: the walker against the working out by recursion, and, for
//! tables of sources, against the source's run.

use std::collections::{BTreeMap, BTreeSet};

use crate::rows::Interpreter;
use crate::{print, report};
use reference::front::{accept, Accepted};
use reference::generate::{
    damage_table, made_table, source_table, starting_words, table, table_edges, table_size, valid_source,
    Random,
};
use reference::grammar::{Expression, Process};
use reference::meaning::{State, Thing};
use reference::walker::{data, flaws, rows, walk, Walk};

const TABLE_WORDS: usize = 4 * 1_024;
const CODE_BYTES: usize = 48 * 1_024 + 256;

/// The most rows that a run here begins.
const LIMIT: u64 = 2_000;

/// The walk of a table without a flaw, by recursion over its rows.
fn by_recursion(table: &[u32], memory: &[u32], limit: u64) -> Walk {
    let rows = rows(table);
    let fuel = limit as usize;
    let counts_tests = true;
    let mut interpreter =
        Interpreter { rows: &rows, words: memory.to_vec(), accesses: Vec::new(), fuel, counts_tests };
    let end = interpreter.run();
    let Interpreter { words, accesses, fuel, .. } = interpreter;
    let (status, number) = end.map_or((0, 0), |end| (1, end as u32));
    Walk { status, number, steps: limit - fuel as u64, words, accesses }
}

/// Two walks come to the same; what is shown leaves the words out.
fn same(one: &Walk, other: &Walk, shown: impl Fn() -> String) {
    let answer = |walk: &Walk| (walk.status, walk.number, walk.steps);
    assert_eq!(answer(one), answer(other), "{}", shown());
    assert!(one.words == other.words, "words, {}", shown());
    assert!(one.accesses == other.accesses, "accesses, {}", shown());
}

/// Limits about the end of a run, and any below.
fn limits(random: &mut Random, steps: u64) -> [u64; 4] {
    [steps.saturating_sub(1), steps, steps + 1, random.below(steps as usize + 1) as u64]
}

/// Walks a table without a flaw both ways, at several limits; gives the walk to the last one.
fn check_walk(random: &mut Random, table: &[u32]) -> Walk {
    let past = random.below(3);
    let memory = starting_words(random, data(&rows(table)) as usize + past);
    let got = walk(table, &memory, LIMIT);
    for limit in limits(random, got.steps) {
        let shown = || format!("limit {limit} of {:?}", rows(table));
        same(&walk(table, &memory, limit), &by_recursion(table, &memory, limit), shown);
    }
    got
}

/// What a number of walks went through.
#[derive(Default)]
struct Seen {
    /// Finish, stop, bad subscript, and those that go on.
    ends: [usize; 4],
    steps: u64,
    accesses: usize,
}

impl Seen {
    fn add(&mut self, walk: &Walk) {
        self.ends[if walk.status == 1 { walk.number as usize } else { 3 }] += 1;
        self.steps += walk.steps;
        self.accesses += walk.accesses.len();
    }

    fn print(&self, what: &str) {
        let [finish, stop, bad, going] = self.ends;
        print(&format!(
            "  {what}{} walks, {} steps, {} accesses; finish {finish}, stop {stop}, bad subscript {bad}, still running {going}",
            self.ends.iter().sum::<usize>(),
            self.steps,
            self.accesses
        ));
        assert!(self.ends.iter().all(|&count| count > 50), "every end is seen");
    }
}

#[test]
fn edges_have_the_flaws_they_are_made_with() {
    let mut random = Random::new(1);
    let (mut seen, mut refused) = (Seen::default(), 0);
    let edges = table_edges();
    for edge in &edges {
        let found = flaws(&edge.table);
        assert_eq!(found, BTreeSet::from_iter(edge.flaws.iter().copied()), "{}", edge.what);
        if found.is_empty() {
            (0..3).for_each(|_| seen.add(&check_walk(&mut random, &edge.table)));
        } else {
            refused += 1;
        }
    }
    report("tables at the edges of the row rules", edges.len());
    seen.print(&format!("{refused} refused; "));
}

#[test]
fn made_tables_have_no_flaw_and_walk_alike() {
    let (mut seen, mut loops, mut shared) = (Seen::default(), 0, 0);
    let seeds = 6_000;
    for seed in 0..seeds {
        let mut random = Random::new(seed);
        let size = table_size(&mut random);
        let table = made_table(&mut random, size);
        assert!(table.len() > 4 * size);
        assert_eq!(flaws(&table), BTreeSet::new(), "seed {seed}");
        seen.add(&check_walk(&mut random, &table));
        loops += usize::from(rows(&table).iter().any(|row| row[0] == 14));
        shared += usize::from(rows(&table).iter().any(|row| row[0] == 12 && row[1] == row[2]));
    }
    report("tables made", seeds as usize);
    seen.print(&format!("{loops} with loops, {shared} with a row twice in sequence; "));
}

#[test]
fn tables_of_any_sort() {
    let mut reasons = BTreeMap::new();
    let mut seen = Seen::default();
    let seeds = 20_000;
    for seed in 0..seeds {
        let mut random = Random::new(seed);
        let table = table(&mut random);
        let found = flaws(&table);
        if found.is_empty() {
            seen.add(&check_walk(&mut random, &table));
        }
        if let [only] = Vec::from_iter(&found)[..] {
            *reasons.entry(*only).or_insert(0) += 1;
        }
    }
    assert_eq!(reasons.len(), 10, "each reason is seen alone");
    report("tables of any sort", seeds as usize);
    seen.print("");
    print(&format!("  refused for one reason alone {reasons:?}"));
}

/// A damaged table that has no flaw all the same is legal in earnest: the
/// recursion stops at any row that it can't work out.
#[test]
fn damage_that_leaves_a_table_legal() {
    let (mut legal, mut refused) = (0, 0);
    for seed in 0..4_000 {
        let mut random = Random::new(seed);
        let mut table = source_table(&mut random);
        damage_table(&mut random, &mut table);
        if flaws(&table).is_empty() {
            check_walk(&mut random, &table);
            legal += 1;
        } else {
            refused += 1;
        }
    }
    report("damaged tables of sources that are legal", legal);
    report("damaged tables of sources that are refused", refused);
}

/// The rows that a move begins: "brackets and one-process braces make no row".
fn begun(thing: &Thing<'_>) -> u64 {
    match thing {
        Thing::Expression(Expression::Brackets(_)) => 0,
        Thing::Process(Process::Braces(inside)) => u64::from(inside.is_empty()),
        Thing::Expression(_) | Thing::Process(_) => 1,
        _ => 0,
    }
}

/// The walk of a source's table, by the source's run: as many moves as begin no
/// row past the limit.
fn by_source(accepted: &Accepted<'_>, memory: &[u32], limit: u64) -> Walk {
    let mut run = State::start(&accepted.program, memory);
    let mut rows: Vec<u64> = run.to_do.iter().map(begun).collect();
    let mut steps = 0;
    while run.end.is_none() {
        let next = run.to_do.last().copied();
        steps += rows.pop().unwrap_or(0);
        if steps > limit {
            break;
        }
        run.step();
        // Every process of a list but its last is the first of a row of kind 12,
        // which is begun just before it.
        let list = matches!(next, Some(Thing::Process(Process::Braces(_))));
        let put = run.to_do[rows.len()..].iter().enumerate();
        rows.extend(put.map(|(behind, thing)| begun(thing) + u64::from(list && behind > 0)));
    }
    let (status, number) = run.end.map_or((0, 0), |end| (1, end as u32));
    let words = [&run.words, &memory[run.words.len()..]].concat();
    Walk { status, number, steps: steps.min(limit), words, accesses: run.accesses }
}

/// The rows' walk and the source's run: the same end, words and accesses, at
/// every limit.
#[test]
fn sources_walk_as_they_run() {
    let mut seen = Seen::default();
    let seeds = 10_000;
    for seed in 0..seeds {
        let mut random = Random::new(seed);
        let source = valid_source(&mut random);
        let accepted = accept(&source, TABLE_WORDS, CODE_BYTES).expect("accepted");
        let table = accepted.rows.concat();
        let memory = starting_words(&mut random, accepted.needed_words());
        let whole = walk(&table, &memory, LIMIT);
        for limit in [LIMIT].into_iter().chain(limits(&mut random, whole.steps)) {
            let shown = || format!("limit {limit} of {}", String::from_utf8_lossy(&source));
            same(&walk(&table, &memory, limit), &by_source(&accepted, &memory, limit), shown);
        }
        seen.add(&whole);
    }
    report("sources walked and run", seeds as usize);
    seen.print("");
}
