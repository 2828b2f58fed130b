//! Tables walked: every example of request 2026-01's readings, and the reasons
//! for 36 one by one.

use reference::front::accept;
use reference::meaning::{Access, AccessKind};
use reference::walker::{flaws, walk, Flaw, Walk};

/// The words of a table, its rows separated by commas.
fn table(rows: &str) -> Vec<u32> {
    let word = |word: &str| word.parse().unwrap_or_else(|_| panic!("{word} in {rows}"));
    rows.split([' ', ',']).filter(|word| !word.is_empty()).map(word).collect()
}

/// The table of a source that is accepted.
fn table_of(source: &str) -> Vec<u32> {
    accept(source.as_bytes(), 4 * 1_024, 48 * 1_024 + 256).expect(source).rows.concat()
}

/// A limit that no run here comes to.
const ENOUGH: u64 = 1_000_000;

/// Status, number, steps and words of a walk.
fn walked(table: &[u32], memory: &[u32], limit: u64) -> (u32, u32, u64, Vec<u32>) {
    let Walk { status, number, steps, words, .. } = walk(table, memory, limit);
    (status, number, steps, words)
}

fn load(offset: u32, word: u32) -> Access {
    Access { kind: AccessKind::Load, offset, old: word, new: word }
}

fn store(offset: u32, old: u32, new: u32) -> Access {
    Access { kind: AccessKind::Store, offset, old, new }
}

#[test]
fn what_sources_never_have_is_legal() {
    let late = table("8 0 0 0, 1 0 1 0, 8 0 0 0");
    assert_eq!(walked(&late, &[7], ENOUGH), (1, 0, 1, vec![7]));
    let doubled = table("1 0 1 0, 4 0 0 0, 7 1 1 1, 10 0 2 0");
    assert_eq!(walked(&doubled, &[21], ENOUGH), (1, 0, 4, vec![42]));
    let unused = table("3 5 0 0, 9 0 0 0, 8 0 0 0");
    assert_eq!(walked(&unused, &[], ENOUGH), (1, 0, 1, vec![]));
    let left = table("1 0 1 0, 3 1 0 0, 10 0 1 0, 8 0 0 0, 12 2 3 0, 9 0 0 0, 12 4 5 0");
    assert_eq!(walked(&left, &[9], ENOUGH), (1, 1, 6, vec![1]));
}

#[test]
fn more_names_than_a_source_may_have() {
    let mut rows: Vec<u32> = (0..1_023).flat_map(|offset| [1, offset, 1, 0]).collect();
    rows.extend([8, 0, 0, 0]);
    assert_eq!(walked(&rows, &[3; 1_023], ENOUGH), (1, 0, 1, vec![3; 1_023]));
    assert_eq!(walked(&rows, &[3; 1_022], ENOUGH), (33, 0, 0, vec![3; 1_022]));
}

#[test]
fn each_row_begun_is_a_step() {
    let sum = table_of("var x; x := 2 + 3");
    assert_eq!(sum, table("1 0 1 0, 3 2 0 0, 3 3 0 0, 7 1 1 2, 10 0 3 0"));
    assert_eq!(walked(&sum, &[9], 4), (1, 0, 4, vec![5]));
    assert_eq!(walked(&sum, &[9], 3), (0, 0, 3, vec![9]));
    let down = table_of("var x; while x do x := x - 1");
    for x in [0, 1, 2, 100] {
        let steps = 2 + 6 * u64::from(x);
        assert_eq!(walked(&down, &[x], ENOUGH), (1, 0, steps, vec![0]));
        assert_eq!(walked(&down, &[x], steps), (1, 0, steps, vec![0]));
        assert_eq!(walked(&down, &[x], steps - 1), (0, 0, steps - 1, vec![0]));
    }
    // a choice begins one of its two, an empty one too
    let choice = table_of("var x; if x then {} else {x := 1; stop}");
    assert_eq!(walked(&choice, &[4], ENOUGH), (1, 0, 3, vec![4]));
    assert_eq!(walked(&choice, &[0], ENOUGH), (1, 1, 6, vec![1]));
}

#[test]
fn rows_used_twice_count_twice() {
    for times in [0, 1, 2, 10, 1_000] {
        let mut rows = vec![8, 0, 0, 0];
        for used in 0..times {
            rows.extend([12, used, used, 0]);
        }
        let limit = 100_000;
        let whole = 2u64.checked_pow(times + 1).map_or(u64::MAX, |steps| steps - 1);
        let want = if whole <= limit { (1, 0, whole, vec![]) } else { (0, 0, limit, vec![]) };
        assert_eq!(walked(&rows, &[], limit), want, "{times} times");
    }
}

/// The limit is looked at where a row would be begun, and nowhere else.
#[test]
fn work_that_needs_no_row_goes_on() {
    let bad = table_of("array a[2]; a[2] := a[0]");
    assert_eq!(walked(&bad, &[5, 6], 2), (1, 2, 2, vec![5, 6]));
    assert_eq!(walked(&bad, &[5, 6], 1), (0, 0, 1, vec![5, 6]));
    let two = table_of("var a; var b; {a := 1; b := 2}");
    assert_eq!(walked(&two, &[8, 9], 3), (0, 0, 3, vec![1, 9]));
    assert_eq!(walked(&two, &[8, 9], 2), (0, 0, 2, vec![8, 9]));
    assert_eq!(walked(&two, &[8, 9], 5), (1, 0, 5, vec![1, 2]));
    for source in ["skip", "stop", "array a[1]; a[1] := 0", "while 0 do skip"] {
        assert_eq!(walked(&table_of(source), &[7; 3], 0), (0, 0, 0, vec![7; 3]), "{source}");
    }
}

#[test]
fn accesses_are_listed_in_their_order() {
    let source = "var x; array v[2]; array w[2]; {w[v[1]] := v[0] + w[1]; x := (w[1] > 0) or (v[x] = 0)}";
    let table = table_of(source);
    let got = walk(&table, &[0, 30, 1, 0, 12, 99], ENOUGH);
    assert_eq!((got.status, got.number, got.words), (1, 0, vec![u32::MAX, 30, 1, 0, 42, 99]));
    // both operands of `or` are worked out; the last word is past the data
    let want = [load(2, 1), load(1, 30), load(4, 12), store(4, 12, 42), load(4, 42), load(1, 30)];
    assert_eq!(got.accesses, want);
    // the subscript is checked before anything of the value is read
    let bad = walk(&table_of("array v[2]; v[2] := v[0]"), &[1, 2], ENOUGH);
    assert_eq!((bad.status, bad.number, bad.accesses), (1, 2, vec![]));
    // what was done before a limit stays, and stays listed
    let half = walk(&table, &[0, 30, 1, 0, 12, 99], 5);
    assert_eq!((half.status, half.steps, half.accesses), (0, 5, vec![load(2, 1)]));
}

#[test]
fn data_counts_every_declaration() {
    let full = table("2 0 4096 0, 2 4096 4096 0, 8 0 0 0");
    assert_eq!(walked(&full, &[1; 8_192], ENOUGH).0, 1);
    assert_eq!(walked(&full, &[1; 8_191], ENOUGH).0, 33);
    let over = table("2 0 4096 0, 2 4096 4096 0, 1 8192 1 0, 8 0 0 0");
    assert_eq!(walked(&over, &[1; 9_000], ENOUGH), (36, 0, 0, vec![1; 9_000]));
    // 36 comes before 33
    assert_eq!(walked(&over, &[], ENOUGH).0, 36);
    // memory has no upper bound
    assert_eq!(walked(&table("8 0 0 0"), &[1; 100_000], ENOUGH), (1, 0, 1, vec![1; 100_000]));
}

/// Each reason alone, or with what comes with it.
#[test]
fn the_reasons_for_36() {
    use Flaw::*;
    for (rows, reasons) in [
        ("8 0 0 0, 0 0 0 0", &[UnknownKind, NoProcess][..]),
        ("15 0 0 0, 8 0 0 0", &[UnknownKind]),
        ("4294967295 0 0 0, 8 0 0 0", &[UnknownKind]),
        ("3 0 0 0, 14 0 0 0", &[Reference]),
        ("3 1 0 0, 14 0 1 0", &[Reference]),
        ("3 1 0 0, 14 0 2 0, 8 0 0 0", &[Reference]),
        ("3 1 0 0, 14 0 4294967295 0", &[Reference]),
        ("2 0 1 0, 4 0 0 0, 8 0 0 0", &[Reference]),
        ("1 0 1 0, 3 0 0 0, 5 0 1 0, 8 0 0 0", &[Reference]),
        ("3 0 0 0, 6 0 0 0, 8 0 0 0", &[Operator]),
        ("3 0 0 0, 6 3 0 0, 8 0 0 0", &[Operator]),
        ("3 0 0 0, 7 0 0 0, 8 0 0 0", &[Operator]),
        ("3 0 0 0, 7 15 0 0, 8 0 0 0", &[Operator]),
        ("1 0 1 0, 1 2 1 0, 8 0 0 0", &[Offset]),
        ("1 0 1 0, 1 0 1 0, 8 0 0 0", &[Offset]),
        ("1 1 1 0, 8 0 0 0", &[Offset]),
        ("1 0 2 0, 8 0 0 0", &[Length]),
        ("1 0 0 0, 8 0 0 0", &[Length]),
        ("2 0 0 0, 8 0 0 0", &[Length]),
        ("2 0 8193 0, 8 0 0 0", &[Length, TooMuchData]),
        ("2 0 4294967295 0, 8 0 0 0", &[Length, TooMuchData]),
        ("8 0 0 1", &[UnusedWord]),
        ("1 0 1 1, 8 0 0 0", &[UnusedWord]),
        ("3 0 1 0, 8 0 0 0", &[UnusedWord]),
        ("2 0 8192 0, 1 8192 1 0, 8 0 0 0", &[TooMuchData]),
        ("8 0 0 0, 8", &[PartRow]),
        ("8 0 0 0, 8 0 0", &[PartRow]),
        ("8 0 0", &[PartRow, NoProcess]),
        ("", &[NoProcess]),
        ("8 0 0 0, 3 0 0 0", &[NoProcess]),
        ("8 0 0 0, 1 0 1 0", &[NoProcess]),
        ("8 0 0 0", &[]),
        ("2 0 8192 0, 8 0 0 0", &[]),
    ] {
        let table = table(rows);
        assert!(flaws(&table).iter().eq(reasons), "{rows}: {:?}", flaws(&table));
        let status = if reasons.is_empty() { 1 } else { 36 };
        assert_eq!(walk(&table, &[5; 8_192], ENOUGH).status, status, "{rows}");
        assert_eq!(walked(&table, &[5; 8_192], ENOUGH).3, [5; 8_192], "{rows}");
    }
    for (count, refused) in [(1_024, false), (1_025, true), (5_000, true)] {
        let rows = [8, 0, 0, 0].repeat(count);
        assert_eq!(flaws(&rows).contains(&TooManyRows), refused, "{count} rows");
        assert_eq!(flaws(&rows).len(), usize::from(refused), "{count} rows");
    }
}
