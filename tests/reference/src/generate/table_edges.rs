//! Syntax tables at the edge of every row rule, with the flaws that they have by
//! construction, mostly none or one.

use crate::table::Row;
use crate::walker::Flaw;

/// A table, and why it is refused.
#[derive(Clone, Debug)]
pub struct TableEdge {
    pub what: String,
    pub table: Vec<u32>,
    pub flaws: Vec<Flaw>,
}

/// All edges.
pub fn table_edges() -> Vec<TableEdge> {
    let edges = [
        references(),
        kinds(),
        operators(),
        offsets(),
        lengths(),
        unused_words(),
        data(),
        row_counts(),
        part_rows(),
        last_rows(),
        declarations(),
        value_chains(),
        process_chains(),
    ];
    edges.into_iter().flatten().collect()
}

const SKIP: Row = [8, 0, 0, 0];

fn edge(what: impl Into<String>, rows: &[Row], flaws: &[Flaw]) -> TableEdge {
    TableEdge { what: what.into(), table: rows.concat(), flaws: flaws.to_vec() }
}

/// The flaw, unless something holds.
fn unless(holds: bool, flaw: Flaw) -> Vec<Flaw> {
    if holds {
        Vec::new()
    } else {
        vec![flaw]
    }
}

/// A row of each kind from 1 to 14, each legal.
fn one_of_each() -> Vec<Row> {
    vec![
        [1, 0, 1, 0],
        [2, 1, 3, 0],
        [3, 0, 0, 0],
        [4, 0, 0, 0],
        [5, 1, 2, 0],
        [6, 2, 2, 0],
        [7, 1, 2, 4],
        SKIP,
        [9, 0, 0, 0],
        [10, 0, 4, 0],
        [11, 1, 2, 5],
        [12, 7, 9, 0],
        [13, 3, 9, 7],
        [14, 2, 7, 0],
    ]
}

/// The same, then a row to try, then a process that uses it.
fn tried(row: Row) -> Vec<Row> {
    let mut rows = one_of_each();
    let number = rows.len() as u32;
    rows.push(row);
    rows.push(match row[0] {
        3..=7 => [10, 0, number, 0],
        8..=14 => [12, number, 7, 0],
        _ => SKIP,
    });
    rows
}

/// "a reference that isn't to an earlier row of the fitting kind": every
/// reference to a row of each kind, to itself, to a later one, to none.
fn references() -> Vec<TableEdge> {
    const VALUES: [u32; 2] = [3, 7];
    const PROCESSES: [u32; 2] = [8, 14];
    // A row, the place of a reference in it, and the first and last kind that fit.
    let places = [
        ([4, 0, 0, 0], 1, [1, 1]),
        ([5, 1, 2, 0], 1, [2, 2]),
        ([5, 1, 2, 0], 2, VALUES),
        ([6, 1, 2, 0], 2, VALUES),
        ([7, 3, 2, 3], 2, VALUES),
        ([7, 3, 2, 3], 3, VALUES),
        ([10, 0, 2, 0], 1, [1, 1]),
        ([10, 0, 2, 0], 2, VALUES),
        ([11, 1, 2, 3], 1, [2, 2]),
        ([11, 1, 2, 3], 2, VALUES),
        ([11, 1, 2, 3], 3, VALUES),
        ([12, 7, 9, 0], 1, PROCESSES),
        ([12, 7, 9, 0], 2, PROCESSES),
        ([13, 3, 7, 9], 1, VALUES),
        ([13, 3, 7, 9], 2, PROCESSES),
        ([13, 3, 7, 9], 3, PROCESSES),
        ([14, 2, 7, 0], 1, VALUES),
        ([14, 2, 7, 0], 2, PROCESSES),
    ];
    let mut edges = Vec::new();
    for (row, place, [first, last]) in places {
        let own = one_of_each().len() as u32;
        let outside = [own, own + 1, own + 2, 1_024, 1 << 16 | 2, 1 << 31, u32::MAX];
        for reference in (0..own).chain(outside) {
            let mut row = row;
            row[place] = reference;
            // Row 0 is of kind 1, and so on.
            let fits = reference < own && (first..=last).contains(&(reference + 1));
            edges.push(edge(format!("reference {row:?}"), &tried(row), &unless(fits, Flaw::Reference)));
        }
    }
    edges
}

/// "an unknown kind"
fn kinds() -> Vec<TableEdge> {
    let unknown = [0, 15, 16, 17, 255, 256 + 8, 1 << 16 | 8, 1 << 31 | 8, u32::MAX];
    let edges =
        unknown.map(|kind| edge(format!("kind {kind}"), &tried([kind, 0, 0, 0]), &[Flaw::UnknownKind]));
    let mut edges = edges.to_vec();
    edges.push(edge("a zero row behind", &[SKIP, [0; 4]], &[Flaw::UnknownKind, Flaw::NoProcess]));
    edges.push(edge("a zero row before", &[[0; 4], SKIP], &[Flaw::UnknownKind]));
    edges
}

/// "Monadic: 1 `-`, 2 not. Diadic from 1", 14 of them.
fn operators() -> Vec<TableEdge> {
    let operators = (0..=17).chain([255, 257, 1 << 16 | 1, 1 << 31 | 1, u32::MAX]);
    let pairs = operators.flat_map(|operator| {
        let of = |row: Row, last| {
            let flaws = unless((1..=last).contains(&operator), Flaw::Operator);
            edge(format!("operator {row:?}"), &tried(row), &flaws)
        };
        [of([6, operator, 3, 0], 2), of([7, operator, 3, 4], 14)]
    });
    pairs.collect()
}

/// "offsets in order of declaration": a second and a third declaration.
fn offsets() -> Vec<TableEdge> {
    let mut edges = Vec::new();
    for (before, right) in [(vec![], 0), (vec![[1, 0, 1, 0]], 1), (vec![[2, 0, 7, 0], [1, 7, 1, 0]], 8)] {
        for offset in [0, 1, 2, 7, 8, 9, 8_191, 8_192, 1 << 31, u32::MAX] {
            for declaration in [[1, offset, 1, 0], [2, offset, 5, 0]] {
                let rows = [&before[..], &[SKIP, declaration, SKIP]].concat();
                let flaws = unless(offset == right, Flaw::Offset);
                edges.push(edge(format!("offset {declaration:?} for {right}"), &rows, &flaws));
            }
        }
    }
    edges
}

/// "1 var (word offset, 1)", and an array's length of 1 to 8,192.
fn lengths() -> Vec<TableEdge> {
    let mut edges = Vec::new();
    for length in [0, 1, 2, 8_191, 8_192, 8_193, 1 << 16 | 1, 1 << 31 | 1, u32::MAX] {
        for (kind, most) in [(1, 1), (2, 8_192)] {
            let mut flaws = unless((1..=most).contains(&length), Flaw::Length);
            if length > 8_192 {
                flaws.push(Flaw::TooMuchData);
            }
            edges.push(edge(format!("length {length}"), &[[kind, 0, length, 0], SKIP], &flaws));
        }
    }
    edges
}

/// "unused 0": each unused word of each kind.
fn unused_words() -> Vec<TableEdge> {
    let mut edges = Vec::new();
    let places: [(Row, &[usize]); 13] = [
        ([1, 4, 1, 0], &[3]),
        ([2, 4, 2, 0], &[3]),
        ([3, 5, 0, 0], &[2, 3]),
        ([4, 0, 0, 0], &[2, 3]),
        ([5, 1, 2, 0], &[3]),
        ([6, 1, 2, 0], &[3]),
        ([7, 1, 2, 2], &[]),
        (SKIP, &[1, 2, 3]),
        ([9, 0, 0, 0], &[1, 2, 3]),
        ([10, 0, 2, 0], &[3]),
        ([11, 1, 2, 2], &[]),
        ([12, 7, 7, 0], &[3]),
        ([14, 2, 7, 0], &[3]),
    ];
    for (row, unused) in places {
        edges.push(edge(format!("unused words 0 {row:?}"), &tried(row), &[]));
        for &place in unused {
            for word in [1, 2, 1 << 16, 1 << 31, u32::MAX] {
                let mut row = row;
                row[place] = word;
                edges.push(edge(format!("unused word {row:?}"), &tried(row), &[Flaw::UnusedWord]));
            }
        }
    }
    edges
}

/// "data above 8,192 words", whether used or not.
fn data() -> Vec<TableEdge> {
    let of = |lengths: &[u32], flaws: &[Flaw]| {
        let mut offset = 0;
        let declared = lengths.iter().map(|&length| {
            offset += length;
            [if length == 1 { 1 } else { 2 }, offset - length, length, 0]
        });
        let rows: Vec<Row> = declared.chain([SKIP]).collect();
        edge(format!("data {} words", offset), &rows, flaws)
    };
    let mut stored = edge("the last of 8,192 words", &[[2, 0, 8_192, 0], [3, 8_191, 0, 0]], &[]);
    stored.table.extend([11, 0, 1, 1]);
    vec![
        stored,
        of(&[8_192], &[]),
        of(&[8_191, 1], &[]),
        of(&[1, 8_191], &[]),
        of(&[4_096, 4_096], &[]),
        of(&[4_096, 4_096, 1], &[Flaw::TooMuchData]),
        of(&[8_192, 1], &[Flaw::TooMuchData]),
        of(&[1, 8_192], &[Flaw::TooMuchData]),
        of(&[8_192; 1_023], &[Flaw::TooMuchData]),
        of(&[8; 1_023], &[]),
        of(&[9; 1_023], &[Flaw::TooMuchData]),
    ]
}

/// "more than 1,024 rows": used or not.
fn row_counts() -> Vec<TableEdge> {
    let mut edges = Vec::new();
    for count in [1, 2, 1_023, 1_024, 1_025, 1_026, 2_000, 65_536, 65_537] {
        let flaws = unless(count <= 1_024, Flaw::TooManyRows);
        edges.push(edge(format!("{count} rows, one used"), &vec![SKIP; count], &flaws));
        let rows = chained(&[SKIP], count - 1, |last| [12, 0, last, 0]);
        edges.push(edge(format!("{count} rows, all used"), &rows, &flaws));
    }
    edges
}

/// "a part row": of no row, behind one, behind many.
fn part_rows() -> Vec<TableEdge> {
    let mut edges = Vec::new();
    for rows in [0, 1, 2, 1_024] {
        for words in 0..4 {
            let mut table = SKIP.repeat(rows);
            table.extend(&SKIP[..words]);
            let mut flaws = unless(words == 0, Flaw::PartRow);
            flaws.extend(unless(rows > 0, Flaw::NoProcess));
            edges.push(TableEdge { what: format!("{rows} rows and {words} words"), table, flaws });
        }
    }
    edges
}

/// "a last row that is ... no process": one of each kind.
fn last_rows() -> Vec<TableEdge> {
    let rows = one_of_each();
    let all = 1..=rows.len();
    let last =
        |count| edge(format!("last row {count}"), &rows[..count], &unless(count >= 8, Flaw::NoProcess));
    all.map(last).collect()
}

/// Declarations: more than 256, behind other rows, between them.
fn declarations() -> Vec<TableEdge> {
    let vars = |count: u32| (0..count).map(|offset| [1, offset, 1, 0]).collect::<Vec<Row>>();
    let mut edges = Vec::new();
    for count in [255, 256, 257, 300, 1_023] {
        edges.push(edge(format!("{count} vars"), &[vars(count), vec![SKIP]].concat(), &[]));
    }
    edges.push(edge("1,024 vars and a skip", &[vars(1_024), vec![SKIP]].concat(), &[Flaw::TooManyRows]));
    edges.push(edge("declared late", &[SKIP, [1, 0, 1, 0], SKIP], &[]));
    let between =
        [[3, 6, 0, 0], [1, 0, 1, 0], SKIP, [10, 1, 0, 0], [2, 1, 7, 0], [11, 4, 0, 0], [12, 3, 5, 0]];
    edges.push(edge("declared between", &between, &[]));
    let last_var = [vars(1_021), vec![[3, 9, 0, 0], [10, 1_020, 1_021, 0]]].concat();
    edges.push(edge("the last of 1,021 vars assigned", &last_var, &[]));
    edges
}

/// Rows, and so many more, each made from the number of the one before.
fn chained(before: &[Row], count: usize, next: impl Fn(u32) -> Row) -> Vec<Row> {
    let mut rows = before.to_vec();
    let last = rows.len() as u32 - 1;
    rows.extend((last..last + count as u32).map(next));
    rows
}

/// Chains of so many rows; with the rows beside them they have at most 1,024.
const CHAINS: [usize; 5] = [1, 2, 33, 1_000, 1_019];

/// A form of a chain's row, from the number of the row before.
type Form = (&'static str, fn(u32) -> Row);

/// Values nested in every way, assigned, stored, used as subscript and tested.
fn value_chains() -> Vec<TableEdge> {
    let forms: [Form; 6] = [
        ("monadic", |last| [6, 1 + last % 2, last, 0]),
        ("left operand", |last| [7, 1, last, 2]),
        ("right operand", |last| [7, 2, 2, last]),
        ("both operands", |last| [7, 1, last, last]),
        ("subscript", |last| [5, 0, last, 0]),
        ("operand of or", |last| [7, 5, 2, last]),
    ];
    let mut edges = Vec::new();
    for count in CHAINS {
        for (what, form) in forms {
            let before = [[2, 0, 4, 0], [1, 4, 1, 0], [3, 1, 0, 0]];
            let rows = chained(&before, count, form);
            let value = rows.len() as u32 - 1;
            for (use_of, ends) in [
                ("assigned", vec![[10, 1, value, 0]]),
                ("stored", vec![[11, 0, 2, value]]),
                ("subscript", vec![[11, 0, value, 2]]),
                ("tested", vec![SKIP, [13, value, value + 1, value + 1]]),
                ("looped", vec![SKIP, [14, value, value + 1, 0]]),
            ] {
                let rows = [&rows[..], &ends].concat();
                edges.push(edge(format!("{count} rows {what}, {use_of}"), &rows, &[]));
            }
        }
    }
    edges
}

/// Processes nested in every way, around skip, stop and an assignment. A `while`
/// around skip or stop loops for ever or stops if the variable isn't 0.
fn process_chains() -> Vec<TableEdge> {
    // 0 a var, 1 it, 2 the number 0, 3 what stands innermost
    let forms: [Form; 8] = [
        ("sequence to the left", |last| [12, last, 3, 0]),
        ("sequence to the right", |last| [12, 3, last, 0]),
        ("sequence of one row twice", |last| [12, last, last, 0]),
        ("then", |last| [13, 1, last, 3]),
        ("else", |last| [13, 2, 3, last]),
        ("then and else", |last| [13, 1, last, last]),
        ("while", |last| [14, 1, last, 0]),
        ("while never", |last| [14, 2, last, 0]),
    ];
    let mut edges = Vec::new();
    for count in CHAINS {
        for (what, form) in forms {
            for innermost in [SKIP, [9, 0, 0, 0], [10, 0, 2, 0]] {
                let before = [[1, 0, 1, 0], [4, 0, 0, 0], [3, 0, 0, 0], innermost];
                let rows = chained(&before, count, form);
                edges.push(edge(format!("{count} rows {what} around {innermost:?}"), &rows, &[]));
            }
        }
    }
    edges
}
