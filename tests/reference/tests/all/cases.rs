//! Every case that document 01 writes down, and every example of its readings.

use reference::front::{accept, translate_front, Outcome};
use reference::grammar::parse;
use reference::meaning::{Access, AccessKind, End, State};
use reference::names::complaints;
use reference::tokens::{tokens, Kind};
use reference::Refusal;

/// Buffers that are long enough for every source.
const TABLE_WORDS: usize = 4 * 1_024;
const CODE_BYTES: usize = 48 * 1_024 + 256;

fn translate(source: impl AsRef<[u8]>) -> Outcome {
    translate_front(source.as_ref(), TABLE_WORDS, CODE_BYTES)
}

/// Status and place.
fn verdict(source: impl AsRef<[u8]>) -> (u32, usize) {
    let outcome = translate(source);
    (outcome.status, outcome.place)
}

fn check_verdicts(cases: &[(&str, u32, usize)]) {
    for &(source, status, place) in cases {
        assert_eq!(verdict(source), (status, place), "{source}");
    }
}

/// The kinds and values of a source's tokens.
fn kinds(source: &str) -> Vec<(Kind, u32)> {
    tokens(source.as_bytes()).expect("tokens").iter().map(|token| (token.kind, token.value)).collect()
}

/// The rows of the syntax table, for a source that is accepted.
fn rows(source: &str) -> Vec<[u32; 4]> {
    accept(source.as_bytes(), TABLE_WORDS, CODE_BYTES).expect(source).rows
}

/// What a run comes to.
struct Ran {
    words: Vec<u32>,
    accesses: Vec<Access>,
    end: Option<End>,
    moves: u64,
}

/// Runs a source for at most 10,000 moves.
fn run(source: &str, starting_words: &[u32]) -> Ran {
    let accepted = accept(source.as_bytes(), TABLE_WORDS, CODE_BYTES).expect(source);
    let mut state = State::start(&accepted.program, starting_words);
    let moves = state.run(10_000);
    let before = state.clone();
    if state.end.is_some() {
        state.step();
        assert_eq!(state, before, "after an end nothing changes");
    }
    Ran { words: state.words, accesses: state.accesses, end: state.end, moves }
}

/// The word of an expression over `x` (7), `y` (-2) and `v` (10, 11, 12).
fn value(expression: &str) -> u32 {
    let source = format!("var r; var x; var y; array v[3]; r := {expression}");
    let ran = run(&source, &[0, 7, -2i32 as u32, 10, 11, 12]);
    assert_eq!(ran.end, Some(End::Finish), "{expression}");
    ran.words[0]
}

fn load(offset: u32, word: u32) -> Access {
    Access { kind: AccessKind::Load, offset, old: word, new: word }
}

fn store(offset: u32, old: u32, new: u32) -> Access {
    Access { kind: AccessKind::Store, offset, old, new }
}

#[test]
fn marked_assignment() {
    let source = b"var x; x := 2 + 3";
    let accepted = accept(source, TABLE_WORDS, CODE_BYTES).expect("accepted");
    let expected = [[1, 0, 1, 0], [3, 2, 0, 0], [3, 3, 0, 0], [7, 1, 1, 2], [10, 0, 3, 0]];
    assert_eq!(accepted.rows, expected);
    assert_eq!(accepted.needed_words(), 13);
    let outcome =
        Outcome { status: 0, place: 0, tokens: 8, rows: 5, data: 1, depth: 2, table: expected.concat() };
    assert_eq!(translate(source), outcome);
    let lent = outcome.lent_table(&[9; 32]);
    assert_eq!(lent[..20], expected.concat());
    assert_eq!(lent[20..], [0; 12]);
}

#[test]
fn marked_refusals_and_values() {
    check_verdicts(&[("", 6, 0), ("x := 1", 8, 0), ("{skip;}", 6, 6), ("skip;", 6, 4)]);
    assert_eq!(value("#80000000 < 1"), u32::MAX);
    assert_eq!(value("1 << 256"), 0);
    for (length, status) in [(0, 11), (1, 0), (8_192, 0), (8_193, 11)] {
        let place = if status == 0 { 0 } else { 6 };
        assert_eq!(verdict(format!("array a[{length}]; skip")), (status, place));
    }
    assert_eq!(verdict(format!("var {}; skip", "n".repeat(32))), (0, 0));
    assert_eq!(verdict(format!("var {}; skip", "n".repeat(33))), (4, 4));
}

#[test]
fn a_refusal_has_no_counts_and_keeps_the_table() {
    assert_eq!(translate("skip;"), Outcome { status: 6, place: 4, ..Outcome::default() });
    assert_eq!(translate("skip;").lent_table(&[7, 8, 9]), [7, 8, 9]);
}

#[test]
fn refused_expressions() {
    let start = "var a; var b; var c; a := ";
    let at = |offset| start.len() + offset;
    for (expression, place) in [
        ("a - b - c", at(6)),
        ("a + b * c", at(6)),
        ("a + -b", at(4)),
        ("a < b < c", at(6)),
        ("a >> b >> c", at(7)),
        ("-a + a", at(3)),
        ("- -a", at(2)),
        ("not -a", at(4)),
        ("not a and b", at(6)),
        ("a + b + c - a", at(10)),
        ("a and b or c", at(8)),
        ("(a", at(2)),
        ("a b", at(2)),
        ("a[1", at(3)),
        ("(a)[1]", at(3)),
        ("1[a]", at(1)),
        ("a[1][2]", at(4)),
        ("()", at(1)),
        ("|c| a", at(0)),
        ("a |c|", at(2)),
        ("a(b)", at(1)),
        ("valof skip", at(0)),
    ] {
        assert_eq!(verdict(format!("{start}{expression}")), (6, place), "{expression}");
    }
    for operator in ["+", "*", "and", "or", "xor"] {
        assert_eq!(verdict(format!("{start}a {operator} b {operator} c")), (0, 0), "{operator}");
    }
}

// The numbers of the following tests' comments are those of the readings.

#[test]
fn readings_of_tokens() {
    // 1
    check_verdicts(&[("if 1then skip else skip", 0, 0)]);
    assert_eq!(kinds("#1else"), [(Kind::Number, 0x1E), (Kind::Name, 0)]);
    assert_eq!(kinds("<<="), [(Kind::ShiftLeft, 0), (Kind::Equal, 0)]);
    assert_eq!(
        kinds("a:=<>>=1x"),
        [
            (Kind::Name, 0),
            (Kind::Assign, 0),
            (Kind::NotEqual, 0),
            (Kind::GreaterOrEqual, 0),
            (Kind::Number, 1),
            (Kind::Name, 0),
        ]
    );
    // 2
    check_verdicts(&[
        ("val a = #; skip", 2, 8),
        ("val a = #g; skip", 2, 8),
        ("#", 2, 0),
        ("val a = 0000000000000000000000002147483647; skip", 0, 0),
        ("val a = 0000000000000000000000002147483648; skip", 3, 8),
        ("val a = #00000000000000000000FFFFffff; skip", 0, 0),
        ("val a = #0000000000000000000100000000; skip", 3, 8),
        ("val a = 18446744073709551616; skip", 3, 8),
        ("val a = #10000000000000000; skip", 3, 8),
    ]);
    // 3
    for broken in
        ["' '", "'|'", "''", "'*'", "'\"'", "'$'", "'*C'", "'*l'", "'*#4'", "'*#4g'", "'ab'", "'a", "'''"]
    {
        assert_eq!(verdict(format!(" {broken}")), (2, 1), "{broken}");
    }
    for (literal, word) in [
        ("'a'", 97),
        ("'*c'", 13),
        ("'*n'", 10),
        ("'*t'", 9),
        ("'*s'", 32),
        ("'*''", 39),
        ("'*\"'", 34),
        ("'**'", 42),
        ("'*#fF'", 255),
        ("'*#00'", 0),
        ("'#'", 35),
        ("'_'", 95),
    ] {
        assert_eq!(kinds(literal), [(Kind::Byte, word)], "{literal}");
    }
    // 4
    check_verdicts(&[("|a\0\n\x0C'$| skip", 0, 0), ("skip |c", 2, 5), ("|c| |d", 2, 4), ("|", 2, 0)]);
    assert_eq!(verdict([b'|', 0xFF, 0x80, b'|', b'{', b'}']), (0, 0));
    // 5
    for byte in ["\x0B", "\x0C", "\0", "\u{FEFF}", "\"", "_", ".", ":", "!", "&", "/", "?", "$", "%", "@"] {
        assert_eq!(verdict(format!(" {byte} skip")), (2, 1), "{byte:?}");
    }
    check_verdicts(&[("a : = 1", 2, 2), ("var If; var SKIP; If := SKIP", 0, 0)]);
    // 6
    check_verdicts(&[("var x; x := -2147483647", 0, 0), ("var x; x := -2147483648", 3, 13)]);
    // 7
    let full = "||".repeat(1_024);
    for (token, number) in [("skip", 5), ("|c|", 5), ("'", 2), ("2147483648", 3), ("#", 2)] {
        assert_eq!(verdict(format!("{full}{token} $")), (number, 2_048), "{token}");
    }
    assert_eq!(verdict(format!("{full}{}", "n".repeat(33))), (4, 2_048));
}

#[test]
fn readings_of_the_grammar() {
    // 8
    let deep = format!("x := {}1{}", "(".repeat(40), ")".repeat(40));
    assert_eq!(verdict(&deep), (7, 0));
    assert_eq!(verdict(format!("{deep};")), (6, deep.len()));
    // 9
    check_verdicts(&[("  \n", 6, 3), ("var x; \t", 6, 8), ("if", 6, 2)]);
    // 10
    check_verdicts(&[("{ }", 0, 0), ("{;}", 6, 1), ("{skip; }", 6, 7)]);
    // 11
    check_verdicts(&[
        ("val a = -1; skip", 6, 8),
        ("val a = (1); skip", 6, 8),
        ("val a = 1 + 1; skip", 6, 10),
    ]);
    // 12
    check_verdicts(&[("var a; a := -a + a", 6, 15), ("var a; a := - -a", 6, 14), ("var a; a := -5", 0, 0)]);
    assert_eq!(rows("var a; a := -5")[1..3], [[3, 5, 0, 0], [6, 1, 1, 0]]);
    assert_eq!(translate("var a; a := -5").depth, 2);
    // 13
    check_verdicts(&[
        ("skip |c|", 6, 5),
        ("{ |c| }", 6, 6),
        ("|c|", 6, 3),
        ("|c| ", 6, 4),
        ("|c||d| var x;|e|skip", 0, 0),
        ("if 1 then |c| skip else |d||e| {|f| skip; |g| skip}", 0, 0),
        ("while 0 do |c| skip", 0, 0),
        ("var |c| x; skip", 6, 4),
        ("var x |c|; skip", 6, 6),
        ("if 1 then skip |c| else skip", 6, 15),
        ("if |c| 1 then skip else skip", 6, 3),
        ("{skip |c|; skip}", 6, 6),
        ("{skip |c|}", 6, 6),
        ("x |c| := 1", 6, 2),
    ]);
    // 14
    for (source, place) in [
        (",", 0),
        ("skip, skip", 4),
        ("proc", 0),
        ("func", 0),
        ("is", 0),
        ("return 1", 0),
        ("valof", 0),
        ("{var x; skip}", 1),
        ("f(1)", 1),
    ] {
        assert_eq!(verdict(source), (6, place), "{source}");
    }
}

#[test]
fn readings_of_refusals() {
    // 15
    let short = |source: &str, table_words, code_bytes| {
        let outcome = translate_front(source.as_bytes(), table_words, code_bytes);
        (outcome.status, outcome.place)
    };
    assert_eq!(short("", 0, 255), (14, 0));
    assert_eq!(short("", 0, 256), (6, 0));
    assert_eq!(short("skip", 3, 304), (13, 0));
    assert_eq!(short("skip", 4, 303), (14, 0));
    assert_eq!(short("skip", 4, 304), (0, 0));
    assert_eq!(short("skip", 3, 303), (13, 0));
    assert_eq!(short("skip;", 7, 0), (13, 0));
    assert_eq!(short("skip $", 0, 0), (2, 5));
    assert_eq!(short(&" ".repeat(16_385), 0, 0), (1, 0));
    // 16
    check_verdicts(&[
        ("val k = k; skip", 8, 8),
        ("array a[a]; skip", 8, 8),
        ("val a = b; val b = 1; skip", 8, 8),
        ("var X; x := 1", 8, 7),
    ]);
    // 17
    check_verdicts(&[
        ("var x; array x[y]; skip", 9, 13),
        ("array a[y]; skip", 8, 8),
        ("array a[9000]; skip", 11, 6),
        ("var x; array x[0]; skip", 9, 13),
        ("val k = 0; array a[k]; y := 1", 11, 17),
        ("val k = true; array a[k]; skip", 11, 20),
        ("val k = zz; array a[k]; skip", 8, 8),
        ("array a[1]; array b[a]; skip", 10, 20),
        ("var v; array b[v]; skip", 10, 15),
        ("array a[8192]; var x; skip", 12, 19),
        ("array a[8191]; var x; var y; skip", 12, 26),
        ("var x; array a[8192]; skip", 12, 13),
        ("array a[8191]; var x; skip", 0, 0),
    ]);
    let names = |count: usize| (0..count).map(|number| format!("var n{number};")).collect::<String>();
    let full = names(256);
    assert_eq!(verdict(format!("{full}skip")), (0, 0));
    assert_eq!(verdict(format!("{full}array q[zz]; skip")), (12, full.len() + 6));
    assert_eq!(verdict(format!("{full}var n0; skip")), (9, full.len() + 4));
    // 18
    let full = names(255) + "val k = 1;";
    assert_eq!(verdict(format!("{full}skip")), (0, 0));
    assert_eq!(verdict(format!("{full}val l = k; skip")), (12, full.len() + 4));
    assert_eq!(verdict(names(257) + "skip"), (12, names(256).len() + 4));
    // 10, the wrong kinds
    check_verdicts(&[
        ("array a[1]; a := 1", 10, 12),
        ("array a[1]; var x; x := a", 10, 24),
        ("val k = 1; k := 1", 10, 11),
        ("val k = 1; k[0] := 1", 10, 11),
        ("var x; x[0] := 1", 10, 7),
        ("var x; x := x[0]", 10, 12),
        ("val k = 1; var x; x := k[0]", 10, 23),
        ("var x; val k = x; skip", 10, 15),
        ("array a[1]; val k = a; skip", 10, 20),
        ("var x; while x do y[z] := x[w]", 8, 18),
    ]);
    // 7 before 8 to 12, 6 before 7
    assert_eq!(verdict(format!("{}x := 1{}", "{".repeat(32), "}".repeat(32))), (7, 0));
}

#[test]
fn all_complaints_are_found() {
    let found = |source: &'static str| {
        let tokens = tokens(source.as_bytes()).expect("tokens");
        let program = parse(&tokens, source.len()).expect("a program");
        let mut complaints = complaints(&program);
        complaints.sort();
        complaints.iter().map(|complaint: &Refusal| (complaint.number(), complaint.place)).collect::<Vec<_>>()
    };
    assert_eq!(
        found("var x; array x[y]; {z := x[w]; if q then skip else x := x; while x do u := 1}"),
        [(9, 13), (8, 15), (8, 20), (10, 25), (8, 27), (8, 34), (8, 70)]
    );
    assert_eq!(found("array a[9000]; var b; skip"), [(11, 6), (12, 6)]);
    assert_eq!(found("val k = zz; array a[k]; {a[0] := k; k := 1}"), [(8, 8)]);
}

#[test]
fn readings_of_depth() {
    // 20
    let chain = |count: usize| format!("var x; x := {}", vec!["x"; count].join(" + "));
    assert_eq!(verdict(chain(32)), (0, 0));
    assert_eq!(verdict(chain(33)), (7, 0));
    for (source, depth) in [
        ("skip", 0),
        ("{}", 0),
        ("val k = 1; array a[k]; skip", 0),
        ("var x; x := 1", 1),
        ("array a[1]; a[0] := 1", 2),
        ("array a[1]; a[a[0]] := 1", 3),
        ("array a[1]; a[(0)] := (((1)))", 4),
        ("while 1 do skip", 1),
        ("if 1 + (2) then skip else skip", 3),
        ("var x; x := 1 + 2 + 3 + 4", 4),
        ("var x; x := (1 + 2) + 3 + 4", 4),
        ("var x; x := 1 + 2 + (3 + 4)", 5),
        ("var x; x := -(not 1)", 4),
    ] {
        assert_eq!(translate(source).depth, depth, "{source}");
        assert_eq!(translate(source).status, 0, "{source}");
    }
    let nested = |open: &str, inside: &str, close: &str, count: usize| {
        verdict(format!("{}{inside}{}", open.repeat(count), close.repeat(count)))
    };
    // `{skip}` is 2 and `{ }` is 1.
    assert_eq!(nested("{", "skip", "}", 31), (0, 0));
    assert_eq!(nested("{", "skip", "}", 32), (7, 0));
    assert_eq!(nested("{", "", "}", 32), (0, 0));
    assert_eq!(nested("{", "", "}", 33), (7, 0));
    assert_eq!(nested("while 1 do ", "stop", "", 31), (0, 0));
    assert_eq!(nested("while 1 do ", "stop", "", 32), (7, 0));
}

#[test]
fn readings_of_the_table() {
    // 21
    assert_eq!(rows("val k = 7; var x; x := k"), [[1, 0, 1, 0], [3, 7, 0, 0], [10, 0, 1, 0]]);
    assert_eq!(
        rows("var x; x := x + 2 + 3")[1..],
        [[4, 0, 0, 0], [3, 2, 0, 0], [3, 3, 0, 0], [7, 1, 2, 3], [7, 1, 1, 4], [10, 0, 5, 0]]
    );
    assert_eq!(
        rows("var x; array v[3]; array w[2]; w[1] := v[x]"),
        [[1, 0, 1, 0], [2, 1, 3, 0], [2, 4, 2, 0], [3, 1, 0, 0], [4, 0, 0, 0], [5, 1, 4, 0], [11, 2, 3, 5]]
    );
    assert_eq!(
        rows("{skip; stop; {stop; skip}; {}}"),
        [
            [8, 0, 0, 0],
            [9, 0, 0, 0],
            [9, 0, 0, 0],
            [8, 0, 0, 0],
            [12, 2, 3, 0],
            [8, 0, 0, 0],
            [12, 4, 5, 0],
            [12, 1, 6, 0],
            [12, 0, 7, 0]
        ]
    );
    assert_eq!(rows("{{{stop}}}"), [[9, 0, 0, 0]]);
    assert_eq!(rows("{ }"), [[8, 0, 0, 0]]);
    assert_eq!(
        rows("if (true) then while false do stop else skip"),
        [[3, u32::MAX, 0, 0], [3, 0, 0, 0], [9, 0, 0, 0], [14, 1, 2, 0], [8, 0, 0, 0], [13, 0, 3, 4]]
    );
    let operators = "+ - * and or xor >> << = <> < <= > >=".split(' ');
    for (number, operator) in (1..).zip(operators) {
        assert_eq!(rows(&format!("var x; x := 1 {operator} 2"))[3], [7, number, 1, 2], "{operator}");
    }
    assert_eq!(rows("var x; x := not x")[2], [6, 2, 1, 0]);
}

#[test]
fn meaning_of_operators() {
    for (expression, word) in [
        ("x + y", 5),
        ("#FFFFFFFF + 2", 1),
        ("0 - 1", u32::MAX),
        ("#10001 * #10001", 0x20001),
        ("#FF and #F0F", 0xF),
        ("1 or 2 or 4", 7),
        ("#FF xor #F0", 0xF),
        ("-x", -7i32 as u32),
        ("-(#80000000)", 0x8000_0000),
        ("not 0", u32::MAX),
        ("#80000000 >> 31", 1),
        ("#80000000 >> 32", 0),
        ("1 << 31", 0x8000_0000),
        ("1 << 32", 0),
        ("1 >> 256", 0),
        ("1 << y", 0),
        ("5 >> 0", 5),
        ("y < x", u32::MAX),
        ("x < y", 0),
        ("x <= x", u32::MAX),
        ("x > y", u32::MAX),
        ("x >= 8", 0),
        ("x = 7", u32::MAX),
        ("x <> 7", 0),
        ("#7FFFFFFF > #80000000", u32::MAX),
        ("true", u32::MAX),
        ("false", 0),
        ("'*n'", 10),
        ("v[0] + v[1] + v[2]", 33),
    ] {
        assert_eq!(value(expression), word, "{expression}");
    }
}

#[test]
fn readings_of_meaning() {
    // 22
    for (condition, taken) in [("2", 1), ("0", 2), ("#80000000", 1), ("1 and 2", 2)] {
        let ran = run(&format!("var x; if {condition} then x := 1 else x := 2"), &[0]);
        assert_eq!(ran.words, [taken], "{condition}");
    }
    // 23: finish is a move of its own, brackets and braces take one.
    for (source, moves) in [
        ("skip", 2),
        ("stop", 1),
        ("{}", 2),
        ("|c| {|c| skip}", 3),
        ("{skip; skip}", 4),
        ("var x; x := 2 + 3", 7),
        ("var x; x := 2 + 3 + 4", 10),
        ("var x; x := -1", 6),
        ("var x; x := (1)", 5),
        ("val k = 1; var x; x := k", 4),
        ("if 1 then skip else stop", 5),
        ("while 0 do skip", 4),
        ("array v[1]; v[0] := v[0]", 9),
        ("array v[1]; v[1] := v[0]", 3),
    ] {
        let ran = run(source, &[0]);
        assert!(ran.end.is_some(), "{source}");
        assert_eq!(ran.moves, moves, "{source}");
    }
    // 24: loads stay left first; a bad subscript ends before any load in the value.
    let ran = run("array v[2]; var x; x := v[0] > v[1]", &[5, 6, 0]);
    assert_eq!((ran.accesses, ran.words[2]), (vec![load(0, 5), load(1, 6)], 0));
    let ran = run("array v[2]; v[2] := v[0]", &[5, 6]);
    assert_eq!((ran.accesses, ran.end), (vec![], Some(End::BadSubscript)));
    let ran = run("array v[2]; v[v[1]] := v[v[0]]", &[5, 1]);
    assert_eq!((ran.accesses, ran.end), (vec![load(1, 1), load(0, 5)], Some(End::BadSubscript)));
    // 25
    let ran = run("var x; array v[2]; array w[3]; w[2] := v[1]", &[0, 1, 2, 3, 4, 5]);
    assert_eq!(ran.accesses, [load(2, 2), store(5, 5, 2)]);
    assert_eq!(ran.words, [0, 1, 2, 3, 4, 2]);
    // An access to the same word takes the old one.
    let ran = run("array v[1]; {v[0] := v[0] + 1; v[0] := v[0]}", &[8]);
    assert_eq!(ran.accesses, [load(0, 8), store(0, 8, 9), load(0, 9), store(0, 9, 9)]);
    // A subscript is read unsigned.
    let ran = run("array v[1]; var x; x := v[-1]", &[8, 0]);
    assert_eq!((ran.words, ran.end), (vec![8, 0], Some(End::BadSubscript)));
}

#[test]
fn ends() {
    let ran = run("var x; {x := 1; stop; x := 2}", &[0]);
    assert_eq!((ran.words, ran.end), (vec![1], Some(End::Stop)));
    let ran = run("var x; while true do x := x + 1", &[0]);
    assert_eq!(ran.end, None);
    assert_eq!(ran.moves, 10_000);
    let ran = run("var x; while x < 10 do x := x + 1", &[3]);
    assert_eq!((ran.words, ran.end), (vec![10], Some(End::Finish)));
    assert_eq!([End::Finish as u32, End::Stop as u32, End::BadSubscript as u32], [0, 1, 2]);
}

#[test]
fn traps() {
    let guarded = "array v[2]; var i; var x; if i < 2 then x := v[i] else skip";
    let ran = run(guarded, &[4, 5, 2, 0]);
    assert_eq!((ran.accesses, ran.end), (vec![], Some(End::Finish)));
    let ran = run(guarded, &[4, 5, 1, 0]);
    assert_eq!((ran.accesses, ran.words[3]), (vec![load(1, 5)], 5));
    let both = "array v[2]; var i; var x; x := (i < 1) and (v[i] = 0)";
    let ran = run(both, &[4, 5, 1, 9]);
    assert_eq!((ran.accesses, ran.words[3]), (vec![load(1, 5)], 0));
    let ran = run(both, &[4, 5, 2, 9]);
    assert_eq!((ran.words[3], ran.end), (9, Some(End::BadSubscript)));
}
