//! Document 01's cases, its four traps, and programs at the far end of every field.

use crate::print;
use crate::runs::{run_anyhow, run_source, Seen};
use reference::front::accept;
use reference::generate::{starting_words, Random};
use tests::arm::{disassemble, Instr, Op};
use tests::{needed_words, proved, Translation, CODE_BYTES, TABLE_WORDS};

/// A translation with room for any source: the answer, the table's words and the image.
fn translate(source: &str) -> (Translation, Vec<u32>, Vec<u8>) {
    let (mut table, mut code) = (vec![9; TABLE_WORDS], vec![9; CODE_BYTES]);
    let got = proved::translate(source.as_bytes(), &mut table, &mut code);
    table.truncate(4 * got.rows as usize);
    code.truncate(got.code as usize);
    (got, table, code)
}

fn verdict(source: &str) -> (u32, u32) {
    let (got, ..) = translate(source);
    (got.status, got.place)
}

/// The end of a run and the D words, from these starting words and zeros after them.
fn run(source: &str, starting: &[u32]) -> (Option<u32>, Vec<u32>) {
    let accepted = accept(source.as_bytes(), TABLE_WORDS, CODE_BYTES).expect(source);
    let mut words = vec![0; accepted.needed_words()];
    words[..starting.len()].copy_from_slice(starting);
    let mut random = Random::new(starting.len() as u64);
    let (end, mut memory) =
        run_source(proved::translate, source.as_bytes(), &words, &mut random, 200_000, &mut Seen::default());
    memory.truncate(accepted.program.data as usize);
    (end, memory)
}

/// The word of an expression over `x` (7), `y` (-2) and `v` (10, 11, 12).
fn value(expression: &str) -> u32 {
    let source = format!("var r; var x; var y; array v[3]; r := {expression}");
    let (end, words) = run(&source, &[0, 7, -2i32 as u32, 10, 11, 12]);
    assert_eq!(end, Some(0), "{expression}");
    words[0]
}

fn instructions(image: &[u8]) -> Vec<Instr> {
    let half = |at: usize| image.get(at..at + 2).map_or(0, |b| u16::from_le_bytes([b[0], b[1]]));
    let mut at = 0;
    let mut found = vec![];
    while at < image.len() {
        let i = disassemble(half(at), half(at + 2)).expect("an instruction");
        at += if i.op == Op::Bl { 4 } else { 2 };
        found.push(i);
    }
    found
}

#[test]
fn marked_sources() {
    let (got, table, _) = translate("var x; x := 2 + 3");
    assert_eq!((got.status, got.tokens, got.rows, got.data, got.depth), (0, 8, 5, 1, 2));
    assert_eq!(needed_words(got.data, got.depth), 13);
    assert_eq!(table, [1, 0, 1, 0, 3, 2, 0, 0, 3, 3, 0, 0, 7, 1, 1, 2, 10, 0, 3, 0]);
    assert_eq!(run("var x; x := 2 + 3", &[9]), (Some(0), vec![5]));
    assert_eq!(verdict(""), (6, 0));
    assert_eq!(verdict("x := 1"), (8, 0));
    assert_eq!(verdict("{skip;}"), (6, 6));
    assert_eq!(verdict("skip;"), (6, 4));
    assert_eq!(value("#80000000 < 1"), u32::MAX);
    assert_eq!(value("1 << 256"), 0);
}

#[test]
fn marked_instructions() {
    let encoded = |op: Op, a, b, c, k| {
        let number = tests::arm::OPS.iter().position(|&other| other == op).unwrap();
        let [status, count, first, second] = proved::encode(number as u8, a, b, c, k);
        assert_eq!(status, 0);
        [first, second][..count as usize].to_vec()
    };
    assert_eq!(encoded(Op::Movi, 0, 5, 0, 0), [0x2005]);
    assert_eq!(encoded(Op::Addr, 2, 1, 0, 0), [0x1888]);
    assert_eq!(encoded(Op::Subr, 5, 4, 3, 0), [0x1b63]);
    assert_eq!(encoded(Op::Stri, 1, 7, 0, 0), [0x6078]);
    assert_eq!(encoded(Op::Shri, 31, 0, 0, 0), [0x0fc0]);
    assert_eq!(encoded(Op::Bu, 0, 0, 0, -2), [0xe7fe]);
    assert_eq!(encoded(Op::Bl, 0, 0, 0, -2), [0xf7ff, 0xfffe]);
}

#[test]
fn lengths() {
    for (length, status) in [(0, 11), (1, 0), (8_192, 0), (8_193, 11)] {
        let (got, ..) = translate(&format!("array v[{length}]; skip"));
        assert_eq!((got.status, got.place), (status, if status == 0 { 0 } else { 6 }), "{length}");
    }
    for (length, status) in [(32, 0), (33, 4)] {
        let name = "n".repeat(length);
        assert_eq!(verdict(&format!("var {name}; skip")), (status, if status == 0 { 0 } else { 4 }));
    }
}

/// "A constant 1 to 255 or 0 is one MOVI"; "a MOVI and one SHLI by the count of zero bits below the lowest set one".
#[test]
fn constants() {
    let loads = |word: u32| -> Vec<Instr> {
        let (_, _, image) = translate(&format!("var x; x := #{word:x}"));
        // DECSP, the constant, STRSPI
        instructions(&image)[1..].iter().take_while(|i| i.op != Op::Strspi).copied().collect()
    };
    let ops = |word: u32| loads(word).iter().map(|i| i.op).collect::<Vec<_>>();
    for word in 0..256 {
        assert_eq!(ops(word), [Op::Movi], "{word}");
    }
    assert_eq!(ops(256), [Op::Movi, Op::Shli]);
    assert_eq!(ops(1_020), [Op::Movi, Op::Shli]);
    assert_ne!(ops(257), [Op::Movi, Op::Shli]);
    for low in 1..=24 {
        for bits in [1u32, 3, 0x81, 0xff] {
            let word = bits << low;
            if word >= 256 {
                assert_eq!(ops(word), [Op::Movi, Op::Shli], "{word:#x}");
                assert_eq!(loads(word)[1].a as u32, word.trailing_zeros(), "{word:#x}");
            }
        }
    }
    let mut random = Random::new(5);
    for _ in 0..3_000 {
        let word = random.word();
        assert_eq!(value(&format!("#{word:x}")), word);
    }
}

#[test]
fn operations() {
    let mut random = Random::new(6);
    let operators = ["+", "-", "*", "and", "or", "xor", ">>", "<<", "=", "<>", "<", "<=", ">", ">="];
    let mut seen = Seen::default();
    for operator in operators {
        let source = format!("var x; var y; var z; z := x {operator} y");
        for _ in 0..300 {
            let words = starting_words(&mut random, 32);
            run_source(proved::translate, source.as_bytes(), &words, &mut random, 1_000, &mut seen);
        }
    }
    seen.print("operations");
}

/// "Four traps in the sources".
#[test]
fn traps() {
    // the difference overflows
    assert_eq!(value("#80000000 < #7fffffff"), u32::MAX);
    assert_eq!(value("#7fffffff < #80000000"), 0);
    assert_eq!(value("#7fffffff >= #80000000"), u32::MAX);
    assert_eq!(value("#80000000 > #7fffffff"), 0);
    // a count of which only the low byte is small, and 31, 32, 33
    for (count, word) in [
        ("256", 0),
        ("257", 0),
        ("#80000000", 0),
        ("#ffffff01", 0),
        ("32", 0),
        ("33", 0),
        ("31", 1),
        ("0", 1 << 31),
    ] {
        assert_eq!(value(&format!("#80000000 >> {count}")), word, "{count}");
    }
    assert_eq!(value("1 << 31"), 1 << 31);
    // the element is read behind the test, and on both sides of `and`
    let behind = "var i; var n; var x; array v[4]; if i < n then x := v[i] else skip";
    assert_eq!(run(behind, &[9, 4, 5, 1, 2, 3, 4]).0, Some(0));
    assert_eq!(run(behind, &[2, 4, 5, 1, 2, 3, 4]), (Some(0), vec![2, 4, 3, 1, 2, 3, 4]));
    assert_eq!(run(behind, &[u32::MAX, 4, 5, 1, 2, 3, 4]).0, Some(2));
    let both = "var i; var n; var x; array v[4]; x := (i < n) and (v[i] = 0)";
    assert_eq!(run(both, &[9, 4]).0, Some(2));
    assert_eq!(run(both, &[3, 2]), (Some(0), vec![3, 2, 0, 0, 0, 0, 0]));
    // a bad subscript ends before the loads of what is assigned
    assert_eq!(run("array v[2]; v[2] := v[0]", &[1, 2]), (Some(2), vec![1, 2]));
    assert_eq!(run("var x; {x := 1; stop; x := 2}", &[0]), (Some(1), vec![1]));
}

/// So many assignments, with accesses in them: 31 tokens for three.
fn body(count: usize) -> String {
    let assignments = ["x := x + 1", "v[x and 3] := v[3] xor x", "y := v[x and 1] - y"];
    (0..count).map(|number| assignments[number % 3]).collect::<Vec<_>>().join(";")
}

#[test]
fn far_branches() {
    let declared = "var x; var y; var n; array v[4];";
    let mut random = Random::new(9);
    let mut seen = Seen::default();
    let mut farthest = 0;
    for source in [
        format!("{declared} if n then {{{}}} else skip", body(93)),
        format!("{declared} if n then skip else {{{}}}", body(93)),
        format!("{declared} if n then {{{}}} else {{{}}}", body(45), body(45)),
        format!("{declared} {{n := n and 7; while n do {{{}; n := n - 1}}}}", body(90)),
        format!(
            "{declared} {{n := n and 3; while n > 0 do {{if n = 2 then {{{}}} else {{{}}}; n := n - 1}}}}",
            body(42),
            body(42)
        ),
        format!("{declared} while v[x and 3] <> y do {{{}}}", body(90)),
    ] {
        let (got, _, image) = translate(&source);
        assert_eq!(got.status, 0, "{source}");
        assert!(got.tokens > 900, "{} tokens", got.tokens);
        let calls = instructions(&image).into_iter().filter(|i| i.op == Op::Bl);
        let longest = calls.map(|i| i.k.abs()).max().unwrap();
        assert!(longest > 1_024, "{longest} halfwords is a short branch");
        farthest = farthest.max(longest);
        for _ in 0..40 {
            run_anyhow(proved::translate, source.as_bytes(), &mut random, 60_000, &mut seen);
        }
    }
    seen.print("far branches");
    print(&format!("farthest branch: {farthest} halfwords"));
}

fn nested(open: &str, inside: &str, close: &str, count: usize) -> String {
    open.repeat(count) + inside + &close.repeat(count)
}

#[test]
fn deepest_expressions() {
    let mut random = Random::new(10);
    let mut seen = Seen::default();
    let mut expressions = vec![
        nested("(", "x", ")", 31),
        nested("v[", "0", "]", 31),
        nested("-(", "-x", ")", 15),
        nested("x - (", "x - y", ")", 15),
        nested("(", "x < y", ") < x", 15),
    ];
    for operator in ["+", "*", "and", "or", "xor"] {
        expressions.push(format!("x {operator} ").repeat(31) + "y");
        expressions.push(format!("v[0] {operator} ").repeat(29) + "v[v[1]]");
        expressions.push(nested(&format!("x {operator} ("), "x - y", ")", 15));
    }
    for expression in expressions {
        let masked = "v[0] := v[0] and 1; v[1] := v[1] and 1";
        let used =
            format!("x := {expression}; v[v[0]] := {expression}; if {expression} then x := y else y := x");
        let source = format!("var x; var y; array v[2]; {{{masked}; {used}}}");
        let (got, ..) = translate(&source);
        assert_eq!(got.status, 0, "{source}");
        assert_eq!(got.depth, 32, "{expression}");
        for _ in 0..20 {
            run_anyhow(proved::translate, source.as_bytes(), &mut random, 20_000, &mut seen);
        }
    }
    seen.print("deepest expressions");
}

#[test]
fn largest_arrays() {
    let mut seen = Seen::default();
    let mut random = Random::new(12);
    let ends = |index: u32| if index < 8_192 { Some(0) } else { Some(2) };
    for index in [0, 1, 4_095, 4_096, 8_190, 8_191, 8_192, 8_193, 16_383, 16_384, 1 << 31, u32::MAX] {
        let source = format!("array v[8192]; v[#{index:x}] := 77");
        let (end, words) = run(&source, &[3; 8_192]);
        assert_eq!(end, ends(index), "{index}");
        assert_eq!(words.iter().filter(|&&word| word == 77).count(), usize::from(end == Some(0)));
        let length = 8_191;
        let source = format!("var x; array v[{length}]; x := v[#{index:x}]");
        assert_eq!(run(&source, &[5; 8_192]).0, if index < length { Some(0) } else { Some(2) }, "{index}");
    }
    for source in [
        "array v[8192]; while v[8191] <> v[0] do v[v[8191] and 8191] := v[v[0] and 8191] + 1",
        "var i; array v[8191]; {i := 0; while i < 8191 do {v[i] := v[8190 - i] xor i; i := i + 1}}",
        "array a[4096]; array b[4096]; {a[4095] := b[0]; b[4095] := a[0]; while b[4095] do {b[b[4095] and 4095] := a[4095]; b[4095] := b[4095] >> 1}}",
    ] {
        for _ in 0..4 {
            run_anyhow(proved::translate, source.as_bytes(), &mut random, 400_000, &mut seen);
        }
    }
    seen.print("largest arrays");
}
