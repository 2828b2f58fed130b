//! The numbers that the header gives to C: every #define, and the sizes and places of every structure's fields, printed
//! by a C program made from the header itself, against the second implementations' own.

use crate::boundary::{output_of, LANGUAGES};
use crate::{print, repository, scratch};
use reference::{depth, names, tokens};
use std::collections::BTreeMap;
use std::fmt::Write;
use std::panic::catch_unwind;
use std::path::Path;
use tests::arm::{self, assemble, pattern, Instr, Layout, Op, State, OPS};
use tests::{classes, needed_words, second, CODE_BYTES, TABLE_WORDS};

/// Numbers by what they are the number of.
type Numbers = BTreeMap<String, u64>;

const PREFIX: &str = "GUTILAMBOY_";

/// Arguments for macros, with their values; among them one that a macro without brackets around it takes apart.
const ARGUMENTS: [(&str, u32); 9] = [
    ("0", 0),
    ("1", 1),
    ("2", 2),
    ("31", 31),
    ("32", 32),
    ("1 | 2", 3),
    ("1023", 1_023),
    ("1024", 1_024),
    ("8192", 8_192),
];

/// A #define: its name, its parameters, and what its comment says.
struct Define<'h> {
    name: &'h str,
    parameters: usize,
    comment: &'h str,
}

/// All that the header defines, but for what tells whether it was read before.
fn defines(header: &str) -> Vec<Define<'_>> {
    let elsewhere = ["enum", "const int", "\\\n", "# define", " #define", "\t#define"];
    assert!(!elsewhere.iter().any(|form| header.contains(form)), "constants that are not read here");
    let lines = header.lines().filter_map(|line| line.strip_prefix("#define "));
    let all = lines.map(|line| {
        let comment = line.split_once("/*").map_or("", |(_, comment)| comment.trim_end_matches("*/").trim());
        let name = line.split([' ', '(']).next().expect("a name");
        let rest = &line[name.len()..];
        let parameters = rest.strip_prefix('(').map_or(0, |rest| {
            let list = rest.split(')').next().expect("a list");
            list.split(',').count()
        });
        Define { name, parameters, comment }
    });
    all.filter(|define| define.name != "GUTILAMBOY_H").collect()
}

/// The calls of a macro, by how they are written, with the values of the arguments.
fn calls(name: &str, parameters: usize) -> Vec<(String, Vec<u32>)> {
    match parameters {
        0 => vec![(name.to_string(), vec![])],
        1 => ARGUMENTS.iter().map(|(text, value)| (format!("{name}({text})"), vec![*value])).collect(),
        2 => {
            let pairs = ARGUMENTS.iter().flat_map(|one| ARGUMENTS.iter().map(move |other| (one, other)));
            pairs
                .map(|(one, other)| (format!("{name}({}, {})", one.0, other.0), vec![one.1, other.1]))
                .collect()
        }
        _ => panic!("{name} has {parameters} parameters"),
    }
}

/// The structures, by name, with their fields.
fn structures(header: &str) -> Vec<(&str, Vec<&str>)> {
    let structures = header.split("\nstruct ").skip(1).filter_map(|text| text.split_once(" {\n"));
    structures
        .map(|(name, rest)| (name, rest.split("\n};").next().expect("an end")))
        .map(|(name, body)| (name, body.lines().map(field).collect()))
        .collect()
}

/// The name that a line declares: `    uint32_t r[8];`.
fn field(line: &str) -> &str {
    let declared = line.split_whitespace().nth(1).expect("a name");
    declared.split(['[', ';']).next().expect("a name")
}

/// The functions, by name.
fn functions(header: &str) -> Vec<&str> {
    let declared = header.lines().filter(|line| line.starts_with("void ") || line.starts_with("uint"));
    declared.filter_map(|line| line.split([' ', '(']).nth(1)).collect()
}

/// A program that prints all these numbers, in both languages.
fn program(header: &str) -> String {
    let mut text = String::from("#include <stdio.h>\n#include <stddef.h>\n#include \"gutilamboy.h\"\n");
    text += "#include \"gutilamboy.h\"\n\nint main(void)\n{\n";
    let mut line = |what: &str, value: &str| {
        writeln!(text, "    printf(\"%s %lu\\n\", \"{what}\", (unsigned long)({value}));").expect("a line");
    };
    for define in defines(header) {
        for (call, _) in calls(define.name, define.parameters) {
            // as part of a product, which takes apart what has no brackets around it
            line(&call, &format!("3ul * {call} / 3"));
        }
    }
    for (structure, fields) in structures(header) {
        line(structure, &format!("sizeof(struct {structure})"));
        for field in fields {
            line(&format!("{structure}.{field}"), &format!("offsetof(struct {structure}, {field})"));
            let size = format!("sizeof(((struct {structure} *)0)->{field})");
            line(&format!("{structure}.{field}:"), &size);
        }
    }
    text + "    return 0;\n}\n"
}

/// The numbers of a header in a folder, by C and by C++.
fn numbers_of(folder: &Path) -> [Numbers; 2] {
    let header = std::fs::read_to_string(folder.join("gutilamboy.h")).expect("the header");
    let source = scratch("c").join("numbers.c");
    std::fs::write(&source, program(&header)).expect("a file");
    let outputs = LANGUAGES.map(|language| output_of(language, folder, &source, &[]));
    let number = |line: &str| {
        let (what, number) = line.rsplit_once(' ').expect("a number");
        (what.to_string(), number.parse().expect("a number"))
    };
    outputs.map(|output| output.lines().map(number).collect())
}

// ── the second implementations' own ──

fn constants() -> Vec<(&'static str, u64)> {
    let limits = [
        // the interface's own number, in no document: who changes the header changes it here
        ("VERSION_MAJOR", 4),
        ("VERSION_MINOR", 0),
        ("SOURCE_BYTES", tokens::SOURCE_LIMIT),
        ("TOKENS", tokens::TOKEN_LIMIT),
        ("NAME_BYTES", tokens::NAME_LIMIT),
        ("NAMES", names::DECLARED_LIMIT),
        ("DEPTH", depth::DEPTH_LIMIT),
        ("DATA_WORDS", names::DATA_LIMIT as usize),
        ("IMAGE_BYTES", arm::CODE_LIMIT),
        ("MEMORY_WORDS", arm::MEMORY_LIMIT),
        ("NEEDED_WORDS_MOST", needed_words(names::DATA_LIMIT, depth::DEPTH_LIMIT as u32)),
        ("DATA_BASE", arm::DATA as usize),
        ("OP_NONE", OPS.len()),
    ];
    let limits = limits.map(|(name, number)| (name, number as u64));
    [limits.to_vec(), translation_statuses(), machine_statuses(), class_numbers(), ends()].concat()
}

/// What the second translation answers to a source for each status.
fn translation_statuses() -> Vec<(&'static str, u64)> {
    let status = |source: &str, words, bytes| {
        let (mut table, mut code) = (vec![0; words], vec![0; bytes]);
        second::translate(source.as_bytes(), &mut table, &mut code).status as u64
    };
    let (long, many) = (" ".repeat(16_385), "||".repeat(1_025));
    let deep = "{".repeat(40) + &"}".repeat(40);
    let name = "n".repeat(33);
    let sources = [
        ("ACCEPTED", "skip"),
        ("LONG_SOURCE", &long),
        ("BROKEN_TOKEN", "$"),
        ("LARGE_NUMBER", "2147483648"),
        ("LONG_NAME", &name),
        ("MANY_TOKENS", &many),
        ("GRAMMAR", "skip;"),
        ("TOO_DEEP", &deep),
        ("NOT_DECLARED", "x := 1"),
        ("DECLARED_TWICE", "var x; var x; skip"),
        ("WRONG_KIND", "array v[1]; v := 1"),
        ("ARRAY_LENGTH", "array v[0]; skip"),
        ("TOO_MUCH", "array v[8192]; var x; skip"),
    ];
    let roomy = sources.map(|(name, source)| (name, status(source, TABLE_WORDS, CODE_BYTES)));
    let short = [("SHORT_TABLE", status("skip", 3, CODE_BYTES)), ("SHORT_CODE", status("skip", 4, 303))];
    [&roomy[..], &short].concat()
}

/// What the second machine answers to a step or a start for each status.
fn machine_statuses() -> Vec<(&'static str, u64)> {
    let step = |halfword: u16, pc| {
        let mut state = State { r: [1; 8], pc, ..State::default() };
        arm::step(&mut state, &halfword.to_le_bytes(), &mut []).0 as u64
    };
    let start =
        |code, memory, data, depth| arm::start(&vec![0; code], &vec![0; memory], data, depth).0 as u64;
    let out_of_range = assemble(Instr { op: Op::Movi, a: 8, b: 0, c: 0, k: 0 });
    assert_eq!(out_of_range, None);
    vec![
        ("DONE", step(0x2005, 0)),
        ("SVC", step(0xdf07, 0)),
        ("FAULT_FETCH", step(0x2005, 1)),
        // UDF, and ADDS r0,r0,0
        ("FAULT_UNDEFINED", step(0xde00, 0)),
        ("FAULT_UNSUPPORTED", step(0x1c00, 0)),
        // LDRI r0,r0,0 and STRSPI r0,0
        ("FAULT_ALIGNMENT", step(0x6800, 0)),
        ("FAULT_ADDRESS", step(0x9000, 0)),
        ("LONG_CODE", start(65_537, 8, 0, 0)),
        ("LONG_MEMORY", start(0, 16_385, 0, 0)),
        ("SHORT_MEMORY", start(0, 7, 0, 0)),
        ("BAD_NUMBERS", start(0, 8, 8_193, 0)),
        // "Encoding a field out of range: 35"
        ("OUT_OF_RANGE", 35),
    ]
}

/// The class of an instruction of each line, in the list or not.
fn class_numbers() -> Vec<(&'static str, u64)> {
    let long = |first, second| classes::classify(first, second).expect("an instruction") as u64;
    let short = |halfword| long(halfword, 0);
    vec![
        ("CLASS_IMMEDIATE", short(0x1c00)),      // ADDS r0,r0,0
        ("CLASS_DATA", short(0x4100)),           // ASRS r0,r0
        ("CLASS_SPECIAL", short(0x4770)),        // BX lr
        ("CLASS_LITERAL", short(0x4800)),        // LDR r0,[pc]
        ("CLASS_LOAD_STORE", short(0x7000)),     // STRB r0,[r0]
        ("CLASS_PC_ADDRESS", short(0xa000)),     // ADR r0
        ("CLASS_SP_ADDRESS", short(0xa800)),     // ADD r0,sp,0
        ("CLASS_MISCELLANEOUS", short(0xb500)),  // PUSH {lr}
        ("CLASS_STORE_MULTIPLE", short(0xc001)), // STM r0!,{r0}
        ("CLASS_LOAD_MULTIPLE", short(0xc801)),  // LDM r0,{r0}
        ("CLASS_CONDITIONAL", short(0xd200)),    // BCS
        ("CLASS_BRANCH", short(0xe000)),         // B
        ("CLASS_32_BIT", long(0xf3bf, 0x8f4f)),  // DSB
    ]
}

/// The SVC that ends the image of a source.
fn ends() -> Vec<(&'static str, u64)> {
    let end = |source: &str| {
        let (mut table, mut code) = (vec![0; TABLE_WORDS], vec![0; CODE_BYTES]);
        let answer = second::translate(source.as_bytes(), &mut table, &mut code);
        let image = &code[..answer.code as usize];
        let mut memory = vec![0; needed_words(answer.data, answer.depth)];
        let (_, mut state) = arm::start(image, &memory, answer.data, answer.depth);
        let (status, number, _) = arm::run(&mut state, image, &mut memory, 1_000);
        assert_eq!(status, 1, "{source}");
        number as u64
    };
    vec![("FINISH", end("skip")), ("STOP", end("stop")), ("BAD_SUBSCRIPT", end("array v[1]; v[1] := 0"))]
}

/// "table shorter than 4 x tokens words", "code buffer shorter than 48 x tokens + 256 bytes": a source of so many
/// tokens, if there is one, is refused with a word or a byte less.
fn room(count: u32) -> (u64, u64) {
    let (words, bytes) = (4 * count as usize, 48 * count as usize + 256);
    if (1..=1_024).contains(&count) {
        let source = "||".repeat(count as usize - 1) + "skip";
        let status = |words: usize, bytes: usize| {
            second::translate(source.as_bytes(), &mut vec![0; words], &mut vec![0; bytes]).status
        };
        assert_eq!((status(words, bytes), status(words - 1, bytes), status(words, bytes - 1)), (0, 13, 14));
    }
    (words as u64, bytes as u64)
}

/// A structure's name, how many bytes a word of it has, and its fields in order, with how many words each has.
type Structure = (&'static str, u64, &'static [(&'static str, u64)]);

const STRUCTURES: [Structure; 6] = [
    (
        "translation",
        4,
        &[("status", 1), ("place", 1), ("tokens", 1), ("rows", 1), ("data", 1), ("depth", 1), ("code", 1)],
    ),
    ("state", 4, &[("r", 8), ("sp", 1), ("lr", 1), ("pc", 1), ("apsr", 1)]),
    ("stepped", 4, &[("status", 1), ("number", 1)]),
    ("ran", 8, &[("status", 1), ("number", 1), ("count", 1)]),
    ("encoded", 4, &[("status", 1), ("count", 1), ("first", 1), ("second", 1)]),
    ("decoded", 4, &[("op", 1), ("a", 1), ("b", 1), ("c", 1), ("k", 1)]),
];

/// The functions that C can call: those of `boundary`'s program.
const FUNCTIONS: [&str; 6] = ["translate", "start", "step", "run", "encode", "decode"];

/// All numbers that the header has to have, and no others.
fn wanted() -> Numbers {
    let mut want = Numbers::new();
    let mut push = |what: String, number| assert_eq!(want.insert(what, number), None);
    for (name, number) in constants() {
        push(format!("{PREFIX}{name}"), number);
    }
    for (number, op) in OPS.iter().enumerate() {
        push(format!("{PREFIX}OP_{}", op.mnemonic()), number as u64);
    }
    for (call, values) in calls("TABLE_WORDS", 1) {
        push(format!("{PREFIX}{call}"), room(values[0]).0);
    }
    for (call, values) in calls("CODE_BYTES", 1) {
        push(format!("{PREFIX}{call}"), room(values[0]).1);
    }
    for (call, values) in calls("NEEDED_WORDS", 2) {
        push(format!("{PREFIX}{call}"), needed_words(values[0], values[1]) as u64);
    }
    for (name, width, fields) in STRUCTURES {
        let mut place = 0;
        for (field, words) in fields {
            push(format!("gutilamboy_{name}.{field}"), place);
            push(format!("gutilamboy_{name}.{field}:"), width * words);
            place += width * words;
        }
        push(format!("gutilamboy_{name}"), place);
    }
    want
}

/// The fields that document 01 adds to an instruction's code, from the highest down: "+64n +8l +d".
fn fields(op: Op) -> &'static str {
    match (pattern(op).1, op) {
        (Layout::Imm5, Op::Stri | Op::Ldri) => "u5 b d",
        (Layout::Imm5 | Layout::Count, _) => "n l d",
        (Layout::Regs3, Op::Str | Op::Ldr) => "i b d",
        (Layout::Regs3, _) => "r l d",
        (Layout::Imm8, _) => "d u8",
        (Layout::Regs2, _) => "r d",
        (Layout::Imm7, _) => "u7",
        (Layout::Only8, _) => "u8",
        (Layout::Near | Layout::Jump | Layout::Call, _) => "k",
    }
}

/// The comments beside the instructions' numbers name their fields in the order that encode takes them.
fn named_fields(header: &str) {
    let all = defines(header);
    for op in OPS {
        let name = format!("{PREFIX}OP_{}", op.mnemonic());
        let define = all.iter().find(|define| define.name == name);
        assert_eq!(define.map(|define| define.comment), Some(fields(op)), "{name}");
    }
}

/// The header in a folder has the functions, the fields and the numbers that it has to have. How many numbers.
fn check(folder: &Path) -> usize {
    let want = wanted();
    let header = std::fs::read_to_string(folder.join("gutilamboy.h")).expect("the header");
    assert_eq!(functions(&header), FUNCTIONS.map(|name| format!("gutilamboy_{name}")));
    named_fields(&header);
    for got in numbers_of(folder) {
        let differ = |(what, number): &(&String, &u64)| want.get(*what) != Some(number);
        let wrong: Vec<_> = got.iter().filter(differ).collect();
        let missing: Vec<_> = want.keys().filter(|what| !got.contains_key(*what)).collect();
        assert!(wrong.is_empty() && missing.is_empty(), "wrong {wrong:?}, missing {missing:?}");
    }
    want.len()
}

#[test]
fn every_number_of_the_header() {
    let count = check(&repository().join("include"));
    print(&format!("header: {count} numbers of its definitions and structures are as they should be"));
}

/// The check itself: headers that are wrong in one place are noticed.
#[test]
fn wrong_headers_are_noticed() {
    let header = std::fs::read_to_string(repository().join("include/gutilamboy.h")).expect("the header");
    let folder = scratch("wrong header");
    let passes = |old: &str, new: &str| {
        assert!(header.contains(old), "{old}");
        std::fs::write(folder.join("gutilamboy.h"), header.replacen(old, new, 1)).expect("a header");
        catch_unwind(|| check(&folder)).is_ok()
    };
    assert!(passes("longest source", "longest"), "another comment is not wrong");
    for (old, new) in [
        ("48 * (tokens) + 256", "48 * (tokens) + 128"),
        ("4 * (tokens)", "4 * tokens"),
        ("(data) + 2", "data + 2 "),
        ("(depth) + 8", "depth + 8"),
        ("((data) + 2 * (depth) + 8)", "(data) + 2 * (depth) + 8"),
        ("NEEDED_WORDS_MOST 8264", "NEEDED_WORDS_MOST 8256"),
        ("SHL 15 ", "SHL 16 "),
        ("SHR 16 ", "SHR 15 "),
        ("/* r l d */", "/* l r d */"),
        ("NOT_DECLARED 8 ", "NOT_DECLARED 9 "),
        ("FAULT_UNDEFINED 22", "FAULT_INSTRUCTION 22"),
        ("FAULT_UNSUPPORTED 26", "FAULT_UNSUPPORTED 25"),
        ("CLASS_LOAD_STORE 5", "CLASS_LOAD_STORE 6"),
        ("CLASS_32_BIT 13", "CLASS_32_BIT 15"),
        ("#define GUTILAMBOY_STOP 1\n", ""),
        ("#define GUTILAMBOY_STOP 1\n", "#define GUTILAMBOY_STOP 1\n#define GUTILAMBOY_NEW 1\n"),
        ("uint32_t sp;\n    uint32_t lr;", "uint32_t lr;\n    uint32_t sp;"),
        ("uint64_t count;", "uint32_t count;"),
        ("uint32_t r[8];", "uint32_t r[7];"),
        ("uint32_t apsr;", "uint32_t apsr; uint32_t more;"),
        ("void gutilamboy_step(", "void gutilamboy_more(void);\nvoid gutilamboy_step("),
    ] {
        assert!(!passes(old, new), "{new:?} for {old:?}");
    }
}
