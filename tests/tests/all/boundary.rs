//! The C boundary from C and C++: each function called through the header, and the example in C.

use crate::{print, repository, scratch};
use std::ffi::OsStr;
use std::path::{Path, PathBuf};
use std::process::Command;
use tests::arm::{self, assemble, disassemble, Instr, Op, State, OPS};
use tests::{needed_words, second, Translation, CODE_BYTES, TABLE_WORDS};

/// The languages that the header is for, by compiler and option; the oldest of each.
pub const LANGUAGES: [(&str, &str); 2] = [("cc", "-std=c99"), ("c++", "-std=c++98")];

/// Runs a compiler, which has to be there: a test that left out what needs it would show nothing.
pub fn compiler(name: &str, words: &[impl AsRef<OsStr>]) {
    let output =
        Command::new(name).args(words).output().unwrap_or_else(|error| panic!("{name} is needed: {error}"));
    assert!(output.status.success(), "{}", String::from_utf8_lossy(&output.stderr));
}

/// What a program writes that is compiled with the header in a folder and linked with both archives.
pub fn output_of(language: (&str, &str), header: &Path, source: &Path, words: &[&str]) -> String {
    let (name, standard) = language;
    let archives = repository().join("target/staticlib");
    let program = source.with_extension(&standard[5..]);
    let mut options: Vec<PathBuf> =
        [standard, "-Wall", "-Wextra", "-pedantic", "-Werror", "-I"].map(PathBuf::from).to_vec();
    options.push(header.to_path_buf());
    if name == "c++" {
        options.extend(["-x", "c++"].map(PathBuf::from));
    }
    options.push(source.to_path_buf());
    options.extend(["-x", "none"].map(PathBuf::from));
    options.extend(["libgutilamboy.a", "libgutilamboy_codec.a"].map(|archive| archives.join(archive)));
    options.extend(["-o".into(), program.clone()]);
    compiler(name, &options);
    let output = Command::new(&program).args(words).output().expect("the program runs");
    assert!(output.status.success(), "{}", output.status);
    String::from_utf8(output.stdout).expect("ASCII")
}

/// A file of the repository, in a folder where its programs may be put.
fn copied(file: &str) -> PathBuf {
    let original = repository().join(file);
    let copy = scratch("boundary").join(original.file_name().expect("a file"));
    std::fs::copy(original, &copy).expect("a file");
    copy
}

#[test]
fn the_example_in_c() {
    let want =
        std::fs::read_to_string(repository().join("examples/c/pallet.stdout")).expect("what it writes");
    let (include, source) = (repository().join("include"), copied("examples/c/pallet.c"));
    for language in LANGUAGES {
        assert_eq!(output_of(language, &include, &source, &[]), want, "{language:?}");
    }
    print("the example in C writes what it should");
}

/// The lines of calls.c, as the second implementations have them.
#[derive(Default)]
struct Lines(String);

impl Lines {
    fn push(&mut self, what: &str, number: impl Into<u64>) {
        self.0 += &format!("{what} {}\n", number.into());
    }

    fn push_all<'w>(&mut self, lines: impl IntoIterator<Item = (&'w str, u32)>) {
        lines.into_iter().for_each(|(what, number)| self.push(what, number));
    }

    fn state(&mut self, state: &State) {
        self.push_all(state.r.map(|word| ("r", word)));
        self.push_all([("sp", state.sp), ("lr", state.lr), ("pc", state.pc), ("apsr", state.flags.apsr())]);
    }

    fn translate(&mut self, source: &str) {
        let (mut table, mut code) = (vec![9; TABLE_WORDS], vec![9; CODE_BYTES]);
        let answer = second::translate(source.as_bytes(), &mut table, &mut code);
        let Translation { status, place, tokens, rows, data, depth, code: bytes } = answer;
        self.push_all([("status", status), ("place", place), ("tokens", tokens), ("rows", rows)]);
        self.push_all([("data", data), ("depth", depth), ("code", bytes)]);
        self.push_all(table[..4 * rows as usize].iter().map(|&word| ("row", word)));
        let image = &code[..bytes as usize];
        self.push_all(image.iter().map(|&byte| ("byte", byte.into())));
        if status == 0 {
            self.run(&answer, image);
        }
    }

    fn run(&mut self, answer: &Translation, image: &[u8]) {
        let mut memory = vec![0; needed_words(8_192, 32)];
        let needed = needed_words(answer.data, answer.depth);
        let (status, mut state) = arm::start(image, &memory[..needed], answer.data, answer.depth);
        self.push("start", status);
        self.state(&state);
        let (status, number) = arm::step(&mut state, image, &mut memory);
        self.push_all([("step", status), ("number", number)]);
        self.state(&state);
        let (status, number, count) = arm::run(&mut state, image, &mut memory, 1_000);
        self.push_all([("run", status), ("number", number)]);
        self.push("count", count);
        self.state(&state);
        self.push_all(memory[..answer.data as usize].iter().map(|&word| ("word", word)));
    }

    /// An instruction, or a number that none has; and back from its halfwords, or from 0, which is one, too.
    fn encode(&mut self, instruction: Option<Instr>) {
        let halves = instruction.and_then(assemble).unwrap_or_default();
        let status = if halves.is_empty() { 35 } else { 0 };
        let [first, second] = [0, 1].map(|n| halves.get(n).copied().unwrap_or(0));
        self.push_all([("encode", status), ("count", halves.len() as u32)]);
        self.push_all([("first", first.into()), ("second", second.into())]);
        let Instr { op, a, b, c, k } = disassemble(first, second).expect("an instruction");
        let number = OPS.iter().position(|&other| other == op).expect("a number");
        self.push_all([("decode", number as u32), ("a", a.into()), ("b", b.into()), ("c", c.into())]);
        self.push("k", k as u32);
    }
}

/// In both languages, without a warning, every function answers what the second implementations do.
#[test]
fn every_function_from_c() {
    let sources = [
        "var x; x := 2 + 3",
        "",
        "x := 1",
        "array v[3]; var i; {v[2] := 7; i := 4; v[i - 1] := 1}",
        "var n; while n < 90 do n := n + 1",
        "stop",
    ];
    let mut want = Lines::default();
    sources.into_iter().for_each(|source| want.translate(source));
    let fields = |op, a, b, k| Some(Instr { op, a, b, c: 0, k });
    let instructions = [
        fields(Op::Addr, 2, 1, 0),
        fields(Op::Stri, 1, 7, 0),
        fields(Op::Bl, 0, 0, -2),
        fields(Op::Movi, 8, 0, 0),
        None,
    ];
    instructions.into_iter().for_each(|instruction| want.encode(instruction));
    let (include, source) = (repository().join("include"), copied("tests/c/calls.c"));
    for language in LANGUAGES {
        assert_eq!(output_of(language, &include, &source, &sources), want.0, "{language:?}");
    }
    print(&format!(
        "header: all six functions called, {} lines alike; {:?}",
        want.0.lines().count(),
        LANGUAGES.map(|language| language.1)
    ));
}
