//! What `benchmarks/run` measures.
//!
//!     measure source TOKENS KIND    writes a source of so many tokens
//!     measure translate FILE        translates a file once, for a tool that counts instructions
//!     measure stack FILE...         the stack that a translation of each of the files takes
//!     measure run FILE              100,000 instructions of a program on each machine, for a tool that counts instructions
//!     measure speed FILE...         how long the proved machine takes beside the plain interpreter
//!     measure walk FILE...          how many rows the proved walker begins in a second, beside the plain walker and the machine
//!     measure translation FILE...   how long a translation takes beside the second translator
//!     measure bytes FILE...         tokens and image bytes of files

use reference::generate::{program, render, Random};
use std::time::Instant;
use tests::{
    arm, needed_words, plain, plain_walk, proved, second, stack, Translation, Translator, Walker, CODE_BYTES,
    TABLE_WORDS,
};

fn main() {
    let arguments: Vec<String> = std::env::args().skip(1).collect();
    let arguments: Vec<&str> = arguments.iter().map(String::as_str).collect();
    match arguments[..] {
        ["source", tokens, kind] => print!("{}", source(tokens.parse().expect("a number"), kind)),
        ["translate", file] => {
            let (got, _) = translate(&read(file));
            println!("{} {} {} {}", got.status, got.tokens, got.rows, got.code);
        }
        ["stack", ref files @ ..] => files.iter().for_each(|file| {
            let source = read(file);
            let status = translate(&source).0.status;
            println!("| {} | {status} | {} |", name(file), stack::taken(&[source])[0]);
        }),
        ["run", file] => run(file),
        ["speed", ref files @ ..] => speed(files),
        ["walk", ref files @ ..] => walk(files),
        ["translation", ref files @ ..] => translation(files),
        ["bytes", ref files @ ..] => files.iter().for_each(|file| bytes(file)),
        _ => panic!("measure source|translate|stack|run|speed|walk|translation|bytes"),
    }
}

fn name(file: &str) -> &str {
    file.rsplit('/').next().unwrap_or(file)
}

fn read(file: &str) -> Vec<u8> {
    std::fs::read(file).unwrap_or_else(|error| panic!("{file}: {error}"))
}

fn translate(source: &[u8]) -> (Translation, Vec<u8>) {
    let (got, _, code) = translate_whole(source);
    (got, code)
}

/// The answer, the table's rows and the image.
fn translate_whole(source: &[u8]) -> (Translation, Vec<u32>, Vec<u8>) {
    let (mut table, mut code) = (vec![0; TABLE_WORDS], vec![0; CODE_BYTES]);
    let got = proved::translate(source, &mut table, &mut code);
    table.truncate(4 * got.rows as usize);
    code.truncate(got.code as usize);
    (got, table, code)
}

/// A source of exactly so many tokens. `names`: as many declarations as fit half of it, each used at its end;
/// `words`: choices, ten of eleven tokens reserved words; `list`: assignments in braces; `random`: a generated program, comments before it to make up the number.
fn source(tokens: usize, kind: &str) -> String {
    let counted = |text: &[u8]| reference::tokens::tokens(text).expect("tokens").len();
    let mut text = match kind {
        "names" => {
            // 2 braces, 3 tokens a declaration, 6 an assignment with its `;`, one `;` fewer
            let count = (tokens - 1) / 9;
            let declared: String = (0..count).map(|n| format!("var name{n};")).collect();
            let uses: Vec<String> =
                (0..count).map(|n| format!("name{n}:=name{}+{n}", count - 1 - n)).collect();
            format!("{declared}{{{}}}", uses.join(";")).into_bytes()
        }
        "words" => {
            // 2 braces, 11 a choice with its `;`, one `;` fewer
            let count = (tokens - 1) / 11;
            let choice = vec!["if not true then stop else while false do skip"; count].join(";");
            format!("{{{choice}}}").into_bytes()
        }
        "list" => {
            // 9 tokens of declarations, 2 braces, 15 an assignment with its `;`, one `;` fewer
            let count = (tokens - 10) / 15;
            let assign = vec!["v[x and 7]:=x+(x<<3)"; count].join(";");
            format!("var x;array v[8];{{{assign}}}").into_bytes()
        }
        "random" => {
            let mut random = Random::new(tokens as u64);
            let mut made = Vec::new();
            while counted(&made) < tokens * 9 / 10 {
                let pieces = program(&mut random, tokens.min(1_000));
                made = render(&mut random, &pieces);
            }
            made
        }
        _ => panic!("names, words, list or random"),
    };
    let missing = tokens - counted(&text);
    text.splice(0..0, "||".repeat(missing).into_bytes());
    assert_eq!(counted(&text), tokens);
    text.into_iter().map(char::from).map(|c| if c.is_ascii() { c } else { '?' }).collect()
}

/// A run of one of the machines: status, number and count.
type Run = fn(&mut arm::State, &[u8], &mut [u32], u64) -> (u32, u32, u64);

/// A run of each machine over the same program.
fn run(file: &str) {
    const LIMIT: u64 = 100_000;
    let (got, image) = translate(&read(file));
    assert_eq!(got.status, 0, "{file}");
    for run in [proved::run as Run, plain::run] {
        let mut memory = vec![0; needed_words(got.data, got.depth)];
        let (_, mut state) = proved::start(&image, &memory, got.data, got.depth);
        assert_eq!(run(&mut state, &image, &mut memory, LIMIT), (0, 0, LIMIT), "{file}");
    }
}

/// How long `gutilamboy_run` takes beside the plain interpreter: ten million instructions of each program, the best of
/// five runs by turns, memory cleared before each.
fn speed(files: &[&str]) {
    const LIMIT: u64 = 10_000_000;
    println!("| program | proved machine, ns an instruction | plain interpreter | times as long |");
    println!("|---|---|---|---|");
    for file in files {
        let (got, image) = translate(&read(file));
        assert_eq!(got.status, 0, "{file}");
        let mut best = [f64::MAX; 2];
        for _ in 0..5 {
            let mut ends = Vec::new();
            for (run, best) in [proved::run as Run, plain::run].into_iter().zip(&mut best) {
                let mut memory = vec![0; needed_words(got.data, got.depth)];
                let (_, mut state) = proved::start(&image, &memory, got.data, got.depth);
                let begun = Instant::now();
                let answer = run(&mut state, &image, &mut memory, LIMIT);
                *best = best.min(begun.elapsed().as_secs_f64() * 1e9 / LIMIT as f64);
                ends.push((answer, state, memory));
            }
            assert_eq!(ends[0], ends[1], "{file}");
            assert_eq!(ends[0].0, (0, 0, LIMIT), "{file}");
        }
        let [proved, plain] = best;
        println!("| {} | {proved:.2} | {plain:.2} | {:.2} |", name(file), proved / plain);
    }
}

/// Seconds of a walk to the limit, over cleared words, no entry of its list asked for.
fn walked(walker: Walker, table: &[u32], data: u32, limit: u64) -> f64 {
    let mut memory = vec![0; data as usize];
    let begun = Instant::now();
    let got = walker(table, &mut memory, limit, 0, &mut []);
    let seconds = begun.elapsed().as_secs_f64();
    assert_eq!((got.status, got.number, got.steps), (0, 0, limit));
    seconds
}

/// Seconds of the proved machine's run to the limit, over cleared words.
fn ran(image: &[u8], got: Translation, limit: u64) -> f64 {
    let mut memory = vec![0; needed_words(got.data, got.depth)];
    let (_, mut state) = proved::start(image, &memory, got.data, got.depth);
    let begun = Instant::now();
    let answer = proved::run(&mut state, image, &mut memory, limit);
    let seconds = begun.elapsed().as_secs_f64();
    assert_eq!(answer, (0, 0, limit));
    seconds
}

/// Rows a second of the proved and of the plain walker, instructions a second of the proved machine on the same
/// program's image: ten million each, the best of five by turns.
fn walk(files: &[&str]) {
    const LIMIT: u64 = 10_000_000;
    println!("| program | proved walker, million rows a second | plain walker | times as long | proved machine, million instructions a second |");
    println!("|---|---|---|---|---|");
    for file in files {
        let (got, table, image) = translate_whole(&read(file));
        assert_eq!(got.status, 0, "{file}");
        let mut best = [f64::MAX; 3];
        for _ in 0..5 {
            let seconds = [
                walked(proved::walk, &table, got.data, LIMIT),
                walked(plain_walk::walk, &table, got.data, LIMIT),
                ran(&image, got, LIMIT),
            ];
            best.iter_mut().zip(seconds).for_each(|(best, seconds)| *best = best.min(seconds));
        }
        let [mine, plain, machine] = best.map(|seconds| LIMIT as f64 / seconds / 1e6);
        println!("| {} | {mine:.0} | {plain:.0} | {:.2} | {machine:.0} |", name(file), plain / mine);
    }
}

/// How long a translation takes beside the second translator's: the best of many calls by turns.
fn translation(files: &[&str]) {
    println!("| source | proved translation, µs | second translation | times as long |");
    println!("|---|---|---|---|");
    for file in files {
        let source = read(file);
        let mut best = [f64::MAX; 2];
        for _ in 0..200 {
            for (translate, best) in
                [proved::translate as Translator, second::translate].into_iter().zip(&mut best)
            {
                let (mut table, mut code) = (vec![0; TABLE_WORDS], vec![0; CODE_BYTES]);
                let begun = Instant::now();
                translate(&source, &mut table, &mut code);
                *best = best.min(begun.elapsed().as_secs_f64() * 1e6);
            }
        }
        let [proved, second] = best;
        println!("| {} | {proved:.1} | {second:.1} | {:.2} |", name(file), proved / second);
    }
}

fn bytes(file: &str) {
    let (got, _) = translate(&read(file));
    let name = name(file);
    if got.status != 0 {
        println!("| {name} | refused: {} at {} | | |", got.status, got.place);
        return;
    }
    let each = got.code as f64 / got.tokens as f64;
    println!("| {name} | {} | {} | {each:.1} |", got.tokens, got.code);
}
