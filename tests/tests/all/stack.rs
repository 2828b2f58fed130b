//! The stack that a translation takes is bounded: 64 KB, whatever the source.

use reference::generate::{program, render, Random};
use tests::{proved, stack, CODE_BYTES, TABLE_WORDS};

const MOST: usize = 64 << 10;

fn nested(before: &str, core: &str, after: &str, depth: usize) -> String {
    format!("{}{core}{}", before.repeat(depth), after.repeat(depth))
}

/// The forms in which an expression, and in which a process, holds another.
const EXPRESSIONS: [(&str, &str); 8] = [
    ("(", ")"),
    ("v[", "]"),
    ("-(", ")"),
    ("1+(", ")"),
    ("(", ")+1"),
    ("1+2+(", ")"),
    ("1-v[", "]"),
    ("1+", ""),
];
const PROCESSES: [(&str, &str); 8] = [
    ("{", "}"),
    ("{skip;", "}"),
    ("{", ";skip}"),
    ("if x then ", " else skip"),
    ("if x then skip else ", ""),
    ("while x do ", ""),
    ("|c| ", ""),
    ("if x then { ", "} else {skip; skip}"),
];

fn sources() -> Vec<Vec<u8>> {
    let mut sources = Vec::new();
    for (open, close) in EXPRESSIONS {
        for (begin, end) in PROCESSES {
            // the deepest that is accepted lies between these
            for depth in [1, 10, 14, 15, 16, 20, 30, 31, 32, 33] {
                let inner = nested(open, "1", close, depth);
                for process in [
                    format!("x := {inner}"),
                    format!("v[{inner}] := {inner}"),
                    format!("while {inner} do skip"),
                ] {
                    for levels in [1, 15, 16, 30, 31, 32] {
                        sources.push(format!("var x; array v[2]; {}", nested(begin, &process, end, levels)));
                    }
                }
            }
        }
    }
    // far past any limit, whole and broken off
    for n in [100, 255, 300, 341, 400, 500, 509, 510, 511, 1000, 1016, 1023] {
        for (open, close) in EXPRESSIONS {
            sources.push(format!("var x; array v[2]; x := {}", nested(open, "1", close, n)));
            sources.push(format!("var x; array v[2]; x := {}", open.repeat(n)));
        }
        for (begin, end) in PROCESSES {
            sources.push(format!("var x; {}", nested(begin, "skip", end, n)));
            sources.push(format!("var x; {}", begin.repeat(n)));
        }
        sources.push(format!("{{{}skip}}", "skip;".repeat(n)));
        sources.push(format!("{{{}}}", "{};".repeat(n)));
        sources.push(format!("{}skip", "|c|".repeat(n)));
        sources.push(format!("{}skip", "var x;".repeat(n)));
        sources.push(format!("{}skip", (0..n).map(|i| format!("var x{i};")).collect::<String>()));
        sources.push(format!("{}skip", (0..n).map(|i| format!("val x{i}=1;")).collect::<String>()));
    }
    sources.into_iter().map(String::into_bytes).collect()
}

#[test]
fn every_source_takes_bounded_stack() {
    let mut sources = sources();
    let mut random = Random::new(64);
    for _ in 0..200 {
        let pieces = program(&mut random, 1_000);
        sources.push(render(&mut random, &pieces));
    }
    let taken = stack::taken(&sources);
    let (most, worst) = taken.iter().zip(&sources).max().expect("sources");
    let status = |source: &Vec<u8>| {
        proved::translate(source, &mut vec![0; TABLE_WORDS], &mut vec![0; CODE_BYTES]).status
    };
    let accepted = taken.iter().zip(&sources).filter(|(_, s)| status(s) == 0).map(|(n, _)| *n).max();
    let least = taken.iter().min().expect("sources");
    crate::print(&format!(
        "stack: {} sources, {least} to {most} bytes, at most {} where accepted",
        sources.len(),
        accepted.expect("some are accepted")
    ));
    assert!(*most <= MOST, "{most} bytes for {}", String::from_utf8_lossy(worst));
}
