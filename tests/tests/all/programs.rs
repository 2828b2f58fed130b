//! The built programs (`crates/program_NAME/out`), run as a user runs them, against the second rendering:
//! every byte of standard output. Standard error stays empty, the exit status is 0.

use crate::{built, by_status, print, repository, scratch};
use reference::generate::{edges, raw_bytes, source, valid_source, Random};
use std::cell::Cell;
use std::collections::BTreeSet;
use std::fs::File;
use std::io::Write;
use std::os::fd::OwnedFd;
use std::os::unix::net::UnixDatagram;
use std::path::PathBuf;
use std::process::{Child, Command, Output, Stdio};
use tests::rendering::{self, Rendering};
use tests::Translation;

/// A built program.
struct Built {
    program: PathBuf,
    /// The file that it reads its source from.
    input: PathBuf,
    /// How many sources it was given.
    sources: Cell<usize>,
}

impl Built {
    fn new(name: &str) -> Built {
        let program = built(&repository(), name);
        assert!(program.exists(), "{} is not built: rt run in its crate", program.display());
        Built { program, input: scratch("input").join("source.x"), sources: Cell::new(0) }
    }

    fn start(&self, input: Stdio) -> Child {
        let mut command = Command::new(&self.program);
        command.stdin(input).stdout(Stdio::piped()).stderr(Stdio::piped());
        command.spawn().expect("the program starts")
    }

    fn fed_by_file(&self, source: &[u8]) -> Output {
        std::fs::write(&self.input, source).expect("a file");
        let file = File::open(&self.input).expect("the file");
        self.start(file.into()).wait_with_output().expect("the program ends")
    }

    /// Through a pipe, so many bytes at a time.
    fn fed_by_pipe(&self, source: &[u8], piece: usize) -> Output {
        let mut child = self.start(Stdio::piped());
        let mut input = child.stdin.take().expect("a pipe");
        let feed = move || {
            // a program that has seen enough may end before the source does
            let _ = source.chunks(piece).try_for_each(|piece| input.write_all(piece));
        };
        fed(child, feed)
    }

    /// Through a socket that gives a reader one piece at a time, however much it asks for. An empty piece is the end.
    fn fed_in_pieces(&self, source: &[u8], piece: usize) -> Output {
        let (ours, theirs) = UnixDatagram::pair().expect("two ends");
        let child = self.start(OwnedFd::from(theirs).into());
        let feed = move || {
            let _ = source.chunks(piece).chain([&[][..]]).try_for_each(|piece| ours.send(piece).map(|_| ()));
        };
        fed(child, feed)
    }

    /// What it writes for a source: the same from a file and, by turns, through a pipe or a socket.
    fn writes(&self, source: &[u8]) -> Vec<u8> {
        let piece = 1 + source.len() % 61;
        let count = self.sources.replace(self.sources.get() + 1);
        let in_pieces = if count % 2 == 1 { Built::fed_in_pieces } else { Built::fed_by_pipe };
        let answers = [self.fed_by_file(source), in_pieces(self, source, piece)];
        for answer in &answers {
            assert!(answer.status.success(), "{} of {}", answer.status, shown(source));
            assert!(answer.stderr.is_empty(), "standard error of {}: {:?}", shown(source), answer.stderr);
        }
        let [whole, pieces] = answers.map(|answer| answer.stdout);
        assert!(whole == pieces, "{} is otherwise from a file than in pieces", shown(source));
        whole
    }
}

/// Waits for a program's end while its input is fed.
fn fed(child: Child, feed: impl FnOnce() + Send) -> Output {
    std::thread::scope(|scope| {
        scope.spawn(feed);
        child.wait_with_output().expect("the program ends")
    })
}

/// The sources in examples/.
fn examples() -> Vec<Vec<u8>> {
    let entries = std::fs::read_dir(repository().join("examples")).expect("examples");
    let mut paths: Vec<PathBuf> = entries.map(|entry| entry.expect("a file").path()).collect();
    paths.retain(|path| path.extension().is_some_and(|extension| extension == "x"));
    paths.sort();
    assert!(paths.len() >= 8, "{paths:?}");
    paths.into_iter().map(|path| std::fs::read(path).expect("an example")).collect()
}

/// Sources of these lengths exactly: valid ones but for their length, and invalid ones.
fn sized(random: &mut Random) -> Vec<Vec<u8>> {
    let mut sources = Vec::new();
    for length in [16_383, 16_384, 16_385, 1_000_000] {
        sources.extend([
            (" ".repeat(length - 4) + "skip").into_bytes(),
            ("stop".to_string() + &"\n".repeat(length - 4)).into_bytes(),
            format!("|{}|var x; x := 1", "c".repeat(length - 15)).into_bytes(),
            "$".repeat(length).into_bytes(),
            "n".repeat(length).into_bytes(),
            vec![0; length],
            vec![0xff; length],
            raw_bytes(random, length),
        ]);
        assert!(sources.iter().rev().take(8).all(|source| source.len() == length));
    }
    sources
}

fn sources() -> Vec<Vec<u8>> {
    let mut random = Random::new(21);
    let mut sources = vec![vec![]];
    sources.extend(examples());
    sources.extend(sized(&mut random));
    sources.extend((0..=u8::MAX).map(|byte| vec![byte]));
    // 13 and 14 can't show: the programs' own buffers are long enough for any source
    sources.extend(edges().into_iter().map(|edge| edge.source));
    sources.extend((0..800).map(|_| source(&mut random)));
    sources.extend((0..500).map(|_| valid_source(&mut random)));
    sources
}

/// What a comparison went through.
#[derive(Default)]
struct Seen {
    sources: usize,
    bytes: usize,
    statuses: [u64; 15],
    /// Accepted sources of which no two of the five counts are equal.
    all_differ: usize,
}

/// A program against a rendering, on each of the sources.
fn compare(program: impl Fn(&[u8]) -> Vec<u8>, render: Rendering, sources: &[Vec<u8>]) -> Seen {
    let mut seen = Seen::default();
    for source in sources {
        let (got, want) = (program(source), render(source));
        if got != want {
            panic!("{}", difference(source, &got, &want));
        }
        let Translation { status, tokens, rows, data, depth, code, .. } = rendering::translated(source).0;
        seen.sources += 1;
        seen.bytes += want.len();
        seen.statuses[status as usize] += 1;
        seen.all_differ += usize::from(BTreeSet::from([tokens, rows, data, depth, code]).len() == 5);
    }
    seen
}

/// The first line that differs, for the eye.
fn difference(source: &[u8], got: &[u8], want: &[u8]) -> String {
    let (got, want) = (String::from_utf8_lossy(got), String::from_utf8_lossy(want));
    let place = got.lines().zip(want.lines()).take_while(|(got, want)| got == want).count();
    let line = |text: &str| text.lines().nth(place).unwrap_or("(end)").to_string();
    format!("{}, line {place}: got {:?}, want {:?}", shown(source), line(&got), line(&want))
}

/// A source, or its beginning.
fn shown(source: &[u8]) -> String {
    let beginning = &source[..source.len().min(400)];
    format!("{:?} ({} bytes)", String::from_utf8_lossy(beginning), source.len())
}

/// Every status that can show was seen, and enough accepted sources that tell the counts apart.
fn enough(what: &str, seen: &Seen) {
    assert!(seen.sources >= 2_000, "{} sources", seen.sources);
    assert!(seen.statuses[..=12].iter().all(|&count| count > 0), "{:?}", seen.statuses);
    assert_eq!(seen.statuses[13..], [0, 0]);
    assert!(seen.all_differ >= 500, "{}", seen.all_differ);
    print(&format!(
        "{what}: {} sources (by status {}), {} with five different counts; {} bytes",
        seen.sources,
        by_status(&seen.statuses),
        seen.all_differ,
        seen.bytes
    ));
}

#[test]
fn the_report() {
    let built = Built::new("report");
    let seen = compare(|source| built.writes(source), rendering::report, &sources());
    enough("report", &seen);
}

#[test]
fn the_listing() {
    let built = Built::new("listing");
    let seen = compare(|source| built.writes(source), rendering::listing, &sources());
    enough("listing", &seen);
}

/// Rules as they go wrong: each with the number that it is refused by.
#[rustfmt::skip]
const MISTAKES: [(u32, &str); 37] = [
    (6, "var x; if x = 1 then x := 2"), (6, "var x; { if x = 1 then x := 2; skip }"), (6, "var a; a := a - 1 - 2"),
    (6, "var a; a = 1"), (6, "var a; { skip; a = 1 }"), (6, "var v; |a| v = 1"), (6, "array v [ 2 ]; v [ 0 ] = 1"),
    (6, "var a; a := a = 1 = 2"), (6, "var a; a := 1 = a = 2"), (6, "var a; a := (a) = 1 = 2"), (6, "var a; a == 1"), (6, "var a; a := a == 1"),
    (6, "= 1"), (6, "* 2"), (6, "var a, b; skip"), (6, "VAR a; skip"), (6, "skip;"), (6, "{ skip; }"), (6, "{ skip; skip;\n"),
    (6, "var a; a := 1; a := 2"), (6, "var a; { a := 1 a := 2 }"), (6, "skip |end|"), (6, "val a = -1; skip"),
    (6, "var a; a := 1 + -1"), (6, "{ var a; skip }"), (6, "proc p is skip; p"), (6, "}"), (6, "var a; a"), (6, "var a;\n\n"),
    (6, "a b"), (6, "var a; a := (1 + 2"), (2, "var a; a := 1 / 2"), (2, "var a; a := 'ab'"), (2, "skip |open"),
    (2, "var a; if a != 1 then skip else skip"), (8, "var a; b := 1"), (10, "val a = 1; a := 2"),
];

/// Sources whose places and lines are hard to show.
fn awkward() -> Vec<Vec<u8>> {
    let mut sources: Vec<Vec<u8>> = MISTAKES.iter().map(|(_, source)| source.as_bytes().to_vec()).collect();
    // other ends of lines, and what a terminal can't show
    for (_, source) in MISTAKES {
        sources.push(source.replace(' ', "\r\n").into_bytes());
        sources.push(source.replace(' ', "\t").into_bytes());
        sources.push(format!("\n\r\n|\u{e9}\u{0}\u{7f}|{source}").into_bytes());
        sources.push(format!("\n\n{source} \t\r\n \n").into_bytes());
    }
    // a place in each column about where lines are cut, with nothing or much behind it
    for before in (0..4).chain(30..40).chain(68..80).chain(100..112).chain([300, 16_300]) {
        for after in [0, 1, 35, 36, 37, 71, 72, 73, 400] {
            let mut source = vec![b'\n'; before % 3];
            source.extend(vec![b' '; before]);
            source.push(b'$');
            source.extend((0..after).map(|i| b"\t\r\x00\x1f ~\x7f\x80\xffa"[i % 10]));
            source.extend(if before % 2 == 0 { &b"\nskip"[..] } else { b"" });
            source.truncate(16_384);
            sources.push(source);
        }
    }
    // the end of the source as the place, on a line of any length
    for length in [0, 1, 71, 72, 73, 74, 107, 108, 109, 16_383, 16_384] {
        sources.push(vec![b' '; length]);
        sources.push(vec![b'\n'; length]);
        sources.push([vec![b' '; length.saturating_sub(1)], vec![b'\n'; length.min(1)]].concat());
    }
    // as many names as there may be, of 32 bytes, and as many words
    let name = |i: usize| format!("n{i:031}");
    let vars: String = (0..256).map(|i| format!("var {};", name(i))).collect();
    let vals: String = (0..200).map(|i| format!("val {} = #80000000;", name(i))).collect();
    sources.extend([format!("{vars}skip").into_bytes(), format!("{vals}skip").into_bytes()]);
    sources.push(format!("val a = 8192; array {} [ a ]; skip", name(0)).into_bytes());
    sources.push(b"array a [ 1 ]; array b [ 8190 ]; var z; skip".to_vec());
    sources
}

/// Every rule that goes wrong is refused by the number that is expected.
#[test]
fn mistakes_have_their_numbers() {
    for (number, source) in MISTAKES {
        assert_eq!(rendering::translated(source.as_bytes()).0.status, number, "{source}");
    }
}

#[test]
fn the_explanation() {
    let built = Built::new("explain");
    let sources = [sources(), awkward()].concat();
    let seen = compare(|source| built.writes(source), rendering::explain, &sources);
    enough("explain", &seen);
    // every line that 6 can end with is among them
    let last = |source: &Vec<u8>| {
        let text = String::from_utf8(rendering::explain(source)).expect("ASCII");
        text.lines().skip_while(|line| !line.starts_with("6: ")).nth(1).map(String::from)
    };
    let hints: BTreeSet<Option<String>> = sources.iter().map(last).collect();
    assert_eq!(hints.len(), 15, "{hints:?}");
}

/// The examples of docs/EXPLAIN.md: a source, and what is written for it.
#[test]
fn documented_explanations() {
    let document = std::fs::read_to_string(repository().join("docs/EXPLAIN.md")).expect("the document");
    let blocks = |opening: &str| -> Vec<String> {
        let parts = document.split(opening).skip(1);
        parts.map(|part| part.split_once("```").expect("an end").0.to_string()).collect()
    };
    let (sources, texts) = (blocks("```x\n"), blocks("```text\n"));
    assert!(sources.len() >= 2 && sources.len() == texts.len(), "{} and {}", sources.len(), texts.len());
    let built = Built::new("explain");
    for (source, text) in sources.iter().zip(&texts) {
        assert_eq!(&String::from_utf8_lossy(&rendering::explain(source.as_bytes())), text);
        assert_eq!(&String::from_utf8_lossy(&built.writes(source.as_bytes())), text);
    }
}

/// Document 01's own output, and the stored listing.
#[test]
fn stored_outputs() {
    let document = "status=6\nplace=4\ntokens=0\nrows=0\ndata=0\ndepth=0\ncode=0\n";
    assert_eq!(String::from_utf8_lossy(&rendering::report(b"skip;")), document);
    assert_eq!(Built::new("report").writes(b"skip;"), document.as_bytes());
    let read = |name: &str| std::fs::read(repository().join("examples").join(name)).expect(name);
    let (source, stored) = (read("empty_pallet.x"), read("empty_pallet.listing"));
    assert!(rendering::listing(&source) == stored, "the second listing");
    assert!(Built::new("listing").writes(&source) == stored, "the program's listing");
}

/// The mnemonics of the rules' instructions are all compared; those of the others can't show in an image.
#[test]
fn mnemonics_of_images() {
    let listings = sources().into_iter().filter(|source| rendering::translated(source).0.status == 0);
    let mut seen = BTreeSet::new();
    for source in listings {
        let listing = String::from_utf8(rendering::listing(&source)).expect("ASCII");
        seen.extend(listing.lines().filter_map(|line| line.split(' ').rev().nth(1)).map(String::from));
    }
    let want = "ADDI ADDR ANDR BEQ BL BNE DECSP INCSP LDR LDRSPI MOVI MUL MVNR NEGR ORR SHL SHLI SHR SHRI STR STRSPI \
        SUBI SUBR SVC XORR";
    assert_eq!(seen.iter().map(String::as_str).collect::<Vec<_>>().join(" "), want);
    print(&format!("listing: {} mnemonics of 34 are in the listings", seen.len()));
}

/// The comparison itself: these in a program's place are noticed.
#[test]
fn wrong_renderings_are_noticed() {
    fn report_of(change: fn(Translation) -> Translation) -> impl Fn(&[u8]) -> Vec<u8> {
        move |source| rendering::lines(&change(rendering::translated(source).0)).into_bytes()
    }
    fn exchanged(source: &[u8]) -> Vec<u8> {
        let text = String::from_utf8(rendering::listing(source)).expect("ASCII");
        text.replace(" SHL ", " ? ").replace(" SHR ", " SHL ").replace(" ? ", " SHR ").into_bytes()
    }
    fn cut(source: &[u8]) -> Vec<u8> {
        let mut text = rendering::listing(source);
        text.truncate(256);
        text
    }
    fn short(source: &[u8]) -> Vec<u8> {
        rendering::report(&source[..source.len().min(16_384)])
    }
    fn explained(change: fn(String) -> String) -> impl Fn(&[u8]) -> Vec<u8> {
        move |source| change(String::from_utf8(rendering::explain(source)).expect("ASCII")).into_bytes()
    }
    let sources = sources();
    let passes = |program: &dyn Fn(&[u8]) -> Vec<u8>, render| {
        std::panic::catch_unwind(std::panic::AssertUnwindSafe(|| compare(program, render, &sources))).is_ok()
    };
    assert!(passes(&rendering::report, rendering::report));
    assert!(passes(&rendering::listing, rendering::listing));
    assert!(passes(&rendering::explain, rendering::explain));
    let tokens_and_rows = report_of(|t| Translation { tokens: t.rows, rows: t.tokens, ..t });
    let data_and_depth = report_of(|t| Translation { data: t.depth, depth: t.data, ..t });
    assert!(!passes(&tokens_and_rows, rendering::report), "tokens= and rows= exchanged");
    assert!(!passes(&data_and_depth, rendering::report), "data= and depth= exchanged");
    assert!(!passes(&short, rendering::report), "16,384 bytes read");
    assert!(!passes(&exchanged, rendering::listing), "SHL and SHR exchanged");
    assert!(!passes(&cut, rendering::listing), "cut after 256 bytes");
    let caret = explained(|text| text.replacen("^\n", " ^\n", 1));
    let column = explained(|text| text.replacen("column 1\n", "column 0\n", 1));
    let names = explained(|text| text.replace("array", "var  "));
    assert!(!passes(&caret, rendering::explain), "a caret one column off");
    assert!(!passes(&column, rendering::explain), "columns from 0");
    assert!(!passes(&names, rendering::explain), "arrays as vars");
}
