//! Where reading or writing fails: the programs (`crates/program_NAME/out`) and their wrappers (`bin`) give no verdict after a
//! failed read, tell of it in one line on standard error that names the program, and write nothing more after a failed
//! write. A wrapper's exit status is then 1, and 0 on every source, refused ones too.

use crate::boundary::compiler;
use crate::{built, print, repository, scratch};
use std::fs::{create_dir_all, remove_file, write, File, OpenOptions};
use std::io::Write;
use std::os::fd::OwnedFd;
use std::os::unix::fs::symlink;
use std::os::unix::net::UnixStream;
use std::panic::{catch_unwind, AssertUnwindSafe};
use std::path::{Path, PathBuf};
use std::process::{Command, Output, Stdio};
use tests::rendering::{self, Rendering};

/// The programs, and what each writes for a source.
const PROGRAMS: [(&str, Rendering); 3] =
    [("report", rendering::report), ("listing", rendering::listing), ("explain", rendering::explain)];

/// The shells that may run a wrapper, those that are here.
fn shells() -> Vec<PathBuf> {
    let all = ["sh", "dash", "bash", "ksh", "mksh"].map(|name| Path::new("/bin").join(name));
    all.into_iter().filter(|shell| shell.exists()).collect()
}

/// A program or wrapper as it is called, and what it is held to.
struct Called {
    /// The program, or a shell and a wrapper for it to run.
    words: Vec<PathBuf>,
    /// The name that a failure's line has to have in it.
    name: &'static str,
    /// A file with an accepted source, and all that the program writes for it.
    source: PathBuf,
    whole: Vec<u8>,
    /// The exit status after a failure.
    failed: i32,
}

impl Called {
    fn new(words: Vec<PathBuf>, name: &'static str, failed: i32) -> Called {
        let source = repository().join("examples/empty_pallet.x");
        let (_, render) = PROGRAMS.into_iter().find(|(other, _)| *other == name).expect("a program");
        let whole = render(&std::fs::read(&source).expect("the example"));
        Called { words, name, source, whole, failed }
    }

    fn command(&self) -> Command {
        let mut command = Command::new(&self.words[0]);
        command.args(&self.words[1..]).stdin(File::open(&self.source).expect("the example"));
        command
    }

    /// By a shell, with something done before, and redirections.
    fn by_shell(&self, before: &str, redirections: &str) -> Command {
        let mut command = Command::new("sh");
        command.arg("-c").arg(format!(r#"{before} exec "$@" {redirections}"#)).arg("sh").args(&self.words);
        command.stdin(File::open(&self.source).expect("the example"));
        command
    }

    /// All is well: everything is written, nothing on standard error, and the exit status is 0.
    fn succeeds(&self, what: &str, command: &mut Command) {
        let output = command.output().expect("it starts");
        let shown = String::from_utf8_lossy(&output.stderr);
        assert_eq!((output.status.code(), &*shown), (Some(0), ""), "{:?}: {what}", self.words);
        assert!(output.stdout == self.whole, "{:?}: {what}: standard output", self.words);
    }

    /// A failure: one line on standard error, with the name in it, and the exit status.
    fn tells(&self, what: &str, output: &Output) {
        let line = String::from_utf8_lossy(&output.stderr);
        let told = line.ends_with('\n') && line.lines().count() == 1 && line.contains(self.name);
        assert!(told, "{:?}: {what}: standard error {line:?}", self.words);
        assert_eq!(output.status.code(), Some(self.failed), "{:?}: {what}: exit status", self.words);
    }

    /// After a failed read nothing is written.
    fn gives_no_verdict(&self, what: &str, command: &mut Command) {
        let output = command.output().expect("it starts");
        self.tells(what, &output);
        let text = String::from_utf8_lossy(&output.stdout);
        assert_eq!(text, "", "{:?}: {what}: standard output", self.words);
    }

    /// After a failed write nothing more is written: what was written before is a beginning.
    fn stops(&self, what: &str, command: &mut Command, written: impl Fn(&Output) -> Vec<u8>) {
        let output = command.output().expect("it starts");
        self.tells(what, &output);
        let written = written(&output);
        let beginning = written.len() < self.whole.len() && self.whole.starts_with(&written);
        let text = String::from_utf8_lossy(&written);
        assert!(beginning, "{:?}: {what}: standard output {text:?}", self.words);
    }

    fn failed_reads(&self) {
        let folder = File::open("/").expect("a folder");
        self.gives_no_verdict("a folder as input", self.command().stdin(folder));
        self.gives_no_verdict("closed input", &mut self.by_shell("", "<&-"));
        for beginning in [&b""[..], b"skip", &std::fs::read(&self.source).expect("the example")] {
            let what = format!("an input that breaks off after {} bytes", beginning.len());
            self.gives_no_verdict(&what, self.command().stdin(broken_off(beginning)));
        }
    }

    fn failed_writes(&self) {
        let nothing = |_: &Output| Vec::new();
        let full = OpenOptions::new().write(true).open("/dev/full").expect("/dev/full");
        self.stops("a full device", self.command().stdout(full), nothing);
        self.stops("closed output", &mut self.by_shell("", ">&-"), nothing);
        // no file may grow past so many blocks: a disk that is full, or gets full
        let file = scratch("disk").join("file");
        for blocks in 0..=self.whole.len() / 1_024 {
            let _ = remove_file(&file);
            let mut command = self.by_shell(&format!("trap '' XFSZ; ulimit -f {blocks};"), r#">"$FILE""#);
            let read = |_: &Output| std::fs::read(&file).expect("what was written");
            self.stops(&format!("a disk full after {blocks} blocks"), command.env("FILE", &file), read);
        }
    }

    /// A single write that fails, among others that don't; and writes of few bytes each.
    fn faulty_writes(&self, faulty: &Path) {
        let with = |piece: usize, fails: usize| {
            let mut command = self.command();
            command.env("LD_PRELOAD", faulty).env("FAULTY_PIECE", piece.to_string());
            command.env("FAULTY_WRITE", fails.to_string());
            command
        };
        for piece in [1, 3, 16, 1_000] {
            self.succeeds(&format!("writes of {piece} bytes"), &mut with(piece, 0));
        }
        for (piece, fails) in [(1_000, 1), (16, 1), (16, 2), (16, 4), (3, 5), (1, 7), (1, 20)] {
            let what = format!("write {fails} fails, of {piece} bytes each");
            self.stops(&what, &mut with(piece, fails), |output| output.stdout.clone());
        }
    }
}

/// An input that fails behind its beginning: the other end is closed with something unread, which the reader is told as
/// an error.
fn broken_off(beginning: &[u8]) -> Stdio {
    let (mut ours, mut theirs) = UnixStream::pair().expect("two ends");
    theirs.write_all(b"unread").expect("room");
    ours.write_all(beginning).expect("room");
    drop(ours);
    OwnedFd::from(theirs).into()
}

/// The library that makes writes fail.
fn faulty() -> PathBuf {
    let library = scratch("c").join("faulty.so");
    let source = repository().join("tests/c/faulty.c");
    let options = ["-O1", "-shared", "-fPIC", "-o"].map(PathBuf::from);
    compiler("cc", &[&options[..], &[library.clone(), source]].concat());
    library
}

/// A program that stands in for another, right or wrong in one way.
fn stub(program: &Path, called: &Called, wrong: &str) {
    let define = |name: &str, text: &str| PathBuf::from(format!("-D{name}={text}"));
    let output = format!("{:?}", String::from_utf8_lossy(&called.whole));
    let mut words = vec![define("NAME", &format!("{:?}", called.name)), define("OUTPUT", &output)];
    words.extend([
        define("WRONG", wrong),
        "-o".into(),
        program.to_path_buf(),
        repository().join("tests/c/stub.c"),
    ]);
    compiler("cc", &words);
}

/// Built programs, and the wrappers with them.
#[test]
fn failures_are_told() {
    // This needs programs that tell of failures on standard error; earlier ones took a failed read for the source's end
    // and went on after a failed write.
    let faulty = faulty();
    for (name, _) in PROGRAMS {
        let program = Called::new(vec![built(&repository(), name)], name, 0);
        program.failed_reads();
        program.failed_writes();
        program.faulty_writes(&faulty);
        let wrapper = Called::new(vec![repository().join("bin").join(name)], name, 1);
        wrapper.failed_reads();
        wrapper.failed_writes();
    }
    print("failures: told by both programs and their wrappers");
}

/// The checks themselves: a program that tells of failures passes them, and wrong ones don't.
#[test]
fn wrong_tellers_are_noticed() {
    let faulty = faulty();
    for (name, _) in PROGRAMS {
        let passes = |wrong: &str| {
            let folder = scratch(&format!("stub-{wrong}"));
            let called = Called::new(vec![folder.join(name)], name, 0);
            stub(&folder.join(called.name), &called, wrong);
            let checks = || {
                called.failed_reads();
                called.failed_writes();
                called.faulty_writes(&faulty);
            };
            catch_unwind(AssertUnwindSafe(checks)).is_ok()
        };
        assert!(passes("RIGHT"));
        for wrong in ["SILENT", "NAMELESS", "TWICE", "VERDICT", "GOES_ON"] {
            assert!(!passes(wrong), "{wrong}");
        }
    }
}

/// A folder like the repository's, with the wrapper in it.
fn like_the_repository(folder: &Path, name: &str) -> PathBuf {
    create_dir_all(built(folder, name).parent().expect("a folder")).expect("a folder");
    create_dir_all(folder.join("bin")).expect("a folder");
    let wrapper = folder.join("bin").join(name);
    let copied = Command::new("cp").arg(repository().join("bin").join(name)).arg(&wrapper).status();
    assert!(copied.expect("cp").success());
    wrapper
}

/// Puts a script in a program's place. Another process writes it, since what this one has open for writing, a child of
/// another test may have too, and then it can't be run.
fn script(folder: &Path, name: &str, text: &str) {
    let file = built(folder, name);
    let writer = r##"rm -f "$0"; printf '#!/bin/sh\n%s\n' "$1" >"$0" && chmod 755 "$0""##;
    let written = Command::new("sh").arg("-c").arg(writer).arg(&file).arg(text).status();
    assert!(written.expect("sh").success());
}

/// The wrappers with the built programs: what these write, and exit status 0, for accepted and refused sources.
#[test]
fn wrappers_pass_on() {
    let mut count = 0;
    for (name, render) in PROGRAMS {
        let wrapper = repository().join("bin").join(name);
        for source in ["empty_pallet", "count", "semicolon", "undeclared"] {
            let source = repository().join("examples").join(source).with_extension("x");
            for shell in shells() {
                let mut called = Called::new(vec![shell, wrapper.clone()], name, 1);
                called.whole = render(&std::fs::read(&source).expect("the example"));
                called.source = source.clone();
                called.succeeds("a source", &mut called.command());
                called.succeeds("closed standard error", &mut called.by_shell("", "2>&-"));
                count += 1;
            }
        }
        // a reader that is gone ends the program by SIGPIPE: 128 + 13
        let called = Called::new(vec![wrapper.clone()], name, 128 + 13);
        let mut command = called.command();
        let mut child = command.stdin(Stdio::piped()).stdout(Stdio::piped()).spawn().expect("it starts");
        drop(child.stdout.take());
        drop(child.stdin.take());
        assert_eq!(child.wait().expect("it ends").code(), Some(called.failed));
    }
    print(&format!("wrappers: {count} sources and shells, among {:?}", shells()));
}

/// The wrappers with stubs in the programs' place, in folders of their own.
#[test]
fn wrappers_tell() {
    for (name, _) in PROGRAMS {
        let folder = scratch("a wrapper's folder");
        let wrapper = like_the_repository(&folder, name);
        let called = Called::new(vec![wrapper.clone()], name, 1);
        stub(&built(&folder, name), &called, "RIGHT");
        for shell in shells() {
            let called = Called::new(vec![shell, wrapper.clone()], name, 1);
            called.succeeds("a source", &mut called.command());
            called.failed_reads();
            called.failed_writes();
            let silent = called.by_shell("", "<&- 2>&-").output().expect("it starts");
            assert_eq!((silent.status.code(), silent.stdout.len()), (Some(1), 0), "closed standard error");
        }
        other_programs(&folder, &called);
        other_places(&folder, &called);
        not_built(&folder, name);
    }
}

/// Whatever a program does, its wrapper passes on: input and output, standard error, and the exit status.
fn other_programs(folder: &Path, called: &Called) {
    let cases = [
        ("exec cat", Some(0), ""),
        ("exit 3", Some(3), ""),
        ("echo told >&2", Some(1), "told\n"),
        ("echo told >&2; exit 3", Some(1), "told\n"),
        ("printf '\\n\\n' >&2", Some(1), "\n\n"),
        ("printf 'a\\n\\n b' >&2", Some(1), "a\n\n b"),
        ("kill -KILL $$", Some(128 + 9), ""),
        ("kill -SEGV $$", Some(128 + 11), ""),
    ];
    for (text, status, told) in cases {
        script(folder, called.name, text);
        let output = called.command().output().expect("it starts");
        // the shell may have a word of its own on a signal
        let said = String::from_utf8_lossy(&output.stderr);
        let as_told = if status > Some(128) { said.lines().count() <= 1 } else { said == told };
        assert_eq!((output.status.code(), as_told), (status, true), "{text}: {said:?}");
    }
    // every byte, both ways
    let bytes: Vec<u8> = (0..300_000u32).map(|number| (number ^ number >> 8) as u8).collect();
    let input = folder.join("bytes");
    write(&input, &bytes).expect("a file");
    script(folder, called.name, "exec cat");
    let passed = called.command().stdin(File::open(&input).expect("the file")).output().expect("it starts");
    assert!(passed.stdout == bytes, "bytes passed through");
}

/// A wrapper may be called from anywhere, and by links.
fn other_places(folder: &Path, called: &Called) {
    script(folder, called.name, "exec cat");
    let elsewhere = scratch("elsewhere");
    let link = elsewhere.join(called.name);
    let _ = remove_file(&link);
    symlink(&called.words[0], &link).expect("a link");
    let bin = folder.join("bin");
    let path = format!("{}:/usr/bin:/bin", bin.display());
    let here = Path::new(".").join(called.name);
    let called_in = |place: &Path, program: &Path, words: &[&str]| {
        let mut command = Command::new(program);
        command.args(words).current_dir(place).env("PATH", &path).env("CDPATH", "/:/usr");
        command.stdin(File::open(&called.source).expect("the example"));
        command.output().expect("it starts")
    };
    let (root, shell) = (Path::new("/"), Path::new("/bin/sh"));
    let ways = [
        ("its own folder", called_in(&bin, &here, &[])),
        ("the folder above", called_in(folder, &Path::new("bin").join(called.name), &[])),
        ("a shell", called_in(&bin, shell, &[called.name])),
        ("a shell and its path", called_in(root, shell, &["-c", called.name])),
        ("a link", called_in(root, &link, &[])),
        ("a link's folder", called_in(&elsewhere, &here, &[])),
    ];
    // `rt ci` refuses a repository with a link in it, and the next gate here would meet this one
    remove_file(&link).expect("the link");
    let source = std::fs::read(&called.source).expect("the example");
    for (what, output) in ways {
        assert!(output.stdout == source, "{what}: {}", String::from_utf8_lossy(&output.stderr));
        assert_eq!(output.status.code(), Some(0), "{what}");
    }
}

/// Where the program is not built, its wrapper says how to build it; and it takes no words.
fn not_built(folder: &Path, name: &str) {
    let program = built(folder, name);
    remove_file(&program).expect("the stub");
    let wrapper = folder.join("bin").join(name);
    let run = |words: &[&str]| {
        let output = Command::new(&wrapper).args(words).stdin(Stdio::null()).output().expect("it starts");
        assert!(output.stdout.is_empty());
        (output.status.code(), String::from_utf8_lossy(&output.stderr).into_owned())
    };
    let (status, said) = run(&[]);
    assert_eq!(status, Some(127));
    let place = folder.join(format!("crates/program_{name}"));
    assert!(said.contains("rt run") && said.contains(&*place.to_string_lossy()), "{said}");
    assert_eq!(run(&["a.x"]), (Some(2), format!("usage: {name} < source\n")));
}
