//! The documents say what is there: docs/DEMANDS.md and docs/ARCHITECTURE.md name files, definitions and functions that
//! exist; README.md lists the files that the statements rest on, and no other; docs/DECISIONS.md lists the functions that have a `requires`;
//! links lead to files; edits that must fail are named in one style.

use crate::{print, repository};
use std::collections::btree_map::Entry;
use std::collections::{BTreeMap, BTreeSet};
use std::fs::{read_dir, read_to_string};
use std::path::{Path, PathBuf};

pub fn read(file: &str) -> String {
    read_to_string(repository().join(file)).unwrap_or_else(|error| panic!("{file}: {error}"))
}

/// The part of a document under a heading, up to the next one.
fn section<'d>(document: &'d str, heading: &str) -> &'d str {
    let (_, rest) = document.split_once(&format!("\n## {heading}\n")).unwrap_or_else(|| panic!("{heading}"));
    rest.split("\n## ").next().expect("a part")
}

/// The text before each part in backquotes, and the part.
pub fn quoted(text: &str) -> Vec<(&str, &str)> {
    let pieces: Vec<&str> = text.split('`').collect();
    pieces.chunks_exact(2).map(|pair| (pair[0], pair[1])).collect()
}

/// What the names of definitions are made of.
fn within_a_name(c: char) -> bool {
    c.is_alphanumeric() || "-_'".contains(c)
}

/// Whether the name stands in the text, as a word.
fn stands_in(text: &str, name: &str) -> bool {
    text.match_indices(name).any(|(at, _)| {
        !text[..at].ends_with(within_a_name) && !text[at + name.len()..].starts_with(within_a_name)
    })
}

pub fn no_complaints(complaints: &[String]) {
    assert!(complaints.is_empty(), "{}", complaints.join("\n"));
}

// ── docs/DEMANDS.md ──

/// The files that `crate/File` stands for: of definitions and laws, of laws alone, or both.
fn files_of(part: &str) -> Option<Vec<String>> {
    let (name, file) = part.split_once('/')?;
    let plain = |c: char| c.is_ascii_lowercase() || c == '_';
    let is_file =
        file.starts_with(|c: char| c.is_ascii_uppercase()) && file.chars().all(char::is_alphanumeric);
    let places = ["specs", "proofs"].map(|place| format!("crates/{name}/{place}/{file}.antt"));
    let there = places.into_iter().filter(|path| repository().join(path).exists());
    (name.chars().all(plain) && is_file).then(|| there.collect())
}

/// All files below a folder, but what `rt` keeps in `out/`.
pub fn files_below(folder: &Path) -> Vec<PathBuf> {
    let entries = read_dir(folder).unwrap_or_else(|error| panic!("{}: {error}", folder.display()));
    let mut paths: Vec<PathBuf> = entries.map(|entry| entry.expect("a file").path()).collect();
    paths.sort();
    paths.retain(|path| !path.ends_with("out"));
    paths.into_iter().flat_map(|path| if path.is_dir() { files_below(&path) } else { vec![path] }).collect()
}

/// Whether a file has a proof of a function, and not laws.
pub fn proves_a_function(path: &str) -> bool {
    path.split_once("/proofs/").is_some_and(|(_, rest)| rest.contains('/'))
}

/// Words of definitions, laws, code and tests, and names of files and folders.
fn known_words() -> BTreeSet<String> {
    let mut words = BTreeSet::new();
    let tests = ["tests/src", "tests/tests", "tests/reference/src", "tests/reference/tests"];
    for folder in tests.into_iter().chain(["crates"]) {
        for path in files_below(&repository().join(folder)) {
            let parts = path.iter().map(|part| part.to_string_lossy());
            words.extend(parts.map(|part| part.split('.').next().expect("a name").to_string()));
            let read = matches!(path.extension().and_then(|e| e.to_str()), Some("antt" | "rt" | "rs"));
            if read && !proves_a_function(&path.to_string_lossy()) {
                let text = read_to_string(&path).expect("a text");
                words.extend(text.split(|c| !within_a_name(c)).map(String::from));
            }
        }
    }
    words
}

/// Whether the word is the beginning of known ones (`x_`), or the end (`_bind`).
fn begins_or_ends(word: &str, known: &BTreeSet<String>) -> bool {
    word.ends_with('_') && known.iter().any(|name| name.starts_with(word))
        || word.starts_with('_') && known.iter().any(|name| name.ends_with(word))
}

#[test]
fn demands_name_what_exists() {
    let text = read("docs/DEMANDS.md") + &read("docs/ARCHITECTURE.md");
    let known = known_words();
    let (mut files, mut definitions, mut functions, mut words) = (0, 0, 0, 0);
    let mut missing = Vec::new();
    for line in text.lines() {
        let mut names: Vec<&str> = Vec::new();
        for (before, part) in quoted(line) {
            for word in part.split(['.', '/', ':']).filter(|word| word.chars().all(within_a_name)) {
                words += 1;
                if !known.contains(word) && !begins_or_ends(word, &known) {
                    missing.push(format!("{word} of {part} is nowhere"));
                }
            }
            if let Some(paths) = files_of(part) {
                if paths.is_empty() {
                    missing.push(format!("{part} is no file"));
                }
                let held: String = paths.iter().map(|path| read(path)).collect();
                files += 1;
                // `name`, `name` (`crate/File`)
                if before == " (" {
                    for name in names.iter().filter(|name| !name.contains(['/', '.', ' ', ':'])) {
                        if !stands_in(&held, name) {
                            missing.push(format!("{name} is not in {part}"));
                        }
                        definitions += 1;
                    }
                }
                names.clear();
                continue;
            }
            if let Some((name, function)) = part.split_once("::") {
                let code = repository().join(format!("crates/{name}/src/lib.rt"));
                if let Ok(code) = read_to_string(code) {
                    if !stands_in(&code, &format!("fn {function}")) {
                        missing.push(format!("{part} is no function"));
                    }
                    functions += 1;
                }
            }
            if before != ", " && before != " and " {
                names.clear();
            }
            names.push(part);
        }
    }
    no_complaints(&missing);
    assert!(definitions > 100, "the document was not read as it is written");
    print(&format!(
        "documents: {files} files, {definitions} definitions, {functions} functions, {words} words are there"
    ));
}

// ── README.md: what a reader must believe ──

/// The statements.
const STATEMENTS: [&str; 3] = [
    "crates/theorem_demands/specs/Demands.antt",
    "crates/theorem_demands/specs/ExportedDemand.antt",
    "crates/theorem_simulation/specs/Demand3.antt",
];

/// The repository's own file that a line uses, if it does: `use Rattle.CRATE.specs.File`, where CRATE is none of the
/// toolchain's. What the code declares (`declared`) is in no such file.
fn used(line: &str) -> Option<String> {
    let line = line.trim_start();
    let rest = line.strip_prefix("pub ").unwrap_or(line).strip_prefix("use Rattle.")?;
    let mut parts = rest.split(['.', ' ']);
    let name = parts.next().expect("a crate");
    if !repository().join("crates").join(name).is_dir() {
        return None;
    }
    assert_eq!(parts.next(), Some("specs"), "{line}");
    let file = parts.next().expect("a file");
    (file != "declared").then(|| format!("crates/{name}/specs/{file}.antt"))
}

/// The files that some files use, with those that these use, and so on; and their texts.
fn closure(files: &[&str]) -> BTreeMap<String, String> {
    let mut found = BTreeMap::new();
    let mut left: Vec<String> = files.iter().map(|file| file.to_string()).collect();
    while let Some(file) = left.pop() {
        if let Entry::Vacant(place) = found.entry(file) {
            let text = read(place.key());
            left.extend(text.lines().filter_map(used));
            place.insert(text);
        }
    }
    found
}

/// What is proved, not defined: the words of proofs outside comments.
fn proofs_in(text: &str) -> Vec<&str> {
    const PROOFS: [&str; 8] = ["refl", "omega", "rw", "simp", "cc", "absurd", "search", "grind"];
    let code = text.lines().map(|line| line.split("--").next().expect("a beginning"));
    code.filter(|line| PROOFS.iter().any(|word| stands_in(line, word))).collect()
}

/// What is stated, not defined: signatures outside records whose result is an equation, a comparison or falsehood. A
/// definition's result is a value or a type.
fn laws_in(text: &str) -> Vec<&str> {
    let code = text.lines().map(|line| line.split("--").next().expect("a beginning"));
    let (mut record, mut pushed) = (None, false);
    let mut laws = Vec::new();
    for line in code.filter(|line| !line.trim().is_empty()) {
        let words = line.trim_start();
        let indentation = line.len() - words.len();
        let declared = words.trim_start_matches("abbrev ").trim_start_matches("unfoldable ");
        let declared = declared.trim_start_matches("pub ");
        if record.is_some_and(|outside| indentation <= outside) {
            record = None;
        }
        if declared.starts_with("record ") && words.trim_end().ends_with(" where") {
            record = Some(indentation);
        }
        let signature = declared.split_once(" : ").filter(|(name, _)| !name.contains(char::is_whitespace));
        let signature = signature.map(|(_, result)| result).or_else(|| words.strip_prefix('→'));
        let result = signature.and_then(|result| result.rsplit('→').next()).unwrap_or("");
        // where the signature goes on, what ended the line before was a premise
        if pushed && words.starts_with('→') {
            laws.pop();
        }
        pushed = record.is_none() && [" ≡ ", " ≤ ", " < ", "⊥"].iter().any(|sign| result.contains(sign));
        if pushed {
            laws.push(line);
        }
    }
    laws
}

/// The table's rows: file and number of lines.
fn believed(readme: &str) -> Vec<(String, usize)> {
    let rows = section(readme, "What a reader must believe").lines().filter(|line| line.starts_with("| ["));
    let row = |line: &str| {
        let file = line.split(['(', ')']).nth(1).expect("a link");
        let lines = line.split('|').nth(2).expect("a number").trim();
        (file.to_string(), lines.parse().expect("a number"))
    };
    rows.map(row).collect()
}

/// What is wrong with a README that has this list.
fn wrongly_believed(readme: &str, rests_on: &BTreeMap<String, String>) -> Vec<String> {
    let listed = believed(readme);
    let mut wrong = Vec::new();
    let mut seen = BTreeSet::new();
    for (file, lines) in &listed {
        match rests_on.get(file) {
            None => wrong.push(format!("{file} is listed, nothing rests on it")),
            Some(text) if text.lines().count() != *lines => {
                wrong.push(format!("{file} has {} lines, not {lines}", text.lines().count()));
            }
            Some(_) => {}
        }
        if !seen.insert(file) {
            wrong.push(format!("{file} is listed twice"));
        }
    }
    wrong.extend(
        rests_on.keys().filter(|file| !seen.contains(file)).map(|file| format!("{file} is not listed")),
    );
    let total: usize = listed.iter().map(|(_, lines)| lines).sum();
    let sum = format!("{} files, {},{:03} lines", listed.len(), total / 1_000, total % 1_000);
    if !section(readme, "What a reader must believe").contains(&sum) {
        wrong.push(format!("they are {sum}"));
    }
    wrong
}

#[test]
fn what_a_reader_must_believe() {
    let readme = read("README.md");
    let rests_on = closure(&STATEMENTS);
    assert!(rests_on.len() > 30, "the statements were not read as they are written");
    no_complaints(&wrongly_believed(&readme, &rests_on));
    let more_than_defined = |(file, text): (&String, &String)| -> Vec<String> {
        let lines = proofs_in(text).into_iter().chain(laws_in(text));
        lines.map(|line| format!("{file} is not definitions alone: {line}")).collect()
    };
    no_complaints(&rests_on.iter().flat_map(more_than_defined).collect::<Vec<_>>());
    let lines: usize = rests_on.values().map(|text| text.lines().count()).sum();
    print(&format!("documents: the statements rest on {} files, {lines} lines, all listed", rests_on.len()));
}

/// The check itself: lists that are wrong in one place are noticed, and so are proofs.
#[test]
fn wrong_lists_are_noticed() {
    let readme = read("README.md");
    let rests_on = closure(&STATEMENTS);
    let row = |line: &&str| line.starts_with("| [") && line.contains("/arm_word/");
    let row = readme.lines().find(row).expect("a row").to_string() + "\n";
    for (old, new) in [
        (&*row, String::new()),
        (&*row, row.repeat(2)),
        (&*row, row.replace(" | ", " | 1")),
        ("crates/arm_word/specs/Word.antt", "crates/arm_word/specs/WordLaws.antt".to_string()),
        (" files, ", " files and ".to_string()),
    ] {
        assert!(readme.contains(old), "{old}");
        let wrong = readme.replacen(old, &new, 1);
        assert!(!wrongly_believed(&wrong, &rests_on).is_empty(), "{new:?} for {old:?}");
    }
    assert_eq!(proofs_in("a = refl"), ["a = refl"]);
    assert_eq!(proofs_in("a = b (omega arith) -- by arithmetic").len(), 1);
    assert!(proofs_in("a-refl = refls -- refl").is_empty());
    let law = "pub a : (n : ℕ) → n ≡ n";
    assert_eq!(laws_in(&format!("pub record R : Type 0 where\n  pub b : 1 ≡ 1\n{law}\na n = b n")), [law]);
    assert_eq!(laws_in("a : (n : ℕ) → 1 ≤ n\n    → n < 1 → ⊥").len(), 1);
    assert!(laws_in("pub P : ℕ → Type 0\nP n = (m : ℕ) × (n ≡ m)\nf : (n : ℕ) → n ≤ 1\n    → ℕ").is_empty());
    let code = "fn a()\n    requires { x }\n{\n}\npub fn b() {}\npub extern \"C\" fn c()\n    requires { x }\n{\n}\n";
    let told = functions("d", code).into_iter().map(|f| (f.name, f.public, f.exported, f.requires));
    let want = [("d::a", false, false, true), ("d::b", true, false, false), ("d::c", true, true, true)];
    assert!(told.eq(want.map(|(name, public, exported, requires)| (
        name.to_string(),
        public,
        exported,
        requires
    ))));
}

// ── docs/DECISIONS.md: functions with a `requires` ──

/// A function's name, with its crate, whether another crate or C can call it, and whether it has a `requires`.
struct Function {
    name: String,
    public: bool,
    exported: bool,
    requires: bool,
}

/// The functions of a file of code. A contract stands between the function's first line and its body.
fn functions(of: &str, code: &str) -> Vec<Function> {
    let mut found: Vec<Function> = Vec::new();
    for line in code.lines().map(str::trim_start).filter(|line| !line.starts_with("//")) {
        if let Some((before, after)) = line.split_once("fn ").filter(|(before, _)| is_head(before)) {
            let name = after.split(|c: char| !c.is_alphanumeric() && c != '_').next().expect("a name");
            let exported = before.contains("extern");
            found.push(Function {
                name: format!("{of}::{name}"),
                public: before.starts_with("pub"),
                exported,
                requires: false,
            });
        }
        if stands_in(line, "requires") {
            found.last_mut().expect("a function").requires = true;
        }
    }
    found
}

/// The public calls below the exported ones: these have no premise either.
const PUBLIC: [&str; 9] = [
    "translate_source::translate",
    "arm_encoding::encode",
    "arm_encoding::decode",
    "arm_machine::start",
    "arm_machine::step",
    "arm_machine::run",
    "text_report::report",
    "text_listing::listing",
    "text_explain::explain",
];

/// Whether what stands before `fn` makes it a function's first line.
fn is_head(before: &str) -> bool {
    before.split_whitespace().all(|word| ["pub", "const", "extern", "\"C\""].contains(&word))
}

#[test]
fn functions_with_a_requires() {
    let document = read("docs/DECISIONS.md");
    let list = section(&document, "Functions between the crates with a `requires`");
    let listed: BTreeSet<String> = quoted(list)
        .into_iter()
        .map(|(_, part)| part)
        .filter(|part| part.contains("::"))
        .map(String::from)
        .collect();
    let crates = repository().join("crates");
    let code = files_below(&crates).into_iter().filter(|path| path.extension().is_some_and(|e| e == "rt"));
    let all: Vec<Function> = code
        .flat_map(|path| {
            let name = path.strip_prefix(&crates).expect("a crate").iter().next().expect("a crate");
            functions(&name.to_string_lossy(), &read_to_string(&path).expect("code"))
        })
        .collect();
    let asks =
        |public: bool| all.iter().filter(move |function| function.requires && function.public == public);
    let public: BTreeSet<String> = asks(true).map(|function| function.name.clone()).collect();
    let mut wrong: Vec<String> =
        public.difference(&listed).map(|name| format!("{name} is not listed")).collect();
    wrong.extend(listed.difference(&public).map(|name| format!("{name} has no requires, or is not public")));
    // the archives' own; a library's function below one of them has its name
    let in_archive = |function: &&Function| function.name.split_once("_c::").is_some();
    let exported: Vec<&Function> =
        all.iter().filter(|function| function.exported).filter(in_archive).collect();
    wrong.extend(
        all.iter().filter(|f| f.exported && f.requires).map(|f| format!("{} has a requires", f.name)),
    );
    wrong.extend(exported.iter().filter(|f| f.requires).map(|f| format!("{} is exported", f.name)));
    for name in PUBLIC {
        let call = all.iter().find(|function| function.name == name).unwrap_or_else(|| panic!("{name}"));
        if call.requires || !call.public {
            wrong.push(format!("{name} is a public call"));
        }
    }
    no_complaints(&wrong);
    let header = read("include/gutilamboy.h");
    let (declared, others): (Vec<&&Function>, Vec<&&Function>) = exported
        .iter()
        .partition(|f| header.contains(&format!(" {}(", f.name.split("::").last().expect("a name"))));
    assert_eq!(declared.len(), 6, "the calls of the header");
    let others: Vec<&str> = others.iter().map(|function| &*function.name).collect();
    assert_eq!(others, ["gutilamboy_walker_c::gutilamboy_walk"], "exported, and not in the header yet");
    print(&format!(
        "documents: {} functions between the crates have a requires, all listed; {} private ones; none of the {} exported \
         and {} public calls",
        public.len(),
        asks(false).count(),
        exported.len(),
        PUBLIC.len()
    ));
}

// ── links ──

/// The pages for readers.
const PAGES: [&str; 12] = [
    "README.md",
    "CHANGELOG.md",
    "CONTRIBUTING.md",
    "docs/BENCHMARKS.md",
    "docs/CLASSES.md",
    "docs/DECISIONS.md",
    "docs/DEMANDS.md",
    "docs/LANGUAGE.md",
    "docs/REFUSALS.md",
    "docs/TRANSLATION.md",
    "examples/README.md",
    "tests/README.md",
];

#[test]
fn links_lead_somewhere() {
    let mut count = 0;
    let mut broken = Vec::new();
    for document in PAGES {
        let folder = repository().join(document).parent().expect("a folder").to_path_buf();
        let text = read(document);
        for link in text.split("](").skip(1).filter_map(|rest| rest.split(')').next()) {
            count += 1;
            if !folder.join(link).exists() {
                broken.push(format!("{document}: {link}"));
            }
        }
    }
    no_complaints(&broken);
    print(&format!("documents: {count} links lead to files"));
}

// ── edits ──

/// What is wrong with an edit that must fail: its name says the wrong program in lower case with underscores, and it
/// replaces a text of `src/` or `specs/` by another one.
fn wrong_edit(name: &str, text: &str) -> Option<String> {
    let plain = |c: char| c.is_ascii_lowercase() || c.is_ascii_digit() || c == '_';
    let line = |label: &str| text.lines().find_map(|line| line.strip_prefix(label));
    let wrong = match (line("file: "), line("old: "), line("new: ")) {
        _ if !name.chars().all(plain) => "its name is not lower case with underscores",
        (Some(file), Some(old), Some(new)) => match file.split('/').next() {
            _ if old == new => "it changes nothing",
            Some("src" | "specs") => return None,
            _ => "it is of neither src/ nor specs/",
        },
        _ => "it has no file, old or new text",
    };
    Some(format!("{name}: {wrong}"))
}

#[test]
fn edits_are_in_one_style() {
    let files = files_below(&repository().join("crates")).into_iter();
    let edits = files.filter(|path| path.extension().is_some_and(|e| e == "edit"));
    let edits: Vec<(String, String)> = edits
        .map(|path| {
            let name = path.file_stem().expect("a name").to_string_lossy().to_string();
            (name, read_to_string(&path).expect("an edit"))
        })
        .collect();
    no_complaints(&edits.iter().filter_map(|(name, text)| wrong_edit(name, text)).collect::<Vec<_>>());
    assert!(edits.len() > 50, "the edits were not found");
    print(&format!("documents: {} edits that must fail, named in one style", edits.len()));
}

#[test]
fn wrong_edits_are_noticed() {
    let good = "Why.\nfile: src/lib.rt\nold: a < b\nnew: a <= b\n";
    assert_eq!(wrong_edit("depth_33", good), None);
    for (name, old, new) in [
        ("depth-33", "", ""),
        ("Depth_33", "", ""),
        ("depth_33", "file: src/lib.rt", "file: proofs/a/Answers.antt"),
        ("depth_33", "a <= b", "a < b"),
        ("depth_33", "new: ", ""),
    ] {
        assert!(wrong_edit(name, &good.replace(old, new)).is_some(), "{name} {new:?} for {old:?}");
    }
}
