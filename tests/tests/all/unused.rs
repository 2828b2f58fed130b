//! No definition stands unused: from the exported functions, the programs and the theorems that README.md and
//! docs/DEMANDS.md name, every definition of `specs/`, every function and constant of `src/` and every helper of `proofs/`
//! is reached. What is kept for readers alone is named in tests/KEPT.md.
//!
//! A name counts as used where it stands in the text of something used: outside its own signature and clauses, comments
//! and the lists of `use`. Names are looked up as the file's own, then as its imports; a variable of the same name hides
//! what it hides, so that a little too much counts as used, never too little.

use crate::documents::{files_below, no_complaints, proves_a_function, quoted, read};
use crate::{print, repository};
use std::collections::{BTreeMap, BTreeSet};
use std::fs::read_to_string;

/// A definition: its file and name.
type Key = (String, String);

/// What a file holds: the words of each of its definitions, what its `use` lines bring, and the definition that a
/// constructor or field belongs to.
#[derive(Default)]
struct Held {
    definitions: BTreeMap<String, Vec<String>>,
    parts: BTreeMap<String, String>,
    imports: BTreeMap<String, Key>,
    aliases: BTreeMap<String, String>,
    roots: Vec<String>,
}

/// The repository's files by path, of both languages.
type Files = BTreeMap<String, Held>;

// ── definitions ──

/// The words of a line: names, qualified ones whole, without brackets and marks.
fn words(line: &str) -> impl Iterator<Item = &str> {
    line.split(|c: char| c.is_whitespace() || "(){}[],;⌜⌝&".contains(c)).filter(|word| !word.is_empty())
}

/// Without the marks around names of definitions that aren't names of code.
fn unquoted(text: &str) -> String {
    text.replace(['«', '»'], "")
}

/// The file of a path of `use`: `Rattle.CRATE.specs.File`, likewise of proofs; and the rest of the path. What the code
/// declares is in no file of definitions, what the toolchain has in none of the repository's.
fn file_of(path: &str) -> Option<(String, Vec<String>)> {
    let mut parts = path.strip_prefix("Rattle.")?.split('.').map(String::from);
    let name = parts.next()?;
    let folder = parts.next()?;
    let file = parts.next().filter(|file| file != "declared")?;
    Some((format!("crates/{name}/{folder}/{file}.antt"), parts.collect()))
}

/// A `use` of definitions: names in braces, or the whole file by another name.
fn take_use(held: &mut Held, line: &str) {
    let line = line.trim().trim_end_matches(';');
    if let Some((path, names)) = line.split_once(".{") {
        let Some((file, _)) = file_of(path) else { return };
        for name in names.trim_end_matches('}').split(',') {
            let (name, here) = name.split_once(" as ").unwrap_or((name, name));
            held.imports.insert(here.trim().to_string(), (file.clone(), name.trim().to_string()));
        }
    } else if let Some((path, here)) = line.split_once(" as ") {
        if let Some((file, _)) = file_of(path) {
            held.aliases.insert(here.trim().to_string(), file);
        }
    }
}

/// A file of definitions or of a proof, by its lines' indentation: a definition has its signature, its clauses and what
/// stands deeper below them; the head of a module belongs to each definition in it.
fn read_definitions(text: &str) -> Held {
    let text = unquoted(text);
    let mut held = Held::default();
    let mut heads: Vec<(usize, Vec<String>)> = Vec::new();
    let mut current: Option<(usize, String)> = None;
    let mut parts_at: Option<usize> = None;
    let mut open_head = false;
    for line in text.lines().map(|line| line.split("--").next().expect("a beginning")) {
        let indent = line.len() - line.trim_start().len();
        let all: Vec<String> = words(line).map(String::from).collect();
        if all.is_empty() {
            continue;
        }
        if open_head {
            open_head = all.last().is_some_and(|word| word != "where");
            heads.last_mut().expect("a head").1.extend(all);
            continue;
        }
        if let Some((at, name)) = current.as_ref().filter(|(at, _)| indent > *at) {
            if parts_at.is_some_and(|parts| parts == *at || parts == indent) {
                parts_at = Some(indent);
                let own = all.iter().take_while(|word| *word != ":").filter(|word| *word != "pub");
                held.parts.extend(own.map(|word| (word.clone(), name.clone())));
            }
            held.definitions.get_mut(name).expect("a definition").extend(all);
            continue;
        }
        heads.retain(|(at, _)| *at < indent);
        parts_at = None;
        let mut rest = line.trim();
        while let Some(less) = ["abbrev ", "unfoldable ", "pub "].iter().find_map(|m| rest.strip_prefix(m)) {
            rest = less.trim_start();
        }
        let first = rest.split_whitespace().next().unwrap_or_default();
        let second = rest.split_whitespace().nth(1).unwrap_or_default();
        match first {
            "use" => take_use(&mut held, rest.strip_prefix("use").expect("a use").trim()),
            "module" => {
                open_head = all.last().is_some_and(|word| word != "where");
                heads.push((indent, all));
                current = None;
            }
            "mutual" | "" => current = None,
            "infixr" | "infixl" | "infix" | "mod" => {}
            "unfolding" => match &current {
                Some((_, name)) => held.definitions.get_mut(name).expect("a definition").extend(all),
                // below `mutual`: for all that stand there
                None => heads.push((indent.saturating_sub(1), all)),
            },
            _ => {
                let block = ["data", "record", "ruleset"].contains(&first);
                let name = if block { second } else { first }.to_string();
                let known = held.definitions.contains_key(&name);
                let new = block || second == ":" || (second.starts_with('{') && !known);
                if new {
                    parts_at = (block && first != "ruleset").then_some(indent);
                    held.definitions.insert(name.clone(), Vec::new());
                    current = Some((indent, name));
                } else if known {
                    current = Some((indent, name));
                }
                let name = &current.as_ref().unwrap_or_else(|| panic!("a definition before {line}")).1;
                let text = held.definitions.get_mut(name).expect("a definition");
                text.extend(all);
                text.extend(heads.iter().flat_map(|(_, words)| words.iter().cloned()));
            }
        }
    }
    held
}

// ── code ──

/// What the attributes of a whole file of code name.
const FILE: &str = "#![]";

/// What a `use` of code brings: names in braces, or one.
fn take_code_use(held: &mut Held, path: &str) {
    let (from, names) = path.rsplit_once("::").unwrap_or((path, path));
    let from = from.split("::").next().expect("a crate");
    for name in names.split(['{', '}', ',', ' ']).filter(|name| !name.is_empty()) {
        held.imports.insert(name.to_string(), (format!("crates/{from}/src"), name.to_string()));
    }
}

/// A file of code, by its items' first lines: functions and constants, those of an `impl` too, each with the attributes
/// above it, which may name laws for its proof. An exported function, a program's `main` and what an attribute of the
/// whole file names are used from outside. Structures and enumerations are left out.
fn read_code(text: &str) -> Held {
    let text = &unquoted(text);
    let mut held = Held::default();
    let mut current: Option<String> = None;
    let mut attributes: Vec<String> = Vec::new();
    let mut open_use: Option<String> = None;
    for line in text.lines().map(|line| line.split("//").next().expect("a beginning")) {
        let trimmed = line.trim();
        if let Some(whole) = trimmed.strip_prefix("#![") {
            held.roots.push(FILE.to_string());
            held.definitions.entry(FILE.to_string()).or_default().extend(words(whole).map(String::from));
            continue;
        }
        if let Some(attribute) = trimmed.strip_prefix("#[") {
            attributes.extend(words(attribute).map(String::from));
            continue;
        }
        if let Some(path) = trimmed.strip_prefix("ghost use ") {
            take_use(&mut held, path);
            continue;
        }
        if let Some(path) =
            open_use.take().map(|path| path + trimmed).or(trimmed.strip_prefix("use ").map(String::from))
        {
            match path.strip_suffix(';') {
                Some(path) => take_code_use(&mut held, path),
                None => open_use = Some(path),
            }
            continue;
        }
        let head: Vec<&str> = trimmed.split(|c: char| !c.is_alphanumeric() && c != '_' && c != '"').collect();
        let at = head.iter().position(|word| !["pub", "extern", "\"C\"", "ghost"].contains(word));
        match at.map(|at| (head[at], head.get(at + 1))) {
            Some(("fn" | "const", Some(name))) if !name.is_empty() => {
                held.definitions.insert(name.to_string(), std::mem::take(&mut attributes));
                if head.contains(&"extern") || *name == "main" {
                    held.roots.push(name.to_string());
                }
                current = Some(name.to_string());
            }
            Some(("struct" | "enum" | "impl" | "mod", _)) => {
                attributes.clear();
                current = None;
            }
            _ => {}
        }
        if let Some(name) = &current {
            let text = held.definitions.get_mut(name).expect("an item");
            text.extend(words(line).map(String::from));
        }
    }
    held
}

// ── what is used ──

/// A law that an attribute names for a proof: `crate::specs::File::law`, or that of another crate; likewise of proofs.
fn law_of(file: &str, word: &str) -> Option<Key> {
    let mut parts = word.split("::");
    let from = parts.next().filter(|from| *from != "crate").or(file.split('/').nth(1))?;
    let folder = parts.next().filter(|folder| ["specs", "proofs"].contains(folder))?;
    let mut parts: Vec<&str> = parts.collect();
    let law = parts.pop()?;
    Some((format!("crates/{from}/{folder}/{}.antt", parts.join("/")), law.to_string()))
}

/// The definitions that a word of a file may stand for.
fn meant(files: &Files, file: &str, word: &str) -> Vec<Key> {
    if word.starts_with('.') && !file.ends_with(".rt") {
        return Vec::new();
    }
    if let Some((file, rest)) = file_of(word) {
        return rest.into_iter().map(|name| (file.clone(), name)).collect();
    }
    if let Some(law) = law_of(file, word) {
        return vec![law];
    }
    let held = &files[file];
    let pieces: Vec<&str> = word.split('.').collect();
    if let Some(file) = held.aliases.get(pieces[0]) {
        return pieces[1..].iter().map(|name| (file.clone(), name.to_string())).collect();
    }
    let mut found = Vec::new();
    for piece in pieces {
        let infix = format!("◌{piece}◌");
        for name in [piece, &infix] {
            if held.definitions.contains_key(name) || held.parts.contains_key(name) {
                found.push((file.to_string(), name.to_string()));
            } else if let Some(key) = held.imports.get(name) {
                found.push(key.clone());
            }
        }
    }
    found
}

/// The items of code that a word of code may stand for: the file's crate's own, imported ones, `crate::item`, and methods
/// of any crate.
fn meant_in_code(files: &Files, file: &str, word: &str) -> Vec<Key> {
    let folder = file.rsplit_once('/').expect("a folder").0;
    let mut found = Vec::new();
    let pieces: Vec<&str> = word.split(|c: char| !c.is_alphanumeric() && c != '_').collect();
    for (i, piece) in pieces.iter().enumerate().filter(|(_, piece)| !piece.is_empty()) {
        let here = files[file].imports.get(*piece).map(|(folder, _)| folder.clone());
        let before = i.checked_sub(2).filter(|_| word.contains("::")).map(|i| pieces[i]);
        let named = before.map(|name| match files[file].imports.get(name) {
            Some((folder, _)) => folder.clone(),
            None => format!("crates/{name}/src"),
        });
        for folder in [Some(folder.to_string()), here, named].into_iter().flatten() {
            let code = files.range(folder.clone()..).take_while(|(path, _)| path.starts_with(&folder));
            let owners = code.filter(|(_, held)| held.definitions.contains_key(*piece));
            found.extend(owners.map(|(path, _)| (path.clone(), piece.to_string())));
        }
        if word.contains(&format!(".{piece}")) {
            let code = files.iter().filter(|(path, _)| path.ends_with(".rt"));
            let owners = code.filter(|(_, held)| held.definitions.contains_key(*piece));
            found.extend(owners.map(|(path, _)| (path.clone(), piece.to_string())));
        }
    }
    found
}

/// The files of proof of a function, in `proofs/.../NAME`, or in `proofs/+NAME` where it calls itself, or NAME is its
/// cycle's: its invariants, measures and answers, each of which has a goal (`goal.NAME`) as its type, and in Proof.antt
/// what ends in `_spec`.
fn proofs_of(files: &Files, file: &str, function: &str) -> Vec<Key> {
    let text = &files[file].definitions[function];
    let cycle = text.iter().position(|word| word == "cycle").and_then(|at| text.get(at + 1));
    let folder = format!("{}/proofs/", file.split("/src/").next().expect("a crate"));
    let proves = |path: &&String| {
        let inner = path.strip_prefix(&folder).and_then(|rest| rest.rsplit_once('/'));
        inner.is_some_and(|(rest, _)| {
            rest.split(['/', '+']).any(|name| name == function || Some(name) == cycle.map(|c| &**c))
        })
    };
    let of = |path: &String| {
        let answers = |name: &String, text: &[String]| {
            name.ends_with("_spec")
                || name.ends_with("-spec")
                || text.iter().any(|word| word.strip_prefix("goal.") == Some(name))
        };
        let names = files[path].definitions.iter().filter(|(name, text)| answers(name, text));
        names.map(|(name, _)| (path.clone(), name.clone())).collect::<Vec<_>>()
    };
    files.keys().filter(proves).flat_map(of).collect()
}

/// All that is reached from some definitions.
fn reached(files: &Files, from: impl IntoIterator<Item = Key>) -> BTreeSet<Key> {
    let mut seen = BTreeSet::new();
    let mut left: Vec<Key> = from.into_iter().collect();
    while let Some((file, name)) = left.pop() {
        let Some(held) = files.get(&file) else { continue };
        let whole = held.parts.get(&name).filter(|_| !held.definitions.contains_key(&name));
        let name = whole.unwrap_or(&name).clone();
        let Some(text) = held.definitions.get(&name) else {
            // brought in from elsewhere and handed on
            left.extend(held.imports.get(&name).cloned());
            continue;
        };
        if !seen.insert((file.clone(), name.clone())) {
            continue;
        }
        for word in text.iter().filter(|word| **word != name) {
            left.extend(meant(files, &file, word));
            if file.ends_with(".rt") {
                left.extend(meant_in_code(files, &file, word));
            }
        }
        if file.ends_with(".rt") {
            left.extend(proofs_of(files, &file, &name));
        }
    }
    seen
}

/// The definitions that nothing reaches, the given ones and what these need left out.
fn unused(files: &Files, kept: &[Key]) -> Vec<Key> {
    let roots =
        files.iter().flat_map(|(path, held)| held.roots.iter().map(|name| (path.clone(), name.clone())));
    let seen = reached(files, roots.chain(kept.iter().cloned()));
    let all = files
        .iter()
        .flat_map(|(path, held)| held.definitions.keys().map(|name| (path.clone(), name.clone())));
    all.filter(|key| !seen.contains(key)).collect()
}

// ── the repository ──

/// The texts of the crates' definitions, proofs and code.
fn texts() -> BTreeMap<String, String> {
    let root = repository();
    let files = files_below(&root.join("crates")).into_iter();
    let files = files.filter(|path| path.extension().is_some_and(|e| e == "antt" || e == "rt"));
    files
        .map(|path| {
            let name =
                path.strip_prefix(&root).expect("a file of the repository").to_string_lossy().to_string();
            (name, read_to_string(&path).expect("a text"))
        })
        .collect()
}

fn read_all(texts: &BTreeMap<String, String>) -> Files {
    let held = |(name, text): (&String, &String)| {
        let code = name.ends_with(".rt");
        (name.clone(), if code { read_code(text) } else { read_definitions(text) })
    };
    texts.iter().map(held).collect()
}

/// The definitions that the documents name.
fn documented(files: &Files) -> Vec<Key> {
    let documents = read("README.md") + &read("docs/DEMANDS.md");
    let names: BTreeSet<&str> = quoted(&documents).into_iter().map(|(_, name)| name).collect();
    let stated = files.iter().filter(|(path, _)| path.ends_with(".antt") && !proves_a_function(path));
    stated
        .flat_map(|(path, held)| held.definitions.keys().map(|name| (path.clone(), name.clone())))
        .filter(|(_, name)| names.contains(name.as_str()))
        .collect()
}

/// The list of what is kept for readers, in backquotes a file and a name of definitions, or `crate::NAME` of code; then
/// the reason.
fn kept(files: &Files, list: &str) -> Vec<Key> {
    let key = |line: &str| {
        let parts: Vec<&str> = line.split('`').collect();
        let why = parts.last().and_then(|rest| rest.strip_prefix(": ")).unwrap_or_default();
        assert!(!why.trim().is_empty(), "no reason: {line}");
        match parts[1].split_once("::") {
            Some((folder, name)) => {
                let folder = format!("crates/{folder}/src/");
                let held = files.iter().filter(|(path, _)| path.starts_with(&folder));
                let file =
                    held.filter(|(_, held)| held.definitions.contains_key(name)).map(|(path, _)| path).next();
                (file.unwrap_or(&folder).clone(), name.to_string())
            }
            None => {
                let (folder, file) = parts[1].split_once('/').unwrap_or_else(|| panic!("no file: {line}"));
                let [specs, proofs] =
                    ["specs", "proofs"].map(|place| format!("crates/{folder}/{place}/{file}.antt"));
                let in_proofs =
                    files.get(&proofs).is_some_and(|held| held.definitions.contains_key(parts[3]));
                (if in_proofs { proofs } else { specs }, parts[3].to_string())
            }
        }
    };
    list.lines().filter(|line| line.starts_with("- ")).map(key).collect()
}

/// What is wrong: definitions that nothing uses, and entries of the list that are not needed.
fn wrongly_there(texts: &BTreeMap<String, String>, list: &str) -> Vec<String> {
    let files = read_all(texts);
    let mut roots = documented(&files);
    let before: BTreeSet<Key> = unused(&files, &roots).into_iter().collect();
    let mut wrong = Vec::new();
    for key in kept(&files, list) {
        if !before.contains(&key) {
            wrong.push(format!("{} {} is listed as kept, but is not there or is used", key.0, key.1));
        }
        roots.push(key);
    }
    wrong.extend(unused(&files, &roots).iter().map(|(file, name)| format!("{file}: nothing uses {name}")));
    wrong
}

#[test]
fn nothing_stands_unused() {
    let texts = texts();
    let list = read("tests/KEPT.md");
    no_complaints(&wrongly_there(&texts, &list));
    let files = read_all(&texts);
    let count: usize = files.values().map(|held| held.definitions.len()).sum();
    assert!(count > 3_000, "the definitions were not read as they are written");
    print(&format!(
        "unused: {count} definitions, all used; {} of them kept for readers",
        kept(&files, &list).len()
    ));
}

/// Texts to add, each to the end of a file.
type Additions<'t> = &'t [(&'t str, &'t str)];

/// The check itself: made-up definitions that nothing uses are noticed, used ones are not.
#[test]
fn unused_definitions_are_noticed() {
    let whole = texts();
    let list = read("tests/KEPT.md");
    let now: BTreeSet<String> = wrongly_there(&whole, &list).into_iter().collect();
    let folder = "crates/arm_word";
    let name = folder.trim_start_matches("crates/");
    let (specs, other) = ("crates/arm_word/specs/Word.antt", "crates/arm_word/specs/WordLaws.antt");
    let (code, proof) = ("crates/arm_word/src/lib.rt", "crates/arm_word/proofs/shift_left/Answers.antt");
    let import = &*format!("use Rattle.{name}.specs.Word.{{made-up}}");
    let called = "fn made_up() -> u32 {\n    7\n}\n";
    // the additions, and which definitions nothing uses then
    let cases: [(Additions, &[&str]); 12] = [
        (&[(specs, "made-up : ℕ\nmade-up = 7")], &["made-up"]),
        (
            &[(specs, "abbrev pub made-up : ℕ → ℕ\nmade-up zero = 7\nmade-up (suc n) = made-up n")],
            &["made-up"],
        ),
        (
            &[(specs, "made-up : ℕ\nmade-up = made-too\n\nmade-too : ℕ\nmade-too = made-up")],
            &["made-too", "made-up"],
        ),
        (&[(specs, "pub made-up : ℕ\nmade-up = 7"), (other, import), (other, "-- made-up")], &["made-up"]),
        (&[(specs, "pub data Made-up : Type 0 where\n  one : Made-up")], &["Made-up"]),
        (&[(code, called)], &["made_up"]),
        (&[(code, "const MADE_UP: u32 = 7;")], &["MADE_UP"]),
        (&[(proof, "made-up : ℕ\nmade-up = 7")], &["made-up"]),
        (
            &[
                (code, called),
                (code, "#[unsafe(no_mangle)]\npub extern \"C\" fn out() -> u32 {\n    made_up()\n}"),
            ],
            &[],
        ),
        (&[(proof, "made-up : ℕ\nmade-up = 7\npub made-too : goal.made-too\nmade-too c = made-up")], &[]),
        (&[(proof, "made-up : ℕ\nmade-up = 7"), (code, "#![tactic(auto, using(made-up))]")], &["made-up"]),
        (
            &[
                (specs, "pub made-up : ℕ\nmade-up = 7"),
                (code, "ghost use Rattle.arm_word.specs.Word.{made-up};"),
                (code, "#[tactic(auto, using(made-up))]\npub extern \"C\" fn out() {}"),
            ],
            &[],
        ),
    ];
    for (additions, want) in cases {
        let mut texts = whole.clone();
        for (file, text) in additions {
            let place = texts.get_mut(*file).unwrap_or_else(|| panic!("{file}"));
            place.push_str(&format!("\n{text}\n"));
        }
        let wrong: BTreeSet<String> = wrongly_there(&texts, &list).into_iter().collect();
        let names = wrong.difference(&now).map(|line| line.rsplit(' ').next().expect("a name"));
        assert!(names.eq(want.iter().copied()), "{additions:?}: {wrong:?}");
        assert!(now.is_subset(&wrong), "{additions:?}");
    }
    let not_needed = [
        "arm_word/Word` `add",
        "arm_word/Word` `made-up",
        &format!("{name}::add"),
        &format!("{name}::made_up"),
    ];
    for entry in not_needed {
        assert!(wrongly_there(&whole, &format!("{list}- `{entry}`: why\n")).len() > now.len(), "{entry}");
    }
    let mut texts = whole.clone();
    texts.get_mut(code).expect("code").push_str("\nconst MADE_UP: u32 = 7;\n");
    let complaints = wrongly_there(&texts, &format!("{list}- `{name}::MADE_UP`: why\n"));
    assert_eq!(complaints.into_iter().collect::<BTreeSet<_>>(), now);
}
