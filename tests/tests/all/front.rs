//! The proved translation against the second one: status, place, counts, and every word and byte of the lent buffers.

use crate::{by_status, print};
use reference::front::{translate_front, Outcome};
use reference::generate::{edges, source, token_strings, valid_source, Random};
use tests::{needed_words, proved, second, Translation, Translator, CODE_BYTES, TABLE_WORDS};

/// Cells on either side of a lent buffer, which a call has to leave alone.
const MARGIN: usize = 8;

/// The buffers that are lent, and the second translation's, which hold the same before a call.
struct Lent {
    table: Vec<u32>,
    code: Vec<u8>,
    second_table: Vec<u32>,
    second_code: Vec<u8>,
    statuses: [u64; 15],
}

impl Lent {
    fn new() -> Lent {
        Lent {
            table: vec![0; 2 * TABLE_WORDS],
            code: vec![0; 2 * CODE_BYTES],
            second_table: vec![0; 2 * TABLE_WORDS],
            second_code: vec![0; 2 * CODE_BYTES],
            statuses: [0; 15],
        }
    }

    /// One call on buffers full of random words and bytes, compared with the reference's front and the second image:
    /// a refusal, whatever its number, leaves every one of them.
    fn compare(
        &mut self,
        translator: Translator,
        random: &mut Random,
        source: &[u8],
        sizes: (usize, usize),
    ) -> Translation {
        let (words, bytes) = sizes;
        let table = &mut self.table[..words + 2 * MARGIN];
        let code = &mut self.code[..bytes + 2 * MARGIN];
        let second_table = &mut self.second_table[..words + 2 * MARGIN];
        let second_code = &mut self.second_code[..bytes + 2 * MARGIN];
        fill(random, table, code);
        second_table.copy_from_slice(table);
        second_code.copy_from_slice(code);
        let lent = MARGIN..MARGIN + words;
        let lent_bytes = MARGIN..MARGIN + bytes;
        let got = translator(source, &mut table[lent.clone()], &mut code[lent_bytes.clone()]);

        let shown = || format!("{:?}, lent {words} words and {bytes} bytes", String::from_utf8_lossy(source));
        let front = translate_front(source, words, bytes);
        let Outcome { status, place, tokens, rows, data, depth, .. } = front;
        let counts = [place, tokens, rows, data, depth].map(|count| count as u32);
        let answer = [got.place, got.tokens, got.rows, got.data, got.depth];
        assert_eq!((got.status, answer), (status, counts), "answer of {}", shown());
        assert!(table[lent.clone()] == front.lent_table(&second_table[lent.clone()]), "table of {}", shown());

        // the cells around the buffers too are to be as the second translation leaves them
        let want = second::translate(source, &mut second_table[lent], &mut second_code[lent_bytes]);
        assert_eq!(got, want, "answer of {}", shown());
        assert!(table == second_table, "table and words around it of {}", shown());
        assert!(code == second_code, "code buffer and bytes around it of {}", shown());
        self.statuses[status as usize] += 1;
        got
    }

    fn count(&self) -> u64 {
        self.statuses.iter().sum()
    }
}

/// Random words and bytes, a number for two words or eight bytes.
fn fill(random: &mut Random, table: &mut [u32], code: &mut [u8]) {
    for words in table.chunks_mut(2) {
        let number = random.number();
        words.copy_from_slice(&[number as u32, (number >> 32) as u32][..words.len()]);
    }
    for bytes in code.chunks_mut(8) {
        bytes.copy_from_slice(&random.number().to_le_bytes()[..bytes.len()]);
    }
}

/// Lengths to lend for a source of so many tokens: mostly enough, at times just enough, or too short.
fn sizes(random: &mut Random, tokens: usize) -> (usize, usize) {
    let mut size = |needed: usize, largest: usize| match random.below(12) {
        0 => needed.saturating_sub(1),
        1 => random.between(0, needed),
        2..=5 => needed,
        6..=8 => needed + random.below(40),
        9 => random.between(needed.min(largest), largest),
        10 => largest + random.below(40),
        _ => needed + 1,
    };
    (size(4 * tokens, TABLE_WORDS), size(48 * tokens + 256, CODE_BYTES))
}

/// A number near the number of tokens, for sources that have any.
fn tokens_about(random: &mut Random, source: &[u8]) -> usize {
    match reference::tokens::tokens(source) {
        Ok(tokens) => tokens.len(),
        Err(_) => random.below(1_025),
    }
}

fn generated(
    lent: &mut Lent,
    translator: Translator,
    seed: u64,
    count: usize,
    make: fn(&mut Random) -> Vec<u8>,
) {
    let mut random = Random::new(seed);
    for _ in 0..count {
        let source = make(&mut random);
        let tokens = tokens_about(&mut random, &source);
        let sizes = sizes(&mut random, tokens);
        lent.compare(translator, &mut random, &source, sizes);
    }
}

fn at_edges(lent: &mut Lent, translator: Translator) {
    let mut random = Random::new(7);
    for edge in edges() {
        let got = lent.compare(translator, &mut random, &edge.source, (edge.table_words, edge.code_bytes));
        let shown = String::from_utf8_lossy(&edge.source);
        assert_eq!((got.status, got.place as usize), (edge.status, edge.place), "{shown}");
    }
}

fn short_strings(lent: &mut Lent, translator: Translator, length: usize) {
    const ALPHABET: [&str; 17] =
        ["x", "1", "v", "var", "array", "val", "[", "]", ";", ":=", "=", "skip", "{", "}", "if", "-", "|c|"];
    let mut random = Random::new(8);
    for source in token_strings(&ALPHABET, length) {
        let tokens = tokens_about(&mut random, &source);
        lent.compare(translator, &mut random, &source, (4 * tokens + 1, 48 * tokens + 257));
    }
}

#[test]
fn translation_of_any_source() {
    let mut lent = Lent::new();
    at_edges(&mut lent, proved::translate);
    short_strings(&mut lent, proved::translate, 4);
    generated(&mut lent, proved::translate, 11, 120_000, source);
    generated(&mut lent, proved::translate, 12, 20_000, valid_source);
    assert!(lent.count() >= 200_000);
    assert!(lent.statuses.iter().all(|&count| count > 0), "every status is seen");
    print(&format!("translate: {} sources (by status {})", lent.count(), by_status(&lent.statuses)));
}

/// The comparison itself: the second translation passes it.
#[test]
fn the_second_translation_passes() {
    let mut lent = Lent::new();
    at_edges(&mut lent, second::translate);
    short_strings(&mut lent, second::translate, 3);
    generated(&mut lent, second::translate, 13, 5_000, source);
}

/// And these don't: always refusing, a refusal that zeroes the table or the first byte of code, an accepted call that
/// leaves the rest of the table or the last byte of code, a count too many.
#[test]
fn wrong_translations_are_noticed() {
    let refuses: Translator = |_, _, _| Translation { status: 1, ..Translation::default() };
    let counts: Translator = |source, table, code| {
        let got = second::translate(source, table, code);
        Translation { tokens: got.tokens + 1, ..got }
    };
    let leaves_byte: Translator = |source, table, code| {
        let rest = *code.last().unwrap();
        let got = second::translate(source, table, code);
        *code.last_mut().unwrap() = rest;
        got
    };
    let leaves_rows: Translator = |source, table, code| {
        let before = table.to_vec();
        let got = second::translate(source, table, code);
        let end = 4 * got.rows as usize;
        table[end..].copy_from_slice(&before[end..]);
        got
    };
    let zeroes_table: Translator = |source, table, code| {
        let got = second::translate(source, table, code);
        if got.status != 0 {
            table.fill(0);
        }
        got
    };
    let zeroes_byte: Translator = |source, table, code| {
        let got = second::translate(source, table, code);
        if got.status != 0 {
            code[0] = 0;
        }
        got
    };
    let noticed = |wrong: Translator, source: &str| {
        let compare = || Lent::new().compare(wrong, &mut Random::new(1), source.as_bytes(), (40, 800));
        std::panic::catch_unwind(compare).is_err()
    };
    for wrong in [refuses, leaves_byte, leaves_rows, counts] {
        assert!(noticed(wrong, "skip"));
    }
    for wrong in [zeroes_table, zeroes_byte] {
        assert!(!noticed(wrong, "skip"));
        assert!(noticed(wrong, "skip;"));
    }
}

/// "A scanner that gets a bad update must go on with the old ones": a rule is halfway through its run when an update
/// is refused over the same two buffers, by each number; it ends as it does without one, by the answer that was kept.
#[test]
fn a_refused_update_keeps_the_rule() {
    const RULE: &[u8] = b"var n; var sum; array w[3]; {sum := 0; while n do {n := n - 1; sum := sum + w[n]}}";
    const HALFWAY: u64 = 40;
    let (mut table, mut code) = (vec![9; TABLE_WORDS], vec![9; CODE_BYTES]);
    let rule = proved::translate(RULE, &mut table, &mut code);
    assert_eq!(rule.status, 0);
    let image = rule.code as usize;
    let mut statuses = [0; 15];
    for update in edges().iter().filter(|edge| edge.status != 0) {
        let mut memory = vec![0; needed_words(rule.data, rule.depth)];
        memory[..5].copy_from_slice(&[3, 7, 10, 20, 30]);
        let (_, mut state) = proved::start(&code[..image], &memory, rule.data, rule.depth);
        assert_eq!(proved::run(&mut state, &code[..image], &mut memory, HALFWAY), (0, 0, HALFWAY));
        let (words, bytes) = (update.table_words, update.code_bytes);
        let refused = proved::translate(&update.source, &mut table[..words], &mut code[..bytes]);
        assert_eq!(
            refused,
            Translation { status: update.status, place: update.place as u32, ..Translation::default() }
        );
        let (status, number, _) = proved::run(&mut state, &code[..image], &mut memory, 1_000);
        assert_eq!((status, number, &memory[..5]), (1, 0, &[0, 60, 10, 20, 30][..]));
        statuses[update.status as usize] += 1;
    }
    assert!(statuses[1..].iter().all(|&count| count > 0), "every refusal is seen");
    print(&format!("translate: refused updates of a running rule by status {}", by_status(&statuses)));
}
