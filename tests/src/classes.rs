//! A second answer to what stands at halfwords outside the list, from the Armv6-M manual's encodings alone: every
//! instruction by its bit pattern, with the bits in brackets and the lines that make it UNPREDICTABLE; its class by the
//! patterns of the table of 16-bit instructions.

use std::sync::OnceLock;

/// The lines of table A5-1 by bits 15 to 10 of the first halfword, and behind them one for what begins a 32-bit
/// instruction. A class is a line's number from 1.
const LINES: [&[&str]; 13] = [
    &["00xxxx"],
    &["010000"],
    &["010001"],
    &["01001x"],
    &["0101xx", "011xxx", "100xxx"],
    &["10100x"],
    &["10101x"],
    &["1011xx"],
    &["11000x"],
    &["11001x"],
    &["1101xx"],
    &["11100x"],
    &["11101x", "11110x", "11111x"],
];

/// The class of all 32-bit instructions.
pub const LONG: u32 = LINES.len() as u32;

/// Whether the fields of an instruction make it undefined or unpredictable.
type Wrong = fn(&Fields) -> bool;

const NEVER: Wrong = |_| false;
const ALWAYS: Wrong = |_| true;
const EMPTY_LIST: Wrong = |f| f.of('l') == 0;
const BRANCH_TO_PC: Wrong = |f| f.of('m') == 15;
const SPECIAL_REGISTER: Wrong = |f| {
    let register = [13, 15].contains(&f.of('r'));
    register || ![0, 1, 2, 3, 5, 6, 7, 8, 9, 16, 20].contains(&f.of('s'))
};

/// An encoding's name, its bits and what makes it wrong. A letter is a bit of a field, whose bits may lie apart (the
/// manual's DN:Rdn); (0) and (1) are bits that should be so; a bar divides two halfwords.
type Told = (&'static str, &'static str, Wrong);

/// The 16-bit instructions of Armv6-M. Where the manual says "SEE", what is to be seen stands before.
#[rustfmt::skip] // a line each
const SHORT_ENCODINGS: &[Told] = &[
    // shift (immediate), add, subtract, move, and compare
    ("MOV (register) T2", "0000000000 mmm ddd", NEVER),
    ("LSL (immediate)", "00000 iiiii mmm ddd", NEVER),
    ("LSR (immediate)", "00001 iiiii mmm ddd", NEVER),
    ("ASR (immediate)", "00010 iiiii mmm ddd", NEVER),
    ("ADD (register) T1", "0001100 mmm nnn ddd", NEVER),
    ("SUB (register)", "0001101 mmm nnn ddd", NEVER),
    ("ADD (immediate) T1", "0001110 iii nnn ddd", NEVER),
    ("SUB (immediate) T1", "0001111 iii nnn ddd", NEVER),
    ("MOV (immediate)", "00100 ddd iiiiiiii", NEVER),
    ("CMP (immediate)", "00101 nnn iiiiiiii", NEVER),
    ("ADD (immediate) T2", "00110 ddd iiiiiiii", NEVER),
    ("SUB (immediate) T2", "00111 ddd iiiiiiii", NEVER),
    // data processing
    ("AND (register)", "0100000000 mmm ddd", NEVER),
    ("EOR (register)", "0100000001 mmm ddd", NEVER),
    ("LSL (register)", "0100000010 mmm ddd", NEVER),
    ("LSR (register)", "0100000011 mmm ddd", NEVER),
    ("ASR (register)", "0100000100 mmm ddd", NEVER),
    ("ADC (register)", "0100000101 mmm ddd", NEVER),
    ("SBC (register)", "0100000110 mmm ddd", NEVER),
    ("ROR (register)", "0100000111 mmm ddd", NEVER),
    ("TST (register)", "0100001000 mmm nnn", NEVER),
    ("RSB (immediate)", "0100001001 nnn ddd", NEVER),
    ("CMP (register) T1", "0100001010 mmm nnn", NEVER),
    ("CMN (register)", "0100001011 mmm nnn", NEVER),
    ("ORR (register)", "0100001100 mmm ddd", NEVER),
    ("MUL", "0100001101 nnn ddd", NEVER),
    ("BIC (register)", "0100001110 mmm ddd", NEVER),
    ("MVN (register)", "0100001111 mmm ddd", NEVER),
    // special data instructions, and branch and exchange
    ("ADD (SP plus register) T1", "01000100 d 1101 ddd", NEVER),
    ("ADD (SP plus register) T2", "01000100 1 mmmm 101", NEVER),
    ("ADD (register) T2", "01000100 d mmmm ddd", |f| f.of('d') == 15 && f.of('m') == 15),
    ("CMP (register) T2", "01000101 n mmmm nnn", |f| {
        f.of('n') < 8 && f.of('m') < 8 || f.of('n') == 15 || f.of('m') == 15
    }),
    ("MOV (register) T1", "01000110 d mmmm ddd", NEVER),
    ("BX", "010001110 mmmm (0)(0)(0)", BRANCH_TO_PC),
    ("BLX (register)", "010001111 mmmm (0)(0)(0)", BRANCH_TO_PC),
    // load from literal pool
    ("LDR (literal)", "01001 ttt iiiiiiii", NEVER),
    // load and store single data item
    ("STR (register)", "0101000 mmm nnn ttt", NEVER),
    ("STRH (register)", "0101001 mmm nnn ttt", NEVER),
    ("STRB (register)", "0101010 mmm nnn ttt", NEVER),
    ("LDRSB (register)", "0101011 mmm nnn ttt", NEVER),
    ("LDR (register)", "0101100 mmm nnn ttt", NEVER),
    ("LDRH (register)", "0101101 mmm nnn ttt", NEVER),
    ("LDRB (register)", "0101110 mmm nnn ttt", NEVER),
    ("LDRSH (register)", "0101111 mmm nnn ttt", NEVER),
    ("STR (immediate) T1", "01100 iiiii nnn ttt", NEVER),
    ("LDR (immediate) T1", "01101 iiiii nnn ttt", NEVER),
    ("STRB (immediate)", "01110 iiiii nnn ttt", NEVER),
    ("LDRB (immediate)", "01111 iiiii nnn ttt", NEVER),
    ("STRH (immediate)", "10000 iiiii nnn ttt", NEVER),
    ("LDRH (immediate)", "10001 iiiii nnn ttt", NEVER),
    ("STR (immediate) T2", "10010 ttt iiiiiiii", NEVER),
    ("LDR (immediate) T2", "10011 ttt iiiiiiii", NEVER),
    // PC-relative and SP-relative address
    ("ADR", "10100 ddd iiiiiiii", NEVER),
    ("ADD (SP plus immediate) T1", "10101 ddd iiiiiiii", NEVER),
    // miscellaneous
    ("ADD (SP plus immediate) T2", "101100000 iiiiiii", NEVER),
    ("SUB (SP minus immediate)", "101100001 iiiiiii", NEVER),
    ("SXTH", "1011001000 mmm ddd", NEVER),
    ("SXTB", "1011001001 mmm ddd", NEVER),
    ("UXTH", "1011001010 mmm ddd", NEVER),
    ("UXTB", "1011001011 mmm ddd", NEVER),
    ("PUSH", "1011010 l llllllll", EMPTY_LIST),
    ("CPS", "10110110011 i (0)(0)(1)(0)", NEVER),
    ("REV", "1011101000 mmm ddd", NEVER),
    ("REV16", "1011101001 mmm ddd", NEVER),
    ("REVSH", "1011101011 mmm ddd", NEVER),
    ("POP", "1011110 l llllllll", EMPTY_LIST),
    ("BKPT", "10111110 iiiiiiii", NEVER),
    // NOP, YIELD, WFE, WFI, SEV; others are unallocated, and execute as NOP
    ("hint", "10111111 hhhh 0000", NEVER),
    // store and load multiple registers
    ("STM", "11000 nnn llllllll", EMPTY_LIST),
    ("LDM", "11001 nnn llllllll", EMPTY_LIST),
    // conditional branch, and supervisor call
    ("UDF T1", "11011110 iiiiiiii", ALWAYS),
    ("SVC", "11011111 iiiiiiii", NEVER),
    ("B T1", "1101 cccc iiiiiiii", NEVER),
    // unconditional branch
    ("B T2", "11100 iiiiiiiiiii", NEVER),
];

/// The 32-bit ones.
#[rustfmt::skip] // a line each
const LONG_ENCODINGS: &[Told] = &[
    ("MSR (register)", "11110 0 1110 0 (0) rrrr | 10 (0) 0 (1)(0)(0)(0) ssssssss", SPECIAL_REGISTER),
    ("MRS", "11110 0 1111 1 (0) (1)(1)(1)(1) | 10 (0) 0 rrrr ssssssss", SPECIAL_REGISTER),
    ("DSB", "11110 0 1110 1 1 (1)(1)(1)(1) | 10 (0) 0 (1)(1)(1)(1) 0100 oooo", NEVER),
    ("DMB", "11110 0 1110 1 1 (1)(1)(1)(1) | 10 (0) 0 (1)(1)(1)(1) 0101 oooo", NEVER),
    ("ISB", "11110 0 1110 1 1 (1)(1)(1)(1) | 10 (0) 0 (1)(1)(1)(1) 0110 oooo", NEVER),
    ("UDF T2", "11110 1111111 iiii | 1010 iiiiiiiiiiii", ALWAYS),
    ("BL", "11110 s iiiiiiiiii | 11 j 1 k iiiiiiiiiii", NEVER),
];

/// Bits of a word, and what they have to be.
#[derive(Default)]
struct Mask {
    bits: u32,
    values: u32,
}

impl Mask {
    fn fits(&self, word: u32) -> bool {
        word & self.bits == self.values
    }

    fn add(&mut self, place: u32, value: bool) {
        self.bits |= 1 << place;
        self.values |= u32::from(value) << place;
    }
}

/// An encoding as the manual has it, read from its pattern.
struct Encoding {
    name: &'static str,
    fixed: Mask,
    /// the bits in brackets
    should_be: Mask,
    /// a letter for each bit of a field, and the bit's place, from the highest down
    fields: Vec<(char, u32)>,
    wrong: Wrong,
}

/// The fields of an instruction.
struct Fields<'e> {
    encoding: &'e Encoding,
    word: u32,
}

impl Fields<'_> {
    fn of(&self, letter: char) -> u32 {
        let bits = self.encoding.fields.iter().filter(|(field, _)| *field == letter);
        bits.fold(0, |value, (_, place)| value << 1 | self.word >> place & 1)
    }
}

impl Encoding {
    fn read(&(name, pattern, wrong): &Told) -> Encoding {
        let (fixed, should_be) = (Mask::default(), Mask::default());
        let mut encoding = Encoding { name, fixed, should_be, fields: Vec::new(), wrong };
        let mut place = pattern.chars().filter(char::is_ascii_alphanumeric).count() as u32;
        assert_eq!(place, if pattern.contains('|') { 32 } else { 16 }, "bits of {name}");
        let mut brackets = false;
        for c in pattern.chars().filter(|c| !" |".contains(*c)) {
            place -= u32::from(c.is_ascii_alphanumeric());
            match c {
                '(' | ')' => brackets = c == '(',
                '0' | '1' if brackets => encoding.should_be.add(place, c == '1'),
                '0' | '1' => encoding.fixed.add(place, c == '1'),
                letter => encoding.fields.push((letter, place)),
            }
        }
        encoding
    }

    /// Whether a word that has this encoding is neither undefined nor unpredictable.
    fn is_good(&self, word: u32) -> bool {
        self.should_be.fits(word) && !(self.wrong)(&Fields { encoding: self, word })
    }
}

/// What a first halfword says.
enum First {
    /// a whole instruction, of this class if it is a good one
    Short(Option<u32>),
    /// the first half of a 32-bit instruction
    Long,
}

/// The manual's encodings, and what it says to each first halfword.
struct Manual {
    short: Vec<Encoding>,
    long: Vec<Encoding>,
    firsts: Vec<First>,
}

impl Manual {
    fn read() -> Manual {
        let read = |all: &[Told]| all.iter().map(Encoding::read).collect::<Vec<_>>();
        let (short, long) = (read(SHORT_ENCODINGS), read(LONG_ENCODINGS));
        let first = |half: u16| match class(half) {
            LONG => First::Long,
            class => First::Short(is_good(&short, half.into()).then_some(class)),
        };
        Manual { firsts: (0..=u16::MAX).map(first).collect(), short, long }
    }

    fn get() -> &'static Manual {
        static MANUAL: OnceLock<Manual> = OnceLock::new();
        MANUAL.get_or_init(Manual::read)
    }
}

/// Whether bits 15 to 10 of a first halfword are those of a line's pattern.
pub fn fits(pattern: &str, first: u16) -> bool {
    let bits = format!("{:06b}", first >> 10);
    let same = |(want, bit): (char, char)| want == 'x' || want == bit;
    pattern.len() == bits.len() && pattern.chars().zip(bits.chars()).all(same)
}

/// The line that has a first halfword.
pub fn class(first: u16) -> u32 {
    let line = LINES.iter().position(|patterns| patterns.iter().any(|pattern| fits(pattern, first)));
    line.expect("every halfword has a line") as u32 + 1
}

/// The first encoding that a word has.
fn encoding(encodings: &[Encoding], word: u32) -> Option<&Encoding> {
    encodings.iter().find(|encoding| encoding.fixed.fits(word))
}

/// Whether a word is an instruction that is neither undefined nor unpredictable.
fn is_good(encodings: &[Encoding], word: u32) -> bool {
    encoding(encodings, word).is_some_and(|encoding| encoding.is_good(word))
}

fn both(first: u16, second: u16) -> u32 {
    (first as u32) << 16 | second as u32
}

/// The class of the instruction of Armv6-M at these halfwords, none if it is undefined or unpredictable. The second is
/// looked at only if the first begins a 32-bit instruction.
pub fn classify(first: u16, second: u16) -> Option<u32> {
    let manual = Manual::get();
    match manual.firsts[first as usize] {
        First::Short(class) => class,
        First::Long => is_good(&manual.long, both(first, second)).then_some(LONG),
    }
}

/// Status and number of the fault at halfwords outside the list.
pub fn fault(first: u16, second: u16) -> (u32, u32) {
    classify(first, second).map_or((22, 0), |class| (26, class))
}

/// The manual's name of the encoding of these halfwords, good or not.
pub fn name(first: u16, second: u16) -> Option<&'static str> {
    let manual = Manual::get();
    let found = match manual.firsts[first as usize] {
        First::Short(_) => encoding(&manual.short, first.into()),
        First::Long => encoding(&manual.long, both(first, second)),
    };
    found.map(|encoding| encoding.name)
}

/// All these names.
pub fn names() -> impl Iterator<Item = &'static str> {
    SHORT_ENCODINGS.iter().chain(LONG_ENCODINGS).map(|told| told.0)
}
