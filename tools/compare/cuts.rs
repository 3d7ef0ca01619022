//! Random texts for the reader of chunks, and random ways of cutting them.
use crate::cases::{Maker, Random};
use crate::whole::{LONGEST_TEXT, LONGEST_TOKEN};

/// What a long token starts with, what it is filled with, and what may stand behind that.
const LONG_TOKENS: [(&str, &str); 22] = [
    ("", "a"),
    ("", "A"),
    ("_", "1"),
    ("", "+"),
    ("", "0"),
    ("", "9"),
    ("0x", "0"),
    ("0x", "f"),
    ("0o", "7"),
    ("0b", "0"),
    ("0.", "0"),
    ("0.", "9"),
    ("1.0e", "0"),
    ("1.0e+", "0"),
    ("1.0E-", "9"),
    ("0'\\x", "0"),
    ("0'\\", "0"),
    ("'", "a"),
    ("\"", "a"),
    ("'", "''"),
    ("'", "\\x41\\"),
    ("`", "a"),
];
const BEHIND: [&str; 40] = [
    "", " ", "\n", "(", "a", "_", "\x01", "\u{7f}", "'", "''", "' ", "'(", "\"", "\" ", "\\", "\\ ", "\\q", "\\q'", "\\\n'", "\\\r\n'", "200\\", "41\\ ", "7\\", ".", ". ",
    ".x", ".5 ", ".5e400 ", ".\x01", ".0e+x", ".0e+5 ", ".0e+", ".0e5 ", "e5 ", "e+", "e\x01", ".0E-\x01", "8 ", "'a\n", "%",
];
/// What may be long without being a token.
const LONG_LAYOUT: [(&str, &str, &str); 9] = [
    ("/*", "c", "*/"),
    ("/*", "*", "/"),
    ("/*", "/", "*/"),
    ("/*", "\n", "*/"),
    ("/*", "c", ""),
    ("%", "c", "\n"),
    ("%", "c", ""),
    ("", " ", ""),
    ("", "\r\n", ""),
];

/// Behind the digits of a number: what it goes on with, what is put back, what shows that it is refused.
const BEHIND_DIGITS: [&str; 24] = [
    "", " ", ".", ". ", ".x", ".5", ".5 ", ".\x01", "e5 ", ".0e", ".0e5 ", ".0ex", ".0E+", ".0e+x", ".0e+5 ", ".0e-", ".0E-x", ".0e-5 ", ".0e-\x01", ".0e400 ", ".05e+7 ", "_", "x1 ", "\x01",
];

/// Texts of one kind in this many.
const WITH_LONG_TOKEN: usize = 50;
const WITH_LONG_NUMBER: usize = 100;
const WITH_LONG_LAYOUT: usize = 300;
const OF_MANY_TOKENS: usize = 300;
const AT_THE_LIMIT: usize = 5_000;

fn add_repeated(text: &mut Vec<u8>, piece: &str, length: usize) {
    for _ in 0..length.div_ceil(piece.len()) {
        text.extend(piece.bytes());
    }
}

/// Around 1,024 bytes, most of them within a few.
fn long_token(maker: &mut Maker) -> Vec<u8> {
    let random = &mut maker.random;
    let (start, filling) = random.pick(&LONG_TOKENS);
    let behind = random.pick(&BEHIND);
    let spread = random.pick(&[3, 3, 10, 1_000]);
    let length = LONGEST_TOKEN + spread / 2 + 2 - random.below(spread + 5);
    let less = random.pick(&[start.len(), start.len() + behind.len(), 0]);
    let mut text = start.as_bytes().to_vec();
    add_repeated(&mut text, filling, length.saturating_sub(less));
    text.extend(behind.bytes());
    text
}

/// Every length near the limit with every ending.
fn long_number(maker: &mut Maker) -> Vec<u8> {
    let random = &mut maker.random;
    let mut text = vec![random.pick(b"09"); LONGEST_TOKEN - 8 + random.below(12)];
    text.extend(random.pick(&BEHIND_DIGITS).bytes());
    text
}

fn long_layout(maker: &mut Maker) -> Vec<u8> {
    let (open, filling, close) = maker.random.pick(&LONG_LAYOUT);
    let mut text = open.as_bytes().to_vec();
    add_repeated(&mut text, filling, maker.random.below(6_000));
    text.extend(close.bytes());
    text
}

/// As many as make the bytes at hand go through the window several times.
fn many_tokens(maker: &mut Maker, length: usize) -> Vec<u8> {
    let mut text = Vec::new();
    while text.len() < length {
        text.extend(maker.clean_text());
        text.push(b'\n');
    }
    text
}

/// A few bytes below the limit, at it, or above it: then a name begins before the limit and does not end.
fn at_the_limit(maker: &mut Maker) -> Vec<u8> {
    let mut text = if maker.random.chance(50) { many_tokens(maker, 3_000) } else { Vec::new() };
    text.extend(b"/*");
    let length = LONGEST_TEXT - maker.random.below(40);
    text.resize(length - 12, b'c');
    text.extend(b"*/ ");
    text.resize(length - maker.random.below(4), b'a');
    text.resize(length + maker.random.pick(&[0, 0, 1, 60]), b'a');
    text
}

/// The text of this number; the same each time.
pub fn text(maker: &mut Maker) -> Vec<u8> {
    let middle = if maker.random.below(WITH_LONG_TOKEN) == 0 {
        long_token(maker)
    } else if maker.random.below(WITH_LONG_NUMBER) == 0 {
        long_number(maker)
    } else if maker.random.below(WITH_LONG_LAYOUT) == 0 {
        long_layout(maker)
    } else if maker.random.below(OF_MANY_TOKENS) == 0 {
        let length = maker.random.below(6_000);
        many_tokens(maker, length)
    } else if maker.random.below(AT_THE_LIMIT) == 0 {
        return at_the_limit(maker);
    } else {
        return maker.text();
    };
    let [before, behind] = [50, 50].map(|percent| if maker.random.chance(percent) { maker.clean_text() } else { Vec::new() });
    [before, middle, behind].concat()
}

/// How long the next chunk is to be.
pub struct Cut {
    most: usize,
    /// empty ones, in a hundred
    empty: usize,
    /// the first chunk, where the others are short: up to where a token is long
    first: usize,
}

impl Cut {
    pub fn new(random: &mut Random, length: usize) -> Cut {
        let empty = random.pick(&[0, 0, 10, 50]);
        if length < 400 {
            return Cut { most: random.pick(&[1, 1, 2, 3, 7, 30, length.max(1)]), empty, first: 0 };
        }
        // a chunk of a byte has its token read anew: few of them, where tokens are long
        let first = if random.chance(50) { random.below(LONGEST_TOKEN + 40) } else { 0 };
        Cut { most: random.pick(&[if first > 900 { 1 } else { 40 }, 64, 300, 1_023, 1_024, 1_025, 1_500, length]), empty, first }
    }

    /// At most so many bytes are left.
    pub fn next(&mut self, random: &mut Random, left: usize) -> usize {
        if random.chance(self.empty) {
            return 0;
        }
        let length = match std::mem::take(&mut self.first) {
            0 if self.most <= 2 || self.most >= left => self.most,
            0 => 1 + random.below(self.most),
            first => first,
        };
        length.min(left)
    }
}
