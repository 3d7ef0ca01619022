//! Cases made from a seed: all short texts over chosen alphabets, random texts biased by the grammar, damaged copies of them, texts at the
//! limits of length, and real Prolog text where some is installed.
use crate::kind::Kind;
use crate::model::{self, Cursor, LARGEST_MAGNITUDE, LONGEST_TEXT};
use crate::protocol::{Case, LARGEST_ROOM, readings};
use std::path::Path;

/// SplitMix64.
pub struct Random(u64);

impl Random {
    pub fn new(seed: u64) -> Random {
        Random(seed)
    }
    fn next(&mut self) -> u64 {
        self.0 = self.0.wrapping_add(0x9e37_79b9_7f4a_7c15);
        let mut z = self.0;
        z = (z ^ (z >> 30)).wrapping_mul(0xbf58_476d_1ce4_e5b9);
        z = (z ^ (z >> 27)).wrapping_mul(0x94d0_49bb_1331_11eb);
        z ^ (z >> 31)
    }
    pub fn below(&mut self, n: usize) -> usize {
        (self.next() % n as u64) as usize
    }
    pub fn chance(&mut self, percent: usize) -> bool {
        self.below(100) < percent
    }
    pub fn pick<T: Copy>(&mut self, from: &[T]) -> T {
        from[self.below(from.len())]
    }
}

// All short texts.

/// Texts that begin and end alike, with every text over an alphabet between.
struct Family {
    name: &'static str,
    before: &'static [u8],
    alphabet: Vec<u8>,
    after: &'static [u8],
    /// parts of the whole budget that it may take
    share: usize,
}

fn families() -> Vec<Family> {
    let every: Vec<u8> = (0..=127).filter(|&c| !model::is_foreign(c)).collect();
    let family = |name, before, alphabet: &[u8], after, share| Family { name, before, alphabet: alphabet.to_vec(), after, share };
    vec![
        family("every byte of a class", b"", &every, b"", 4),
        family("one or two of each class", b"", b" \n\t\r018aexA_+./*\\!(,|%'\"`", b"", 4),
        family("foreign bytes among them", b"", b"\x01\x80 \n0x'\".e+a/*%\\|", b"", 1),
        family("numbers", b"", b"019.e+-_xob' a", b"", 3),
        family("floats", b"1.", b"019e+-.E ", b"", 2),
        family("behind 0'", b"0'", b"'\"\\x17a \n\r`0t", b"", 2),
        family("quoted", b"'", b"'\"\\x18\n\ran ", b"", 3),
        family("double quoted", b"\"", b"\"'\\x4g\n ", b"", 2),
        family("escapes", b"'\\", b"0178xaFg\\n'q\n\" ", b"' ", 2),
        family("comments", b"", b"/*% \n\ra.", b"", 2),
        family("inside a comment", b"/*", b"/* \n%a", b"", 2),
        family("marks and brackets", b"", b".|([ \n\r%,)!", b"", 2),
    ]
}

fn texts_up_to(alphabet: usize, length: u32) -> usize {
    (0..=length).map(|n| alphabet.pow(n)).sum()
}

/// Every short text gets the token call as a file and as a field, the layout call and the text call.
const CALLS_A_TEXT: usize = 4;

/// Hands out every short text of every family, as long as the budget of cases lasts for whole lengths.
pub fn short_texts(budget: usize, mut take: impl FnMut(&[u8])) -> Vec<String> {
    let all = families();
    let shares: usize = all.iter().map(|f| f.share).sum();
    let mut said = Vec::new();
    for family in &all {
        let texts = budget * family.share / shares / CALLS_A_TEXT;
        let size = family.alphabet.len();
        let mut longest = 0;
        while texts_up_to(size, longest + 1) <= texts {
            longest += 1;
        }
        said.push(format!("{}: {} bytes, to length {longest}", family.name, size));
        for length in 0..=longest {
            let mut digits = vec![0; length as usize];
            loop {
                let middle: Vec<u8> = digits.iter().map(|&d| family.alphabet[d]).collect();
                take(&[family.before, &middle, family.after].concat());
                let Some(place) = digits.iter().rposition(|&d| d + 1 < size) else { break };
                digits[place] += 1;
                digits[place + 1..].fill(0);
            }
        }
    }
    said
}

pub fn short_cases(text: &[u8]) -> [Case; CALLS_A_TEXT] {
    [b'T', b'n', b'b', b'x'].map(|call| Case::new(call, Cursor::START, if call == b'x' { 4 } else { 0 }, text))
}

/// Beginnings behind which every byte is put: wherever a rule looks at the next byte, and where it does not.
const BEGINNINGS: [&str; 36] = [
    "", " ", "a", "A", "_", "+", ".", ",", "(", "!", "|", "||", "`", "/", "/*", "/* *", "%", "1", "1.", "1.0", "1.0e", "1.0e+",
    "1.0e+1", "0", "00", "0x", "0x1", "0o7", "0b1", "0'", "0''", "0'\\", "'", "'\\", "'\\x4", "'\\1",
];
const QUOTED_BEGINNINGS: [&str; 6] = ["\"", "\"\\", "\"\\x", "\"\"", "''", "'a'"];

/// Every byte, of a class or foreign, behind every beginning, as the last one and with more behind it.
pub fn every_byte(mut take: impl FnMut(&[u8])) {
    for before in BEGINNINGS.iter().chain(&QUOTED_BEGINNINGS) {
        for byte in 0..=255 {
            take(&[before.as_bytes(), &[byte]].concat());
            take(&[before.as_bytes(), &[byte], b"' "].concat());
        }
    }
}

// Random texts.

pub struct Maker {
    pub random: Random,
    /// paragraphs of real Prolog text
    pub real: Vec<Vec<u8>>,
}

const SMALL: &[u8] = b"abcdefghijklmnopqrstuvwxyz";
const CAPITAL: &[u8] = b"ABCDEFGHIJKLMNOPQRSTUVWXYZ";
const ALPHANUMERIC: &[u8] = b"abcxyzABCXYZ0189_e";
const GRAPHIC: &[u8] = b"#$&*+-./:<=>?@^~\\";
const NAMES: [&str; 24] = [
    "is", "mod", "rem", "e", "x", "o", "b", ":-", "-->", "?-", "->", "\\+", "=", "\\=", "@>=", "=..", "**", "//", "/\\", "\\/",
    "!", ";", "=/*", "-",
];
const PUNCTUATION: [&str; 12] = ["(", ")", "[", "]", "{", "}", ",", "|", "||", "|||", "()", "[]"];
const LAYOUT: [&str; 14] = [" ", " ", " ", " ", "\n", "\n", "\t", "  ", " \n ", "\r\n", "% c\n", "% c\r\n", "/* c */", "/**/"];
const GOOD_ESCAPES: [&str; 20] = [
    "\\\\", "\\'", "\\\"", "\\`", "\\a", "\\b", "\\f", "\\n", "\\r", "\\t", "\\v", "\\101\\", "\\x41\\", "\\1\\", "\\177\\",
    "\\x7f\\", "\\x7F\\", "\\x1\\", "\\0000101\\", "\\x0000041\\",
];
const BAD_ESCAPES: [&str; 31] = [
    "\\q",
    "\\e",
    "\\s",
    "\\z",
    "\\8",
    "\\9",
    "\\ ",
    "\\A",
    "\\X41\\",
    "\\.",
    "\\0\\",
    "\\x0\\",
    "\\200\\",
    "\\x80\\",
    "\\xD800\\",
    "\\x10FFFF\\",
    "\\x110000\\",
    "\\xFFFFFFFF\\",
    "\\x100000000\\",
    "\\xffffffffffffffffffffffffffffffffffffffff\\",
    "\\37777777777\\",
    "\\x",
    "\\xg",
    "\\x41",
    "\\101",
    "\\18\\",
    "\\x4g\\",
    "\\",
    "\\\t",
    "\\\r\n",
    "\\77777777777777777777777777777777\\",
];
const COMMENTS: [&str; 15] = [
    "/* c */", "/**/", "/***/", "/****/", "/*/*/", "/* /* */", "/* * / */", "/*\n*/", "/*\r\n*/", "/* 'a */", "% c\n", "%\n",
    "%%\n", "% /* c\n", "/* % */",
];
const UNCLOSED: [&str; 10] = ["/*", "/* ", "/*/", "/**", "/* * /", "/*\n", "/* c", "/* **", "/", "% c"];
const MARKS: [&str; 8] = [". ", ".\n", ".\t", ".\r\n", ".%", ".% c\n", ".\n\n", "."];

/// Integers around which something changes, in their order: limits of documents 01 and 02, of the Rust's fixnums, of machine words.
const EDGES: [u128; 20] = [
    0, 1, 9, 10, 127, 255, 65_535, 4_294_967_295, 9_007_199_254_740_991, 9_007_199_254_740_992, 9_007_199_254_740_993,
    36_028_797_018_963_967, 36_028_797_018_963_968, 922_337_203_685_477_580, 9_223_372_036_854_775_806,
    9_223_372_036_854_775_807, 9_223_372_036_854_775_808, 9_223_372_036_854_775_809, 18_446_744_073_709_551_615,
    18_446_744_073_709_551_616,
];

fn in_base(mut n: u128, base: u128, capitals: bool) -> String {
    let mut digits = Vec::new();
    loop {
        let digit = char::from_digit((n % base) as u32, base as u32).expect("a digit");
        digits.push(if capitals { digit.to_ascii_uppercase() } else { digit });
        n /= base;
        if n == 0 {
            return digits.iter().rev().collect();
        }
    }
}

impl Maker {
    pub fn new(seed: u64) -> Maker {
        Maker { random: Random::new(seed), real: Vec::new() }
    }

    fn some_of(&mut self, bytes: &[u8], most: usize) -> Vec<u8> {
        (0..self.random.below(most + 1)).map(|_| self.random.pick(bytes)).collect()
    }

    fn integer(&mut self, clean: bool) -> u128 {
        let choices = if clean { EDGES.partition_point(|&n| n <= LARGEST_MAGNITUDE) } else { EDGES.len() };
        match self.random.below(4) {
            0 => EDGES[self.random.below(choices)],
            1 => u128::from(self.random.next() >> 1),
            2 if !clean => u128::from(self.random.next()) << self.random.below(8),
            _ => u128::from(self.random.next() >> (1 + self.random.below(63))),
        }
    }

    fn number(&mut self, clean: bool) -> Vec<u8> {
        let zeros = if self.random.chance(10) { "0".repeat(1 + self.random.below(4)) } else { String::new() };
        let made = match self.random.below(10) {
            0..=2 => format!("{zeros}{}", self.integer(clean)),
            3 => {
                let (letter, base) = self.random.pick(&[("x", 16), ("o", 8), ("b", 2), ("X", 16)]);
                let capitals = self.random.chance(50);
                let digits = in_base(self.integer(clean), base, capitals);
                format!("0{letter}{zeros}{digits}")
            }
            4 => format!("0{}", self.random.pick(&["x", "o", "b", "xg", "o8", "b2", "x.", "o'", "b_", "'", "e", ""])),
            5 => {
                let c = self.random.pick(b"aZ0 _'\"`\\.,%(/*!") as char;
                let escape = self.random.pick(&GOOD_ESCAPES);
                match self.random.below(6) {
                    0 => format!("0'{c}"),
                    1 => format!("0'{escape}"),
                    2 => "0'''".to_string(),
                    3 => format!("0''{c}"),
                    _ if clean => format!("0'{escape}{c}"),
                    4 => format!("0'{}", self.random.pick(&BAD_ESCAPES)),
                    _ => format!("0'{}", self.random.pick(&["\n", "\t", "\r\n", "\\\n", "\\\n'", "\\\nx", "\\\r\n"])),
                }
            }
            6 if !clean => format!("{}_{}", self.integer(true), self.random.pick(&["", "1", " 1", "000", "x"])),
            _ => self.float(clean),
        };
        made.into_bytes()
    }

    fn float(&mut self, clean: bool) -> String {
        let m = match self.random.below(5) {
            0 => EDGES[self.random.below(if clean { 10 } else { 12 })],
            1 => u128::from(self.random.next() >> 11),
            2 if !clean => u128::from(self.random.next()),
            _ => u128::from(self.random.next() >> (11 + self.random.below(53))),
        };
        let digits = m.to_string();
        let fraction = match self.random.below(4) {
            0 => 1,
            1 if !clean => 1 + self.random.below(26),
            _ => 1 + self.random.below(digits.len()),
        };
        let digits = format!("{digits:0>width$}", width = fraction + 1);
        let (whole, rest) = digits.split_at(digits.len() - fraction);
        // the exponent less the count of fraction digits, around the limit
        let e = match self.random.below(4) {
            0 => self.random.pick(&[22, 21, -22, -21, 0]),
            1 if !clean => self.random.pick(&[23, 24, -23, -24, 300, -400]),
            _ => self.random.below(45) as i64 - 22,
        };
        let written = e + fraction as i64;
        let sign = if written < 0 { "-" } else { self.random.pick(&["", "+"]) };
        let zeros = self.random.pick(&["", "", "", "0", "000"]);
        let letter = self.random.pick(&["e", "E"]);
        match self.random.below(5) {
            0 if fraction <= 22 => format!("{whole}.{rest}"),
            1 => format!("{whole}.{rest}{letter}{}", self.random.pick(&["", "+", "-", "x", "+-", " 1", "+x"])),
            _ => format!("{whole}.{rest}{letter}{sign}{zeros}{}", written.abs()),
        }
    }

    fn quoted(&mut self, clean: bool) -> Vec<u8> {
        let quote = self.random.pick(b"''''\"\"");
        let mut made = vec![quote];
        for _ in 0..self.random.below(6) {
            match self.random.below(12) {
                0..=4 => made.push(32 + self.random.below(95) as u8),
                5 => made.extend(self.random.pick(&GOOD_ESCAPES).bytes()),
                6 => made.extend([quote, quote]),
                7 => made.extend(b"\\\n"),
                8 => made.push(self.random.pick(b"'\"`")),
                9 if !clean => made.extend(self.random.pick(&BAD_ESCAPES).bytes()),
                10 if !clean => made.push(self.random.pick(b"\n\t\r\x01")),
                _ => made.extend(self.some_of(ALPHANUMERIC, 4)),
            }
        }
        if !self.random.chance(if clean { 2 } else { 10 }) {
            made.push(quote);
        }
        made
    }

    fn piece(&mut self, clean: bool) -> Vec<u8> {
        match self.random.below(20) {
            0..=2 => [vec![self.random.pick(SMALL)], self.some_of(ALPHANUMERIC, 5)].concat(),
            3..=4 => [vec![self.random.pick(&[CAPITAL, b"_"].concat())], self.some_of(ALPHANUMERIC, 5)].concat(),
            5 => self.random.pick(&NAMES).into(),
            6 => [vec![self.random.pick(GRAPHIC)], self.some_of(GRAPHIC, 4)].concat(),
            7..=11 => self.number(clean),
            12..=14 => self.quoted(clean),
            15..=16 => self.random.pick(&PUNCTUATION).into(),
            17 => self.random.pick(&COMMENTS).into(),
            18 if !clean && self.random.chance(40) => self.random.pick(&["`", "`a`", "`\\x41\\`", "`a", "``"]).into(),
            18 if !clean && self.random.chance(50) => vec![self.random.pick(b"\x00\x01\x0b\x0c\x0e\x1f\x7f\x80\xc3\xff")],
            _ => self.random.pick(&MARKS).into(),
        }
    }

    fn pieces(&mut self, clean: bool) -> Vec<u8> {
        let mut text = Vec::new();
        for _ in 0..1 + self.random.below(7) {
            if self.random.chance(45) {
                text.extend(self.random.pick(&LAYOUT).bytes());
            }
            text.extend(self.piece(clean));
        }
        text
    }

    /// A text that can stand among others, as far as the pieces do not join.
    pub fn clean_text(&mut self) -> Vec<u8> {
        self.pieces(true)
    }

    /// Most texts are clean: they hold nothing that demand 2's domain leaves out, as far as the pieces do not join.
    fn written(&mut self) -> Vec<u8> {
        let clean = self.random.chance(70);
        let mut text = self.pieces(clean);
        match self.random.below(8) {
            0 => text.extend(self.random.pick(&UNCLOSED).bytes()),
            1..=3 => text.extend(self.random.pick(&MARKS).bytes()),
            4 => text.extend(self.random.pick(&LAYOUT).bytes()),
            _ => {}
        }
        text
    }

    fn damage(&mut self, text: &mut Vec<u8>) {
        for _ in 0..1 + self.random.below(3) {
            let at = self.random.below(text.len() + 1);
            if self.random.chance(5) {
                // is the byte that follows looked at?
                text.truncate(at);
                text.push(self.random.pick(b"\x01\r\x7f\x80"));
                return;
            }
            let byte = if self.random.chance(3) {
                self.random.below(256) as u8
            } else {
                self.random.pick(b" \n\t\r0189aexobA_+-./*\\!(,|%'\"`")
            };
            match self.random.below(5) {
                0 => text.truncate(at),
                1 if at < text.len() => drop(text.remove(at)),
                2 if at < text.len() => text[at] = byte,
                3 if at + 1 < text.len() => text.swap(at, at + 1),
                _ => text.insert(at, byte),
            }
        }
    }

    pub fn text(&mut self) -> Vec<u8> {
        let mut text = match self.random.below(10) {
            0..=2 if !self.real.is_empty() => self.real[self.random.below(self.real.len())].clone(),
            _ => self.written(),
        };
        if self.random.chance(10) {
            // as a laptop saves it
            text = text.split(|&c| c == b'\n').collect::<Vec<_>>().join(&b"\r\n"[..]);
        }
        if self.random.chance(25) {
            self.damage(&mut text);
        }
        text
    }

    /// The cases of one text: the token call through the text, and the others where its tokens stand and elsewhere; the layout call where more than a
    /// byte of layout stands before a token, and behind the last.
    pub fn cases_of(&mut self, text: &[u8], take: &mut impl FnMut(Case)) {
        let through = Case::new(b'T', Cursor::START, 0, text);
        let read = readings(&through);
        take(through);
        let mut cursor = Cursor::START;
        for reading in &read {
            let Ok(token) = &reading.answer else {
                take(Case::new(b'b', cursor, 0, text));
                if self.random.chance(15) {
                    take(Case::new(b'x', cursor, self.random.below(9), text));
                }
                break;
            };
            if token.start > token.layout + 1 {
                take(Case::new(b'b', cursor, 0, text));
            }
            let textual = matches!(token.kind, Kind::Name | Kind::Variable | Kind::String);
            if self.random.chance(if token.quoted {
                70
            } else if textual {
                12
            } else {
                4
            }) {
                let needed = if token.quoted { token.text.len() } else { 0 };
                let room = if self.random.chance(15) { self.random.below(needed + 1) } else { needed + self.random.below(4) };
                take(Case::new(b'x', cursor, room.min(LARGEST_ROOM), text));
            }
            if self.random.chance(if token.kind == Kind::Number { 30 } else { 8 }) {
                // ended with the token, the text shows what only a field accepts
                let end = if self.random.chance(50) { token.next.offset } else { text.len() };
                take(Case::new(b'n', cursor, 0, &text[..end]));
            }
            cursor = token.next;
        }
        if self.random.chance(20) {
            let at = self.random.below(text.len() + 1);
            let call = self.random.pick(b"tTnx");
            let cursor = match self.random.below(8) {
                0 => Cursor { offset: at, line: self.random.below(at + 2), column: self.random.below(at + 2) },
                1 => Cursor { offset: at + self.random.below(3), line: at, column: at },
                2 if self.random.chance(20) => {
                    let far = self.random.pick(&[LONGEST_TEXT, LONGEST_TEXT + 1, (1 << 32) - 1, 1 << 32]);
                    Cursor { offset: far, line: self.random.pick(&[0, far]), column: self.random.pick(&[0, far]) }
                }
                _ => Cursor::START.moved_to(text, at),
            };
            take(Case::new(call, cursor, if call == b'x' { self.random.below(20) } else { 0 }, text));
            take(Case::new(b'b', cursor, 0, text));
        }
    }
}

// Texts at the limits of length.

pub fn long_cases() -> Vec<Case> {
    let filled = |before: &str, c: u8, after: &str, length: usize| {
        let middle = vec![c; length - before.len() - after.len()];
        [before.as_bytes(), &middle, after.as_bytes()].concat()
    };
    let mut cases = Vec::new();
    for length in [LONGEST_TEXT - 1, LONGEST_TEXT, LONGEST_TEXT + 1] {
        for (before, c, after) in [
            ("", b'a', " "),
            ("", b'a', "."),
            ("", b'0', "1 "),
            ("", b'0', ""),
            ("", b'9', " "),
            ("1.", b'0', " "),
            ("1.0e", b'0', "1 "),
            ("0x", b'0', "1"),
            ("0'\\x", b'0', "41\\"),
            ("'", b'a', "' "),
            ("\"\\x", b'0', "41\\\" "),
            ("", b' ', "a "),
            ("", b'\n', "a "),
            ("", b'\r', "a "),
            ("%", b'c', ""),
            ("/*", b'*', "/"),
            ("/*", b'*', ""),
            ("", b'+', "\n"),
            ("_", b'Z', "("),
        ] {
            let text = filled(before, c, after, length);
            for call in *b"tnbx" {
                cases.push(Case::new(call, Cursor::START, if call == b'x' { 8 } else { 0 }, &text));
            }
        }
        let text = filled("", b'\n', "(", length);
        for offset in [length - 2, length - 1, length, length + 1] {
            for (line, column) in [(offset, 0), (offset, offset), (0, offset + 1)] {
                cases.extend([b't', b'b'].map(|call| Case::new(call, Cursor { offset, line, column }, 0, &text)));
            }
        }
    }
    cases
}

// Real Prolog text.

/// Where packages of Prolog systems keep their libraries.
pub const PACKAGES: [&str; 7] = [
    "/usr/lib/swi-prolog",
    "/usr/local/lib/swi-prolog",
    "/usr/lib/gprolog",
    "/usr/share/gprolog",
    "/usr/share/Yap",
    "/usr/lib/ciao",
    "/usr/share/scryer-prolog",
];

/// The files `*.pl` and `*.pro` below a folder, in order of their names, cut at blank lines.
pub fn paragraphs(folder: &Path, found: &mut Vec<Vec<u8>>) {
    let Ok(entries) = std::fs::read_dir(folder) else { return };
    let mut paths: Vec<_> = entries.flatten().map(|e| e.path()).collect();
    paths.sort();
    for path in paths {
        if path.is_symlink() {
            continue;
        } else if path.is_dir() {
            paragraphs(&path, found);
        } else if path.extension().is_some_and(|e| e == "pl" || e == "pro") {
            let Ok(source) = std::fs::read(&path) else { continue };
            let mut paragraph = Vec::new();
            for line in source.split_inclusive(|&c| c == b'\n') {
                paragraph.extend(line);
                if line == b"\n" && paragraph.len() > 200 || paragraph.len() > 3000 {
                    found.push(std::mem::take(&mut paragraph));
                }
            }
            found.push(paragraph);
        }
    }
}
