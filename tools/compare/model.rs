//! Document 01's tokenizer, read plainly: a function a rule, in 01's order, from the words of 01, of requests 1, 7 and 8 of document 02
//! and of the settled open points (T1 to T26, R1.1 to R1.7, R7.1 to R7.3, R8.1 to R8.15).
//! It shares no code with lexer.rs, but its author had read lexer.rs, and T1 and T2 were settled by it: where all three agree, a misreading
//! that they share is not ruled out. It stands in for the probe, decides what lies in demand 2's domain, and checks the answers written by
//! hand. It is no part of what is proved.
use crate::kind::Kind;

pub const LONGEST_TEXT: usize = 65_535;
pub const LARGEST_MAGNITUDE: u128 = 9_223_372_036_854_775_808;
pub const LARGEST_MANTISSA: u128 = 9_007_199_254_740_992;
pub const LARGEST_EXPONENT: i64 = 22;
pub const LARGEST_CODE: u128 = 127;

#[derive(Copy, Clone, Debug, PartialEq, Eq)]
pub struct Cursor {
    pub offset: usize,
    pub line: usize,
    pub column: usize,
}

#[derive(Copy, Clone, Debug, PartialEq, Eq)]
pub enum Value {
    Nothing,
    Integer(u64),
    /// the double's bits
    Float(u64),
}

#[derive(Clone, Debug, PartialEq, Eq)]
pub struct Token {
    pub kind: Kind,
    pub value: Value,
    /// where the layout before it began
    pub layout: usize,
    pub start: usize,
    pub next: Cursor,
    /// what a name, variable or string stands for
    pub text: Vec<u8>,
    pub quoted: bool,
}

/// In the order of their numbers in the C interface.
#[derive(Copy, Clone, Debug, PartialEq, Eq)]
pub enum LayoutKind {
    /// no layout text, told as an empty one
    Absent,
    Blanks,
    LineComment,
    BracketedComment,
}

#[derive(Copy, Clone, Debug, PartialEq, Eq)]
pub struct LayoutText {
    pub kind: LayoutKind,
    pub start: usize,
    pub next: Cursor,
}

#[derive(Copy, Clone, Debug, PartialEq, Eq)]
pub enum Refusal {
    EndOfText = 1,
    UnclosedComment,
    NoToken,
    BadQuoted,
    ForeignByte,
    SetAside,
    OutOfLimit,
    NotValid,
    NoRoom,
    NoText = 12,
}

#[derive(Copy, Clone, Debug, PartialEq, Eq)]
pub struct Fault {
    pub refusal: Refusal,
    pub offset: usize,
}

/// One call's answer, and why what it read lies outside demand 2's domain, if it does. (The domain also wants no foreign byte
/// anywhere in the text: `has_foreign`.)
#[derive(Clone, Debug)]
pub struct Reading {
    pub answer: Result<Token, Fault>,
    pub outside: Option<&'static str>,
}

#[derive(Copy, Clone, Debug, PartialEq, Eq)]
pub enum Source {
    File,
    Field,
}

// Bytes: the classes of ISO 6.5.

pub fn is_layout(c: u8) -> bool {
    matches!(c, b'\t' | b'\n' | b'\r' | b' ')
}
pub fn is_graphic(c: u8) -> bool {
    b"#$&*+-./:<=>?@^~\\".contains(&c)
}
pub fn is_solo(c: u8) -> bool {
    b"!(),;[]{}|%".contains(&c)
}
pub fn is_quote(c: u8) -> bool {
    b"'\"`".contains(&c)
}
pub fn is_alphanumeric(c: u8) -> bool {
    c.is_ascii_alphanumeric() || c == b'_'
}
pub fn is_foreign(c: u8) -> bool {
    !(is_layout(c) || is_alphanumeric(c) || is_graphic(c) || is_solo(c) || is_quote(c))
}
pub fn has_foreign(text: &[u8]) -> bool {
    text.iter().any(|&c| is_foreign(c))
}

impl Cursor {
    pub const START: Cursor = Cursor { offset: 0, line: 0, column: 0 };

    pub fn is_valid(self, text: &[u8]) -> bool {
        self.offset <= text.len() && self.line <= self.offset && self.column <= self.offset
    }

    /// "A newline adds a line and sets the column to 0; another character adds a column."
    pub fn moved_to(self, text: &[u8], offset: usize) -> Cursor {
        let mut at = self;
        for &c in &text[self.offset..offset] {
            if c == b'\n' {
                at.line += 1;
                at.column = 0;
            } else {
                at.column += 1;
            }
        }
        at.offset = offset;
        at
    }
}

/// What a rule found: its value and the offset behind it.
type Found<T> = Result<(T, usize), Fault>;

/// A token before its limits are judged.
struct Raw {
    kind: Kind,
    value: Value,
    text: Vec<u8>,
    end: usize,
}

struct Reader<'t> {
    text: &'t [u8],
    source: Source,
    /// where the token starts, once its layout is read
    start: usize,
    /// an integer, float or escape code was out of limit: refusal 7 if the token is otherwise whole
    out_of_limit: bool,
    outside: Option<&'static str>,
}

/// The text call reads a file (R7.3): 12 before 9, and both behind the token's own refusals (T19, T20).
pub fn text_call(text: &[u8], cursor: Cursor, room: usize) -> Reading {
    let mut reading = token_call(text, cursor, Source::File);
    if let Ok(token) = &reading.answer {
        let start = token.start;
        let refusal = match token.kind {
            Kind::Name | Kind::Variable | Kind::String if token.quoted && token.text.len() > room => Some(Refusal::NoRoom),
            Kind::Name | Kind::Variable | Kind::String => None,
            _ => Some(Refusal::NoText),
        };
        if let Some(refusal) = refusal {
            reading.answer = Err(Fault { refusal, offset: start });
        }
    }
    reading
}

/// The layout call: one layout text at a time, refused as the token call is while it is in layout (R8.12, R8.13).
pub fn layout_call(text: &[u8], cursor: Cursor) -> Result<LayoutText, Fault> {
    let start = cursor.offset;
    let (kind, end) = Reader::new(text, cursor, Source::File)?.layout_text(start)?;
    Ok(LayoutText { kind, start, next: cursor.moved_to(text, end) })
}

pub fn token_call(text: &[u8], cursor: Cursor, source: Source) -> Reading {
    let mut reader = match Reader::new(text, cursor, source) {
        Ok(reader) => reader,
        Err(fault) => return Reading { answer: Err(fault), outside: Some("text too long or cursor not valid") },
    };
    let answer = reader.token(cursor);
    if reader.out_of_limit {
        reader.outside.get_or_insert("out of limit");
    }
    Reading { answer, outside: reader.outside }
}

impl Reader<'_> {
    fn new(text: &[u8], cursor: Cursor, source: Source) -> Result<Reader<'_>, Fault> {
        if text.len() > LONGEST_TEXT || !cursor.is_valid(text) {
            return Err(Fault { refusal: Refusal::NotValid, offset: 0 });
        }
        Ok(Reader { text, source, start: cursor.offset, out_of_limit: false, outside: None })
    }

    /// A rule looks at a byte: 1 if the text has ended, 5 if the byte is foreign (T2).
    fn look(&self, at: usize) -> Result<u8, Fault> {
        match self.text.get(at) {
            None => Err(Fault { refusal: Refusal::EndOfText, offset: at }),
            Some(&c) if is_foreign(c) => Err(Fault { refusal: Refusal::ForeignByte, offset: at }),
            Some(&c) => Ok(c),
        }
    }

    fn ended(&self, at: usize) -> bool {
        at == self.text.len()
    }

    /// The offset behind a run; the byte that ends the run is looked at.
    fn run(&self, mut at: usize, belongs: fn(u8) -> bool) -> Result<usize, Fault> {
        while belongs(self.look(at)?) {
            at += 1;
        }
        Ok(at)
    }

    /// A run that may end with the text.
    fn run_to_end(&self, mut at: usize, belongs: impl Fn(u8) -> bool) -> Result<usize, Fault> {
        while !self.ended(at) && belongs(self.look(at)?) {
            at += 1;
        }
        Ok(at)
    }

    fn at_token(&self, refusal: Refusal) -> Fault {
        Fault { refusal, offset: self.start }
    }

    fn bad_quoted(&mut self, why: &'static str) -> Fault {
        self.outside = Some(why);
        self.at_token(Refusal::BadQuoted)
    }

    // Layout and comments.

    fn layout(&self, mut at: usize) -> Result<usize, Fault> {
        loop {
            at = match self.layout_text(at)? {
                (LayoutKind::Absent, _) => return Ok(at),
                (_, end) => end,
            }
        }
    }

    /// The layout text that starts at an offset, and where it ends; its first character tells which it is (R8.8 to R8.11, R8.14).
    fn layout_text(&self, at: usize) -> Result<(LayoutKind, usize), Fault> {
        Ok(match self.look(at)? {
            c if is_layout(c) => (LayoutKind::Blanks, self.blanks_end(at)),
            b'%' => (LayoutKind::LineComment, self.line_comment(at + 1)?),
            b'/' if self.look(at + 1)? == b'*' => (LayoutKind::BracketedComment, self.bracketed_comment(at)?),
            _ => (LayoutKind::Absent, at),
        })
    }

    /// What ends the run is not looked at: it is the next call's.
    fn blanks_end(&self, at: usize) -> usize {
        at + self.text[at..].iter().take_while(|c| is_layout(**c)).count()
    }

    fn line_comment(&self, at: usize) -> Result<usize, Fault> {
        let newline = self.run_to_end(at, |c| c != b'\n')?;
        Ok(if self.ended(newline) { newline } else { newline + 1 })
    }

    /// It "ends at the first star that a slash follows"; 2 needs a character behind the opening mark.
    fn bracketed_comment(&self, slash: usize) -> Result<usize, Fault> {
        let mut at = slash + 2;
        self.look(at)?;
        let unclosed = Fault { refusal: Refusal::UnclosedComment, offset: slash };
        while !self.ended(at) {
            if self.look(at)? == b'*' && !self.ended(at + 1) && self.look(at + 1)? == b'/' {
                return Ok(at + 2);
            }
            at += 1;
        }
        Err(unclosed)
    }

    // Tokens.

    fn token(&mut self, cursor: Cursor) -> Result<Token, Fault> {
        let start = self.layout(cursor.offset)?;
        self.start = start;
        let first = self.look(start)?;
        let after_layout = start > cursor.offset;
        let raw = match first {
            b'0'..=b'9' => self.number()?,
            b'A'..=b'Z' | b'_' => {
                let end = self.run(start + 1, is_alphanumeric)?;
                Raw { kind: Kind::Variable, value: Value::Nothing, text: self.text[start..end].to_vec(), end }
            }
            b'"' => {
                let (text, end) = self.quoted(first)?;
                Raw { kind: Kind::String, value: Value::Nothing, text, end }
            }
            b'(' if after_layout => self.punctuation(Kind::Open, 1),
            b'(' => self.punctuation(Kind::OpenCT, 1),
            b')' => self.punctuation(Kind::Close, 1),
            b'[' => self.punctuation(Kind::OpenList, 1),
            b']' => self.punctuation(Kind::CloseList, 1),
            b'{' => self.punctuation(Kind::OpenCurly, 1),
            b'}' => self.punctuation(Kind::CloseCurly, 1),
            b',' => self.punctuation(Kind::Comma, 1),
            b'|' if self.look(start + 1)? == b'|' => self.punctuation(Kind::DoubleBar, 2),
            b'|' => self.punctuation(Kind::HeadTailSeparator, 1),
            b'.' if self.ended(start + 1) => self.punctuation(Kind::End, 1),
            b'.' => match self.look(start + 1)? {
                b'\n' => self.punctuation(Kind::End, 2),
                b' ' | b'\t' | b'\r' | b'%' => self.punctuation(Kind::End, 1),
                _ => self.name(first)?,
            },
            _ => self.name(first)?,
        };
        if self.out_of_limit {
            return Err(self.at_token(Refusal::OutOfLimit));
        }
        let Raw { kind, value, text, end } = raw;
        let quoted = matches!(first, b'\'' | b'"');
        Ok(Token { kind, value, layout: cursor.offset, start, next: cursor.moved_to(self.text, end), text, quoted })
    }

    fn punctuation(&self, kind: Kind, length: usize) -> Raw {
        Raw { kind, value: Value::Nothing, text: Vec::new(), end: self.start + length }
    }

    fn name(&mut self, first: u8) -> Result<Raw, Fault> {
        let start = self.start;
        let (text, end) = match first {
            b'a'..=b'z' => self.spelled(self.run(start + 1, is_alphanumeric)?),
            b'!' | b';' => self.spelled(start + 1),
            b'\'' => self.quoted(first)?,
            c if is_graphic(c) => self.spelled(self.run(start + 1, is_graphic)?),
            _ => return Err(self.at_token(Refusal::NoToken)),
        };
        Ok(Raw { kind: Kind::Name, value: Value::Nothing, text, end })
    }

    fn spelled(&self, end: usize) -> (Vec<u8>, usize) {
        (self.text[self.start..end].to_vec(), end)
    }

    // Quoted items, ISO 6.4.2.1.

    /// From the opening quote; the byte behind the closing one is looked at (T11).
    fn quoted(&mut self, quote: u8) -> Found<Vec<u8>> {
        let mut decoded = Vec::new();
        let mut at = self.start + 1;
        loop {
            let c = self.look(at)?;
            if c == quote && self.look(at + 1)? != quote {
                return Ok((decoded, at + 1));
            } else if c == quote {
                decoded.push(quote);
                at += 2;
            } else if c == b'\\' && self.look(at + 1)? == b'\n' {
                at += 2;
            } else {
                let (code, behind) = self.quoted_char(at)?;
                decoded.push(code);
                at = behind;
            }
        }
    }

    /// A character of a quoted item that is not its own quote: itself, or an escape.
    fn quoted_char(&mut self, at: usize) -> Found<u8> {
        match self.look(at)? {
            b'\\' => self.escape(at + 1),
            b'\n' => Err(self.at_token(Refusal::BadQuoted)),
            b'\r' => Err(self.at_token(Refusal::BadQuoted)),
            b'\t' => Err(self.bad_quoted("raw tab in a quoted item")),
            c => Ok((c, at + 1)),
        }
    }

    /// From behind the backslash.
    fn escape(&mut self, at: usize) -> Found<u8> {
        let c = self.look(at)?;
        let code = match c {
            b'\\' | b'\'' | b'"' | b'`' => c,
            b'a' => 7,
            b'b' => 8,
            b't' => 9,
            b'n' => 10,
            b'v' => 11,
            b'f' => 12,
            b'r' => 13,
            b'0'..=b'7' => return self.coded_escape(at, 8),
            b'x' => return self.coded_escape(at + 1, 16),
            _ => return Err(self.bad_quoted("an escape that ISO lacks")),
        };
        Ok((code, at + 1))
    }

    /// Digits, at least one, and the closing backslash (T3, T4); the code is judged when the token is whole (T5).
    fn coded_escape(&mut self, first: usize, base: u32) -> Found<u8> {
        let mut at = first;
        while is_digit(self.look(at)?, base) {
            at += 1;
        }
        if at == first || self.look(at)? != b'\\' {
            return Err(self.bad_quoted("an escape that ISO lacks"));
        }
        let code = number_of(&self.text[first..at], base);
        if code == 0 || code > LARGEST_CODE {
            self.out_of_limit = true;
            return Ok((0, at + 1));
        }
        Ok((code as u8, at + 1))
    }

    // Numbers.

    fn number(&mut self) -> Result<Raw, Fault> {
        let start = self.start;
        let point = self.run_to_end(start, |c| c.is_ascii_digit())?;
        if self.ended(point) {
            return self.decimal_at_end(point);
        }
        match self.look(point)? {
            b'_' => {
                self.outside = Some("set-aside form");
                Err(self.at_token(Refusal::SetAside))
            }
            b'.' if !self.ended(point + 1) && self.look(point + 1)?.is_ascii_digit() => self.float(point),
            letter if &self.text[start..point] == b"0" => self.after_zero(letter, point),
            _ => Ok(self.integer(start, point, 10)),
        }
    }

    fn decimal_at_end(&mut self, end: usize) -> Result<Raw, Fault> {
        let raw = self.integer(self.start, end, 10);
        self.reaching_the_end(raw)
    }

    /// "For a field, a token that starts with a digit is read as the number call read it."
    fn reaching_the_end(&self, raw: Raw) -> Result<Raw, Fault> {
        match self.source {
            Source::File => Err(Fault { refusal: Refusal::EndOfText, offset: self.text.len() }),
            Source::Field => Ok(raw),
        }
    }

    fn integer(&mut self, first: usize, end: usize, base: u32) -> Raw {
        let n = number_of(&self.text[first..end], base);
        self.out_of_limit |= n > LARGEST_MAGNITUDE;
        self.code(n as u64, end)
    }

    fn code(&self, n: u64, end: usize) -> Raw {
        Raw { kind: Kind::Number, value: Value::Integer(n), text: Vec::new(), end }
    }

    /// `at` is the offset behind a `0` that stands alone.
    fn after_zero(&mut self, letter: u8, at: usize) -> Result<Raw, Fault> {
        let base = match letter {
            b'x' => 16,
            b'o' => 8,
            b'b' => 2,
            b'\'' => return self.character_code(at),
            _ => return Ok(self.code(0, at)),
        };
        if !is_digit(self.look(at + 1)?, base) {
            return Ok(self.code(0, at));
        }
        let end = self.run_to_end(at + 1, |c| is_digit(c, base))?;
        Ok(self.integer(at + 1, end, base))
    }

    /// `0'` and one quoted character; `at` is its quote.
    fn character_code(&mut self, at: usize) -> Result<Raw, Fault> {
        match self.look(at + 1)? {
            b'\'' if self.look(at + 2)? == b'\'' => Ok(self.code(39, at + 3)),
            b'\'' => Ok(self.code(0, at)),
            b'\\' if self.look(at + 2)? == b'\n' => {
                self.outside = Some("set-aside form");
                Err(self.at_token(Refusal::SetAside))
            }
            _ => {
                let (code, end) = self.quoted_char(at + 1)?;
                Ok(self.code(u64::from(code), end))
            }
        }
    }

    /// `point` is the decimal point, which a digit follows.
    fn float(&mut self, point: usize) -> Result<Raw, Fault> {
        let fraction_end = self.run_to_end(point + 1, |c| c.is_ascii_digit())?;
        if self.ended(fraction_end) {
            let raw = self.nearest(point, fraction_end, 0, fraction_end);
            return self.reaching_the_end(raw);
        }
        let (digits, negative) = match self.look(fraction_end)? {
            b'e' | b'E' => self.sign(fraction_end + 1)?,
            _ => (None, false),
        };
        let Some(digits) = digits else {
            return Ok(self.nearest(point, fraction_end, 0, fraction_end));
        };
        let end = self.run_to_end(digits, |c| c.is_ascii_digit())?;
        let exponent = number_of(&self.text[digits..end], 10).min(1 << 40) as i64;
        let raw = self.nearest(point, fraction_end, if negative { -exponent } else { exponent }, end);
        if self.ended(end) { self.reaching_the_end(raw) } else { Ok(raw) }
    }

    /// Behind the `e`: where the exponent's digits begin, if a digit is there, and whether a minus stands before them (T10).
    fn sign(&self, at: usize) -> Result<(Option<usize>, bool), Fault> {
        if self.ended(at) {
            return Ok((None, false));
        }
        let c = self.look(at)?;
        let signed = matches!(c, b'+' | b'-');
        let digits = if signed { at + 1 } else { at };
        let follows = !self.ended(digits) && self.look(digits)?.is_ascii_digit();
        Ok((follows.then_some(digits), c == b'-'))
    }

    /// m is all digits as one number, e the exponent less the count of fraction digits.
    fn nearest(&mut self, point: usize, fraction_end: usize, exponent: i64, end: usize) -> Raw {
        let digits: Vec<u8> = [&self.text[self.start..point], &self.text[point + 1..fraction_end]].concat();
        let m = number_of(&digits, 10);
        let e = exponent - (fraction_end - point - 1) as i64;
        let within = m <= LARGEST_MANTISSA && (-LARGEST_EXPONENT..=LARGEST_EXPONENT).contains(&e);
        self.out_of_limit |= !within;
        let bits = if within { nearest_double(m, e as i32) } else { 0 };
        Raw { kind: Kind::Number, value: Value::Float(bits), text: Vec::new(), end }
    }
}

fn is_digit(c: u8, base: u32) -> bool {
    (c as char).is_digit(base)
}

/// The digits' number, kept from overflowing: anything above 2^100 stands for "out of every limit" (T7).
fn number_of(digits: &[u8], base: u32) -> u128 {
    digits.iter().fold(0, |n, &c| {
        let digit = (c as char).to_digit(base).expect("a digit of the base");
        (n * u128::from(base) + u128::from(digit)).min(1 << 100)
    })
}

/// The bits of the double nearest to m times ten to the e, ties to even, by whole numbers alone, for m and e within their limits.
pub fn nearest_double(m: u128, e: i32) -> u64 {
    if m == 0 {
        return 0;
    }
    // m * 10^e = q * 2^power, and a rest that is told by `sticky`; q has at least 55 bits
    let (q, power, sticky) = if e >= 0 {
        let whole = m * 10u128.pow(e as u32);
        let up = whole.leading_zeros().min(64);
        (whole << up, -(up as i32), false)
    } else {
        let five = 5u128.pow(-e as u32);
        let up = m.leading_zeros() - 1;
        let scaled = m << up;
        (scaled / five, e - up as i32, scaled % five != 0)
    };
    let bits = 128 - q.leading_zeros() as i32;
    let drop = bits - 53;
    let kept = (q >> drop) as u64;
    let rest = q & ((1 << drop) - 1);
    let half = 1u128 << (drop - 1);
    let up = rest > half || (rest == half && (sticky || kept & 1 == 1));
    let rounded = kept + u64::from(up);
    // kept + 1 may be 2^53: adding into the bits then carries into the exponent, as it should
    let exponent = (power + drop + 52 + 1023) as u64;
    (exponent << 52) + (rounded - (1 << 52))
}

#[cfg(test)]
mod tests {
    use super::nearest_double;

    #[test]
    fn nearest_double_agrees_with_the_standard_library() {
        let mut seed = 7u64;
        for i in 0..2_000_000u64 {
            seed = seed.wrapping_mul(6364136223846793005).wrapping_add(1442695040888963407);
            let m = (seed >> 11) >> (i % 53);
            let e = (seed >> 3) as i32 % 23;
            let expected: f64 = format!("{m}e{e}").parse().unwrap();
            assert_eq!(nearest_double(m.into(), e), expected.to_bits(), "{m}e{e}");
        }
    }
}
