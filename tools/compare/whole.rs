//! What a reader of chunks must hand out, from the token call on the whole text: its tokens, and then the first refusal; or 15 at the start of a longer
//! token (document 02, request 3).
use crate::feeding::{OFFSET, READ, REFUSED_AT, START, Token, next_token};
use crate::layout::{layout_text, position};
use crate::model::LayoutKind;

pub const LONGEST_TEXT: usize = 65_535;
pub const LONGEST_TOKEN: usize = 1_024;

pub const END_OF_TEXT: u32 = 1;
pub const BAD_QUOTED: u32 = 4;
pub const FOREIGN_BYTE: u32 = 5;
pub const SET_ASIDE: u32 = 6;
pub const OUT_OF_LIMIT: u32 = 7;
pub const NOT_VALID: u32 = 8;
pub const TOKEN_TOO_LONG: u32 = 15;

#[derive(Clone, Copy, Debug, PartialEq, Eq)]
pub enum Next {
    Token(Token),
    Refused(u32, usize),
}

/// A text, with a byte behind it to be lent for a cut: so no cut copies it.
pub struct Whole {
    bytes: Vec<u8>,
    length: usize,
    /// the most bytes of a token, which is another number in the self-test alone
    longest: usize,
}

impl Whole {
    /// Bytes of the text.
    pub fn part(&self, start: u64, end: u64) -> &[u8] {
        &self.bytes[start as usize..end as usize]
    }

    pub fn new(text: &[u8], longest: usize) -> Whole {
        Whole { bytes: [text, &[0]].concat(), length: text.len(), longest }
    }

    fn text(&self) -> &[u8] {
        &self.bytes[..self.length]
    }

    /// What comes behind the token `last`; the token of no fields stands before the first.
    pub fn next(&mut self, last: &Token) -> Next {
        if self.length > LONGEST_TEXT {
            return self.next_of_too_long(last);
        }
        let (number, token) = next_token(self.text(), last);
        let start = if number == READ { Some(token[START] as usize) } else { token_start(self.text(), last[OFFSET] as usize) };
        match start {
            Some(start) if self.is_longer(last, start, number, &token) => Next::Refused(TOKEN_TOO_LONG, start),
            _ if number == READ => Next::Token(token),
            _ => Next::Refused(number, token[REFUSED_AT] as usize),
        }
    }

    /// The token call refuses such a text. What is certain below the limit is handed out, up to the chunk that passes it; the texts that are made so long
    /// end in a name from before the limit on.
    fn next_of_too_long(&mut self, last: &Token) -> Next {
        match self.next_of_cut(LONGEST_TEXT - 1, last) {
            (READ, token) => Next::Token(token),
            (number, token) => Next::Refused(number, token[REFUSED_AT] as usize),
        }
    }

    /// The token call on the first bytes and one more that is foreign: a rule that looks behind them is refused there.
    fn next_of_cut(&mut self, known: usize, last: &Token) -> (u32, Token) {
        let lent = std::mem::replace(&mut self.bytes[known], 0);
        let answer = next_token(&self.bytes[..known + 1], last);
        self.bytes[known] = lent;
        answer
    }

    /// Whether the first bytes do not tell what comes behind `last`.
    pub fn is_open(&mut self, known: usize, last: &Token) -> bool {
        let (number, token) = self.next_of_cut(known, last);
        number == FOREIGN_BYTE && token[REFUSED_AT] as usize == known
    }

    /// More than 1,024 of the token's bytes are read before it is known: it has more; or it is refused, and so many do not show it. The byte that shows
    /// refusals 4 and 6 is the token's own, that of the others stands behind it. A number has its end whatever its value.
    fn is_longer(&mut self, last: &Token, start: usize, number: u32, token: &Token) -> bool {
        let end = match number {
            READ => Some(token[OFFSET] as usize),
            END_OF_TEXT | OUT_OF_LIMIT => number_end(self.text(), start),
            _ => None,
        };
        if let Some(end) = end {
            return end - start > self.longest;
        }
        let shown = if number == BAD_QUOTED || number == SET_ASIDE { self.longest } else { self.longest + 1 };
        start + shown <= self.length && self.is_open(start + shown, last)
    }
}

/// Where a token starts behind layout; nowhere, if the text ends or a comment is not closed.
fn token_start(text: &[u8], from: usize) -> Option<usize> {
    let mut at = from;
    while let (kind, end) = layout_text(text, at)?
        && kind != LayoutKind::Absent
    {
        at = end;
    }
    (at < text.len()).then_some(at)
}

fn digits_end(text: &[u8], from: usize, base: u32) -> usize {
    let is_digit = |byte: &&u8| char::from(**byte).is_digit(base);
    from + text[from..].iter().take_while(is_digit).count()
}

fn has_digit(text: &[u8], at: usize, base: u32) -> bool {
    digits_end(text, at.min(text.len()), base) > at
}

/// Where a number ends that is refused for its value, or because the text ends; nothing where the token is no number, or no whole one.
fn number_end(text: &[u8], start: usize) -> Option<usize> {
    let radix = |base| (has_digit(text, start + 2, base)).then(|| digits_end(text, start + 2, base));
    match &text[start..] {
        [b'0', b'x', ..] => radix(16),
        [b'0', b'o', ..] => radix(8),
        [b'0', b'b', ..] => radix(2),
        [b'0', b'\'', b'\\', ..] => position(text, start + 3, b"\\").map(|close| close + 1),
        [b'0'..=b'9', ..] => Some(decimal_end(text, start)),
        _ => None,
    }
}

fn decimal_end(text: &[u8], start: usize) -> usize {
    let whole = digits_end(text, start, 10);
    if text.get(whole) != Some(&b'.') || !has_digit(text, whole + 1, 10) {
        return whole;
    }
    let fraction = digits_end(text, whole + 1, 10);
    let sign = match text[fraction..] {
        [b'e' | b'E', b'+' | b'-', ..] => 1,
        [b'e' | b'E', ..] => 0,
        _ => return fraction,
    };
    let digits = fraction + 1 + sign;
    if has_digit(text, digits, 10) { digits_end(text, digits, 10) } else { fraction }
}
