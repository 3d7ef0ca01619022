//! The probe's format (docs/PROBE.md): cases out, answers in, and the model's answers in the same form.
use crate::kind::Kind;
use crate::model::{self, Cursor, Fault, LayoutKind, LayoutText, Reading, Source, Token, Value};
use std::io::{self, BufRead};

pub const FILL: u8 = 165;
pub const LARGEST_ROOM: usize = 4096;

#[derive(Clone, Debug, PartialEq, Eq)]
pub struct Case {
    /// `t`, `T`, `n`, `b` or `x`
    pub call: u8,
    pub cursor: Cursor,
    pub room: usize,
    pub text: Vec<u8>,
}

/// One answer line; of the text call, with its scratch line.
#[derive(Clone, Debug, PartialEq, Eq)]
pub enum Answer {
    Token { kind: Kind, start: usize, next: Cursor, value: Value, layout: usize },
    Text { kind: Kind, start: usize, next: Cursor, shown: Vec<u8>, layout: usize, scratch: Vec<u8> },
    Layout(LayoutText),
    Refused { number: usize, at: usize, back: Cursor, scratch: Vec<u8> },
}

/// The kinds in the order of their numbers in the C interface.
pub const KINDS: [(Kind, &str); 15] = [
    (Kind::Name, "name"),
    (Kind::Variable, "variable"),
    (Kind::String, "string"),
    (Kind::Number, "number"),
    (Kind::Open, "open"),
    (Kind::OpenCT, "open_ct"),
    (Kind::Close, "close"),
    (Kind::OpenList, "open_list"),
    (Kind::CloseList, "close_list"),
    (Kind::OpenCurly, "open_curly"),
    (Kind::CloseCurly, "close_curly"),
    (Kind::HeadTailSeparator, "bar"),
    (Kind::DoubleBar, "double_bar"),
    (Kind::Comma, "comma"),
    (Kind::End, "end"),
];

pub const LAYOUT_KINDS: [(LayoutKind, &str); 4] = [
    (LayoutKind::Absent, "none"),
    (LayoutKind::Blanks, "blanks"),
    (LayoutKind::LineComment, "line_comment"),
    (LayoutKind::BracketedComment, "bracketed_comment"),
];

pub fn kind_name<K: PartialEq>(kinds: &[(K, &'static str)], kind: K) -> &'static str {
    kinds.iter().find(|(k, _)| *k == kind).expect("every kind is listed").1
}

fn kind_named<K: Copy>(kinds: &[(K, &str)], name: &str) -> Option<K> {
    kinds.iter().find(|(_, n)| *n == name).map(|(k, _)| *k)
}

impl Case {
    pub fn new(call: u8, cursor: Cursor, room: usize, text: &[u8]) -> Case {
        Case { call, cursor, room, text: text.to_vec() }
    }

    pub fn write(&self, out: &mut Vec<u8>) {
        let Cursor { offset, line, column } = self.cursor;
        let head = format!("{} {offset} {line} {column} {} {}\n", self.call as char, self.room, self.text.len());
        out.extend(head.bytes());
        out.extend(&self.text);
        out.push(b'\n');
    }

    /// The next case of an input, or nothing at its end.
    pub fn read(input: &mut impl BufRead) -> io::Result<Option<Case>> {
        let malformed = || io::Error::new(io::ErrorKind::InvalidData, "malformed");
        let mut head = String::new();
        if input.read_line(&mut head)? == 0 {
            return Ok(None);
        }
        let fields: Vec<&str> = head.strip_suffix('\n').ok_or_else(malformed)?.split(' ').collect();
        let number = |i: usize| fields.get(i).and_then(|f| f.parse::<usize>().ok()).ok_or_else(malformed);
        if fields.len() != 6 || fields[0].len() != 1 {
            return Err(malformed());
        }
        let mut text = vec![0; number(5)? + 1];
        input.read_exact(&mut text)?;
        if text.pop() != Some(b'\n') {
            return Err(malformed());
        }
        let cursor = Cursor { offset: number(1)?, line: number(2)?, column: number(3)? };
        Ok(Some(Case { call: fields[0].as_bytes()[0], cursor, room: number(4)?, text }))
    }
}

pub fn hex(bytes: &[u8]) -> String {
    if bytes.is_empty() { "-".into() } else { bytes.iter().map(|b| format!("{b:02x}")).collect() }
}

fn unhex(word: &str) -> Option<Vec<u8>> {
    if word == "-" {
        return Some(Vec::new());
    }
    if word.is_empty() || word.len() % 2 == 1 {
        return None;
    }
    (0..word.len()).step_by(2).map(|i| u8::from_str_radix(word.get(i..i + 2)?, 16).ok()).collect()
}

impl Answer {
    /// The cursor for the next call of a case; none where no call follows this answer.
    pub fn goes_on(&self, call: u8) -> Option<Cursor> {
        match self {
            Answer::Token { next, .. } if call == b'T' => Some(*next),
            Answer::Layout(LayoutText { kind, next, .. }) if *kind != LayoutKind::Absent => Some(*next),
            _ => None,
        }
    }

    pub fn write(&self, call: u8, out: &mut String) {
        let place = |c: &Cursor| format!("{} {} {}", c.offset, c.line, c.column);
        let (line, scratch) = match self {
            Answer::Token { kind, start, next, value, layout } => {
                let value = match value {
                    Value::Nothing => "-".to_string(),
                    Value::Integer(n) => n.to_string(),
                    Value::Float(bits) => format!("f{bits:016x}"),
                };
                (format!("token {} {start} {} {value} {layout}\n", kind_name(&KINDS, *kind), place(next)), None)
            }
            Answer::Text { kind, start, next, shown, layout, scratch } => {
                (format!("text {} {start} {} {} {layout}\n", kind_name(&KINDS, *kind), place(next), hex(shown)), Some(scratch))
            }
            Answer::Layout(LayoutText { kind, start, next }) => {
                (format!("layout {} {start} {}\n", kind_name(&LAYOUT_KINDS, *kind), place(next)), None)
            }
            Answer::Refused { number, at, back, scratch } => {
                (format!("refused {number} {at} {}\n", place(back)), (call == b'x').then_some(scratch))
            }
        };
        out.push_str(&line);
        if let Some(scratch) = scratch {
            out.push_str(&format!("scratch {}\n", hex(scratch)));
        }
    }

    /// One answer from the lines of the probe's output; nothing if they have another form.
    pub fn parse<'l>(call: u8, lines: &mut impl Iterator<Item = &'l str>) -> Option<Answer> {
        let fields: Vec<&str> = lines.next()?.split(' ').collect();
        let number = |i: usize| -> Option<usize> { fields.get(i)?.parse().ok() };
        let place =
            |i: usize| -> Option<Cursor> { Some(Cursor { offset: number(i)?, line: number(i + 1)?, column: number(i + 2)? }) };
        let mut scratch = || if call == b'x' { unhex(lines.next()?.strip_prefix("scratch ")?) } else { Some(Vec::new()) };
        match (fields[0], fields.len(), call) {
            ("token", 8, b't' | b'T' | b'n') => {
                let value = match fields[6] {
                    "-" => Value::Nothing,
                    f if f.starts_with('f') && f.len() == 17 => Value::Float(u64::from_str_radix(&f[1..], 16).ok()?),
                    n => Value::Integer(n.parse().ok()?),
                };
                Some(Answer::Token {
                    kind: kind_named(&KINDS, fields[1])?,
                    start: number(2)?,
                    next: place(3)?,
                    value,
                    layout: number(7)?,
                })
            }
            ("text", 8, b'x') => Some(Answer::Text {
                kind: kind_named(&KINDS, fields[1])?,
                start: number(2)?,
                next: place(3)?,
                shown: unhex(fields[6])?,
                layout: number(7)?,
                scratch: scratch()?,
            }),
            ("layout", 6, b'b') => {
                let kind = kind_named(&LAYOUT_KINDS, fields[1])?;
                Some(Answer::Layout(LayoutText { kind, start: number(2)?, next: place(3)? }))
            }
            ("refused", 6, _) => {
                Some(Answer::Refused { number: number(1)?, at: number(2)?, back: place(3)?, scratch: scratch()? })
            }
            _ => None,
        }
    }
}

/// The model's readings of a case, one a call; of `b`, that of the token call there, which tells whether the case lies in the domain.
pub fn readings(case: &Case) -> Vec<Reading> {
    let Case { call, cursor, room, text } = case;
    match call {
        b'n' => vec![model::token_call(text, *cursor, Source::Field)],
        b'x' => vec![model::text_call(text, *cursor, *room)],
        b't' | b'b' => vec![model::token_call(text, *cursor, Source::File)],
        _ => {
            let mut readings = vec![model::token_call(text, *cursor, Source::File)];
            while let Ok(token) = &readings[readings.len() - 1].answer {
                readings.push(model::token_call(text, token.next, Source::File));
            }
            readings
        }
    }
}

fn refused(fault: Fault, cursor: Cursor, lent: Vec<u8>) -> Answer {
    Answer::Refused { number: fault.refusal as usize, at: fault.offset, back: cursor, scratch: lent }
}

/// A reading as the probe would answer it; `cursor` is the cursor that the call was given.
pub fn answer(case: &Case, cursor: Cursor, reading: &Reading) -> Answer {
    let lent = vec![FILL; case.room];
    match &reading.answer {
        Err(fault) => refused(*fault, cursor, lent),
        Ok(Token { kind, layout, start, next, text, quoted, .. }) if case.call == b'x' => {
            let written = if *quoted { text.len() } else { 0 };
            let scratch = [&text[..written], &lent[written..]].concat();
            Answer::Text { kind: *kind, start: *start, next: *next, shown: text.clone(), layout: *layout, scratch }
        }
        Ok(Token { kind, layout, start, next, value, .. }) => {
            Answer::Token { kind: *kind, start: *start, next: *next, value: *value, layout: *layout }
        }
    }
}

/// Calls one after another, each from the cursor that the last one gave. No text has more tokens or layout texts than bytes, so a cursor that
/// stands still ends the case too.
pub fn answers_on(case: &Case, call: impl Fn(Cursor) -> Answer) -> Vec<Answer> {
    let mut answers = vec![call(case.cursor)];
    for index in 0..case.text.len() {
        let Some(next) = answers[index].goes_on(case.call) else { break };
        answers.push(call(next));
    }
    answers
}

fn layout_answer(text: &[u8], cursor: Cursor) -> Answer {
    model::layout_call(text, cursor).map_or_else(|fault| refused(fault, cursor, Vec::new()), Answer::Layout)
}

/// The answers to a case, by the model.
pub fn answers(case: &Case, readings: &[Reading]) -> Vec<Answer> {
    if case.call == b'b' {
        return answers_on(case, |cursor| layout_answer(&case.text, cursor));
    }
    let mut cursor = case.cursor;
    readings
        .iter()
        .map(|reading| {
            let given = cursor;
            if let Ok(token) = &reading.answer {
                cursor = token.next;
            }
            answer(case, given, reading)
        })
        .collect()
}
