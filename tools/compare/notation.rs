//! Cases and answers as a person reads them; `tools/cases/make` reads the same.
//!
//! `CALL[/ROOM][@OFFSET:LINE:COLUMN] «TEXT»  ANSWER; ANSWER..` where an answer is
//! `KIND START..END[(LINE:COLUMN)] [[FROM]] [= VALUE] [«SHOWN»]`, `none OFFSET` or `refused NUMBER@OFFSET`. Printable bytes stand for
//! themselves, the bytes below 32 and 127 as Unicode's pictures of them, others as ‹hh›; ‹c×N› is a long run.
use crate::model::{Cursor, LayoutKind, LayoutText, Value};
use crate::protocol::{Answer, Case, KINDS, LAYOUT_KINDS, kind_name};

const LONG_RUN: usize = 30;

pub fn show_text(text: &[u8]) -> String {
    let run = |run: &[u8]| {
        let picture = match run[0] {
            c @ 32..=126 => c as char,
            c @ 0..=31 => char::from_u32(0x2400 + u32::from(c)).expect("a picture"),
            127 => '\u{2421}',
            c => return format!("‹{c:02x}›").repeat(run.len()),
        };
        if run.len() < LONG_RUN { picture.to_string().repeat(run.len()) } else { format!("‹{picture}×{}›", run.len()) }
    };
    format!("«{}»", text.chunk_by(|a, b| a == b).map(run).collect::<String>())
}

pub fn show_case(case: &Case) -> String {
    let Cursor { offset, line, column } = case.cursor;
    let room = if case.call == b'x' { format!("/{}", case.room) } else { String::new() };
    let place = if case.cursor == Cursor::START { String::new() } else { format!("@{offset}:{line}:{column}") };
    format!("{}{room}{place} {}", case.call as char, show_text(&case.text))
}

/// Line and column are left out where no newline was passed.
fn place(text: &[u8], given: Cursor, start: usize, next: Cursor) -> String {
    let plain = text.get(given.offset..next.offset).is_some_and(|passed| !passed.contains(&b'\n'));
    let expected =
        Cursor { offset: next.offset, line: given.line, column: given.column + next.offset.saturating_sub(given.offset) };
    let place = if plain && next == expected { String::new() } else { format!("({}:{})", next.line, next.column) };
    format!("{start}..{}{place}", next.offset)
}

/// Left out where it is the given cursor's.
fn layout_start(given: Cursor, layout: usize) -> String {
    if layout == given.offset { String::new() } else { format!(" [{layout}]") }
}

/// `given` is the cursor that the call was given.
pub fn show_answer(text: &[u8], given: Cursor, answer: &Answer) -> String {
    match answer {
        Answer::Token { kind, start, next, value, layout } => {
            let value = match value {
                Value::Nothing => String::new(),
                Value::Integer(n) => format!(" = {n}"),
                Value::Float(bits) => format!(" = {:?}", f64::from_bits(*bits)),
            };
            format!("{} {}{}{value}", kind_name(&KINDS, *kind), place(text, given, *start, *next), layout_start(given, *layout))
        }
        Answer::Text { kind, start, next, shown, layout, .. } => {
            let layout = layout_start(given, *layout);
            format!("{} {}{layout} {}", kind_name(&KINDS, *kind), place(text, given, *start, *next), show_text(shown))
        }
        Answer::Layout(LayoutText { kind: LayoutKind::Absent, start, next }) if *start == next.offset && *next == given => {
            format!("none {start}")
        }
        Answer::Layout(LayoutText { kind, start, next }) => {
            format!("{} {}", kind_name(&LAYOUT_KINDS, *kind), place(text, given, *start, *next))
        }
        Answer::Refused { number, at, .. } => format!("refused {number}@{at}"),
    }
}

pub fn show_answers(case: &Case, answers: &[Answer]) -> String {
    let mut given = case.cursor;
    let shown: Vec<String> = answers
        .iter()
        .map(|answer| {
            let line = show_answer(&case.text, given, answer);
            given = answer.goes_on(case.call).unwrap_or(given);
            line
        })
        .collect();
    shown.join("; ")
}
