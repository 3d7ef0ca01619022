//! The archive's answers: the C interface, called in this process by the wrapper of examples/rust.
use crate::kind::Kind;
use crate::model::{Cursor, LayoutKind, LayoutText, Reading, Value};
use crate::protocol::{Answer, Case, FILL, KINDS, LAYOUT_KINDS, answers_on};
use crate::thrinvage::{self as archive, Layout, Part, Refusal, Source, Token};

fn there(at: Cursor) -> archive::Cursor {
    archive::Cursor { offset: at.offset, line: at.line, column: at.column }
}

fn here(at: archive::Cursor) -> Cursor {
    Cursor { offset: at.offset, line: at.line, column: at.column }
}

fn kind(kind: archive::Kind) -> Kind {
    KINDS[kind as usize].0
}

/// The interface hands no cursor back: the caller still has its own.
fn refused(refusal: Refusal, cursor: Cursor, scratch: Vec<u8>) -> Answer {
    Answer::Refused { number: refusal.number as usize, at: refusal.offset, back: cursor, scratch }
}

fn token(cursor: Cursor, read: Result<Token, Refusal>) -> Answer {
    let token = match read {
        Ok(token) => token,
        Err(refusal) => return refused(refusal, cursor, Vec::new()),
    };
    let value = match token.value {
        archive::Value::Nothing => Value::Nothing,
        archive::Value::Integer(n) => Value::Integer(n),
        archive::Value::Float(f) => Value::Float(f.to_bits()),
    };
    Answer::Token { kind: kind(token.kind), start: token.start, next: here(token.next), value, layout: token.layout }
}

/// Where no layout text is, the wrapper hands nothing out.
fn layout(cursor: Cursor, read: Result<Option<Layout>, Refusal>) -> Answer {
    match read {
        Err(refusal) => refused(refusal, cursor, Vec::new()),
        Ok(None) => Answer::Layout(LayoutText { kind: LayoutKind::Absent, start: cursor.offset, next: cursor }),
        Ok(Some(Layout { kind, start, next })) => {
            Answer::Layout(LayoutText { kind: LAYOUT_KINDS[kind as usize + 1].0, start, next: here(next) })
        }
    }
}

fn text(case: &Case) -> Answer {
    let mut scratch = vec![FILL; case.room];
    match archive::next_token_text(&case.text, there(case.cursor), &mut scratch) {
        Err(refusal) => refused(refusal, case.cursor, scratch),
        Ok((token, part)) => {
            let shown = match part {
                Part::Source(range) => case.text.get(range),
                Part::Scratch(range) => scratch.get(range),
            };
            let shown = shown.unwrap_or_default().to_vec();
            Answer::Text {
                kind: kind(token.kind),
                start: token.start,
                next: here(token.next),
                shown,
                layout: token.layout,
                scratch,
            }
        }
    }
}

/// The answers to a case. The model's readings, which other sources start from, are not looked at.
pub fn answers(case: &Case, _: &[Reading]) -> Vec<Answer> {
    let bytes = &case.text;
    match case.call {
        b'x' => vec![text(case)],
        b'b' => answers_on(case, |at| layout(at, archive::next_layout(bytes, there(at)))),
        b'n' => answers_on(case, |at| token(at, archive::next_token(bytes, there(at), Source::Field))),
        _ => answers_on(case, |at| token(at, archive::next_token(bytes, there(at), Source::File))),
    }
}
