//! Where the Rust departs from document 01: outside demand 2's domain, where nothing is owed. For docs/DIFFERENCES.md.
use crate::cases::{every_byte, short_texts};
use crate::judge::{Counts, Rust, RustCall, ask_rust, hold_against_rust};
use crate::model::{Cursor, has_foreign};
use crate::notation::{show_answers, show_text};
use crate::protocol::{Answer, Case, answers, readings};
use std::collections::BTreeMap;

fn rust_says(call: &RustCall) -> String {
    match &call.answer {
        Err(failure) => format!("error {failure}"),
        Ok(token) => format!("{:?} {:?} to {}", token.kind, token.value, call.end),
    }
}

/// What kind of departure it is: why it is outside, and the sort of answer on each side.
fn sort(case: &Case, why: &str, answer: &Answer, call: &RustCall) -> String {
    let ours = if let Answer::Refused { number, .. } = answer { format!("refused {number}") } else { "accepted".into() };
    let theirs = call.answer.as_ref().map_or_else(|failure| failure.to_string(), |_| "accepted".into());
    format!("{} {why} {ours} {theirs}", case.call as char)
}

/// Shows the shortest text of each sort, from all short texts.
pub fn show(budget: usize) {
    let mut rust = Rust::default();
    let mut found: BTreeMap<String, (usize, String)> = BTreeMap::new();
    let mut look = |text: &[u8]| {
        // the Rust reads UTF-8, and panics where the text ends inside a sequence
        if !text.is_ascii() {
            return;
        }
        for call in *b"tn" {
            let case = Case::new(call, Cursor::START, 0, text);
            let held = readings(&case);
            let Some(why) = held[0].outside.or(has_foreign(text).then_some("foreign byte")) else { continue };
            let answer = &answers(&case, &held)[0];
            ask_rust(&mut rust, &case, |_, theirs| {
                if hold_against_rust(&case, theirs, answer, &mut Counts::default()).is_err() {
                    let ours = show_answers(&case, std::slice::from_ref(answer));
                    let line = format!("{} {}  {ours}; the Rust: {}", call as char, show_text(text), rust_says(theirs));
                    let shortest = found.entry(sort(&case, why, answer, theirs)).or_insert((usize::MAX, String::new()));
                    if text.len() < shortest.0 {
                        *shortest = (text.len(), line);
                    }
                }
                false
            });
        }
    };
    short_texts(budget, &mut look);
    every_byte(&mut look);
    found.values().for_each(|(_, line)| println!("{line}"));
}
