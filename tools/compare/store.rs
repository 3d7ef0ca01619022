//! Answers of the Rust for the stored list: cases inside the domain, made from a seed, written in the notation of the list.
use crate::cases::{self, Maker};
use crate::judge::{Rust, RustCall, ask_rust, class_of_failure, is_textual, value_of};
use crate::model::{self, Cursor};
use crate::notation::{show_answers, show_case};
use crate::protocol::{Answer, Case, FILL, readings};
use std::collections::HashSet;
use std::path::Path;

/// The list is to be read: longer texts are left out.
const LONGEST_STORED: usize = 60;

/// The Rust's answer in the probe's form. Its columns are 01's, counted from the offsets; so is the offset of a refusal, which the Rust
/// lacks. Nothing where the Rust alone does not fix the answer: refusals that it has no number for.
fn answer(case: &Case, given: Cursor, call: &RustCall, slash: usize) -> Option<Answer> {
    let lent = vec![FILL; case.room];
    let token = match &call.answer {
        Ok(token) => token,
        Err(failure) => {
            let number = class_of_failure(failure);
            // "except in a token that starts with a back quote"
            if call.start.is_ok_and(|start| case.text.get(start) == Some(&b'`')) {
                return None;
            }
            let at = [0, case.text.len(), slash][number];
            return (number > 0).then_some(Answer::Refused { number, at, back: given, scratch: lent });
        }
    };
    let (kind, start) = (token.kind, call.start.ok()?);
    let next = given.moved_to(&case.text, call.end);
    assert_eq!(next.line, call.line, "lines by offsets and the Rust's own");
    let layout = call.from;
    if case.call != b'x' {
        return Some(Answer::Token { kind, start, next, value: value_of(token.value)?, layout });
    }
    let written = if matches!(case.text[start], b'\'' | b'"') { token.text.len() } else { 0 };
    if !is_textual(kind) || written > case.room {
        return None;
    }
    let scratch = [&token.text[..written], &lent[written..]].concat();
    Some(Answer::Text { kind, start, next, shown: token.text.clone(), layout, scratch })
}

/// The Rust's answers to a case, if the case lies in the domain and the Rust fixes them all: it has no layout call.
fn rust_answers(rust: &mut Rust, case: &Case) -> Option<Vec<Answer>> {
    let held = readings(case);
    if case.call == b'b' || model::has_foreign(&case.text) || held.iter().any(|reading| reading.outside.is_some()) {
        return None;
    }
    // 01's "its slash": where the model, too, sees the comment that is not closed
    let slash = held.last()?.answer.as_ref().err().map_or(0, |fault| fault.offset);
    let mut given = case.cursor;
    let mut fixed = Some(Vec::new());
    ask_rust(rust, case, |_, call| {
        let made = answer(case, given, call, slash);
        if let Some(Answer::Token { next, .. }) = &made {
            given = *next;
        }
        match made {
            Some(made) => fixed.as_mut().expect("not given up").push(made),
            None => fixed = None,
        }
        fixed.is_some()
    });
    fixed
}

pub fn store(file: &Path, seed: u64, count: usize) -> std::io::Result<()> {
    let mut rust = Rust::default();
    let mut seen = HashSet::new();
    let mut lines = vec![
        "# Answers of the Rust, lexer.rs unchanged, to cases inside demand 2's domain; made by tools/cases/ask-rust, never by hand.".into(),
        format!("# Seed {seed}, {count} cases. The notation is that of by-hand.txt."),
        "# Kinds, values, decoded texts, starts, offsets, lines and the refusals 1 and 2 are the Rust's. Columns are document".into(),
        "# 01's, counted from the offsets, and so are the offsets of refusals.".into(),
    ];
    let heading = lines.len();
    let mut keep = |case: Case, lines: &mut Vec<String>| {
        let shown = show_case(&case);
        if lines.len() - heading == count || case.text.len() > LONGEST_STORED || seen.contains(&shown) {
            return;
        }
        if let Some(given) = rust_answers(&mut rust, &case) {
            lines.push(format!("{shown}  {}", show_answers(&case, &given)));
            seen.insert(shown);
        }
    };
    // every byte alone and with a blank behind it, then random texts
    for byte in (0..=127).filter(|&c| !model::is_foreign(c)) {
        for text in [vec![byte], vec![byte, b' '], vec![b' ', byte, b'a']] {
            cases::short_cases(&text).into_iter().for_each(|case| keep(case, &mut lines));
        }
    }
    let mut maker = Maker::new(seed);
    while lines.len() - heading < count {
        let text = maker.text();
        maker.cases_of(&text, &mut |case| keep(case, &mut lines));
    }
    std::fs::write(file, lines.join("\n") + "\n")
}
