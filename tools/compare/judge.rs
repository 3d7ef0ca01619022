//! Holds answers against the Rust, where demand 2's domain lets them be compared, and against the model everywhere.
use crate::kind::Kind;
use crate::layout::layout_text;
use crate::model::{self, Cursor, LayoutKind, LayoutText, Reading, Value};
use crate::protocol::{Answer, Case, answers, readings};
use oracle::api::{self as rust, Accepted, END_OF_FILE, Failure, INCOMPLETE_REDUCTION, Machine};
use std::collections::BTreeMap;

#[derive(Clone, Debug, Default, PartialEq, Eq)]
pub struct Counts {
    pub cases: u64,
    pub tokens: u64,
    pub texts: u64,
    pub layout_texts: u64,
    /// refusals 1, 2 and others
    pub refusals: [u64; 3],
    /// refusals 9 and 12, which a token that the Rust accepts owes
    pub owed: u64,
    /// calls that are not compared, by what keeps them out of the domain
    pub outside: BTreeMap<&'static str, u64>,
    /// answers compared with the model, in and out of the domain
    pub modelled: u64,
    pub different_from_rust: u64,
    pub different_from_model: u64,
}

impl Counts {
    pub fn add(&mut self, more: &Counts) {
        self.cases += more.cases;
        self.tokens += more.tokens;
        self.texts += more.texts;
        self.layout_texts += more.layout_texts;
        for (sum, n) in self.refusals.iter_mut().zip(more.refusals) {
            *sum += n;
        }
        self.owed += more.owed;
        for (why, n) in &more.outside {
            *self.outside.entry(why).or_default() += n;
        }
        self.modelled += more.modelled;
        self.different_from_rust += more.different_from_rust;
        self.different_from_model += more.different_from_model;
    }

    pub fn different(&self) -> u64 {
        self.different_from_rust + self.different_from_model
    }
}

#[derive(Clone, Debug, PartialEq, Eq)]
pub enum Difference {
    FromRust(String),
    FromModel(String),
}

/// One call of the Rust, from a cursor on.
pub struct RustCall {
    /// where its reader stands before it
    pub from: usize,
    /// where `scan_for_layout`, asked alone, stops
    pub start: Result<usize, Failure>,
    pub answer: Result<Accepted, Failure>,
    /// offset and line behind the token, counted as the port counts them
    pub end: usize,
    pub line: usize,
}

/// The Rust twice: once for the tokens, once to find where they start.
#[derive(Default)]
pub struct Rust {
    reader: Machine,
    scout: Machine,
}

/// Where `scan_for_layout` stops.
fn layout_end(scout: &mut Machine, text: &[u8], from: usize) -> Result<usize, Failure> {
    scout.start(&text[from..]).skip_layout().map(|n| from + n)
}

/// The byte where a token starts, if layout is passed and the text has not ended.
fn byte_at_start(case: &Case, start: Result<usize, Failure>) -> Option<u8> {
    case.text.get(start.ok()?).copied()
}

/// The Rust's calls on a case, one after another while `go_on` says so. Of a field, demand 2 says "equal to `next_number_token` where a digit
/// starts, and to `next_token` elsewhere".
pub fn ask_rust(rust: &mut Rust, case: &Case, mut go_on: impl FnMut(usize, &RustCall) -> bool) {
    let base = case.cursor.offset;
    let mut session = rust.reader.start(&case.text[base..]);
    let (mut offset, mut line, mut lines) = (base, case.cursor.line, 0);
    for index in 0.. {
        let from = offset;
        let start = layout_end(&mut rust.scout, &case.text, from);
        let answer = match byte_at_start(case, start) {
            Some(b'0'..=b'9') if case.call == b'n' => session.next_number_token(),
            _ => session.next_token(),
        };
        if let Ok(token) = &answer {
            offset = base + token.end;
            line += token.lines - lines;
            lines = token.lines;
        }
        let call = RustCall { from, start, answer, end: offset, line };
        if !go_on(index, &call) || call.answer.is_err() || case.call != b'T' {
            return;
        }
    }
}

/// The Rust's value as the port gives it; nothing for an integer beyond i64, which lies outside the domain.
pub fn value_of(value: rust::Value) -> Option<Value> {
    match value {
        rust::Value::Nothing => Some(Value::Nothing),
        rust::Value::Integer(n) => u64::try_from(n).ok().map(Value::Integer),
        rust::Value::Big => None,
        rust::Value::Float(bits) => Some(Value::Float(bits)),
    }
}

pub fn is_textual(kind: Kind) -> bool {
    matches!(kind, Kind::Name | Kind::Variable | Kind::String)
}

/// Refusals 1 and 2 are compared by kind, the others as refusals.
fn class_of_refusal(number: usize) -> usize {
    if number == 1 || number == 2 { number } else { 0 }
}

pub fn class_of_failure(failure: Failure) -> usize {
    match failure {
        END_OF_FILE => 1,
        INCOMPLETE_REDUCTION => 2,
        _ => 0,
    }
}

fn same(what: &str, same: bool) -> Result<(), String> {
    if same { Ok(()) } else { Err(what.to_string()) }
}

/// What the answers of the token call and of the text call have in common.
fn hold_token(call: &RustCall, token: &Accepted, kind: Kind, layout: usize, start: usize, next: Cursor) -> Result<(), String> {
    same("kind", kind == token.kind)?;
    same("offset", next.offset == call.end)?;
    same("line", next.line == call.line)?;
    same("start of the span", call.start == Ok(start))?;
    same("start of the layout", call.from == layout)
}

/// Demand 2's comparison of one answer.
pub fn hold_against_rust(case: &Case, call: &RustCall, answer: &Answer, counts: &mut Counts) -> Result<(), String> {
    let byte_at_start = byte_at_start(case, call.start);
    match (&call.answer, answer) {
        (Err(failure), Answer::Refused { number, .. }) => {
            if byte_at_start != Some(b'`') {
                same("refused as another kind", class_of_failure(failure) == class_of_refusal(*number))?;
            }
            counts.refusals[[2, 0, 1][class_of_refusal(*number)]] += 1;
            Ok(())
        }
        (Err(_), _) => Err("accepted".into()),
        (Ok(token), Answer::Refused { number, .. }) => {
            let quoted = matches!(byte_at_start, Some(b'\'' | b'"'));
            let short = quoted && token.text.len() > case.room;
            let owed = match is_textual(token.kind) {
                false => 12,
                true if short => 9,
                true => 0,
            };
            same("refused", case.call == b'x' && *number == owed)?;
            counts.owed += 1;
            Ok(())
        }
        (Ok(token), Answer::Token { kind, start, next, value, layout }) => {
            hold_token(call, token, *kind, *layout, *start, *next)?;
            same("value", Some(*value) == value_of(token.value))?;
            let quoted = matches!(byte_at_start, Some(b'\'' | b'"'));
            same("spelling", !is_textual(*kind) || quoted || case.text[*start..next.offset] == token.text)?;
            counts.tokens += 1;
            Ok(())
        }
        (Ok(token), Answer::Text { kind, start, next, shown, layout, .. }) => {
            hold_token(call, token, *kind, *layout, *start, *next)?;
            same("decoded text", *shown == token.text && is_textual(*kind))?;
            counts.tokens += 1;
            counts.texts += 1;
            Ok(())
        }
        (Ok(_), Answer::Layout(_)) => Err("a layout text".into()),
    }
}

/// From the cursor on, where the Rust's reader stands when `scan_for_layout` begins, layout texts must lead to where it stops, one behind another, each of
/// the kind and with the end that its bytes tell. There no layout text stands, or the text has ended. Where the Rust fails, the last call is refused alike.
fn hold_layout_against_rust(
    case: &Case,
    stop: Result<usize, Failure>,
    given: &[Answer],
    counts: &mut Counts,
) -> Result<(), String> {
    let (last, texts) = given.split_last().ok_or("no answer")?;
    let mut at = case.cursor.offset;
    for text in texts {
        let Answer::Layout(LayoutText { kind, start, next }) = text else { return Err("no layout text".into()) };
        same("start of the layout text", *start == at)?;
        same(
            "kind or end of the layout text",
            *kind != LayoutKind::Absent && layout_text(&case.text, at) == Some((*kind, next.offset)),
        )?;
        at = next.offset;
        counts.layout_texts += 1;
    }
    match (stop, last) {
        (Ok(end), Answer::Layout(LayoutText { kind: LayoutKind::Absent, start, next })) if end < case.text.len() => {
            same("end of the layout", [at, *start, next.offset] == [end; 3])
        }
        (Ok(end), Answer::Refused { number: 1, .. }) if end == case.text.len() => {
            counts.refusals[0] += 1;
            same("end of the layout", at == end)
        }
        (Err(failure), Answer::Refused { number, .. }) => {
            counts.refusals[[2, 0, 1][class_of_refusal(*number)]] += 1;
            same("refused as another kind", class_of_failure(failure) == *number)?;
            same("a layout text is left out", layout_text(&case.text, at).is_none_or(|(kind, _)| kind == LayoutKind::Absent))
        }
        _ => Err("last answer".into()),
    }
}

/// Judges the answers to one case. `held` are the readings of the model, which also say what lies outside the domain.
pub fn judge(rust: &mut Rust, case: &Case, held: &[Reading], given: &[Answer], counts: &mut Counts) -> Option<Difference> {
    counts.cases += 1;
    let foreign = model::has_foreign(&case.text).then_some("foreign byte");
    let mut found = None;
    if let Some(why) = foreign.or(held[0].outside) {
        *counts.outside.entry(why).or_default() += 1;
    } else if case.call == b'b' {
        let stop = layout_end(&mut rust.scout, &case.text, case.cursor.offset);
        let verdict = hold_layout_against_rust(case, stop, given, counts);
        found = verdict.err().map(|what| Difference::FromRust(format!("{what}; the Rust's layout ends: {stop:?}")));
    } else {
        ask_rust(rust, case, |index, call| {
            if let Some(why) = held.get(index).and_then(|reading| reading.outside) {
                *counts.outside.entry(why).or_default() += 1;
                return false;
            }
            let verdict = match given.get(index) {
                None => Err("an answer is missing".to_string()),
                Some(answer) => hold_against_rust(case, call, answer, counts),
            };
            // the token call shows no decoded text: of the model at least it is compared
            let decoded = match (&call.answer, held.get(index).map(|reading| &reading.answer)) {
                (Ok(theirs), Some(Ok(ours))) => theirs.text == ours.text,
                _ => true,
            };
            let verdict = if decoded { verdict } else { verdict.and(Err("decoded text of the model".into())) };
            if let Err(what) = verdict {
                let shown = call.answer.as_ref().map_or_else(|e| e.to_string(), |t| format!("{t:?}"));
                found = Some(Difference::FromRust(format!("answer {index}: {what}; the Rust: {shown}")));
            }
            found.is_none()
        });
    }
    if found.is_some() {
        counts.different_from_rust += 1;
        return found;
    }
    let modelled = answers(case, held);
    counts.modelled += modelled.len() as u64;
    if modelled == given {
        return None;
    }
    counts.different_from_model += 1;
    let index = modelled.iter().zip(given).take_while(|(a, b)| a == b).count();
    let shown = modelled.get(index).map_or("nothing".to_string(), |answer| {
        let mut line = String::new();
        answer.write(case.call, &mut line);
        line.trim_end().replace('\n', " / ")
    });
    Some(Difference::FromModel(format!("answer {index}; the model: {shown}")))
}

/// For a case alone, with the model's own readings.
pub fn judge_alone(rust: &mut Rust, case: &Case, given: &[Answer], counts: &mut Counts) -> Option<Difference> {
    judge(rust, case, &readings(case), given, counts)
}
