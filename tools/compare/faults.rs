//! The self-test: a comparer that cannot fail is worth nothing. Each fault is put into a copy of the answers wherever it can stand, one
//! answer at a time, and every single one must be noticed, by the comparison that is named.
use crate::Ask;
use crate::judge::{Counts, Difference, Rust, judge};
use crate::kind::Kind;
use crate::model::{Cursor, LayoutKind, LayoutText, Value};
use crate::protocol::{Answer, Case, FILL, readings};

#[derive(Copy, Clone, Debug, PartialEq, Eq)]
enum Noticed {
    ByTheRust,
    ByTheModel,
}
use Noticed::{ByTheModel, ByTheRust};

/// A fault changes the answers at an index, or says that it cannot stand there.
type Fault = fn(&mut Vec<Answer>, usize) -> bool;

fn token(answers: &mut [Answer], at: usize, change: impl FnOnce(&mut Kind, &mut usize, &mut Cursor) -> bool) -> bool {
    match &mut answers[at] {
        Answer::Token { kind, start, next, .. } | Answer::Text { kind, start, next, .. } => change(kind, start, next),
        _ => false,
    }
}

/// Changes where the layout before a token began; the token's start is told.
fn layout_start(answers: &mut [Answer], at: usize, change: impl FnOnce(&mut usize, usize) -> bool) -> bool {
    match &mut answers[at] {
        Answer::Token { layout, start, .. } | Answer::Text { layout, start, .. } => change(layout, *start),
        _ => false,
    }
}

fn layout_text_at(answers: &[Answer], at: usize) -> Option<LayoutText> {
    match answers.get(at)? {
        Answer::Layout(text) if text.kind != LayoutKind::Absent => Some(*text),
        _ => None,
    }
}

fn layout_text(answers: &mut [Answer], at: usize, change: impl FnOnce(&mut LayoutText)) -> bool {
    let Some(mut text) = layout_text_at(answers, at) else { return false };
    change(&mut text);
    answers[at] = Answer::Layout(text);
    true
}

/// Puts an answer in the place of a layout text and of all behind it.
fn instead_of_layout_text(answers: &mut Vec<Answer>, at: usize, make: impl FnOnce(LayoutText) -> Answer) -> bool {
    let Some(text) = layout_text_at(answers, at) else { return false };
    answers.truncate(at);
    answers.push(make(text));
    true
}

fn joined_layout_texts(answers: &mut Vec<Answer>, at: usize) -> bool {
    let Some(second) = layout_text_at(answers, at + 1) else { return false };
    answers.remove(at + 1);
    layout_text(answers, at, |text| text.next = second.next)
}

/// Of the layout call, which is known by a layout text before.
fn none_for_refused(answers: &mut [Answer], at: usize) -> bool {
    match answers[..=at] {
        [.., Answer::Layout(_), Answer::Refused { back, .. }] => {
            answers[at] = Answer::Layout(LayoutText { kind: LayoutKind::Absent, start: back.offset, next: back });
            true
        }
        _ => false,
    }
}

fn value(answers: &mut [Answer], at: usize, change: impl FnOnce(Value) -> Option<Value>) -> bool {
    match &mut answers[at] {
        Answer::Token { value, .. } => change(*value).map(|changed| *value = changed).is_some(),
        _ => false,
    }
}

fn shown(answers: &mut [Answer], at: usize, change: impl FnOnce(&mut Vec<u8>) -> bool) -> bool {
    match &mut answers[at] {
        Answer::Text { shown, .. } => change(shown),
        _ => false,
    }
}

fn renumbered(answers: &mut [Answer], at: usize, from: usize, to: usize) -> bool {
    match &mut answers[at] {
        Answer::Refused { number, .. } if *number == from => {
            *number = to;
            true
        }
        _ => false,
    }
}

const FAULTS: [(&str, Noticed, Fault); 40] = [
    ("kind: every token a comma", ByTheRust, |a, i| {
        token(a, i, |kind, _, _| std::mem::replace(kind, Kind::Comma) != Kind::Comma)
    }),
    ("kind: a name called a variable", ByTheRust, |a, i| {
        token(a, i, |kind, _, _| *kind == Kind::Name && std::mem::replace(kind, Kind::Variable) == Kind::Name)
    }),
    ("kind: open and open_ct confused", ByTheRust, |a, i| {
        token(a, i, |kind, _, _| {
            *kind = match *kind {
                Kind::Open => Kind::OpenCT,
                Kind::OpenCT => Kind::Open,
                _ => return false,
            };
            true
        })
    }),
    ("kind: an end mark called a name", ByTheRust, |a, i| {
        token(a, i, |kind, _, _| *kind == Kind::End && std::mem::replace(kind, Kind::Name) == Kind::End)
    }),
    ("offset one too high", ByTheRust, |a, i| {
        token(a, i, |_, _, next| {
            next.offset += 1;
            true
        })
    }),
    ("offset one too low", ByTheRust, |a, i| {
        token(a, i, |_, _, next| {
            next.offset -= 1;
            true
        })
    }),
    ("line one too high", ByTheRust, |a, i| {
        token(a, i, |_, _, next| {
            next.line += 1;
            true
        })
    }),
    ("line not counted", ByTheRust, |a, i| token(a, i, |_, _, next| std::mem::replace(&mut next.line, 0) != 0)),
    ("start one too high", ByTheRust, |a, i| {
        token(a, i, |_, start, _| {
            *start += 1;
            true
        })
    }),
    ("cursor handed back as the new one", ByTheRust, |a, i| {
        token(a, i, |_, start, next| {
            next.offset = *start;
            true
        })
    }),
    ("integer one too high", ByTheRust, |a, i| {
        value(a, i, |v| if let Value::Integer(n) = v { Some(Value::Integer(n + 1)) } else { None })
    }),
    ("float one bit off", ByTheRust, |a, i| {
        value(a, i, |v| if let Value::Float(b) = v { Some(Value::Float(b ^ 1)) } else { None })
    }),
    ("integer given as a float", ByTheRust, |a, i| {
        value(a, i, |v| if let Value::Integer(n) = v { Some(Value::Float((n as f64).to_bits())) } else { None })
    }),
    ("number without value", ByTheRust, |a, i| value(a, i, |v| (v != Value::Nothing).then_some(Value::Nothing))),
    ("byte of the decoded text changed", ByTheRust, |a, i| shown(a, i, |text| text.last_mut().map(|c| *c ^= 1).is_some())),
    ("last byte of the decoded text missing", ByTheRust, |a, i| shown(a, i, |text| text.pop().is_some())),
    ("refusal 1 given as 2", ByTheRust, |a, i| renumbered(a, i, 1, 2)),
    ("refusal 1 given as 3", ByTheRust, |a, i| renumbered(a, i, 1, 3)),
    ("refusal 2 given as 1", ByTheRust, |a, i| renumbered(a, i, 2, 1)),
    ("refusal 4 given as 1", ByTheRust, |a, i| renumbered(a, i, 4, 1)),
    ("refusal 12 given as 9", ByTheRust, |a, i| renumbered(a, i, 12, 9)),
    ("a token refused", ByTheRust, |a, i| {
        let Answer::Token { start, next, .. } = a[i].clone() else { return false };
        a[i] = Answer::Refused { number: 1, at: start, back: next, scratch: Vec::new() };
        true
    }),
    ("a refusal accepted", ByTheRust, |a, i| {
        let Answer::Refused { at, back, .. } = a[i].clone() else { return false };
        a[i] = Answer::Token { kind: Kind::Name, start: at, next: back, value: Value::Nothing, layout: back.offset };
        true
    }),
    ("first token repeated", ByTheRust, |a, i| {
        // a second comma that stands just where the first one stood would be the first one
        i > 0 && a[i] != a[0] && {
            a[i] = a[0].clone();
            true
        }
    }),
    ("last answer missing", ByTheRust, |a, i| i + 1 == a.len() && a.pop().is_some()),
    ("start of the layout one too high", ByTheRust, |a, i| {
        layout_start(a, i, |layout, _| {
            *layout += 1;
            true
        })
    }),
    ("start of the token told for that of the layout", ByTheRust, |a, i| {
        layout_start(a, i, |layout, start| std::mem::replace(layout, start) != start)
    }),
    ("layout text: another kind", ByTheRust, |a, i| {
        layout_text(a, i, |text| {
            text.kind = match text.kind {
                LayoutKind::Blanks => LayoutKind::LineComment,
                LayoutKind::LineComment => LayoutKind::BracketedComment,
                _ => LayoutKind::Blanks,
            }
        })
    }),
    ("layout text: start one too high", ByTheRust, |a, i| layout_text(a, i, |text| text.start += 1)),
    ("layout text: end one too high", ByTheRust, |a, i| layout_text(a, i, |text| text.next.offset += 1)),
    ("layout text: end one too low", ByTheRust, |a, i| layout_text(a, i, |text| text.next.offset -= 1)),
    ("layout text: none told for it", ByTheRust, |a, i| {
        instead_of_layout_text(a, i, |text| {
            let next = Cursor { offset: text.start, ..text.next };
            Answer::Layout(LayoutText { kind: LayoutKind::Absent, start: text.start, next })
        })
    }),
    ("layout text: refused", ByTheRust, |a, i| {
        instead_of_layout_text(a, i, |text| Answer::Refused { number: 1, at: text.start, back: text.next, scratch: Vec::new() })
    }),
    ("layout text: left out", ByTheRust, |a, i| layout_text_at(a, i).map(|_| a.remove(i)).is_some()),
    ("two layout texts told as one", ByTheRust, joined_layout_texts),
    ("no layout text told for a refusal", ByTheRust, |a, i| none_for_refused(a, i)),
    ("column one too high", ByTheModel, |a, i| {
        token(a, i, |_, _, next| {
            next.column += 1;
            true
        })
    }),
    ("layout text: line one too high", ByTheModel, |a, i| layout_text(a, i, |text| text.next.line += 1)),
    ("layout text: column one too high", ByTheModel, |a, i| layout_text(a, i, |text| text.next.column += 1)),
    ("offset of a refusal one too high", ByTheModel, |a, i| match &mut a[i] {
        Answer::Refused { at, .. } => {
            *at += 1;
            true
        }
        _ => false,
    }),
];

/// Faults of what only document 01 says: the scratch slice, the cursor that comes back, the numbers above 2.
const FAULTS_OF_01: [(&str, Noticed, Fault); 5] = [
    ("refusal 4 given as 3", ByTheModel, |a, i| renumbered(a, i, 4, 3)),
    ("refusal 3 given as 4", ByTheModel, |a, i| renumbered(a, i, 3, 4)),
    ("a refusal moves the cursor", ByTheModel, |a, i| match &mut a[i] {
        Answer::Refused { back, .. } => {
            back.offset += 1;
            true
        }
        _ => false,
    }),
    ("scratch not written", ByTheModel, |a, i| match &mut a[i] {
        Answer::Text { scratch, .. } => {
            let written = scratch.iter().any(|&c| c != FILL);
            scratch.fill(FILL);
            written
        }
        _ => false,
    }),
    ("scratch written behind the text", ByTheModel, |a, i| match &mut a[i] {
        Answer::Text { scratch, .. } => scratch.last_mut().filter(|c| **c == FILL).map(|c| *c = 0).is_some(),
        _ => false,
    }),
];

/// Puts every fault into the answers that `ask` gives to the cases; says what it saw, and whether all were noticed.
pub fn self_test(cases: &[Case], ask: Ask) -> bool {
    let mut rust = Rust::default();
    let mut all = true;
    for (name, by, fault) in FAULTS.iter().chain(&FAULTS_OF_01) {
        let (mut put, mut seen) = (0, 0);
        for case in cases {
            let held = readings(case);
            let true_answers = ask(case, &held);
            // only what lies in the domain can be noticed by the Rust
            if *by == ByTheRust && (crate::model::has_foreign(&case.text) || held.iter().any(|r| r.outside.is_some())) {
                continue;
            }
            for at in 0..true_answers.len() {
                let mut given = true_answers.clone();
                if !fault(&mut given, at) {
                    continue;
                }
                put += 1;
                let noticed = judge(&mut rust, case, &held, &given, &mut Counts::default());
                seen += usize::from(match by {
                    ByTheRust => matches!(noticed, Some(Difference::FromRust(_))),
                    ByTheModel => matches!(noticed, Some(Difference::FromModel(_))),
                });
            }
        }
        let by = if *by == ByTheRust { "the Rust" } else { "the model" };
        println!("fault: {name}: put into {put} answers, noticed by {by} in {seen}");
        all &= put > 0 && put == seen;
    }
    let mut silent = Counts::default();
    let untouched =
        cases.iter().filter(|case| judge(&mut rust, case, &readings(case), &ask(case, &readings(case)), &mut silent).is_some());
    let untouched = untouched.count();
    println!("no fault: {} cases, different {untouched}", cases.len());
    all && untouched == 0
}
