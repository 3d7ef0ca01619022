//! Layout by plain rules, for both comparisons. A foreign byte is passed here: the calls say of it what is to be said.
use crate::model::LayoutKind;

pub fn position(text: &[u8], from: usize, mark: &[u8]) -> Option<usize> {
    text[from..].windows(mark.len()).position(|part| part == mark).map(|at| from + at)
}

/// What layout text stands at an offset, by its first bytes, and where it ends; nothing where it is a comment that is not closed.
pub fn layout_text(text: &[u8], at: usize) -> Option<(LayoutKind, usize)> {
    Some(match &text[at..] {
        [b' ' | b'\t' | b'\n' | b'\r', ..] => {
            (LayoutKind::Blanks, at + text[at..].iter().take_while(|c| b" \t\n\r".contains(c)).count())
        }
        [b'%', ..] => (LayoutKind::LineComment, position(text, at, b"\n").map_or(text.len(), |newline| newline + 1)),
        [b'/', b'*', ..] => (LayoutKind::BracketedComment, position(text, at + 2, b"*/")? + 2),
        _ => (LayoutKind::Absent, at),
    })
}
