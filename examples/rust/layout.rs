//! Compares `only_layout_behind` with the token call, on every text of up to six bytes out of thirteen, and `Tokens::ended_whole` too. A newline and a
//! comma are put behind the text: the comma is then the first token exactly if nothing but layout stands before it, and the token before the comma is an
//! end mark, or there is none, exactly if the text was whole. At every offset `layout_end` is where the first token starts, or the text's length if that is
//! the comma; and the layout call leads from there, text by text, to where the token call has its token, or to the same refusal. Prints the counts; status 1
//! says that something differs.
mod thrinvage;

use std::process::ExitCode;
use thrinvage::{Cursor, END_OF_TEXT, Kind, Refusal, Scanner, Source, layout_end, next_layout, next_token, only_layout_behind, tokens};

const FOREIGN_BYTE: u32 = 5; // the refusal of a byte outside ISO's characters, in comments too
const LONGEST: usize = 6;
const BYTES: &[u8] = b" \t\n\r%/*a0.'\\\x80";

#[derive(Default)]
struct Counts {
    texts: u64,
    of_layout: u64,
    differ: u64,
}

fn by_function(text: &[u8]) -> bool {
    let start = Cursor::default();
    next_token(text, start, Source::File).is_err_and(|refusal| refusal.number == END_OF_TEXT) && only_layout_behind(text, start)
}

fn by_comma(longer: &[u8]) -> bool {
    next_token(longer, Cursor::default(), Source::File).is_ok_and(|token| token.start == longer.len() - 1)
}

fn whole_by_iterator(text: &[u8]) -> bool {
    let mut read = tokens(text, Source::File);
    read.by_ref().for_each(drop);
    read.ended_whole()
}

/// Whether an end mark, or nothing, is the last token before the comma.
fn whole_by_comma(longer: &[u8]) -> bool {
    let (mut scanner, mut before) = (Scanner::new(longer, Source::File), None);
    while scanner.advance().is_ok() {
        let token = scanner.token();
        if token.is_some_and(|token| token.start == longer.len() - 1) {
            return before.is_none_or(|kind| kind == Kind::End);
        }
        before = token.map(|token| token.kind);
    }
    false
}

/// Whether the layout at the cursor ends where the token call, with the two bytes behind the text, reads a token or refuses it. Refusals 1 and 5 do not
/// say where that is: they point behind the token's start, or into a comment.
fn ends_at_token(text: &[u8], longer: &[u8], at: Cursor) -> bool {
    let start = match next_token(longer, at, Source::File) {
        Ok(token) => token.start,
        Err(refusal) if [END_OF_TEXT, FOREIGN_BYTE].contains(&refusal.number) => return true,
        Err(refusal) => refusal.offset,
    };
    layout_end(text, at) == start.min(text.len())
}

/// From the cursor on, one layout text behind another, to the cursor where none is, or to the refusal of one; `None` if one does not start where the one
/// before it ended, or is empty.
fn pass_layout(text: &[u8], mut at: Cursor) -> Option<Result<Cursor, Refusal>> {
    loop {
        match next_layout(text, at) {
            Err(refusal) => return Some(Err(refusal)),
            Ok(None) => return Some(Ok(at)),
            Ok(Some(layout)) if layout.start != at.offset || layout.next.offset <= at.offset => return None,
            Ok(Some(layout)) => at = layout.next,
        }
    }
}

/// Whether the layout texts lead from the cursor to the token's start, and the token says where they began; or to the token call's own refusal. What is
/// refused in the token itself is refused there or behind.
fn leads_to_token(text: &[u8], at: Cursor) -> bool {
    pass_layout(text, at).is_some_and(|passed| match (passed, next_token(text, at, Source::File)) {
        (Ok(end), Ok(token)) => token.start == end.offset && token.layout == at.offset,
        (Ok(end), Err(refusal)) => refusal.offset >= end.offset,
        (Err(one), Err(other)) => one == other,
        (Err(_), Ok(_)) => false,
    })
}

/// This text, and each that goes on from it.
fn try_from(text: &mut Vec<u8>, counts: &mut Counts) {
    let longer = [text, b"\n,".as_slice()].concat();
    let layout = by_comma(&longer);
    counts.texts += 1;
    counts.of_layout += layout as u64;
    counts.differ += (layout != by_function(text)) as u64;
    counts.differ += (whole_by_comma(&longer) != whole_by_iterator(text)) as u64;
    for offset in 0..=text.len() {
        let at = Cursor { offset, ..Cursor::default() };
        counts.differ += !ends_at_token(text, &longer, at) as u64 + !leads_to_token(text, at) as u64;
    }
    if text.len() < LONGEST {
        for byte in BYTES {
            text.push(*byte);
            try_from(text, counts);
            text.pop();
        }
    }
}

fn main() -> ExitCode {
    let mut counts = Counts::default();
    try_from(&mut Vec::new(), &mut counts);
    println!("{} texts, {} of layout alone, {} differ", counts.texts, counts.of_layout, counts.differ);
    ExitCode::from((counts.differ != 0) as u8)
}
