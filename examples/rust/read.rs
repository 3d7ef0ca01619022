//! Prints what the reader reads.
//!
//! ```text
//! read tokens|texts|stretches|clauses|listing|whole [FILE]    of a file, or of standard input
//! read field TEXT                                             the tokens of what was typed into a field
//! ```
//!
//! A line is as the probe (docs/PROBE.md) or the listing program writes it. The last one is the refusal that ended the text: number 1, at the
//! text's length, where all of it was read. `stretches` says what each byte of the text is part of: a token, blanks or a comment. `whole` says `whole`, or
//! what is wrong and where: as compilers do, so that an editor can go there, with the line and a caret below the byte.
mod thrinvage;
mod tokens;

use std::env::args;
use std::fs::File;
use std::io::{Error, Read, Result, Write, stdin, stdout};
use std::ops::Range;
use std::process::ExitCode;
use thrinvage::{Cursor, LINE_BYTES, LONGEST_TEXT, LayoutKind, Part, Refusal, Source, TREE_NUMBERS};
use thrinvage::{
    END_OF_TEXT, NO_TEXT, NOT_VALID, layout_end, list_clause, next_layout, next_token, next_token_text, only_layout_behind, read_clause,
};
use tokens::{kind_name, print_token, shown_cursor};

/// The refusal, and the cursor where it was met.
fn print_refused(out: &mut impl Write, refusal: Refusal, at: Cursor) -> Result<()> {
    writeln!(out, "refused {} {} {}", refusal.number, refusal.offset, shown_cursor(at))
}

fn print_tokens(out: &mut impl Write, text: &[u8], source: Source) -> Result<()> {
    let mut at = Cursor::default();
    for read in thrinvage::tokens(text, source) {
        match read {
            Ok(token) => {
                print_token(out, token)?;
                at = token.next;
            }
            Err(refusal) => print_refused(out, refusal, at)?,
        }
    }
    Ok(())
}

fn print_text(out: &mut impl Write, text: &[u8], scratch: &[u8], part: Part) -> Result<()> {
    out.write_all(match part {
        Part::Source(range) => &text[range],
        Part::Scratch(range) => &scratch[range],
    })?;
    writeln!(out)
}

/// The decoded names, variables and strings, a line each. A token that has no text is stepped over by the token call.
fn print_texts(out: &mut impl Write, text: &[u8]) -> Result<()> {
    let mut scratch = vec![0; LONGEST_TEXT]; // room for any: a decoded text is never longer than its source
    let mut at = Cursor::default();
    loop {
        let read = match next_token_text(text, at, &mut scratch) {
            Ok((token, part)) => {
                print_text(out, text, &scratch, part)?;
                Ok(token)
            }
            Err(refusal) if refusal.number == NO_TEXT => next_token(text, at, Source::File),
            Err(refusal) => Err(refusal),
        };
        match read {
            Ok(token) => at = token.next,
            Err(refusal) => return print_refused(out, refusal, at),
        }
    }
}

fn shown_byte(byte: u8) -> String {
    match byte {
        b'\n' => "\\n".to_string(),
        b'\r' => "\\r".to_string(),
        b'\t' => "\\t".to_string(),
        b'"' | b'\\' => format!("\\{}", byte as char),
        b' '..=b'~' => (byte as char).to_string(),
        _ => format!("\\x{byte:02x}"),
    }
}

/// A part of the text, what it is, and the place of its first byte: where it starts and ends, its line and column from 1, and its bytes on one line, with
/// escapes as in C.
fn print_stretch(out: &mut impl Write, text: &[u8], kind: &str, part: Range<usize>, at: Cursor) -> Result<()> {
    let (line, column) = (at.line + 1, at.column + 1);
    let shown: String = text[part.clone()].iter().map(|&byte| shown_byte(byte)).collect();
    writeln!(out, "{:5}..{:<5} {line:4}:{column:<3} {kind:17} \"{shown}\"", part.start, part.end)
}

fn layout_name(kind: LayoutKind) -> &'static str {
    match kind {
        LayoutKind::Blanks => "blanks",
        LayoutKind::LineComment => "line_comment",
        LayoutKind::BracketedComment => "bracketed_comment",
    }
}

/// One layout text behind another: to the cursor where none is, or one is refused.
fn print_layout(out: &mut impl Write, text: &[u8], mut at: Cursor) -> Result<Cursor> {
    while let Ok(Some(layout)) = next_layout(text, at) {
        print_stretch(out, text, layout_name(layout.kind), layout.start..layout.next.offset, at)?;
        at = layout.next;
    }
    Ok(at)
}

/// All bytes, each in one stretch. The token call is made before the layout is passed: so it sees whether some stands before a `(`. Behind a refusal the
/// layout that is still whole has its stretches, and the rest is one that was not read.
fn print_stretches(out: &mut impl Write, text: &[u8]) -> Result<()> {
    let mut at = Cursor::default();
    let refusal = loop {
        match next_token(text, at, Source::File) {
            Ok(token) => {
                let start = print_layout(out, text, at)?;
                print_stretch(out, text, kind_name(token.kind), token.start..token.next.offset, start)?;
                at = token.next;
            }
            Err(refusal) => break refusal,
        }
    };
    at = print_layout(out, text, at)?;
    // 8 is for a text that is too long: it may go on behind what is here
    if at.offset < text.len() && refusal.number != NOT_VALID {
        print_stretch(out, text, "not_read", at.offset..text.len(), at)?;
    }
    writeln!(out, "refused {} at {}", refusal.number, refusal.offset)
}

/// Two numbers a node, children before their parent: the index of its token in the clause; its kind (enum thrinvage_node of the header) times
/// 1,024 plus the count of its children.
fn print_tree(out: &mut impl Write, tree: &[u16]) -> Result<()> {
    write!(out, "tree")?;
    for number in tree {
        write!(out, " {number}")?;
    }
    writeln!(out)
}

fn print_clauses(out: &mut impl Write, text: &[u8]) -> Result<()> {
    let mut tree = [0; TREE_NUMBERS];
    let mut at = Cursor::default();
    loop {
        match read_clause(text, at, &mut tree) {
            Ok(clause) => {
                writeln!(out, "clause {} {}", clause.count, shown_cursor(clause.next))?;
                print_tree(out, &tree[..2 * clause.count])?;
                at = clause.next;
            }
            Err(refusal) => return print_refused(out, refusal, at),
        }
    }
}

fn print_listing(out: &mut impl Write, text: &[u8]) -> Result<()> {
    let mut line = vec![0; LINE_BYTES];
    let mut at = Cursor::default();
    loop {
        match list_clause(text, at, &mut line) {
            Ok(clause) => {
                out.write_all(&line[..clause.count])?;
                writeln!(out)?;
                at = clause.next;
            }
            Err(refusal) => return writeln!(out, "refused {} at {}", refusal.number, refusal.offset),
        }
    }
}

/// Where the line starts that holds the offset: behind the last newline before it.
fn line_start(text: &[u8], offset: usize) -> usize {
    text[..offset].iter().rposition(|&byte| byte == b'\n').map_or(0, |newline| newline + 1)
}

/// The line that starts there, without its newline and a return before that.
fn line_from(text: &[u8], start: usize) -> &[u8] {
    let line = text[start..].split(|&byte| byte == b'\n').next().unwrap_or_default();
    line.strip_suffix(b"\r").unwrap_or(line)
}

/// As compilers begin a message, so that an editor can go there: line and column from 1. All before the offset was read, so it is of ASCII, and a
/// character is a byte.
fn print_place(out: &mut impl Write, name: &str, text: &[u8], offset: usize) -> Result<()> {
    let newlines = text[..offset].iter().filter(|&&byte| byte == b'\n').count();
    write!(out, "{name}:{}:{}: ", newlines + 1, offset - line_start(text, offset) + 1)
}

/// The line that holds the offset, and a caret below that byte. Below a tab stands a tab: it takes as much room there as in the line.
fn print_caret(out: &mut impl Write, text: &[u8], offset: usize) -> Result<()> {
    let start = line_start(text, offset);
    let below: Vec<u8> = text[start..offset].iter().map(|&byte| if byte == b'\t' { b'\t' } else { b' ' }).collect();
    out.write_all(&[line_from(text, start), b"\n", &below, b"^\n"].concat())
}

fn print_fault(out: &mut impl Write, name: &str, text: &[u8], refusal: Refusal) -> Result<()> {
    print_place(out, name, text, refusal.offset)?;
    writeln!(out, "refused {} at {}", refusal.number, refusal.offset)?;
    print_caret(out, text, refusal.offset)
}

/// Points at the clause's first token. It may be cut off itself, so the token call cannot say where it starts; the end of the layout before it can.
fn print_cut_off(out: &mut impl Write, name: &str, text: &[u8], at: Cursor) -> Result<()> {
    let start = layout_end(text, at);
    print_place(out, name, text, start)?;
    writeln!(out, "cut off: this clause has no end mark")?;
    print_caret(out, text, start)
}

/// Reads all clauses. Where refusal 1 ended the text, nothing but layout stands behind the last of them, or the next one was cut off.
fn print_whole(out: &mut impl Write, name: &str, text: &[u8]) -> Result<()> {
    let mut tree = [0; TREE_NUMBERS];
    let mut at = Cursor::default();
    let refusal = loop {
        match read_clause(text, at, &mut tree) {
            Ok(clause) => at = clause.next,
            Err(refusal) => break refusal,
        }
    };
    match refusal.number {
        NOT_VALID => writeln!(out, "{name}: refused {NOT_VALID} at 0"), // the text is too long: that is no place in it
        END_OF_TEXT if only_layout_behind(text, at) => writeln!(out, "whole"),
        END_OF_TEXT => print_cut_off(out, name, text, at),
        _ => print_fault(out, name, text, refusal),
    }
}

fn usage() -> Error {
    Error::other("usage: read tokens|texts|stretches|clauses|listing|whole [FILE]\n       read field TEXT")
}

fn read_bytes(file: impl Read) -> Result<Vec<u8>> {
    let mut text = Vec::new();
    // one byte more than a text may have: a longer file is refused then, by number 8, and not cut short in silence
    file.take(LONGEST_TEXT as u64 + 1).read_to_end(&mut text)?;
    Ok(text)
}

/// The bytes of the file, or of standard input where none is named.
fn read_text(names: &[&str]) -> Result<Vec<u8>> {
    match names {
        [] => read_bytes(stdin()),
        [name] => File::open(name).and_then(read_bytes).map_err(|error| Error::other(format!("{name}: {error}"))),
        _ => Err(usage()),
    }
}

fn run(words: &[&str]) -> Result<()> {
    let mut out = stdout().lock();
    match words {
        ["field", text] => print_tokens(&mut out, text.as_bytes(), Source::Field),
        ["tokens", names @ ..] => print_tokens(&mut out, &read_text(names)?, Source::File),
        ["texts", names @ ..] => print_texts(&mut out, &read_text(names)?),
        ["stretches", names @ ..] => print_stretches(&mut out, &read_text(names)?),
        ["clauses", names @ ..] => print_clauses(&mut out, &read_text(names)?),
        ["listing", names @ ..] => print_listing(&mut out, &read_text(names)?),
        ["whole", names @ ..] => print_whole(&mut out, names.first().unwrap_or(&"standard input"), &read_text(names)?),
        _ => Err(usage()),
    }
}

fn main() -> ExitCode {
    let words: Vec<String> = args().skip(1).collect();
    let words: Vec<&str> = words.iter().map(String::as_str).collect();
    match run(&words) {
        Ok(()) => ExitCode::SUCCESS,
        Err(error) => {
            eprintln!("{error}");
            ExitCode::from(2)
        }
    }
}
