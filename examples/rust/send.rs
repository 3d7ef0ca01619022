//! Packs each clause of a text into a message.
//!
//! ```text
//! send [-l] [FILE]    of a file, or of standard input; -l: in form 2, with the line on which each clause starts
//! ```
//!
//! The messages go to standard output, one behind another: a message is an image, as include/thrinvage.h describes it, and nothing else. Standard error has
//! the refusal that ended the text: number 1, at the text's length, where all of it was read. Status 1 says that not all of the text was sent.
mod thrinvage;

use std::env::args;
use std::fs::File;
use std::io::{Read, Result, Write, stdin, stdout};
use std::process::ExitCode;
use thrinvage::{Cursor, END_OF_TEXT, IMAGE_BYTES, LONGEST_TEXT, Version, only_layout_behind, pack_clause};

/// Whether all of the text was sent: nothing but layout stands behind the last clause.
fn send_clauses(out: &mut impl Write, text: &[u8], version: Version) -> Result<bool> {
    let mut image = vec![0; IMAGE_BYTES];
    let mut at = Cursor::default();
    loop {
        match pack_clause(text, at, version, &mut image) {
            Ok(clause) => {
                out.write_all(&image[..clause.count])?;
                at = clause.next;
            }
            Err(refusal) => {
                eprintln!("refused {} at {}", refusal.number, refusal.offset);
                return Ok(refusal.number == END_OF_TEXT && only_layout_behind(text, at));
            }
        }
    }
}

fn run(version: Version, name: Option<String>) -> Result<bool> {
    let file: Box<dyn Read> = match name {
        Some(name) => Box::new(File::open(name)?),
        None => Box::new(stdin()),
    };
    let mut text = Vec::new();
    // one byte more than a text may have: a longer file is refused then, by number 8, and not cut short in silence
    file.take(LONGEST_TEXT as u64 + 1).read_to_end(&mut text)?;
    let mut out = stdout().lock();
    let sent = send_clauses(&mut out, &text, version)?;
    out.flush()?;
    Ok(sent)
}

fn main() -> ExitCode {
    let mut words = args().skip(1).peekable();
    let version = if words.next_if_eq("-l").is_some() { Version::Two } else { Version::One };
    match run(version, words.next()) {
        Ok(sent) => ExitCode::from(!sent as u8),
        Err(error) => {
            eprintln!("{error}");
            ExitCode::from(2)
        }
    }
}
