//! Reads standard input as it arrives, and prints each token as soon as it is certain.
//!
//! ```text
//! stream [BYTES]    so many bytes at a time at most; 64 if it is not said
//! ```
//!
//! A token's line is as `read tokens` prints it. The last line is the refusal that ended the text: number 1, at the text's length, where all of it was read.
//! What arrives behind a refusal is not read.
mod thrinvage;
mod tokens;

use std::env::args;
use std::io::{Error, Read, Result, Write, stdin, stdout};
use std::process::ExitCode;
use thrinvage::{Given, LONGEST_TEXT, Reader};
use tokens::print_token;

/// Feeds a chunk, until nothing is left of it and more must come, and prints what it gives. Whether the text goes on: not behind a refusal.
fn print_chunk(out: &mut impl Write, reader: &mut Reader, mut chunk: &[u8]) -> Result<bool> {
    loop {
        let (taken, given) = reader.feed(chunk);
        chunk = &chunk[taken..];
        match given {
            Given::Token(token) => {
                print_token(out, token)?;
                out.flush()?; // also where it goes to a file or to another program
            }
            Given::Refused(refusal) => {
                writeln!(out, "refused {} at {}", refusal.number, refusal.offset)?;
                return Ok(false);
            }
            Given::More if chunk.is_empty() => return Ok(true),
            Given::More => {}
        }
    }
}

fn print_stream(bytes: usize) -> Result<()> {
    let (mut input, mut out) = (stdin().lock(), stdout().lock());
    let mut reader = Reader::new();
    let mut chunk = vec![0; bytes];
    loop {
        // returns what there is, and does not wait for the rest
        let got = input.read(&mut chunk)?;
        if got == 0 {
            break;
        }
        if !print_chunk(&mut out, &mut reader, &chunk[..got])? {
            return Ok(());
        }
    }
    reader.finish();
    print_chunk(&mut out, &mut reader, &[])?; // never `More` now: it ends with a refusal
    Ok(())
}

fn run(words: &[String]) -> Result<()> {
    let bytes = match words {
        [] => Some(64),
        [bytes] => bytes.parse().ok(),
        _ => None,
    };
    match bytes {
        Some(bytes @ 1..=LONGEST_TEXT) => print_stream(bytes),
        _ => Err(Error::other("usage: stream [BYTES]")),
    }
}

fn main() -> ExitCode {
    let words: Vec<String> = args().skip(1).collect();
    match run(&words) {
        Ok(()) => ExitCode::SUCCESS,
        Err(error) => {
            eprintln!("{error}");
            ExitCode::from(2)
        }
    }
}
