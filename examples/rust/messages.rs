//! What `receive` and `move` share: messages that stand one behind another, of either form.
use crate::thrinvage::Refusal;
use std::fs::File;
use std::io::{self, Read, Write, stdin, stdout};
use std::process::ExitCode;

/// The version and the length of the rest: every message has them, in this place.
const HEAD: u64 = 3;

/// The next message, as long as its head says, or as much of it as there is: then it is refused.
fn read_message(file: &mut impl Read) -> io::Result<Vec<u8>> {
    let mut image = Vec::new();
    file.take(HEAD).read_to_end(&mut image)?;
    if let [_, high, low] = image[..] {
        file.take(u16::from_be_bytes([high, low]) as u64).read_to_end(&mut image)?;
    }
    Ok(image)
}

/// Whether every message was answered.
fn answer_each(name: Option<String>, mut answer: impl FnMut(&[u8]) -> Result<Vec<u8>, Refusal>) -> io::Result<bool> {
    let mut file: Box<dyn Read> = match name {
        Some(name) => Box::new(File::open(name)?),
        None => Box::new(stdin()),
    };
    let mut out = stdout().lock();
    let mut at = 0;
    let whole = loop {
        let image = read_message(&mut file)?;
        if image.is_empty() {
            break true;
        }
        match answer(&image) {
            Ok(bytes) => out.write_all(&bytes)?,
            Err(refusal) => {
                eprintln!("refused {} at {at}", refusal.number);
                break false;
            }
        }
        at += image.len();
    };
    out.flush()?;
    Ok(whole)
}

/// Writes what is answered to each message of a file, or of standard input. The first that is refused ends it: standard error has the refusal, with the
/// place where the message starts. The status is 0, or 1 where a message was refused, or 2 where a file could not be read or written.
pub fn answer_messages(name: Option<String>, answer: impl FnMut(&[u8]) -> Result<Vec<u8>, Refusal>) -> ExitCode {
    match answer_each(name, answer) {
        Ok(whole) => ExitCode::from(!whole as u8),
        Err(error) => {
            eprintln!("{error}");
            ExitCode::from(2)
        }
    }
}
