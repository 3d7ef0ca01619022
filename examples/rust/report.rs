//! Packs a fact that stands in no text, as a mast reports what it has measured: gust(HOUSE,SPEED).
//!
//! ```text
//! report HOUSE SPEED
//! ```
//!
//! The message goes to standard output, for `receive`. Packing does not judge spellings: a name and a number are what the caller owes here.
//! A refusal goes to standard error, with status 1.
mod thrinvage;

use std::env::args;
use std::io::{Write, stdout};
use std::process::ExitCode;
use thrinvage::{Form, IMAGE_BYTES, NodeKind, Refusal, pack_nodes};

const NAME: &str = "gust";
const PLAIN: u32 = NodeKind::Plain as u32;
const CALL: u32 = NodeKind::Call as u32;

/// The spellings stand one behind another, and a node says where its own is: kind, arity, start, length. The root is the last.
fn pack_gust(house: &str, speed: &str) -> Result<Vec<u8>, Refusal> {
    let bytes = [NAME, house, speed].concat();
    let (name, house, speed) = (NAME.len() as u32, house.len() as u32, speed.len() as u32);
    let nodes = [[PLAIN, 0, name, house], [PLAIN, 0, name + house, speed], [CALL, 2, 0, name]];
    let mut image = vec![0; IMAGE_BYTES];
    let length = pack_nodes(bytes.as_bytes(), nodes.as_flattened(), nodes.len(), Form::One, &mut image)?;
    image.truncate(length);
    Ok(image)
}

fn main() -> ExitCode {
    let words: Vec<String> = args().skip(1).collect();
    let [house, speed] = words.as_slice() else {
        eprintln!("usage: report HOUSE SPEED");
        return ExitCode::from(2);
    };
    match pack_gust(house, speed) {
        Ok(image) => stdout().write_all(&image).map_or(ExitCode::from(2), |()| ExitCode::SUCCESS),
        Err(refusal) => {
            eprintln!("refused {}", refusal.number);
            ExitCode::FAILURE
        }
    }
}
