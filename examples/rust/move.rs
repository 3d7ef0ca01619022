//! Moves messages from one form to the other, for a desk and a mast that speak different forms.
//!
//! ```text
//! move up [FILE]      from form 1 to form 2: the lines are not known
//! move down [FILE]    from form 2 to form 1: the lines are dropped
//! ```
//!
//! It reads a file or standard input; the moved messages go to standard output. The first message that is refused ends the program, as in `receive`: so
//! does one that is of the other form already (number 18), or too long for two bytes more (13).
mod messages;
mod thrinvage;

use messages::answer_messages;
use std::env::args;
use std::process::ExitCode;
use thrinvage::{IMAGE_BYTES, move_down, move_up};

fn main() -> ExitCode {
    let mut words = args().skip(1);
    let moved = match words.next().as_deref() {
        Some("up") => move_up,
        Some("down") => move_down,
        _ => {
            eprintln!("usage: move up|down [FILE]");
            return ExitCode::from(2);
        }
    };
    let mut out = vec![0; IMAGE_BYTES];
    answer_messages(words.next(), |image| moved(image, &mut out).map(|length| out[..length].to_vec()))
}
