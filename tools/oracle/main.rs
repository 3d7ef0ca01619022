//! Cases on standard input, the Rust's answers on standard output, for a look by hand.
//!
//! A case is a line `T LENGTH` (token calls up to the first error) or `N LENGTH` (one number call), then LENGTH raw bytes, then a newline.
//! A token's line: kind, text in hexadecimal, value, offset, lines, the Rust's own column, parted by tabs (`-` where there is nothing).
//! An error's line: `error`, its name in the Rust. A blank line ends a case. The Rust panics on a text that ends inside a UTF-8 sequence.
use oracle::api::*;
use std::io::{self, BufRead, Read, Write};

fn show(token: &Accepted) -> String {
    let text: String = token.text.iter().map(|b| format!("{b:02x}")).collect();
    let text = if matches!(token.kind, Kind::Name | Kind::Variable | Kind::String) { &text } else { "-" };
    let value = match token.value {
        Value::Nothing => "-".to_string(),
        Value::Integer(n) => n.to_string(),
        Value::Big => "big".to_string(),
        Value::Float(bits) => format!("f{bits:016x}"),
    };
    format!("{:?}\t{text}\t{value}\t{}\t{}\t{}", token.kind, token.end, token.lines, token.column)
}

fn main() -> io::Result<()> {
    let bad = |why: &str| io::Error::new(io::ErrorKind::InvalidData, why.to_string());
    let mut input = io::stdin().lock();
    let mut output = io::BufWriter::new(io::stdout().lock());
    let mut machine = Machine::default();
    let mut head = String::new();
    while input.read_line(&mut head)? > 0 {
        let (call, length) = head.trim_end().split_once(' ').ok_or_else(|| bad("no header"))?;
        let mut body = vec![0; length.parse::<usize>().map_err(|_| bad("no length"))? + 1];
        input.read_exact(&mut body)?;
        if body.pop() != Some(b'\n') {
            return Err(bad("no newline behind the body"));
        }
        let mut session = machine.start(&body);
        loop {
            let answer = if call == "N" { session.next_number_token() } else { session.next_token() };
            match &answer {
                Ok(token) => writeln!(output, "{}", show(token))?,
                Err(failure) => writeln!(output, "error\t{failure}")?,
            }
            if call == "N" || answer.is_err() {
                break;
            }
        }
        writeln!(output)?;
        head.clear();
    }
    output.flush()
}
