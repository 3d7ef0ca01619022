//! Stands in for the probe: the same format on standard input and output, answered by the model.
mod kind;
mod model;
mod protocol;
use std::io::{self, Write};

fn main() -> io::Result<()> {
    let mut input = io::BufReader::with_capacity(1 << 16, io::stdin().lock());
    let mut output = io::BufWriter::with_capacity(1 << 16, io::stdout().lock());
    let mut lines = String::new();
    loop {
        match protocol::Case::read(&mut input) {
            Ok(None) => return output.flush(),
            Ok(Some(case)) => {
                lines.clear();
                for answer in protocol::answers(&case, &protocol::readings(&case)) {
                    answer.write(case.call, &mut lines);
                }
                output.write_all(lines.as_bytes())?;
            }
            Err(_) => {
                output.write_all(b"malformed\n")?;
                return output.flush();
            }
        }
    }
}
