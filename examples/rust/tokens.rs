//! What `read` and `stream` share: a token as a line, as the probe (docs/PROBE.md) writes it.
use crate::thrinvage::{Cursor, Kind, Token, Value};
use std::io::{Result, Write};

pub fn kind_name(kind: Kind) -> &'static str {
    match kind {
        Kind::Name => "name",
        Kind::Variable => "variable",
        Kind::String => "string",
        Kind::Number => "number",
        Kind::Open => "open",
        Kind::OpenCT => "open_ct",
        Kind::Close => "close",
        Kind::OpenList => "open_list",
        Kind::CloseList => "close_list",
        Kind::OpenCurly => "open_curly",
        Kind::CloseCurly => "close_curly",
        Kind::HeadTailSeparator => "bar",
        Kind::DoubleBar => "double_bar",
        Kind::Comma => "comma",
        Kind::End => "end",
    }
}

pub fn shown_cursor(at: Cursor) -> String {
    format!("{} {} {}", at.offset, at.line, at.column)
}

fn shown_value(value: Value) -> String {
    match value {
        Value::Nothing => "-".to_string(),
        Value::Integer(n) => n.to_string(),
        Value::Float(x) => format!("f{:016x}", x.to_bits()),
    }
}

pub fn print_token(out: &mut impl Write, token: Token) -> Result<()> {
    let (kind, next, value) = (kind_name(token.kind), shown_cursor(token.next), shown_value(token.value));
    writeln!(out, "token {kind} {} {next} {value} {}", token.start, token.layout)
}
