//! Prints the tree of each clause: a node a line, its children below it and further in.
//!
//! ```text
//! tree [FILE]    of a file, or of standard input
//! ```
//!
//! A tree has the indexes of tokens and not the tokens, so the tokens are read once more. A line has the node's kind and what its token says: a name
//! or a string decoded, and a number as it is spelled, with its value, a float's to six places. The last line is the refusal that ended the text.
mod thrinvage;

use std::env::args;
use std::fs::File;
use std::io::{Read, Result, Write, stdin, stdout};
use thrinvage::{Cursor, Kind, LONGEST_TEXT, NO_TEXT, Part, Refusal, Source, TREE_NUMBERS, Token, Value};
use thrinvage::{next_token, next_token_text, read_clause};

/// A token of the clause, and its decoded text, or its spelling where it has none.
struct Piece {
    token: Token,
    bytes: Vec<u8>,
}

/// A node: the index of its token, its kind, and its children from left to right.
struct Node {
    index: usize,
    kind: u16,
    children: Vec<Node>,
}

/// In the order of enum thrinvage_node of the header.
const NODES: [&str; 10] =
    ["plain", "negative", "call", "prefix", "infix", "list", "list with tail", "curly", "empty list", "empty curly"];
const PLAIN: u16 = 0;
const NEGATIVE: u16 = 1;
const LIST: u16 = 5;

fn read_piece(text: &[u8], at: Cursor, scratch: &mut [u8]) -> std::result::Result<Piece, Refusal> {
    match next_token_text(text, at, scratch) {
        Ok((token, Part::Source(range))) => Ok(Piece { token, bytes: text[range].to_vec() }),
        Ok((token, Part::Scratch(range))) => Ok(Piece { token, bytes: scratch[range].to_vec() }),
        Err(refusal) if refusal.number == NO_TEXT => {
            next_token(text, at, Source::File).map(|token| Piece { token, bytes: text[token.start..token.next.offset].to_vec() })
        }
        Err(refusal) => Err(refusal),
    }
}

/// Reads the tokens once more, from the cursor before the clause to its end mark. They were read before: none is refused.
fn read_pieces(text: &[u8], mut at: Cursor, scratch: &mut [u8]) -> Vec<Piece> {
    let mut pieces = Vec::new();
    while let Ok(piece) = read_piece(text, at, scratch) {
        if piece.token.kind == Kind::End {
            break;
        }
        at = piece.token.next;
        pieces.push(piece);
    }
    pieces
}

/// Children stand before their parent: each node takes its own from the end of what has no parent yet. The root is left.
fn build(tree: &[u16]) -> Option<Node> {
    let mut nodes: Vec<Node> = Vec::new();
    for pair in tree.chunks_exact(2) {
        let (index, kind, count) = (pair[0] as usize, pair[1] / 1024, pair[1] as usize % 1024);
        let children = nodes.split_off(nodes.len() - count);
        nodes.push(Node { index, kind, children });
    }
    nodes.pop()
}

fn shown_value(is_negative: bool, value: Value) -> String {
    match value {
        Value::Nothing => String::new(),
        // not -(n as i64), which overflows where n is the lowest integer's magnitude
        Value::Integer(n) if is_negative => format!(" = {}", 0_i64.wrapping_sub_unsigned(n)),
        Value::Integer(n) => format!(" = {n}"),
        Value::Float(x) => format!(" = {:.6}", if is_negative { -x } else { x }),
    }
}

fn node_name(node: &Node, token: Token) -> &'static str {
    match (node.kind, token.kind) {
        (PLAIN, Kind::Name) => "name",
        (PLAIN, Kind::Variable) => "variable",
        (PLAIN, Kind::String) => "string",
        (PLAIN, Kind::Number) => "number",
        (kind, _) => NODES[kind as usize],
    }
}

fn print_line(out: &mut impl Write, pieces: &[Piece], node: &Node, depth: usize) -> Result<()> {
    let Piece { token, bytes } = &pieces[node.index];
    write!(out, "{:1$}{2}", "", 2 * depth, node_name(node, *token))?;
    if node.kind < LIST {
        write!(out, " ")?;
        out.write_all(bytes)?;
    }
    match node.kind {
        PLAIN => writeln!(out, "{}", shown_value(false, token.value)),
        NEGATIVE => {
            let number = &pieces[node.index + 1]; // behind the minus
            out.write_all(&number.bytes)?;
            writeln!(out, "{}", shown_value(true, number.token.value))
        }
        _ => writeln!(out),
    }
}

fn print_tree(out: &mut impl Write, pieces: &[Piece], node: &Node, depth: usize) -> Result<()> {
    print_line(out, pieces, node, depth)?;
    node.children.iter().try_for_each(|child| print_tree(out, pieces, child, depth + 1))
}

fn print_clauses(out: &mut impl Write, text: &[u8]) -> Result<()> {
    let (mut tree, mut scratch) = ([0; TREE_NUMBERS], vec![0; LONGEST_TEXT]);
    let mut at = Cursor::default();
    loop {
        match read_clause(text, at, &mut tree) {
            Ok(clause) => {
                let pieces = read_pieces(text, at, &mut scratch);
                if let Some(root) = build(&tree[..2 * clause.count]) {
                    print_tree(out, &pieces, &root, 0)?;
                }
                at = clause.next;
            }
            Err(refusal) => return writeln!(out, "refused {} at {}", refusal.number, refusal.offset),
        }
    }
}

fn main() -> Result<()> {
    let file: Box<dyn Read> = match args().nth(1) {
        Some(name) => Box::new(File::open(name)?),
        None => Box::new(stdin()),
    };
    let mut text = Vec::new();
    // one byte more than a text may have: a longer file is refused then, by number 8, and not cut short in silence
    file.take(LONGEST_TEXT as u64 + 1).read_to_end(&mut text)?;
    print_clauses(&mut stdout().lock(), &text)
}
