//! Unpacks the messages that `send` wrote, of either form, and prints the clause of each as a line of the listing.
//!
//! ```text
//! receive [-1] [-l] [FILE]    of a file, or of standard input
//! ```
//!
//! -l: before each clause stand the line on which it starts, and `: `; a question mark where the line is not known, as in form 1.
//! -1: as a mast in the field, which knows form 1 alone and refuses form 2.
//!
//! A message is printed whole or not at all. The first that is no image ends the program: standard error has the refusal, with the place where the message
//! starts, and the status is 1. Where the next one starts is then not known, since the length may be what is damaged.
mod messages;
mod thrinvage;

use messages::answer_messages;
use std::env::args;
use std::process::ExitCode;
use thrinvage::{Form, NODE_NUMBERS, Node, NodeKind, Unpacked, unpack, unpack_either};

/// What stands before and behind a node's children, if anything does.
fn brackets(kind: NodeKind) -> Option<(u8, u8)> {
    match kind {
        NodeKind::Plain | NodeKind::Negative => None,
        NodeKind::Call | NodeKind::Prefix | NodeKind::Infix => Some((b'(', b')')),
        NodeKind::List | NodeKind::ListTail | NodeKind::EmptyList => Some((b'[', b']')),
        NodeKind::Curly | NodeKind::EmptyCurly => Some((b'{', b'}')),
    }
}

/// What stands before the brackets. The Comma is no name, so it is put in quotes.
fn word(node: Node<'_>) -> &[u8] {
    match (brackets(node.kind), node.spelling) {
        (Some((b'[' | b'{', _)), _) => b"",
        (_, b",") => b"','",
        (_, spelling) => spelling,
    }
}

/// A node and how many of its children are still to be written.
struct OpenNode<'i> {
    node: Node<'i>,
    left: usize,
}

impl OpenNode<'_> {
    /// What stands behind the next child: nothing if it is the last one, and a bar if the last one is a tail.
    fn separator(&mut self) -> Option<u8> {
        let written = self.node.arity - self.left;
        self.left -= 1;
        match (written, self.node.kind) {
            (0, _) => None,
            (1, NodeKind::ListTail) => Some(b'|'),
            _ => Some(b','),
        }
    }
}

/// The line is made from its end, since a node stands behind its children. Those that are open are the node's parent, that one's parent, and so on.
fn shown_clause(unpacked: Unpacked) -> Vec<u8> {
    let (mut backwards, mut open) = (Vec::new(), Vec::<OpenNode>::new());
    for node in unpacked.nodes().rev() {
        backwards.extend(open.last_mut().and_then(OpenNode::separator));
        backwards.extend(brackets(node.kind).map(|(_, close)| close));
        open.push(OpenNode { node, left: node.arity });
        while let Some(&OpenNode { node, left: 0 }) = open.last() {
            open.pop();
            backwards.extend(brackets(node.kind).map(|(open, _)| open));
            backwards.extend(word(node).iter().rev());
        }
    }
    backwards.reverse();
    backwards
}

/// What the words ask for.
#[derive(Default)]
struct Options {
    form_1: bool,
    lines: bool,
}

impl Options {
    /// Whether the word is one of the options, which it then sets.
    fn take(&mut self, word: &str) -> bool {
        match word {
            "-1" => self.form_1 = true,
            "-l" => self.lines = true,
            _ => return false,
        }
        true
    }

    /// What stands before a clause.
    fn front(&self, form: Form) -> String {
        match form {
            _ if !self.lines => String::new(),
            Form::One | Form::Two(0) => "?: ".into(),
            Form::Two(line) => format!("{line}: "),
        }
    }
}

fn main() -> ExitCode {
    let (mut options, mut words) = (Options::default(), args().skip(1).peekable());
    while words.next_if(|word| options.take(word)).is_some() {}
    let mut nodes = [0; NODE_NUMBERS];
    answer_messages(words.next(), |image| {
        let unpacked = if options.form_1 { unpack(image, &mut nodes) } else { unpack_either(image, &mut nodes) }?;
        Ok([options.front(unpacked.form()).as_bytes(), &shown_clause(unpacked), b"\n"].concat())
    })
}
