//! Cuts Prolog text into clauses that both read alike, and joins them to texts of a wanted size.
use crate::model::LONGEST_TEXT;
use crate::table::Amount;
use crate::thrinvage::{self, Cursor, Kind, Refusal, Source, TREE_NUMBERS};
use oracle::api::{END_OF_FILE, Machine};

const END_OF_TEXT: u32 = 1;

/// A clause as it stands in its file, with the layout and comments before it and a newline behind it.
pub type Clause = Vec<u8>;

/// Texts of one size that are read one after the other.
pub struct Batch {
    pub name: &'static str,
    pub size: usize,
    pub pieces: Vec<Vec<u8>>,
    pub bytes: usize,
    pub tokens: usize,
    pub clauses: usize,
}

/// The clauses of a source, and the count of places left out of it because one of the two refuses there.
pub fn clauses(source: &[u8], machine: &mut Machine) -> (Vec<Clause>, usize) {
    let (mut found, mut left_out, mut at) = (Vec::new(), 0, 0);
    while at < source.len() {
        match length_of_clause(window(source, at)) {
            Ok(length) => {
                let clause = with_newline(&source[at..at + length]);
                if read_alike(&clause, machine).is_some() {
                    found.push(clause)
                } else {
                    left_out += 1
                }
                at += length;
            }
            Err(refusal) if refusal.number == END_OF_TEXT && at + refusal.offset == source.len() => break,
            Err(refusal) => {
                left_out += 1;
                at = behind_blank_line(source, at + refusal.offset);
            }
        }
    }
    (found, left_out)
}

fn window(source: &[u8], at: usize) -> &[u8] {
    &source[at..source.len().min(at + LONGEST_TEXT)]
}

fn length_of_clause(text: &[u8]) -> Result<usize, Refusal> {
    for token in thrinvage::tokens(text, Source::File) {
        let token = token?;
        if token.kind == Kind::End {
            return Ok(token.next.offset);
        }
    }
    unreachable!("a refusal comes last")
}

/// Without it, what is joined behind the end mark could make a name of it.
fn with_newline(clause: &[u8]) -> Clause {
    let newline: &[u8] = if clause.ends_with(b"\n") { b"" } else { b"\n" };
    [clause, newline].concat()
}

fn behind_blank_line(source: &[u8], from: usize) -> usize {
    source[from..].windows(2).position(|two| two == b"\n\n").map_or(source.len(), |found| from + found + 2)
}

/// The kinds of a text's tokens, where both read it to its end, and token by token alike in kind and in end.
fn read_alike(text: &[u8], machine: &mut Machine) -> Option<Vec<Kind>> {
    let mut session = machine.start(text);
    let mut kinds = Vec::new();
    for ours in thrinvage::tokens(text, Source::File) {
        match (ours, session.next_token()) {
            (Ok(ours), Ok(rust)) if ours.kind as usize == rust.kind as usize && ours.next.offset == rust.end => {
                kinds.push(ours.kind)
            }
            (Err(refusal), Err(END_OF_FILE)) if refusal.number == END_OF_TEXT && refusal.offset == text.len() => {
                return Some(kinds);
            }
            _ => return None,
        }
    }
    unreachable!("a refusal comes last")
}

/// Whether the clause call takes the clause.
pub fn is_of_the_grammar(clause: &Clause) -> bool {
    thrinvage::read_clause(clause, Cursor::default(), &mut [0; TREE_NUMBERS]).is_ok()
}

/// Whether no token of the clause is longer than the reader of chunks takes.
#[cfg(chunks)]
pub fn has_short_tokens(clause: &Clause) -> bool {
    thrinvage::tokens(clause, Source::File).flatten().all(|token| token.next.offset - token.start <= 1_024)
}

/// Texts of at most `size` bytes and at least half as many. A clause that does not fit starts the next text, but is left out while
/// the text before it is short.
pub fn joined<'c>(clauses: impl Iterator<Item = &'c Clause>, size: usize) -> Vec<Vec<u8>> {
    let (mut pieces, mut piece) = (Vec::new(), Vec::new());
    for clause in clauses.filter(|clause| clause.len() <= size) {
        if piece.len() + clause.len() <= size {
            piece.extend(clause);
        } else if piece.len() >= size / 2 {
            pieces.push(std::mem::replace(&mut piece, clause.clone()));
        }
    }
    if piece.len() >= size / 2 {
        pieces.push(piece);
    }
    pieces
}

impl Batch {
    /// The texts, read once by both: a time over different work is worth nothing.
    pub fn new(name: &'static str, size: usize, pieces: Vec<Vec<u8>>, machine: &mut Machine) -> Batch {
        let read = |text: &Vec<u8>| read_alike(text, machine).expect("clauses that both read alike, joined, are read alike");
        let kinds: Vec<Kind> = pieces.iter().flat_map(read).collect();
        Batch {
            name,
            size,
            bytes: pieces.iter().map(Vec::len).sum(),
            tokens: kinds.len(),
            clauses: kinds.iter().filter(|kind| **kind == Kind::End).count(),
            pieces,
        }
    }

    pub fn amount(&self) -> Amount {
        let Batch { name, size, bytes, tokens, .. } = *self;
        Amount { name, size, pieces: self.pieces.len(), parts: tokens, bytes }
    }
}
