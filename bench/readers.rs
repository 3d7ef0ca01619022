//! What is timed: ways to read a text from its start to its end.
#[cfg(chunks)]
use crate::chunks;
use crate::cut::Batch;
#[cfg(chunks)]
use crate::feeding::Feeding;
use crate::model::LONGEST_TEXT;
use crate::thrinvage::{self, Cursor, NO_TEXT, Part, Refusal, Scanner, Source, TREE_NUMBERS};
use oracle::api::Machine;
use std::hint::black_box;

pub enum Reader {
    TokenCall,
    #[cfg(layout)]
    Stretches,
    TextCall { scratch: Vec<u8>, kept: Vec<u8> },
    ClauseCall { tree: Vec<u16> },
    #[cfg(chunks)]
    Chunks { size: usize, feeding: Feeding },
    Rust(Box<Machine>),
}

impl Reader {
    pub fn token_call() -> Reader {
        Reader::TokenCall
    }

    #[cfg(layout)]
    pub fn stretches() -> Reader {
        Reader::Stretches
    }

    pub fn text_call() -> Reader {
        Reader::TextCall { scratch: vec![0; LONGEST_TEXT], kept: Vec::new() }
    }

    pub fn clause_call() -> Reader {
        Reader::ClauseCall { tree: vec![0; TREE_NUMBERS] }
    }

    #[cfg(chunks)]
    pub fn chunks(size: usize) -> Reader {
        Reader::Chunks { size, feeding: Feeding::new(0) }
    }

    pub fn rust() -> Reader {
        Reader::Rust(Box::default())
    }

    /// Reads the whole batch, as often as it is called.
    pub fn over(mut self, batch: &Batch) -> impl FnMut() {
        move || self.read(batch)
    }

    /// That all of it was read is asked anew each time, at the cost of a comparison.
    fn read(&mut self, batch: &Batch) {
        let read: usize = batch.pieces.iter().map(|text| self.count(text)).sum();
        let due = if matches!(self, Reader::ClauseCall { .. }) { batch.clauses } else { batch.tokens };
        assert_eq!(read, due, "a reader stopped early");
    }

    fn count(&mut self, text: &[u8]) -> usize {
        match self {
            Reader::TokenCall => tokens(text),
            #[cfg(layout)]
            Reader::Stretches => stretches(text),
            Reader::TextCall { scratch, kept } => texts(text, scratch, kept),
            Reader::ClauseCall { tree } => clauses(text, tree),
            #[cfg(chunks)]
            Reader::Chunks { size, feeding } => chunks::tokens(text, *size, feeding),
            Reader::Rust(machine) => machine.count_tokens(text),
        }
    }
}

fn tokens(text: &[u8]) -> usize {
    let (mut scanner, mut count) = (Scanner::new(text, Source::File), 0);
    while scanner.advance().is_ok() {
        black_box(&scanner);
        count += 1;
    }
    count
}

/// As an editor reads: the token call, and from its cursor the layout call, text by text, to where the token starts.
#[cfg(layout)]
fn stretches(text: &[u8]) -> usize {
    let (mut at, mut count) = (Cursor::default(), 0);
    while let Ok(token) = thrinvage::next_token(text, at, Source::File) {
        while let Ok(Some(layout)) = thrinvage::next_layout(text, at) {
            at = black_box(&layout).next;
        }
        at = black_box(&token).next;
        count += 1;
    }
    count
}

/// Each token by the text call, and where that says there is no text, by the token call. Texts are copied behind each other, as the
/// Rust's table of atoms does it here.
fn texts(text: &[u8], scratch: &mut [u8], kept: &mut Vec<u8>) -> usize {
    let (mut at, mut count) = (Cursor::default(), 0);
    kept.clear();
    while let Ok(next) = text_or_token(text, at, scratch, kept) {
        at = next;
        count += 1;
    }
    black_box(&kept);
    count
}

fn text_or_token(text: &[u8], at: Cursor, scratch: &mut [u8], kept: &mut Vec<u8>) -> Result<Cursor, Refusal> {
    match thrinvage::next_token_text(text, at, scratch) {
        Ok((token, part)) => {
            kept.extend_from_slice(match part {
                Part::Source(range) => &text[range],
                Part::Scratch(range) => &scratch[range],
            });
            Ok(black_box(&token).next)
        }
        Err(Refusal { number: NO_TEXT, .. }) => thrinvage::next_token(text, at, Source::File).map(|token| black_box(&token).next),
        Err(refusal) => Err(refusal),
    }
}

fn clauses(text: &[u8], tree: &mut [u16]) -> usize {
    let (mut at, mut count) = (Cursor::default(), 0);
    while let Ok(read) = thrinvage::read_clause(text, at, tree) {
        at = black_box(&read).next;
        count += 1;
    }
    black_box(&tree);
    count
}
