//! Times of the reader that is fed chunks, beside the token call on the same texts, for chunks of several sizes.
use crate::cut::Batch;
use crate::feeding::{Feeding, MORE, READ};
use crate::model::LONGEST_TEXT;
use crate::race::race;
use crate::readers::Reader;
use crate::table::{Amount, CHUNKS, Line, print};
use std::hint::black_box;

/// A byte, odd ones, a modem's, a block, the whole text.
const SIZES: [usize; 5] = [1, 7, 64, 1_024, LONGEST_TEXT];

/// All that is handed out of a text that comes in chunks of this size.
pub fn tokens(text: &[u8], size: usize, feeding: &mut Feeding) -> usize {
    let mut count = 0;
    feeding.start();
    for chunk in text.chunks(size) {
        count += tokens_of_chunk(chunk, feeding);
    }
    feeding.finish();
    while feeding.feed(b"") == READ {
        black_box(&feeding);
        count += 1;
    }
    count
}

/// What is left of the chunk is fed until all is taken and more is asked for; a refusal ends it.
fn tokens_of_chunk(chunk: &[u8], feeding: &mut Feeding) -> usize {
    let (mut left, mut count) = (chunk, 0);
    loop {
        let number = feeding.feed(left);
        left = &left[feeding.state.taken as usize..];
        match number {
            READ => {
                black_box(&feeding);
                count += 1;
            }
            MORE if !left.is_empty() => {}
            _ => return count,
        }
    }
}

fn lines(batch: &Batch, rounds: usize) -> [Line; 5] {
    let [one, seven, modem, block, whole] = SIZES.map(Reader::chunks);
    let readers = [Reader::token_call(), one, seven, modem, block, whole];
    let [token_call, chunks @ ..] = race(readers.map(|reader| reader.over(batch)), rounds);
    let line = |i: usize| Line { of: Amount { size: SIZES[i], ..batch.amount() }, times: [token_call, chunks[i]] };
    std::array::from_fn(line)
}

/// Texts of one size are enough: the cost of a byte does not grow with the text.
pub fn run(batches: &[Batch], rounds: usize) {
    let longest = batches.iter().filter(|batch| batch.size == LONGEST_TEXT);
    let all: Vec<Line> = longest.flat_map(|batch| lines(batch, rounds)).collect();
    print("The reader that is fed chunks beside the token call, by the chunk's size", CHUNKS, ["token call", "chunks"], &all);
}
