//! Times of packing and unpacking: the archive beside the plain coder, over the same clauses, images and nodes.
use crate::coders::{ByHand, CODERS, Coder, NUMBERS, pack_clause};
use crate::cut::Batch;
use crate::race::race;
use crate::readers::Reader;
use crate::table::{Amount, Line, NODES, TOKENS, print};
use crate::thrinvage::Cursor;
use std::hint::black_box;

/// Room that always serves.
pub const IMAGE_BYTES: usize = 65_538;
pub const NODE_NUMBERS: usize = 4_092;

/// An image, and its nodes.
struct Pack {
    image: Vec<u8>,
    nodes: Vec<u32>,
}

impl Pack {
    /// The clause at the cursor, and the cursor behind it. Both coders are asked about it, in each direction, and must answer alike: times
    /// of different work are worth nothing.
    fn new(text: &[u8], at: Cursor) -> Option<(Pack, Cursor)> {
        let mut out = vec![0; IMAGE_BYTES];
        let (length, next) = pack_clause(text, at, &mut out)?;
        let pack = Pack { image: out[..length].to_vec(), nodes: unpacked(&out[..length]).expect("an image is unpacked") };
        assert_eq!(ByHand::new().pack_clause(text, at, &mut out), Some((length, next)), "a clause has two packs");
        assert_eq!(out[..length], pack.image, "a clause has two images");
        assert_eq!(packed(&pack, length).as_ref(), Ok(&pack.image), "nodes have another image than they are from");
        assert!(packed(&pack, length - 1).is_err() && unpacked(&pack.image[..length - 1]).is_err(), "what is short serves");
        Some((pack, next))
    }
}

/// What both coders answer.
pub fn both<C, A: PartialEq + std::fmt::Debug>([archive, plain]: [C; 2], by: impl Fn(C) -> A) -> A {
    let answer = by(archive);
    assert_eq!(answer, by(plain), "the two coders answer differently");
    answer
}

/// The packs of all clauses of a batch.
pub fn packs_of<P>(batch: &Batch, next_pack: fn(&[u8], Cursor) -> Option<(P, Cursor)>) -> Vec<P> {
    let mut packs = Vec::new();
    for text in &batch.pieces {
        let mut at = Cursor::default();
        while let Some((pack, next)) = next_pack(text, at) {
            packs.push(pack);
            at = next;
        }
    }
    assert_eq!(packs.len(), batch.clauses, "a clause that the clause call takes is not packed");
    packs
}

/// Packs all clauses of a batch. That all of it was done is asked anew each time, at the cost of a comparison; so it is with the work below.
pub fn packing(
    batch: &Batch,
    due: usize,
    mut pack: impl FnMut(&[u8], Cursor, &mut [u8]) -> Option<(usize, Cursor)>,
) -> impl FnMut() {
    let mut out = vec![0; IMAGE_BYTES];
    move || {
        let mut bytes = 0;
        for text in &batch.pieces {
            let mut at = Cursor::default();
            while let Some((length, next)) = pack(text, at, &mut out) {
                black_box(&out);
                bytes += length;
                at = next;
            }
        }
        assert_eq!(bytes, due, "a clause is not packed");
    }
}

fn unpacked(image: &[u8]) -> Result<Vec<u32>, u32> {
    both(CODERS, |coder| {
        let mut nodes = vec![0; NODE_NUMBERS];
        coder.unpack(image, &mut nodes).map(|count| nodes[..NUMBERS * count].to_vec())
    })
}

fn packed(pack: &Pack, room: usize) -> Result<Vec<u8>, u32> {
    both(CODERS, |coder| {
        let mut out = vec![0; room];
        coder.pack_nodes(&pack.image, &pack.nodes, &mut out).map(|length| out[..length].to_vec())
    })
}

/// The packs of all clauses of a batch.
struct Packs<'b> {
    batch: &'b Batch,
    packs: Vec<Pack>,
    nodes: usize,
    bytes: usize,
}

impl<'b> Packs<'b> {
    fn new(batch: &'b Batch) -> Packs<'b> {
        let packs = packs_of(batch, Pack::new);
        let nodes = packs.iter().map(|pack| pack.nodes.len() / NUMBERS).sum();
        let bytes = packs.iter().map(|pack| pack.image.len()).sum();
        Packs { batch, packs, nodes, bytes }
    }

    fn amount(&self) -> Amount {
        Amount { pieces: self.packs.len(), parts: self.nodes, bytes: self.bytes, ..self.batch.amount() }
    }

    fn unpacked(&self, coder: Coder) -> impl FnMut() {
        let mut nodes = vec![0; NODE_NUMBERS];
        move || {
            let one = |pack: &Pack| black_box(coder.unpack(&pack.image, black_box(&mut nodes)).unwrap_or(0));
            assert_eq!(self.packs.iter().map(one).sum::<usize>(), self.nodes, "an image is not unpacked");
        }
    }

    fn nodes_packed(&self, coder: Coder) -> impl FnMut() {
        let mut out = vec![0; IMAGE_BYTES];
        move || {
            let one = |pack: &Pack| black_box(coder.pack_nodes(&pack.image, &pack.nodes, black_box(&mut out)).unwrap_or(0));
            assert_eq!(self.packs.iter().map(one).sum::<usize>(), self.bytes, "nodes are not packed");
        }
    }

    /// pack_clause beside the clause call, by the text; then beside the other way to pack, by the images.
    fn lines_of_clauses(&self, rounds: usize) -> (Line, Line) {
        let mut by_hand = ByHand::new();
        let works: [Box<dyn FnMut()>; 3] = [
            Box::new(Reader::clause_call().over(self.batch)),
            Box::new(packing(self.batch, self.bytes, pack_clause)),
            Box::new(packing(self.batch, self.bytes, move |text, at, out| by_hand.pack_clause(text, at, out))),
        ];
        let [read, packed, by_hand] = race(works, rounds);
        (Line { of: self.batch.amount(), times: [read, packed] }, Line { of: self.amount(), times: [packed, by_hand] })
    }

    fn line_of_images(&self, rounds: usize) -> Line {
        Line { of: self.amount(), times: race(CODERS.map(|coder| self.unpacked(coder)), rounds) }
    }

    fn line_of_nodes(&self, rounds: usize) -> Line {
        Line { of: self.amount(), times: race(CODERS.map(|coder| self.nodes_packed(coder)), rounds) }
    }
}

pub fn run(batches: &[Batch], rounds: usize) {
    let all: Vec<Packs> = batches.iter().map(Packs::new).collect();
    let (texts, images): (Vec<Line>, Vec<Line>) = all.iter().map(|packs| packs.lines_of_clauses(rounds)).unzip();
    let unpacked: Vec<Line> = all.iter().map(|packs| packs.line_of_images(rounds)).collect();
    let packed: Vec<Line> = all.iter().map(|packs| packs.line_of_nodes(rounds)).collect();
    print("pack_clause beside the clause call, by the text's bytes", TOKENS, ["clause call", "pack_clause"], &texts);
    let beside_by_hand = "pack_clause beside clause call, token calls and plain coder, by the image's bytes";
    print(beside_by_hand, NODES, ["pack_clause", "plain coder"], &images);
    print("unpack beside the plain coder, by the image's bytes", NODES, ["unpack", "plain coder"], &unpacked);
    print("pack_nodes beside the plain coder, by the image's bytes", NODES, ["pack_nodes", "plain coder"], &packed);
}
