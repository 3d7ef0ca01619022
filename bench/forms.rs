//! Times of form 2: unpacking either form, packing with the line, the moves. One size of text is enough: an image is of a clause,
//! wherever that stood.
use crate::coders::form_2::{CODERS, Coder, Mover, Unpacked, pack_clause as pack_clause_form_2};
use crate::coders::{ByHand, NUMBERS, pack_clause};
use crate::cut::Batch;
use crate::packs::{IMAGE_BYTES, NODE_NUMBERS, both, packing, packs_of};
use crate::race::{Times, race};
use crate::table::{Amount, Line, NODES, print};
use crate::thrinvage::Cursor;
use std::hint::black_box;

const SIZE: usize = 4_096;
/// No form has it.
const ANOTHER_VERSION: u8 = 3;
const LINE_AT: usize = 3;

/// A clause's images in both forms.
struct Pack {
    one: Vec<u8>,
    two: Vec<u8>,
    nodes: usize,
}

impl Pack {
    /// The clause at the cursor, and the cursor behind it. As in packs.rs, both coders must answer alike.
    fn new(text: &[u8], at: Cursor) -> Option<(Pack, Cursor)> {
        let mut out = vec![0; IMAGE_BYTES];
        let (length, next) = pack_clause(text, at, &mut out)?;
        let one = out[..length].to_vec();
        assert_eq!(pack_clause_form_2(text, at, &mut out), Some((length + 2, next)), "form 2 is two bytes longer");
        let two = out[..length + 2].to_vec();
        assert_eq!(ByHand::new().pack_clause_form_2(text, at, &mut out), Some((length + 2, next)), "a clause has two packs");
        assert_eq!(out[..length + 2], two, "a clause has two images of form 2");
        let pack = Pack { nodes: unpacked(&one).expect("an image is unpacked").0.count as usize, one, two };
        pack.check_unpacked();
        pack.check_moved();
        Some((pack, next))
    }

    fn line(&self) -> u64 {
        256 * self.two[LINE_AT] as u64 + self.two[LINE_AT + 1] as u64
    }

    fn check_unpacked(&self) {
        for (image, form, line) in [(&self.one, 1, 0), (&self.two, 2, self.line())] {
            let (unpacked_as, nodes) = unpacked(image).expect("an image is unpacked");
            assert_eq!(unpacked_as, Unpacked { form, line, count: self.nodes as u64 }, "an image is unpacked as another");
            assert!(unpacked(&image[..image.len() - 1]).is_err(), "what is short serves");
            assert!(unpacked(&of_another_version(image)).is_err(), "what has another version serves");
            let packed =
                both(CODERS, |coder| written(self.two.len(), |out| coder.pack_nodes(image, &nodes, self.line() as u16, out)));
            assert_eq!(packed.as_ref(), Ok(&self.two), "nodes have another image than they are from");
        }
    }

    fn check_moved(&self) {
        let moved = |mover: fn(Coder) -> Mover, image: &[u8], room| {
            both(CODERS, |coder| written(room, |out| mover(coder).call(image, out)))
        };
        let (up, down) = (|coder: Coder| coder.up, |coder: Coder| coder.down);
        let mut without_line = self.two.clone();
        without_line[LINE_AT..LINE_AT + 2].fill(0);
        assert_eq!(moved(up, &self.one, self.two.len()), Ok(without_line), "form 1 is moved to another image");
        assert_eq!(moved(down, &self.two, self.one.len()), Ok(self.one.clone()), "form 2 is moved to another image");
        for refused in [
            moved(up, &self.one, self.two.len() - 1),
            moved(down, &self.two, self.one.len() - 1),
            moved(up, &self.two, IMAGE_BYTES),
            moved(down, &self.one, IMAGE_BYTES),
            moved(up, &self.one[..self.one.len() - 1], IMAGE_BYTES),
            moved(down, &self.two[..self.two.len() - 1], IMAGE_BYTES),
        ] {
            assert!(refused.is_err(), "what is short, or has the other form, serves");
        }
    }
}

fn of_another_version(image: &[u8]) -> Vec<u8> {
    [&[ANOTHER_VERSION], &image[1..]].concat()
}

/// What is written to room of this size.
fn written(room: usize, by: impl Fn(&mut [u8]) -> Result<usize, u32>) -> Result<Vec<u8>, u32> {
    let mut out = vec![0; room];
    by(&mut out).map(|length| out[..length].to_vec())
}

fn unpacked(image: &[u8]) -> Result<(Unpacked, Vec<u32>), u32> {
    both(CODERS, |coder| {
        let mut nodes = vec![0; NODE_NUMBERS];
        coder.unpack(image, &mut nodes).map(|unpacked| (unpacked, nodes[..NUMBERS * unpacked.count as usize].to_vec()))
    })
}

/// The packs of all clauses of a batch.
struct Packs<'b> {
    batch: &'b Batch,
    packs: Vec<Pack>,
}

type PackClause = fn(&[u8], Cursor, &mut [u8]) -> Option<(usize, Cursor)>;
type Image = fn(&Pack) -> &[u8];

const ONE: Image = |pack| &pack.one;
const TWO: Image = |pack| &pack.two;

impl<'b> Packs<'b> {
    fn new(batch: &'b Batch) -> Packs<'b> {
        Packs { batch, packs: packs_of(batch, Pack::new) }
    }

    fn nodes(&self) -> usize {
        self.packs.iter().map(|pack| pack.nodes).sum()
    }

    fn bytes(&self, image: Image) -> usize {
        self.packs.iter().map(|pack| image(pack).len()).sum()
    }

    fn line(&self, of: Image, times: [Times; 2]) -> Line {
        Line { of: Amount { pieces: self.packs.len(), parts: self.nodes(), bytes: self.bytes(of), ..self.batch.amount() }, times }
    }

    fn unpacked(&self, coder: Coder, image: Image) -> impl FnMut() {
        let (mut nodes, due) = (vec![0; NODE_NUMBERS], self.nodes());
        move || {
            let one = |pack: &Pack| {
                black_box(coder.unpack(image(pack), black_box(&mut nodes)).map_or(0, |unpacked| unpacked.count as usize))
            };
            assert_eq!(self.packs.iter().map(one).sum::<usize>(), due, "an image is not unpacked");
        }
    }

    fn moved(&self, mover: Mover, from: Image, to: Image) -> impl FnMut() {
        let (mut out, due) = (vec![0; IMAGE_BYTES], self.bytes(to));
        move || {
            let one = |pack: &Pack| black_box(mover.call(from(pack), black_box(&mut out)).unwrap_or(0));
            assert_eq!(self.packs.iter().map(one).sum::<usize>(), due, "an image is not moved");
        }
    }

    fn line_of_packing(&self, rounds: usize) -> Line {
        let works: [(PackClause, Image); 2] = [(pack_clause, ONE), (pack_clause_form_2, TWO)];
        self.line(TWO, race(works.map(|(pack, image)| packing(self.batch, self.bytes(image), pack)), rounds))
    }

    fn line_of_unpacking(&self, image: Image, rounds: usize) -> Line {
        self.line(image, race(CODERS.map(|coder| self.unpacked(coder, image)), rounds))
    }

    fn line_of_moving_up(&self, rounds: usize) -> Line {
        self.line(ONE, race(CODERS.map(|coder| self.moved(coder.up, ONE, TWO)), rounds))
    }

    fn line_of_moving_down(&self, rounds: usize) -> Line {
        self.line(TWO, race(CODERS.map(|coder| self.moved(coder.down, TWO, ONE)), rounds))
    }
}

pub fn run(batches: &[Batch], rounds: usize) {
    let all: Vec<Packs> = batches.iter().filter(|batch| batch.size == SIZE).map(Packs::new).collect();
    let show = |title: &str, sides, line: &dyn Fn(&Packs) -> Line| {
        print(title, NODES, sides, &all.iter().map(line).collect::<Vec<Line>>())
    };
    let plain = "plain coder";
    let of_unpacking =
        [("unpack_either of form 1 beside the plain coder", ONE), ("unpack_either of form 2 beside the plain coder", TWO)];
    show("pack_clause in form 2 beside form 1, by the bytes of form 2", ["form 1", "form 2"], &|packs| {
        packs.line_of_packing(rounds)
    });
    for (title, image) in of_unpacking {
        show(title, ["unpack_either", plain], &|packs| packs.line_of_unpacking(image, rounds));
    }
    show("move_up beside the plain coder, by the bytes of form 1", ["move_up", plain], &|packs| packs.line_of_moving_up(rounds));
    show("move_down beside the plain coder, by the bytes of form 2", ["move_down", plain], &|packs| {
        packs.line_of_moving_down(rounds)
    });
}
