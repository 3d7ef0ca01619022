//! What packs and unpacks: the archive, and the plain coder of coder.c.
use crate::thrinvage::{self, Cursor, Source, TREE_NUMBERS};

/// Of a node: kind, arity, start and length of its spelling.
pub const NUMBERS: usize = 4;
/// In a tree's number: the kind times this, plus the count of children.
const KIND_FACTOR: u16 = 1_024;
/// A negative number's spelling goes on to the token behind its minus.
const NEGATIVE: u16 = 1;

type PackClause = unsafe extern "C" fn(*const u8, usize, usize, usize, usize, *mut u8, usize, *mut RawClause) -> u32;
type PackNodes = unsafe extern "C" fn(*const u8, usize, *const u32, usize, usize, *mut u8, usize, *mut u64) -> u32;
type Unpack = unsafe extern "C" fn(*const u8, usize, *mut u32, usize, *mut u64) -> u32;

#[repr(C)]
#[derive(Clone, Copy, Default)]
struct RawClause {
    offset: u64,
    line: u64,
    column: u64,
    refused_at: u64,
    count: u64,
}

unsafe extern "C" {
    fn thrinvage_pack_clause(
        text: *const u8,
        length: usize,
        offset: usize,
        line: usize,
        column: usize,
        out: *mut u8,
        room: usize,
        clause: *mut RawClause,
    ) -> u32;
    fn thrinvage_pack_nodes(
        bytes: *const u8,
        length: usize,
        nodes: *const u32,
        numbers: usize,
        count: usize,
        out: *mut u8,
        room: usize,
        packed: *mut u64,
    ) -> u32;
    fn thrinvage_unpack(image: *const u8, length: usize, nodes: *mut u32, room: usize, count: *mut u64) -> u32;
    fn coder_pack_nodes(
        bytes: *const u8,
        length: usize,
        nodes: *const u32,
        numbers: usize,
        count: usize,
        out: *mut u8,
        room: usize,
        packed: *mut u64,
    ) -> u32;
    fn coder_unpack(image: *const u8, length: usize, nodes: *mut u32, room: usize, count: *mut u64) -> u32;
}

/// Both are called by the same code.
#[derive(Clone, Copy)]
pub struct Coder {
    pack_nodes: PackNodes,
    unpack: Unpack,
}

const ARCHIVE: Coder = Coder { pack_nodes: thrinvage_pack_nodes, unpack: thrinvage_unpack };
const PLAIN: Coder = Coder { pack_nodes: coder_pack_nodes, unpack: coder_unpack };
pub const CODERS: [Coder; 2] = [ARCHIVE, PLAIN];

/// What was counted, or the refusal's number.
pub type Answer = Result<usize, u32>;

fn answer(number: u32, counted: u64) -> Answer {
    if number == 0 { Ok(counted as usize) } else { Err(number) }
}

impl Coder {
    pub fn unpack(&self, image: &[u8], nodes: &mut [u32]) -> Answer {
        let mut count = 0;
        // SAFETY: the pointers are of slices, with their lengths, and of a local.
        let number = unsafe { (self.unpack)(image.as_ptr(), image.len(), nodes.as_mut_ptr(), nodes.len(), &mut count) };
        answer(number, count)
    }

    pub fn pack_nodes(&self, bytes: &[u8], nodes: &[u32], out: &mut [u8]) -> Answer {
        let mut packed = 0;
        let (numbers, count) = (nodes.len(), nodes.len() / NUMBERS);
        // SAFETY: as above.
        let number = unsafe {
            (self.pack_nodes)(
                bytes.as_ptr(),
                bytes.len(),
                nodes.as_ptr(),
                numbers,
                count,
                out.as_mut_ptr(),
                out.len(),
                &mut packed,
            )
        };
        answer(number, packed)
    }
}

pub fn pack_clause(text: &[u8], at: Cursor, out: &mut [u8]) -> Option<(usize, Cursor)> {
    pack_clause_by(thrinvage_pack_clause, text, at, out)
}

/// The image's length and the cursor behind the clause, or nothing where it is refused.
#[inline(always)]
fn pack_clause_by(pack: PackClause, text: &[u8], at: Cursor, out: &mut [u8]) -> Option<(usize, Cursor)> {
    let mut raw = RawClause::default();
    let (room, lent) = (out.len(), out.as_mut_ptr());
    // SAFETY: as above.
    let number = unsafe { pack(text.as_ptr(), text.len(), at.offset, at.line, at.column, lent, room, &mut raw) };
    let next = Cursor { offset: raw.offset as usize, line: raw.line as usize, column: raw.column as usize };
    (number == 0).then_some((raw.count as usize, next))
}

/// What a C programmer does who has no call for it: the clause call, the token calls for the spans, the plain coder.
pub struct ByHand {
    tree: Vec<u16>,
    spans: Vec<[usize; 2]>,
    nodes: Vec<u32>,
}

impl ByHand {
    pub fn new() -> ByHand {
        ByHand { tree: vec![0; TREE_NUMBERS], spans: Vec::new(), nodes: Vec::new() }
    }

    pub fn pack_clause(&mut self, text: &[u8], at: Cursor, out: &mut [u8]) -> Option<(usize, Cursor)> {
        let next = self.read(text, at)?;
        let length = PLAIN.pack_nodes(text, &self.nodes, out).ok()?;
        Some((length, next))
    }

    /// Finds the clause's nodes; the cursor behind it.
    fn read(&mut self, text: &[u8], at: Cursor) -> Option<Cursor> {
        let read = thrinvage::read_clause(text, at, &mut self.tree).ok()?;
        self.find_spans(text, at, read.next);
        self.make_nodes(read.count);
        Some(read.next)
    }

    fn find_spans(&mut self, text: &[u8], mut at: Cursor, end: Cursor) {
        self.spans.clear();
        while at != end {
            let token = thrinvage::next_token(text, at, Source::File).expect("a token of a clause that was read");
            self.spans.push([token.start, token.next.offset]);
            at = token.next;
        }
    }

    fn make_nodes(&mut self, count: usize) {
        self.nodes.clear();
        for node in self.tree.chunks_exact(2).take(count) {
            let (token, kind, arity) = (node[0] as usize, node[1] / KIND_FACTOR, node[1] % KIND_FACTOR);
            let start = self.spans[token][0];
            let end = self.spans[token + (kind == NEGATIVE) as usize][1];
            self.nodes.extend([kind as u32, arity as u32, start as u32, (end - start) as u32]);
        }
    }
}

/// What form 2 adds, in the archive and in the plain coder.
#[cfg(form_2)]
pub mod form_2 {
    use super::{Answer, ByHand, NUMBERS, RawClause, answer, pack_clause_by};
    use crate::thrinvage::Cursor;

    type PackNodes = unsafe extern "C" fn(*const u8, usize, *const u32, usize, usize, u16, *mut u8, usize, *mut u64) -> u32;
    type Unpack = unsafe extern "C" fn(*const u8, usize, *mut u32, usize, *mut Unpacked) -> u32;
    type Move = unsafe extern "C" fn(*const u8, usize, *mut u8, usize, *mut u64) -> u32;

    #[repr(C)]
    #[derive(Clone, Copy, Debug, Default, PartialEq)]
    pub struct Unpacked {
        pub form: u64,
        pub line: u64,
        pub count: u64,
    }

    #[rustfmt::skip] // not a line for each parameter
    unsafe extern "C" {
        fn thrinvage_pack_clause_form_2(
            text: *const u8, length: usize, offset: usize, line: usize, column: usize, out: *mut u8, room: usize, clause: *mut RawClause,
        ) -> u32;
        fn thrinvage_pack_nodes_form_2(
            bytes: *const u8, length: usize, nodes: *const u32, numbers: usize, count: usize, line: u16, out: *mut u8, room: usize, packed: *mut u64,
        ) -> u32;
        fn thrinvage_unpack_either(image: *const u8, length: usize, nodes: *mut u32, room: usize, unpacked: *mut Unpacked) -> u32;
        fn thrinvage_move_up(image: *const u8, length: usize, out: *mut u8, room: usize, moved: *mut u64) -> u32;
        fn thrinvage_move_down(image: *const u8, length: usize, out: *mut u8, room: usize, moved: *mut u64) -> u32;
        fn coder_pack_nodes_form_2(
            bytes: *const u8, length: usize, nodes: *const u32, numbers: usize, count: usize, line: u16, out: *mut u8, room: usize, packed: *mut u64,
        ) -> u32;
        fn coder_unpack_either(image: *const u8, length: usize, nodes: *mut u32, room: usize, unpacked: *mut Unpacked) -> u32;
        fn coder_move_up(image: *const u8, length: usize, out: *mut u8, room: usize, moved: *mut u64) -> u32;
        fn coder_move_down(image: *const u8, length: usize, out: *mut u8, room: usize, moved: *mut u64) -> u32;
    }

    /// Both are called by the same code.
    #[derive(Clone, Copy)]
    pub struct Coder {
        pack_nodes: PackNodes,
        unpack: Unpack,
        pub up: Mover,
        pub down: Mover,
    }

    #[derive(Clone, Copy)]
    pub struct Mover(Move);

    const ARCHIVE: Coder = Coder {
        pack_nodes: thrinvage_pack_nodes_form_2,
        unpack: thrinvage_unpack_either,
        up: Mover(thrinvage_move_up),
        down: Mover(thrinvage_move_down),
    };
    const PLAIN: Coder = Coder {
        pack_nodes: coder_pack_nodes_form_2,
        unpack: coder_unpack_either,
        up: Mover(coder_move_up),
        down: Mover(coder_move_down),
    };

    pub const CODERS: [Coder; 2] = [ARCHIVE, PLAIN];

    impl Mover {
        pub fn call(&self, image: &[u8], out: &mut [u8]) -> Answer {
            let mut moved = 0;
            // SAFETY: the pointers are of slices, with their lengths, and of a local.
            let number = unsafe { (self.0)(image.as_ptr(), image.len(), out.as_mut_ptr(), out.len(), &mut moved) };
            answer(number, moved)
        }
    }

    impl Coder {
        pub fn unpack(&self, image: &[u8], nodes: &mut [u32]) -> Result<Unpacked, u32> {
            let mut unpacked = Unpacked::default();
            // SAFETY: as above.
            let number = unsafe { (self.unpack)(image.as_ptr(), image.len(), nodes.as_mut_ptr(), nodes.len(), &mut unpacked) };
            if number == 0 { Ok(unpacked) } else { Err(number) }
        }

        pub fn pack_nodes(&self, bytes: &[u8], nodes: &[u32], line: u16, out: &mut [u8]) -> Answer {
            let mut packed = 0;
            let (pointer, numbers, room) = (nodes.as_ptr(), nodes.len(), out.len());
            // SAFETY: as above.
            let number = unsafe {
                (self.pack_nodes)(
                    bytes.as_ptr(),
                    bytes.len(),
                    pointer,
                    numbers,
                    numbers / NUMBERS,
                    line,
                    out.as_mut_ptr(),
                    room,
                    &mut packed,
                )
            };
            answer(number, packed)
        }
    }

    pub fn pack_clause(text: &[u8], at: Cursor, out: &mut [u8]) -> Option<(usize, Cursor)> {
        pack_clause_by(thrinvage_pack_clause_form_2, text, at, out)
    }

    impl ByHand {
        /// The line is that of the first token, counted on from the cursor, plus one.
        pub fn pack_clause_form_2(&mut self, text: &[u8], at: Cursor, out: &mut [u8]) -> Option<(usize, Cursor)> {
            let next = self.read(text, at)?;
            let newlines = text[at.offset..self.spans[0][0]].iter().filter(|byte| **byte == b'\n').count();
            let length = PLAIN.pack_nodes(text, &self.nodes, (at.line + newlines + 1) as u16, out).ok()?;
            Some((length, next))
        }
    }
}
