//! The reader for Rust: safe functions over the archive's C interface. Each field is explained in include/thrinvage.h.
#![allow(dead_code)]
use std::ops::Range;

/// The place in a text. `Cursor::default()` is its start.
#[derive(Clone, Copy, Debug, Default, PartialEq, Eq)]
pub struct Cursor {
    pub offset: usize,
    pub line: usize,
    pub column: usize,
}

/// What a text is. In a field a decimal integer or a whole float may end with the text; in a file it is then refused by 1.
#[derive(Clone, Copy, Debug, PartialEq, Eq)]
#[repr(u32)]
pub enum Source {
    File = 0,
    Field = 1,
}

#[derive(Clone, Copy, Debug, PartialEq, Eq)]
pub enum Kind {
    Name,
    Variable,
    String,
    Number,
    Open,
    OpenCT,
    Close,
    OpenList,
    CloseList,
    OpenCurly,
    CloseCurly,
    HeadTailSeparator,
    DoubleBar,
    Comma,
    End,
}

const KINDS: [Kind; 15] = [
    Kind::Name,
    Kind::Variable,
    Kind::String,
    Kind::Number,
    Kind::Open,
    Kind::OpenCT,
    Kind::Close,
    Kind::OpenList,
    Kind::CloseList,
    Kind::OpenCurly,
    Kind::CloseCurly,
    Kind::HeadTailSeparator,
    Kind::DoubleBar,
    Kind::Comma,
    Kind::End,
];

#[derive(Clone, Copy, Debug, PartialEq)]
pub enum Value {
    Nothing,
    /// A magnitude n, at most 9,223,372,036,854,775,808, since a token has no sign: a tree's negative number has it, and is
    /// `0_i64.wrapping_sub_unsigned(n)`. The integer of a plain node fits in an `i64`.
    Integer(u64),
    Float(f64),
}

/// A token: its span runs from `start` to the offset of `next`, the cursor behind it. From `layout`, where the call's cursor stood, to `start` there is
/// layout.
#[derive(Clone, Copy, Debug, PartialEq)]
pub struct Token {
    pub kind: Kind,
    pub value: Value,
    pub start: usize,
    pub next: Cursor,
    pub layout: usize,
}

/// What a layout text is.
#[derive(Clone, Copy, Debug, PartialEq, Eq)]
pub enum LayoutKind {
    /// Blanks, tabs, newlines and returns, as many as stand together.
    Blanks,
    /// With its newline, or to the end of the text.
    LineComment,
    BracketedComment,
}

/// A layout text: its span runs from `start` to the offset of `next`, the cursor behind it.
#[derive(Clone, Copy, Debug, PartialEq, Eq)]
pub struct Layout {
    pub kind: LayoutKind,
    pub start: usize,
    pub next: Cursor,
}

/// Why a call is refused: the number of include/thrinvage.h, and the offset that it points at.
#[derive(Clone, Copy, Debug, PartialEq, Eq)]
pub struct Refusal {
    pub number: u32,
    /// At a token, at a byte, or 0 where no place in a text is meant: the header says it for each number. Number 11 points at the first token that cannot
    /// stand: no clause begins with the tokens up to and including it. `read.rs` shows the line and the column there.
    pub offset: usize,
}

/// Where a token's decoded text stands.
#[derive(Clone, Debug, PartialEq, Eq)]
pub enum Part {
    Source(Range<usize>),
    Scratch(Range<usize>),
}

/// What was counted, the nodes of a tree or the bytes of a line or an image, and the cursor behind the clause.
#[derive(Clone, Copy, Debug, PartialEq, Eq)]
pub struct Counted {
    pub count: usize,
    pub next: Cursor,
}

/// The kind of a node.
#[derive(Clone, Copy, Debug, PartialEq, Eq)]
pub enum NodeKind {
    Plain,
    Negative,
    Call,
    Prefix,
    Infix,
    List,
    ListTail,
    Curly,
    EmptyList,
    EmptyCurly,
}

const NODE_KINDS: [NodeKind; 10] = [
    NodeKind::Plain,
    NodeKind::Negative,
    NodeKind::Call,
    NodeKind::Prefix,
    NodeKind::Infix,
    NodeKind::List,
    NodeKind::ListTail,
    NodeKind::Curly,
    NodeKind::EmptyList,
    NodeKind::EmptyCurly,
];

/// A node of an image: its spelling is a part of the image.
#[derive(Clone, Copy, Debug, PartialEq, Eq)]
pub struct Node<'i> {
    pub kind: NodeKind,
    pub arity: usize,
    pub spelling: &'i [u8],
}

/// The form of an image. That of form 2 has a line field: the line on which its clause starts, counted from 1, or 0 where it is not known.
#[derive(Clone, Copy, Debug, PartialEq, Eq)]
pub enum Form {
    One,
    Two(u16),
}

/// The form in which a clause is packed: in form 2 its line comes from the text.
#[derive(Clone, Copy, Debug, PartialEq, Eq)]
pub enum Version {
    One,
    Two,
}

/// The longest text, in bytes. A scratch of that length always serves.
pub const LONGEST_TEXT: usize = 65535;
/// The most tokens of a clause, its end mark among them.
pub const MOST_TOKENS: usize = 1024;
/// The most nodes of a clause's tree, and of an image.
pub const MOST_NODES: usize = 1023;
/// Room that always serves for a clause's tree, for its line, for an image, and for an image's nodes.
pub const TREE_NUMBERS: usize = 2048;
pub const LINE_BYTES: usize = 70650;
pub const IMAGE_BYTES: usize = 65538;
pub const NODE_NUMBERS: usize = 4092;
/// The longest token of a text that comes in chunks, in bytes.
pub const LONGEST_TOKEN: usize = 1024;

/// The refusal where the text has ended.
pub const END_OF_TEXT: u32 = 1;
/// The refusal of a text that is too long, of a cursor that is not valid, and of a chunk that may not come.
pub const NOT_VALID: u32 = 8;
/// The refusal where the slice to be written has too little room.
pub const NO_ROOM: u32 = 9;
/// The refusal of the text call where the token is no name, variable or string.
pub const NO_TEXT: u32 = 12;
/// The refusal where an image would have too long a body.
pub const TOO_LONG: u32 = 13;
/// The refusal where the bytes are no image, or the nodes are none that an image can have.
pub const NO_PACK: u32 = 14;
/// The refusal of a reader where a token is longer than `LONGEST_TOKEN`.
pub const TOKEN_TOO_LONG: u32 = 15;
/// The refusal where an image's first byte is no version that the call knows.
pub const UNKNOWN_VERSION: u32 = 18;

#[repr(C)]
#[derive(Clone, Copy, Default)]
struct RawToken {
    offset: u64,
    line: u64,
    column: u64,
    refused_at: u64,
    kind: u64,
    start: u64,
    value_kind: u64,
    value: u64,
    layout: u64,
}

#[repr(C)]
#[derive(Clone, Copy, Default)]
struct RawText {
    token: RawToken,
    part: u64,
    part_start: u64,
    part_end: u64,
}

#[repr(C)]
#[derive(Clone, Copy, Default)]
struct RawLayout {
    offset: u64,
    line: u64,
    column: u64,
    refused_at: u64,
    kind: u64,
    start: u64,
}

#[repr(C)]
#[derive(Clone, Copy, Default)]
struct RawClause {
    offset: u64,
    line: u64,
    column: u64,
    refused_at: u64,
    count: u64,
}

#[repr(C)]
#[derive(Clone, Copy, Default)]
struct RawUnpacked {
    form: u64,
    line: u64,
    count: u64,
}

#[repr(C)]
#[derive(Clone, Copy, Default)]
struct RawReader {
    mode: u64,
    slash: u64,
    offset: u64,
    line: u64,
    column: u64,
    layout: u64,
    from: u64,
    to: u64,
    phase: u64,
    refusal: u64,
    refused_at: u64,
    taken: u64,
}

/// The C interface of both moves.
type RawMove = unsafe extern "C" fn(image: *const u8, length: usize, out: *mut u8, room: usize, moved: *mut u64) -> u32;

unsafe extern "C" {
    fn thrinvage_next_token(
        text: *const u8, length: usize, offset: usize, line: usize, column: usize, token: *mut RawToken, source: u32,
    ) -> u32;
    fn thrinvage_next_token_text(
        text: *const u8, length: usize, offset: usize, line: usize, column: usize, scratch: *mut u8, room: usize, token: *mut RawText,
    ) -> u32;
    fn thrinvage_next_layout(text: *const u8, length: usize, offset: usize, line: usize, column: usize, layout: *mut RawLayout) -> u32;
    fn thrinvage_read_clause(
        text: *const u8, length: usize, offset: usize, line: usize, column: usize, tree: *mut u16, room: usize, clause: *mut RawClause,
    ) -> u32;
    fn thrinvage_list_clause(
        text: *const u8, length: usize, offset: usize, line: usize, column: usize, out: *mut u8, room: usize, clause: *mut RawClause,
    ) -> u32;
    fn thrinvage_start(reader: *mut RawReader);
    fn thrinvage_finish(reader: *mut RawReader);
    fn thrinvage_feed(reader: *mut RawReader, window: *mut u8, chunk: *const u8, length: usize, token: *mut RawToken) -> u32;
    fn thrinvage_pack_clause(
        text: *const u8, length: usize, offset: usize, line: usize, column: usize, out: *mut u8, room: usize, clause: *mut RawClause,
    ) -> u32;
    fn thrinvage_pack_clause_form_2(
        text: *const u8, length: usize, offset: usize, line: usize, column: usize, out: *mut u8, room: usize, clause: *mut RawClause,
    ) -> u32;
    fn thrinvage_pack_nodes(
        bytes: *const u8, length: usize, nodes: *const u32, numbers: usize, count: usize, out: *mut u8, room: usize, packed: *mut u64,
    ) -> u32;
    fn thrinvage_pack_nodes_form_2(
        bytes: *const u8, length: usize, nodes: *const u32, numbers: usize, count: usize, line: u16, out: *mut u8, room: usize, packed: *mut u64,
    ) -> u32;
    fn thrinvage_unpack(image: *const u8, length: usize, nodes: *mut u32, room: usize, count: *mut u64) -> u32;
    fn thrinvage_unpack_either(image: *const u8, length: usize, nodes: *mut u32, room: usize, unpacked: *mut RawUnpacked) -> u32;
    fn thrinvage_move_up(image: *const u8, length: usize, out: *mut u8, room: usize, moved: *mut u64) -> u32;
    fn thrinvage_move_down(image: *const u8, length: usize, out: *mut u8, room: usize, moved: *mut u64) -> u32;
}

impl RawToken {
    fn token(&self) -> Token {
        let value = match self.value_kind {
            0 => Value::Nothing,
            1 => Value::Integer(self.value),
            _ => Value::Float(f64::from_bits(self.value)),
        };
        let next = cursor(self.offset, self.line, self.column);
        Token { kind: KINDS[self.kind as usize], value, start: self.start as usize, next, layout: self.layout as usize }
    }
}

impl RawLayout {
    fn layout(&self) -> Option<Layout> {
        let kind = match self.kind {
            0 => return None,
            1 => LayoutKind::Blanks,
            2 => LayoutKind::LineComment,
            _ => LayoutKind::BracketedComment,
        };
        Some(Layout { kind, start: self.start as usize, next: cursor(self.offset, self.line, self.column) })
    }
}

fn cursor(offset: u64, line: u64, column: u64) -> Cursor {
    Cursor { offset: offset as usize, line: line as usize, column: column as usize }
}

/// What was read, where nothing was refused.
fn unless_refused<A>(number: u32, refused_at: u64, read: impl FnOnce() -> A) -> Result<A, Refusal> {
    if number == 0 { Ok(read()) } else { Err(Refusal { number, offset: refused_at as usize }) }
}

/// The next token behind the cursor.
pub fn next_token(text: &[u8], at: Cursor, source: Source) -> Result<Token, Refusal> {
    let mut raw = RawToken::default();
    // SAFETY: the pointers are of slices and of a local, with their lengths.
    let number = unsafe { thrinvage_next_token(text.as_ptr(), text.len(), at.offset, at.line, at.column, &mut raw, source as u32) };
    unless_refused(number, raw.refused_at, || raw.token())
}

/// The next token of a file, and where its decoded text stands.
pub fn next_token_text(text: &[u8], at: Cursor, scratch: &mut [u8]) -> Result<(Token, Part), Refusal> {
    let mut raw = RawText::default();
    let (room, lent) = (scratch.len(), scratch.as_mut_ptr());
    // SAFETY: as above.
    let number = unsafe { thrinvage_next_token_text(text.as_ptr(), text.len(), at.offset, at.line, at.column, lent, room, &mut raw) };
    unless_refused(number, raw.token.refused_at, || {
        let range = raw.part_start as usize..raw.part_end as usize;
        (raw.token.token(), if raw.part == 0 { Part::Source(range) } else { Part::Scratch(range) })
    })
}

/// The layout text at the cursor, one at a time: blanks, or a comment; none where a token starts. It refuses what the token call refuses there before it
/// has come to a token. From the token call's cursor on, one layout text behind another leads to the token's `start`.
pub fn next_layout(text: &[u8], at: Cursor) -> Result<Option<Layout>, Refusal> {
    let mut raw = RawLayout::default();
    // SAFETY: as above.
    let number = unsafe { thrinvage_next_layout(text.as_ptr(), text.len(), at.offset, at.line, at.column, &mut raw) };
    unless_refused(number, raw.refused_at, || raw.layout())
}

/// The clause behind the cursor as a tree, two numbers a node: `count` counts the nodes.
pub fn read_clause(text: &[u8], at: Cursor, tree: &mut [u16]) -> Result<Counted, Refusal> {
    let mut raw = RawClause::default();
    let (room, lent) = (tree.len(), tree.as_mut_ptr());
    // SAFETY: as above.
    let number = unsafe { thrinvage_read_clause(text.as_ptr(), text.len(), at.offset, at.line, at.column, lent, room, &mut raw) };
    unless_refused(number, raw.refused_at, || raw.counted())
}

/// The clause behind the cursor as a line of the listing: `count` counts its bytes.
pub fn list_clause(text: &[u8], at: Cursor, out: &mut [u8]) -> Result<Counted, Refusal> {
    let mut raw = RawClause::default();
    let (room, lent) = (out.len(), out.as_mut_ptr());
    // SAFETY: as above.
    let number = unsafe { thrinvage_list_clause(text.as_ptr(), text.len(), at.offset, at.line, at.column, lent, room, &mut raw) };
    unless_refused(number, raw.refused_at, || raw.counted())
}

/// The clause behind the cursor as an image of the form that is asked for, at the front of `out`: `count` counts its bytes. In form 2 the line of its
/// first token is counted on from the cursor's.
pub fn pack_clause(text: &[u8], at: Cursor, version: Version, out: &mut [u8]) -> Result<Counted, Refusal> {
    let mut raw = RawClause::default();
    let (room, lent) = (out.len(), out.as_mut_ptr());
    let pack = match version {
        Version::One => thrinvage_pack_clause,
        Version::Two => thrinvage_pack_clause_form_2,
    };
    // SAFETY: as above.
    let number = unsafe { pack(text.as_ptr(), text.len(), at.offset, at.line, at.column, lent, room, &mut raw) };
    unless_refused(number, raw.refused_at, || raw.counted())
}

impl RawClause {
    fn counted(&self) -> Counted {
        Counted { count: self.count as usize, next: cursor(self.offset, self.line, self.column) }
    }
}

/// `count` nodes as an image of that form, at the front of `out`, and how many bytes it has. A node is four numbers: kind, arity, and the start and the
/// length of its spelling, which is a part of `bytes`. Nobody judges the spellings.
pub fn pack_nodes(bytes: &[u8], nodes: &[u32], count: usize, form: Form, out: &mut [u8]) -> Result<usize, Refusal> {
    let mut packed = 0;
    let (room, lent) = (out.len(), out.as_mut_ptr());
    let (start, length, first, numbers) = (bytes.as_ptr(), bytes.len(), nodes.as_ptr(), nodes.len());
    // SAFETY: as above.
    let number = unsafe {
        match form {
            Form::One => thrinvage_pack_nodes(start, length, first, numbers, count, lent, room, &mut packed),
            Form::Two(line) => thrinvage_pack_nodes_form_2(start, length, first, numbers, count, line, lent, room, &mut packed),
        }
    };
    unless_refused(number, 0, || packed as usize)
}

/// The nodes of an image of form 1, at the front of `nodes`, as a mast in the field reads it: form 2 is refused by 14. The image must end where its last
/// node ends.
pub fn unpack<'i, 'n>(image: &'i [u8], nodes: &'n mut [u32]) -> Result<Unpacked<'i, 'n>, Refusal> {
    let mut count = 0;
    let (room, lent) = (nodes.len(), nodes.as_mut_ptr());
    // SAFETY: as above.
    let number = unsafe { thrinvage_unpack(image.as_ptr(), image.len(), lent, room, &mut count) };
    unless_refused(number, 0, || Unpacked::new(image, nodes, count, Form::One))
}

/// The same of an image of either form; a version that is neither is refused by 18.
pub fn unpack_either<'i, 'n>(image: &'i [u8], nodes: &'n mut [u32]) -> Result<Unpacked<'i, 'n>, Refusal> {
    let mut raw = RawUnpacked::default();
    let (room, lent) = (nodes.len(), nodes.as_mut_ptr());
    // SAFETY: as above.
    let number = unsafe { thrinvage_unpack_either(image.as_ptr(), image.len(), lent, room, &mut raw) };
    let form = if raw.form == 2 { Form::Two(raw.line as u16) } else { Form::One };
    unless_refused(number, 0, || Unpacked::new(image, nodes, raw.count, form))
}

/// An image of form 1 moved to form 2, at the front of `out`, and how many bytes it has then: two more. The line is not known. Any other version than 1 is
/// refused by 18, and an image with no room for two more by 13.
pub fn move_up(image: &[u8], out: &mut [u8]) -> Result<usize, Refusal> {
    moved(thrinvage_move_up, image, out)
}

/// An image of form 2 moved to form 1, at the front of `out`, and how many bytes it has then: two less. The line is dropped. Any other version than 2 is
/// refused by 18.
pub fn move_down(image: &[u8], out: &mut [u8]) -> Result<usize, Refusal> {
    moved(thrinvage_move_down, image, out)
}

fn moved(by: RawMove, image: &[u8], out: &mut [u8]) -> Result<usize, Refusal> {
    let mut length = 0;
    // SAFETY: as above, and `by` is one of the two moves.
    let number = unsafe { by(image.as_ptr(), image.len(), out.as_mut_ptr(), out.len(), &mut length) };
    unless_refused(number, 0, || length as usize)
}

const NUMBERS_A_NODE: usize = 4;

/// What was unpacked: children left to right, then their parent, the root last. Nobody has judged the spellings.
#[derive(Clone, Copy, Debug)]
pub struct Unpacked<'i, 'n> {
    image: &'i [u8],
    numbers: &'n [u32],
    form: Form,
}

impl<'i, 'n> Unpacked<'i, 'n> {
    fn new(image: &'i [u8], nodes: &'n [u32], count: u64, form: Form) -> Unpacked<'i, 'n> {
        Unpacked { image, numbers: &nodes[..NUMBERS_A_NODE * count as usize], form }
    }

    /// The image's form, and in form 2 its line.
    pub fn form(&self) -> Form {
        self.form
    }

    /// The nodes with their spellings; `.rev()` goes from the root to the first.
    pub fn nodes(&self) -> impl DoubleEndedIterator<Item = Node<'i>> + ExactSizeIterator + use<'i, 'n> {
        let image = self.image;
        self.numbers.chunks_exact(NUMBERS_A_NODE).map(move |node| {
            let (kind, arity, start, length) = (node[0] as usize, node[1] as usize, node[2] as usize, node[3] as usize);
            Node { kind: NODE_KINDS[kind], arity, spelling: &image[start..start + length] }
        })
    }

    /// The image once more, from its nodes and in its form. It is the same, byte for byte, and `out` needs room for it.
    pub fn pack(&self, out: &mut [u8]) -> Result<usize, Refusal> {
        pack_nodes(self.image, self.numbers, self.nodes().len(), self.form, out)
    }
}

/// The offset of the first byte that is no layout, at the cursor or behind it; the text's length where there is none. Layout is blanks, tabs, newlines,
/// returns and whole comments: a bracketed comment that is not closed is none, from its slash on, nor is a comment in which a foreign byte stands. In a text
/// that is longer than `LONGEST_TEXT`, which every call refuses, it is the cursor's.
pub fn layout_end(text: &[u8], at: Cursor) -> usize {
    // only the offset counts: with these a cursor is valid if its offset is
    let mut end = Cursor { offset: at.offset, ..Cursor::default() };
    while let Ok(Some(layout)) = next_layout(text, end) {
        end = layout.next;
    }
    end.offset.min(text.len())
}

/// Whether nothing but layout stands behind the cursor. Where the clause, the line or the pack call is refused by 1 at this cursor, the text is whole
/// exactly if this holds; else its last clause, which starts at `layout_end`, was cut off.
pub fn only_layout_behind(text: &[u8], at: Cursor) -> bool {
    layout_end(text, at) == text.len()
}

/// Reads a text token by token and keeps the last one where the call put it: the fastest way through a text, since nothing is copied.
pub struct Scanner<'t> {
    text: &'t [u8],
    source: Source,
    raw: RawToken,
}

impl<'t> Scanner<'t> {
    pub fn new(text: &'t [u8], source: Source) -> Scanner<'t> {
        Scanner { text, source, raw: RawToken::default() }
    }

    /// To the next token. A refusal leaves the last one as it was.
    pub fn advance(&mut self) -> Result<(), Refusal> {
        let RawToken { offset, line, column, .. } = self.raw;
        let (text, source, raw) = (self.text, self.source as u32, &mut self.raw);
        // SAFETY: the pointers are of a slice, with its length, and of a field.
        let number = unsafe { thrinvage_next_token(text.as_ptr(), text.len(), offset as usize, line as usize, column as usize, raw, source) };
        unless_refused(number, self.raw.refused_at, || ())
    }

    /// The last token; none before the first one, when the cursor stands at the text's start.
    pub fn token(&self) -> Option<Token> {
        (self.raw.offset > 0).then(|| self.raw.token())
    }
}

/// The tokens of a text, and last the refusal that ended it: refusal 1 at the text's length where all of it was read.
pub struct Tokens<'t> {
    scanner: Scanner<'t>,
    ended: Option<Refusal>,
}

pub fn tokens(text: &[u8], source: Source) -> Tokens<'_> {
    Tokens { scanner: Scanner::new(text, source), ended: None }
}

impl Tokens<'_> {
    /// Whether the text was read to its end and no clause of it was cut off: the last token, if there is one, is an end mark, and nothing but layout
    /// stands behind it.
    pub fn ended_whole(&self) -> bool {
        let last = self.scanner.token();
        let at = last.map_or(Cursor::default(), |token| token.next);
        self.ended.is_some_and(|refusal| refusal.number == END_OF_TEXT)
            && last.is_none_or(|token| token.kind == Kind::End)
            && only_layout_behind(self.scanner.text, at)
    }
}

impl Iterator for Tokens<'_> {
    type Item = Result<Token, Refusal>;

    fn next(&mut self) -> Option<Self::Item> {
        if self.ended.is_some() {
            return None;
        }
        let read = self.scanner.advance();
        self.ended = read.err();
        Some(read.map(|()| self.scanner.raw.token()))
    }
}

const WINDOW: usize = 2057;
const MORE: u32 = 256;

/// What a reader gives when it is fed.
#[derive(Clone, Copy, Debug, PartialEq)]
pub enum Given {
    Token(Token),
    /// Nothing yet: more of the text must come, or its end.
    More,
    Refused(Refusal),
}

/// Reads a text that comes in chunks and gives each token as soon as it is certain. Offsets, lines and columns count from the start of the whole text. A
/// reader has some 2 KB and may be cloned between two calls: each goes on from there.
#[derive(Clone)]
pub struct Reader {
    raw: RawReader,
    window: [u8; WINDOW],
}

impl Reader {
    pub fn new() -> Reader {
        let mut reader = Reader { raw: RawReader::default(), window: [0; WINDOW] };
        // SAFETY: the pointer is of a field.
        unsafe { thrinvage_start(&mut reader.raw) };
        reader
    }

    /// How many bytes of the chunk were taken, and what they gave. Go on with the rest of it until that is `More` and nothing is left; behind `finish`,
    /// with empty chunks until one is refused. After a refusal each call repeats it.
    pub fn feed(&mut self, chunk: &[u8]) -> (usize, Given) {
        let mut token = RawToken::default();
        let window = self.window.as_mut_ptr();
        // SAFETY: the pointers are of a slice, with its length, of two fields and of a local.
        let number = unsafe { thrinvage_feed(&mut self.raw, window, chunk.as_ptr(), chunk.len(), &mut token) };
        let given = match number {
            MORE => Given::More,
            _ => unless_refused(number, token.refused_at, || token.token()).map_or_else(Given::Refused, Given::Token),
        };
        (self.raw.taken as usize, given)
    }

    /// The bytes of the token that the last call gave: they stand in the window until the next. Of another token nothing, or other bytes.
    pub fn bytes_of(&self, token: &Token) -> Option<&[u8]> {
        let end = self.raw.from as usize;
        let start = end.checked_sub(token.next.offset.checked_sub(token.start)?)?;
        self.window.get(start..end)
    }

    /// The text has ended.
    pub fn finish(&mut self) {
        // SAFETY: the pointer is of a field.
        unsafe { thrinvage_finish(&mut self.raw) };
    }
}

impl Default for Reader {
    fn default() -> Reader {
        Reader::new()
    }
}
