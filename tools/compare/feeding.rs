//! The calls that are compared, as they stand in include/thrinvage.h: the token call, and the reader that is fed chunks.

/// Of a token: its fields in their order, for a comparison of them all.
pub type Token = [u64; 9];
pub const OFFSET: usize = 0;
pub const LINE: usize = 1;
pub const COLUMN: usize = 2;
pub const REFUSED_AT: usize = 3;
pub const START: usize = 5;
pub const LAYOUT: usize = 8;

const FILE: u32 = 0;

pub const READ: u32 = 0;
pub const MORE: u32 = 256;
pub const WINDOW: usize = 2057;

#[repr(C)]
#[derive(Clone, Copy, Debug, Default, PartialEq, Eq)]
pub struct State {
    pub mode: u64,
    pub slash: u64,
    pub offset: u64,
    pub line: u64,
    pub column: u64,
    pub layout: u64,
    pub from: u64,
    pub to: u64,
    pub phase: u64,
    pub refusal: u64,
    pub refused_at: u64,
    pub taken: u64,
}

unsafe extern "C" {
    fn thrinvage_next_token(text: *const u8, length: usize, offset: usize, line: usize, column: usize, token: *mut Token, source: u32) -> u32;
    fn thrinvage_start(reader: *mut State);
    fn thrinvage_finish(reader: *mut State);
    fn thrinvage_feed(reader: *mut State, window: *mut [u8; WINDOW], chunk: *const u8, length: usize, token: *mut Token) -> u32;
}

/// The token behind the cursor with which `last` begins, or a refusal's number, with its offset in the token's field.
pub fn next_token(text: &[u8], last: &Token) -> (u32, Token) {
    let mut token = Token::default();
    let [offset, line, column] = [OFFSET, LINE, COLUMN].map(|field| last[field] as usize);
    // SAFETY: the pointers are of a slice, with its length, and of a local.
    let number = unsafe { thrinvage_next_token(text.as_ptr(), text.len(), offset, line, column, &mut token, FILE) };
    (number, token)
}

/// A reader, its window, and what the last call left: a token, or the offset of a refusal.
pub struct Feeding {
    pub state: State,
    pub window: Box<[u8; WINDOW]>,
    pub token: Token,
}

impl Feeding {
    pub fn new(fill: u8) -> Feeding {
        let mut feeding = Feeding { state: State::default(), window: Box::new([0; WINDOW]), token: Token::default() };
        feeding.restart(fill);
        feeding
    }

    /// What stood in the window before must not matter.
    pub fn restart(&mut self, fill: u8) {
        self.window.fill(fill);
        self.start();
    }

    /// With the window as it is.
    pub fn start(&mut self) {
        // SAFETY: a pointer to a field.
        unsafe { thrinvage_start(&mut self.state) }
    }

    pub fn finish(&mut self) {
        // SAFETY: as above.
        unsafe { thrinvage_finish(&mut self.state) }
    }

    /// The number that the call returns.
    pub fn feed(&mut self, chunk: &[u8]) -> u32 {
        // SAFETY: the pointers are of fields, and of a slice, with its length.
        unsafe { thrinvage_feed(&mut self.state, &mut *self.window, chunk.as_ptr(), chunk.len(), &mut self.token) }
    }

    /// The bytes of the token that the last call gave, by the header's `thrinvage_token_bytes`.
    pub fn token_bytes(&self) -> &[u8] {
        let end = self.state.from as usize;
        &self.window[end - (self.token[OFFSET] - self.token[START]) as usize..end]
    }

    /// Delivered, and not yet read.
    pub fn at_hand(&self) -> u64 {
        self.state.to - self.state.from
    }
}
