//! Faults on purpose, for the self-test: a comparison that cannot fail is worth nothing. Each spoils what a reader holds before a call, or what it gives.
use crate::feeding::{Feeding, LAYOUT, MORE, OFFSET, READ, REFUSED_AT, START, Token};
use crate::whole::{LONGEST_TOKEN, OUT_OF_LIMIT, TOKEN_TOO_LONG};

type Answer = (u32, Token);
type Before = fn(&mut Feeding);
type Behind = fn(&mut Feeding, &mut Answer);

const VALUE_KIND: usize = 6;
const VALUE: usize = 7;
const INSIDE: u64 = 2;
const OPEN: u64 = 0;

fn as_it_is(_: &mut Feeding) {}
fn as_given(_: &mut Feeding, _: &mut Answer) {}

/// Gives what the bytes at hand would be if the text ended with them.
fn end_with_the_chunk(feeding: &mut Feeding, answer: &mut Answer) {
    if answer.0 != MORE || feeding.at_hand() == 0 {
        return;
    }
    let mut ended = Feeding { state: feeding.state, window: feeding.window.clone(), token: feeding.token };
    ended.finish();
    if ended.feed(b"") == READ {
        *answer = (READ, ended.token);
        feeding.state = crate::feeding::State { phase: OPEN, taken: feeding.state.taken, ..ended.state };
        feeding.window = ended.window;
    }
}

fn lose_a_byte(feeding: &mut Feeding) {
    if feeding.at_hand() > 1 {
        feeding.state.from += 1;
        feeding.state.offset += 1;
    }
}

fn renumber(answer: &mut Answer, from: u32, to: u32) {
    if answer.0 == from {
        answer.0 = to;
    }
}

fn refuse_1024(feeding: &mut Feeding, answer: &mut Answer) {
    let (number, token) = answer;
    if *number == READ && (token[OFFSET] - token[START]) as usize == LONGEST_TOKEN {
        *number = TOKEN_TOO_LONG;
        token[REFUSED_AT] = token[START];
        feeding.state.phase = 2;
    }
}

pub const SLIPS: [(&str, Before, Behind); 22] = [
    ("forgets the layout before a token", |f| f.state.layout = f.state.offset, as_given),
    ("takes a token's last byte for layout", |f| f.state.layout = f.state.layout.saturating_sub(1), as_given),
    ("lets the layout begin with the text", |f| f.state.layout = 0, as_given),
    ("gives a token's start for that of its layout", as_it_is, |_, a| a.1[LAYOUT] = a.1[START]),
    ("counts no line", |f| f.state.line = 0, as_given),
    ("counts columns from the chunk's start", |f| f.state.column = 0, as_given),
    ("forgets that it is in a comment", |f| (f.state.mode, f.state.slash) = (0, 0), as_given),
    ("forgets where the comment began", |f| f.state.slash = 0, as_given),
    ("puts the comment a byte on", |f| f.state.slash += u64::from(f.state.mode == INSIDE), as_given),
    ("changes a byte at hand", |f| f.window[f.state.from as usize] ^= u8::from(f.at_hand() > 0), as_given),
    ("loses a byte at hand", lose_a_byte, as_given),
    ("takes a chunk's end for the text's end", as_it_is, end_with_the_chunk),
    ("takes a byte that it does not tell of", as_it_is, |f, _| f.state.taken = f.state.taken.saturating_sub(1)),
    ("tells of a byte that it does not take", as_it_is, |f, a| f.state.taken += u64::from(a.0 == MORE)),
    ("gives another value", as_it_is, |_, a| a.1[VALUE] ^= u64::from(a.1[VALUE_KIND] > 0)),
    ("counts a start from the bytes at hand", |_| (), |f, a| a.1[START] -= u64::from(a.0 == READ && f.state.from > 0 && a.1[START] > 0)),
    ("refuses a token of 1,024 bytes", as_it_is, refuse_1024),
    ("points 15 at the token's second byte", as_it_is, |_, a| a.1[REFUSED_AT] += u64::from(a.0 == TOKEN_TOO_LONG)),
    ("gives 7 for 15", as_it_is, |_, a| renumber(a, TOKEN_TOO_LONG, OUT_OF_LIMIT)),
    ("gives 15 for 7", as_it_is, |_, a| renumber(a, OUT_OF_LIMIT, TOKEN_TOO_LONG)),
    ("forgets that it has refused", as_it_is, |f, a| {
        if a.0 != READ && a.0 != MORE {
            (f.state.phase, f.state.refusal, f.state.refused_at) = (OPEN, 0, 0);
        }
    }),
    ("hands a token out a call late", as_it_is, as_given),
];

/// A slip, or none, and the answer that is kept back, with its reader.
pub struct Slip {
    before: Before,
    behind: Behind,
    is_late: bool,
    kept: Option<Answer>,
}

impl Slip {
    pub fn none() -> Slip {
        Slip { before: as_it_is, behind: as_given, is_late: false, kept: None }
    }

    pub fn named(name: &str) -> Slip {
        let (_, before, behind) = SLIPS.iter().find(|slip| slip.0 == name).expect("one of them");
        Slip { before: *before, behind: *behind, is_late: name == SLIPS[SLIPS.len() - 1].0, kept: None }
    }

    pub fn start(&mut self) {
        self.kept = None;
    }

    pub fn feed(&mut self, feeding: &mut Feeding, chunk: &[u8]) -> Answer {
        if let Some(kept) = self.kept.take() {
            feeding.state.taken = 0;
            return kept;
        }
        (self.before)(feeding);
        let mut answer = (feeding.feed(chunk), feeding.token);
        (self.behind)(feeding, &mut answer);
        if self.is_late && answer.0 == READ {
            self.kept = Some(answer);
            return (MORE, Token::default());
        }
        answer
    }
}
