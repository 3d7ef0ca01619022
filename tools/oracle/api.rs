//! Ours: what the programs ask of the unchanged lexer.
use crate::arena::TypedArenaPtr;
use crate::atom_table::Atom;
pub use crate::kind::Kind;
use crate::machine::machine_state::MachineState;
use crate::parser::ast::*;
use crate::parser::char_reader::CharReader;
use crate::parser::dashu::Integer;
use crate::parser::lexer::{Lexer, Token};

#[derive(Copy, Clone, Debug, PartialEq, Eq)]
pub enum Value {
    Nothing,
    Integer(i128),
    /// an integer beyond 64 bits, whose value the shim does not keep
    Big,
    /// the double's bits
    Float(u64),
}

#[derive(Clone, Debug, PartialEq, Eq)]
pub struct Accepted {
    pub kind: Kind,
    /// of a name, variable or string
    pub text: Vec<u8>,
    pub value: Value,
    /// bytes taken since the start, those put back not counted
    pub end: usize,
    /// newlines since the start
    pub lines: usize,
    /// the Rust's own column, which lags and runs ahead
    pub column: usize,
}

/// The Rust's own name for the error; two of them are compared by kind.
pub type Failure = &'static str;
pub const END_OF_FILE: Failure = "unexpected_end_of_file";
pub const INCOMPLETE_REDUCTION: Failure = "incomplete_reduction";

pub struct Machine(MachineState);

/// One lexer over a text, asked for one token after another.
pub struct Session<'t, 'm> {
    lexer: Lexer<'m, CharReader<&'t [u8]>>,
    length: usize,
}

impl Default for Machine {
    fn default() -> Self {
        Machine(MachineState::new())
    }
}

impl Machine {
    pub fn start<'t, 'm>(&'m mut self, text: &'t [u8]) -> Session<'t, 'm> {
        self.0.atom_tbl.clear();
        Session { lexer: Lexer::new(CharReader::new(text), &mut self.0), length: text.len() }
    }

    /// The tokens up to the first error, counted and dropped: for times, so it does nothing but what lexer.rs does.
    pub fn count_tokens(&mut self, text: &[u8]) -> usize {
        let mut session = self.start(text);
        let mut count = 0;
        while let Ok(token) = session.lexer.next_token() {
            std::hint::black_box(&token);
            count += 1;
        }
        count
    }
}

impl Session<'_, '_> {
    /// Bytes given less bytes left, in the reader and in its buffer.
    fn taken(&self) -> usize {
        let reader = &self.lexer.reader;
        self.length - reader.get_ref().len() - reader.rem_buf_len()
    }

    /// `scan_for_layout` alone: bytes of layout and comments taken.
    pub fn skip_layout(&mut self) -> Result<usize, Failure> {
        self.lexer.scan_for_layout().map_err(failure)?;
        Ok(self.taken())
    }

    pub fn next_token(&mut self) -> Result<Accepted, Failure> {
        let answer = self.lexer.next_token();
        self.accepted(answer)
    }

    pub fn next_number_token(&mut self) -> Result<Accepted, Failure> {
        let answer = self.lexer.next_number_token();
        self.accepted(answer)
    }

    fn accepted(&self, answer: Result<Token, ParserError>) -> Result<Accepted, Failure> {
        let (kind, text, value) = self.taken_apart(answer.map_err(failure)?);
        let location = &self.lexer.location;
        Ok(Accepted {
            kind,
            text,
            value,
            end: self.taken(),
            lines: location.line() - Location::BOF.line(),
            column: location.column(),
        })
    }

    fn taken_apart(&self, token: Token) -> (Kind, Vec<u8>, Value) {
        let plain = |kind| (kind, Vec::new(), Value::Nothing);
        let number = |value| (Kind::Number, Vec::new(), value);
        match token {
            Token::Literal(Literal::Atom(atom)) => {
                let text = self.lexer.machine_st.atom_tbl.with_text(atom, |s| s.as_bytes().to_vec());
                (Kind::Name, text, Value::Nothing)
            }
            Token::Literal(Literal::Fixnum(n)) => number(Value::Integer(n.get_num().into())),
            Token::Literal(Literal::Integer(TypedArenaPtr(Integer::Small(n)))) => number(Value::Integer(n.into())),
            Token::Literal(Literal::Integer(TypedArenaPtr(Integer::Wide(n)))) => number(Value::Integer(n.into())),
            Token::Literal(Literal::Integer(TypedArenaPtr(Integer::Big))) => number(Value::Big),
            Token::Literal(Literal::F64(_, f)) => number(Value::Float(f.0.to_bits())),
            Token::Literal(other) => unreachable!("{other:?}"),
            Token::Var(s) => (Kind::Variable, s.into_bytes(), Value::Nothing),
            Token::String(s) => (Kind::String, s.into_bytes(), Value::Nothing),
            Token::Open => plain(Kind::Open),
            Token::OpenCT => plain(Kind::OpenCT),
            Token::Close => plain(Kind::Close),
            Token::OpenList => plain(Kind::OpenList),
            Token::CloseList => plain(Kind::CloseList),
            Token::OpenCurly => plain(Kind::OpenCurly),
            Token::CloseCurly => plain(Kind::CloseCurly),
            Token::HeadTailSeparator => plain(Kind::HeadTailSeparator),
            Token::DoubleBar => plain(Kind::DoubleBar),
            Token::Comma => plain(Kind::Comma),
            Token::End => plain(Kind::End),
        }
    }
}

fn failure(error: ParserError) -> Failure {
    match error.as_atom() {
        Atom::Static(name) => name,
        other => unreachable!("{other:?}"),
    }
}
