//! The kinds of tokens, the same for the Rust and for the model.
#[derive(Copy, Clone, Debug, PartialEq, Eq)]
pub enum Kind {
    Name,
    Variable,
    String,
    Number,
    Open,
    OpenCT,
    Close,
    OpenList,
    CloseList,
    OpenCurly,
    CloseCurly,
    HeadTailSeparator,
    DoubleBar,
    Comma,
    End,
}
