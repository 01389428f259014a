//! The kinds of tokens.

use enumset::EnumSetType;

/// A kind of token.
#[derive(EnumSetType, Debug)]
#[enumset(no_ops)]
pub enum Kind {
    Number,
    Open,
    Minus,
    Plus,
    Times,
    Divide,
    Close,
    /// The end of the input, which is the last token.
    End,
}
