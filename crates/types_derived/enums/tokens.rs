// Kinds of tokens of a small language.
#![allow(dead_code)]

use enumset::EnumSetType;

#[allow(clippy::upper_case_acronyms)]
#[derive(EnumSetType, Debug, PartialOrd, Ord)]
#[enumset(no_ops)]
pub(crate) enum TokenKind {
    Identifier, // a name
    Number,
    // ---- operators
    Plus, Minus, Star, Slash,
    /* brackets */ LeftParen, RightParen,
    EOF,
}
