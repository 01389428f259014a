use clap::{Parser, ValueEnum};
use crate::tokens::TokenKind;
use enumset::EnumSetType;

/// What to do.
#[derive(EnumSetType, ValueEnum, Debug)]
#[enumset(no_ops)]
pub enum Verb {
    Add,
    Remove,
}

/// The arguments of a command.
#[derive(Parser, Clone, Copy, Debug)]
#[command(version)]
pub struct Arguments {
    /// What to do.
    #[arg(short, value_enum)]
    pub verb: Verb,
    #[arg(long)] pub count: u32,
}

/// Whether a kind begins a list of arguments.
pub(crate) fn begins(kind: TokenKind) -> bool {
    kind == TokenKind::LeftParen
}
