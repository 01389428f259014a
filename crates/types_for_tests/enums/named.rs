//! Element types whose values have names, and whose sets are lists of them, or maps from them.

use enumset::EnumSetType;

/// Seven variants, on bits 0 to 6, in an integer.
#[derive(EnumSetType, Debug)]
#[enumset(no_ops, serialize_repr = "list")]
pub enum NamedLetters {
    A,
    B,
    C,
    D,
    E,
    F,
    G,
}

/// The letters with two more, `H` on bit 7 and `Aa` on bit 64, in words. Unknown names are a fault.
#[derive(EnumSetType, Debug)]
#[enumset(no_ops, repr = "array", serialize_repr = "map", serialize_deny_unknown)]
pub enum LaterLetters {
    A,
    B,
    C,
    D,
    E,
    F,
    G,
    H,
    Aa = 64,
}

/// Four variants, on bits 10, 20, 30 and 127 of an integer.
#[derive(EnumSetType, Debug)]
#[enumset(no_ops, serialize_repr = "list")]
pub enum NamedSparse {
    A = 10,
    B = 20,
    C = 30,
    D = 127,
}
