//! Enums whose sets are numbers, and words, in JSON.

use enumset::EnumSetType;

/// Rights whose sets are numbers.
#[derive(EnumSetType, Debug)]
#[enumset(no_ops, serialize_repr = "u8")]
pub enum Numbered {
    Read,
    Write,
    Share,
}

/// Two variants of four words, whose sets are these. Unknown bits are a fault.
#[derive(EnumSetType, Debug)]
#[enumset(no_ops, serialize_repr = "array", serialize_deny_unknown)]
pub enum InWords {
    Low = 1,
    High = 200,
}

/// Two variants, on bits 0 and 31, whose sets are numbers of 32 bits.
#[derive(EnumSetType, Debug)]
#[enumset(no_ops, repr = "u32", serialize_repr = "u32")]
pub enum In32Bits {
    A,
    B = 31,
}
