//! The worked type `pair-number`.

use enumset::EnumSetType;

/// Two variants, on bits 0 and 64 of one integer: the bits of [`PairWords`](crate::pair_words::PairWords).
#[derive(EnumSetType, Debug, PartialOrd, Ord, Hash)]
#[enumset(repr = "u128", no_ops, display, crate_name = "enumset_sets")]
pub enum PairNumber {
    A = 0,
    B = 64,
}
