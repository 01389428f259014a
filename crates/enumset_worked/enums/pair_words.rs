//! The worked type `pair-words`.

use enumset::EnumSetType;

/// Two variants, on bits 0 and 64, each in its own word: the bits of [`PairNumber`](crate::pair_number::PairNumber).
#[derive(EnumSetType, Debug, PartialOrd, Ord, Hash)]
#[enumset(repr = "array", no_ops, display, crate_name = "enumset_sets")]
pub enum PairWords {
    A = 0,
    B = 64,
}
