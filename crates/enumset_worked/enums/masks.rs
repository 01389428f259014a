//! The worked type `masks`.

use enumset::EnumSetType;

/// Three variants, on bits 0, 4 and 6: each discriminant is the mask of its bit.
#[derive(EnumSetType, Debug, PartialOrd, Ord, Hash)]
#[enumset(map = "mask", no_ops, display, crate_name = "enumset_sets")]
pub enum Masks {
    P = 1,
    Q = 16,
    R = 64,
}
