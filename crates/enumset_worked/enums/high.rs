//! The worked type `high`.

use enumset::EnumSetType;

/// Three variants, on bits 7, 6 and 5: a discriminant counts down from the highest bit of the representation.
#[derive(EnumSetType, Debug, PartialOrd, Ord, Hash)]
#[enumset(repr = "u8", map = "msb", no_ops, display, crate_name = "enumset_sets")]
pub enum High {
    A,
    B,
    C,
}
