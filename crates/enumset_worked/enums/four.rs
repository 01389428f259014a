//! The worked type `four`.

use enumset::EnumSetType;

/// Four variants, on bits 0 to 3.
#[derive(EnumSetType, Debug, PartialOrd, Ord, Hash)]
#[enumset(display, crate_name = "enumset_sets")]
pub enum Four {
    A,
    B,
    C,
    D,
}
