//! The worked type `marks`.

use enumset::EnumSetType;

/// Three variants, on bits 0, 1 and 2.
#[derive(EnumSetType, Debug, PartialOrd, Ord, Hash)]
#[enumset(no_ops, display, crate_name = "enumset_sets")]
pub enum Marks {
    A,
    B,
    C,
}
