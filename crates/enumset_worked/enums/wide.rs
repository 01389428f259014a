//! The worked type `wide`.

use enumset::EnumSetType;

/// Three variants, on bits 3, 64 and 130, each in a word of its own.
#[derive(EnumSetType, Debug, PartialOrd, Ord, Hash)]
#[enumset(no_ops, display, crate_name = "enumset_sets")]
pub enum Wide {
    P = 3,
    Q = 64,
    R = 130,
}
