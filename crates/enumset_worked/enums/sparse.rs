//! The worked type `sparse`.

use enumset::EnumSetType;

/// Four variants, on bits 10, 20, 30 and 127.
#[derive(EnumSetType, Debug, PartialOrd, Ord, Hash)]
#[enumset(no_ops, display, crate_name = "enumset_sets")]
pub enum Sparse {
    A = 10,
    B = 20,
    C = 30,
    D = 127,
}
