//! The worked type `single`.

use enumset::EnumSetType;

/// One variant, on bit 0.
#[derive(EnumSetType, Debug, PartialOrd, Ord, Hash)]
#[enumset(no_ops, display, crate_name = "enumset_sets")]
pub enum Single {
    A,
}
