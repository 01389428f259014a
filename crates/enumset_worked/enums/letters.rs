//! The worked type `letters`.

use enumset::EnumSetType;

/// Seven variants, on bits 0 to 6.
#[derive(EnumSetType, Debug, PartialOrd, Ord, Hash)]
#[enumset(display, crate_name = "enumset_sets")]
pub enum Letters {
    A,
    B,
    C,
    D,
    E,
    F,
    G,
}
