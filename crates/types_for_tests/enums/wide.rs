//! An element type whose values get their names by hand, in the module `wide_names`.

use enumset::EnumSetType;

/// Three variants, on bits 3, 64 and 130, each in a word of its own.
#[derive(EnumSetType, Debug)]
#[enumset(no_ops)]
pub enum NamedWide {
    P = 3,
    Q = 64,
    R = 130,
}
