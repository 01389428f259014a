//! An enum of two variants, one in the first word and one in the last of more words than the other types have.

use enumset::EnumSetType;

/// Two variants, on bits 3 and 1087, in seventeen words.
#[derive(EnumSetType, Debug)]
#[enumset(no_ops)]
pub enum In17Words {
    A = 3,
    B = 1087,
}
