//! What may be done with a document.
use enumset::EnumSetType;

/// A right.
#[derive(EnumSetType, Debug)]
#[enumset(no_ops, serialize_repr = "list", serialize_deny_unknown)]
pub enum Right {
    Read,
    Write,
    Share,
    Delete,
}
