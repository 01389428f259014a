//! What a user of documents may be.
use enumset::EnumSetType;

/// A role.
#[derive(EnumSetType, Debug)]
#[enumset(no_ops, serialize_repr = "list", serialize_deny_unknown)]
pub enum Role {
    Reader,
    Editor,
    Owner,
}
