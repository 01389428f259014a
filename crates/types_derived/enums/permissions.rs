//! What an account may do with a document.

use enumset::{EnumSet, EnumSetType};
use serde::{Deserialize, Serialize};
use strum::EnumIter;

/// One right.
#[derive(Debug, EnumSetType, Hash, EnumIter, strum::Display)]
#[enumset(repr = "u16", serialize_repr = "list")]
#[serde(rename_all = "snake_case")]
#[strum(serialize_all = "snake_case")]
#[non_exhaustive]
pub enum Permission {
    /// Look at it.
    Read,
    /// Change it.
    Write,
    /// Say something about it.
    #[doc(alias = "annotate")]
    AddComment,
    /// Give it away.
    #[serde(rename = "hand-over")]
    #[strum(serialize = "hand-over")]
    ChangeOwner,
}

/// The rights of a reader.
pub fn reader() -> EnumSet<Permission> {
    EnumSet::only(Permission::Read)
}
