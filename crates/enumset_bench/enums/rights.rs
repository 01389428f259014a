//! The element types of the job that decides requests.

use enumset::EnumSetType;

/// What may be done with a document, on bits 0 to 19.
#[derive(EnumSetType, Debug, PartialOrd, Ord)]
#[enumset(no_ops, display, repr = "u32", serialize_repr = "list")]
pub enum Right {
    Read,
    Write,
    Share,
    Delete,
    Comment,
    Approve,
    Publish,
    Archive,
    Restore,
    Rename,
    Move,
    Copy,
    Print,
    Export,
    Import,
    Translate,
    Sign,
    Encrypt,
    ChangeOwner,
    ManageAccess,
}

/// What a user may be, on bits 0 to 11.
#[derive(EnumSetType, Debug)]
#[enumset(no_ops, crate_name = "enumset")]
pub enum Role {
    Guest,
    Reader,
    Commenter,
    Author,
    Editor,
    Reviewer,
    Translator,
    Publisher,
    Archivist,
    Auditor,
    Manager,
    Owner,
}
