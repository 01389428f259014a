use enumset::EnumSetType;

/// What a user may do with a document.
#[derive(EnumSetType, Debug)]
pub enum Permission {
    Read,
    Comment,
    Write,
    Share,
    Delete,
}
