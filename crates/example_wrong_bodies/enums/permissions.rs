use enumset::EnumSetType;

/// What a user may do with a document.
#[derive(EnumSetType, Debug)]
#[enumset(no_ops)]
pub enum Permission {
    Read,
    Comment,
    Write,
}
