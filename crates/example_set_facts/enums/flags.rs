use enumset::EnumSetType;

/// A flag of a message, on its bit of the first byte. Bits 3, 4 and 6 are reserved for later versions.
#[derive(EnumSetType, Debug)]
#[enumset(no_ops)]
pub enum Flag {
    Urgent = 0,
    Encrypted = 1,
    Compressed = 2,
    Signed = 5,
    ReplyWanted = 7,
}
