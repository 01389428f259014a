//! The flags of a frame that version 2 knows.
use enumset::EnumSetType;

/// A flag of version 2: the flags of version 1, on the same bits, and two more.
#[derive(EnumSetType, Debug)]
#[enumset(repr = "u8", no_ops, display)]
pub enum NewerFlag {
    Urgent,
    WantsReceipt,
    Relayed,
    Encrypted,
    Traced = 6,
}
