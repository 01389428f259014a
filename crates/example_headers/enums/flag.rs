//! The flags of a frame that this version knows.
use enumset::EnumSetType;

/// A flag of version 1. Bits 3 to 7 are reserved for later versions.
#[derive(EnumSetType, Debug)]
#[enumset(repr = "u8", no_ops, display)]
pub enum Flag {
    Urgent,
    WantsReceipt,
    Relayed,
}
