pub use enumset::EnumSet;
use enumset::EnumSetType;

/// Bits of a file's mode.
#[derive(EnumSetType, Debug)]
#[enumset(map = "msb", repr = "u16", serialize_repr = "u16", serialize_deny_unknown, no_ops)]
pub enum Mode {
    Read = 8,
    Write = 9,
    Execute = 10,
}

pub fn none() -> EnumSet<Mode> {
    EnumSet::empty()
}
