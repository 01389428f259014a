//! An enum whose bits count from the highest.

use enumset::EnumSetType;

/// Priorities, on bits 15, 14 and 13, so that a set's number is the larger the higher its highest priority.
#[derive(EnumSetType, Debug)]
#[enumset(no_ops, repr = "u16", map = "msb", serialize_repr = "u16")]
pub enum Priority {
    Urgent,
    Normal,
    Low,
}
