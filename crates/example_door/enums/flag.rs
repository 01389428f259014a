//! What may be true of a door.

use enumset::EnumSetType;

/// A flag of a door with a magnetic lock.
#[derive(EnumSetType, Debug)]
#[enumset(no_ops, display, crate_name = "enumset_sets")]
pub enum Flag {
    Open,
    Locked,
    Alarmed,
    Powered,
}
