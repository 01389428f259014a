mod units {
    /// A length.
    #[derive(Clone, Copy)]
    pub struct Meters(pub u32);
}

use enumset::EnumSetType;
pub use units::Meters;

/// Axes of space.
#[derive(EnumSetType, Debug)]
#[enumset(no_ops, map = "mask")]
pub enum Axis {
    X = 1,
    Y = 2,
    Z = 4,
}
