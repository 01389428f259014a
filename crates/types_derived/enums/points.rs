//! The points of a compass, which are read from their names and written as these.

use enumset::EnumSetType;

/// A point of a compass.
#[derive(EnumSetType, Debug)]
#[enumset(no_ops, display, parse)]
pub enum Point {
    North,
    NorthNorthEast,
    NorthEast,
    EastNorthEast,
    East,
    EastSouthEast,
    SouthEast,
    SouthSouthEast,
    South,
    SouthSouthWest,
    SouthWest,
    WestSouthWest,
    West,
    WestNorthWest,
    NorthWest,
    NorthNorthWest,
}
