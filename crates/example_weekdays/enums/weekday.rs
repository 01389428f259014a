//! The days of the week.
use enumset::EnumSetType;

/// A day of the week, on bits 0 to 6.
#[derive(EnumSetType, Debug)]
#[enumset(no_ops, serialize_repr = "list")]
pub enum Weekday {
    Monday,
    Tuesday,
    Wednesday,
    Thursday,
    Friday,
    Saturday,
    Sunday,
}
