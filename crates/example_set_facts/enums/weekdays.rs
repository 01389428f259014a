use enumset::EnumSetType;

/// A day of the week.
#[derive(EnumSetType, Debug)]
pub enum Weekday {
    Monday,
    Tuesday,
    Wednesday,
    Thursday,
    Friday,
    Saturday,
    Sunday,
}
