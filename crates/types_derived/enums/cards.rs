use enumset::{self, EnumSet, EnumSetType};
use crate::days::Day;

/// Suits of cards.
#[derive(PartialOrd, EnumSetType, Ord, Debug, Hash)]
#[enumset(no_ops)]
pub enum Suit { Clubs, Diamonds, Hearts, Spades }

/// On which day which suit is played.
pub fn suits(day: Day) -> EnumSet<Suit> {
    match day {
        Day::Monday => EnumSet::all(),
        _ => EnumSet::empty(),
    }
}
