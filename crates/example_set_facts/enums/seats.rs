use enumset::EnumSetType;

/// A seat of a town council.
#[derive(EnumSetType, Debug)]
#[enumset(no_ops)]
pub enum Seat {
    Chair,
    Deputy,
    Secretary,
    Treasurer,
    Schools,
    Housing,
    Health,
    Roads,
    Parks,
    Libraries,
    Water,
    Markets,
}
