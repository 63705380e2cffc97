//! Refusals (docs/REFUSALS.md), and the loops and cuts that some of them show.

/// A loop, a cut or a row: its members, and those of them with a minus.
#[derive(Clone, Copy, Debug, Default, PartialEq, Eq)]
pub struct Shown {
    pub members: u32,
    pub against: u32,
}

#[derive(Clone, Copy, Debug, PartialEq, Eq)]
pub enum Refusal {
    WrongLength,
    NoSuchPlace,
    PlaceTaken,
    PlaceEmpty,
    NoSuchKind,
    NoSuchNode,
    EndsMeet,
    BadValue,
    BadStart,
    NotASource,
    BadStepLength,
    VoltageLoop(Shown),
    CurrentCut(Shown),
    NoPivot,
    UnsoundResult,
    ReadingOutOfRange,
    NoSuchLetter,
    BadNumberField,
    ZeroDenominator,
    FieldLeftOver,
    InputTooLong,
}

impl Refusal {
    pub fn number(self) -> u32 {
        match self {
            Refusal::WrongLength => 1,
            Refusal::NoSuchPlace => 2,
            Refusal::PlaceTaken => 3,
            Refusal::PlaceEmpty => 4,
            Refusal::NoSuchKind => 5,
            Refusal::NoSuchNode => 6,
            Refusal::EndsMeet => 7,
            Refusal::BadValue => 8,
            Refusal::BadStart => 9,
            Refusal::NotASource => 10,
            Refusal::BadStepLength => 11,
            Refusal::VoltageLoop(_) => 12,
            Refusal::CurrentCut(_) => 13,
            Refusal::NoPivot => 14,
            Refusal::UnsoundResult => 15,
            Refusal::ReadingOutOfRange => 18,
            Refusal::NoSuchLetter => 21,
            Refusal::BadNumberField => 22,
            Refusal::ZeroDenominator => 23,
            Refusal::FieldLeftOver => 24,
            Refusal::InputTooLong => 25,
        }
    }

    pub fn shown(self) -> Option<Shown> {
        match self {
            Refusal::VoltageLoop(shown) | Refusal::CurrentCut(shown) => Some(shown),
            _ => None,
        }
    }
}
