//! The sheet: a plan of branches, a row table that the caller lends, and the calls on them (docs/SHEET.md).

use crate::arithmetic::Arithmetic;
use crate::refusal::Refusal;

pub const PLACES: usize = 32;
pub const NODES: usize = 16;

#[derive(Clone, Copy, Debug, PartialEq, Eq)]
pub enum Kind {
    Resistor,
    Inductor,
    Capacitor,
    VoltageSource,
    CurrentSource,
}

impl Kind {
    pub fn of_number(number: u32) -> Option<Kind> {
        Some(match number {
            1 => Kind::Resistor,
            2 => Kind::Inductor,
            3 => Kind::Capacitor,
            4 => Kind::VoltageSource,
            5 => Kind::CurrentSource,
            _ => return None,
        })
    }

    pub fn is_source(self) -> bool {
        matches!(self, Kind::VoltageSource | Kind::CurrentSource)
    }

    /// A start may be given.
    pub fn has_start(self) -> bool {
        matches!(self, Kind::Inductor | Kind::Capacitor)
    }
}

#[derive(Clone, Copy, Debug)]
pub struct Branch {
    pub kind: Kind,
    pub tail: u8,
    pub head: u8,
}

#[derive(Clone, Copy)]
pub struct Row<N> {
    pub value: N,
    pub start: N,
    pub current: N,
    pub voltage: N,
}

impl<N: Arithmetic> Row<N> {
    pub const ZERO: Row<N> = Row {
        value: N::ZERO,
        start: N::ZERO,
        current: N::ZERO,
        voltage: N::ZERO,
    };
}

pub fn fresh_rows<N: Arithmetic>() -> [Row<N>; PLACES] {
    [Row::ZERO; PLACES]
}

/// What `place` is handed.
#[derive(Clone, Copy)]
pub struct Placement<N> {
    pub number: u32,
    pub kind: Option<Kind>,
    pub tail: u32,
    pub head: u32,
    pub value: N,
    pub start: N,
}

fn table<N>(rows: &mut [Row<N>]) -> Result<&mut [Row<N>; PLACES], Refusal> {
    rows.try_into().map_err(|_| Refusal::WrongLength)
}

fn place_of(number: u32) -> Result<usize, Refusal> {
    if number < 32 {
        Ok(number as usize)
    } else {
        Err(Refusal::NoSuchPlace)
    }
}

#[derive(Clone)]
pub struct Plan {
    pub branches: [Option<Branch>; PLACES],
}

impl Plan {
    pub const EMPTY: Plan = Plan {
        branches: [None; PLACES],
    };

    pub fn blank<N: Arithmetic>(&mut self, rows: &mut [Row<N>]) -> Result<(), Refusal> {
        *table(rows)? = fresh_rows();
        *self = Plan::EMPTY;
        Ok(())
    }

    pub fn place<N: Arithmetic>(
        &mut self,
        rows: &mut [Row<N>],
        placement: Placement<N>,
    ) -> Result<(), Refusal> {
        let rows = table(rows)?;
        let k = place_of(placement.number)?;
        if self.branches[k].is_some() {
            return Err(Refusal::PlaceTaken);
        }
        let Placement {
            tail,
            head,
            value,
            start,
            ..
        } = placement;
        let kind = placement.kind.ok_or(Refusal::NoSuchKind)?;
        if tail > 15 || head > 15 {
            return Err(Refusal::NoSuchNode);
        }
        if tail == head {
            return Err(Refusal::EndsMeet);
        }
        if !value.is_sound() || !kind.is_source() && !value.may_divide() {
            return Err(Refusal::BadValue);
        }
        if !start.is_sound() || !kind.has_start() && !start.is_zero() {
            return Err(Refusal::BadStart);
        }
        self.branches[k] = Some(Branch {
            kind,
            tail: tail as u8,
            head: head as u8,
        });
        rows[k] = Row {
            value,
            start,
            current: if kind == Kind::Inductor {
                start
            } else {
                N::ZERO
            },
            voltage: if kind == Kind::Capacitor {
                start
            } else {
                N::ZERO
            },
        };
        Ok(())
    }

    pub fn lift<N: Arithmetic>(&mut self, rows: &mut [Row<N>], number: u32) -> Result<(), Refusal> {
        let rows = table(rows)?;
        let k = place_of(number)?;
        self.branches[k].take().ok_or(Refusal::PlaceEmpty)?;
        rows[k] = Row::ZERO;
        Ok(())
    }

    pub fn set<N: Arithmetic>(
        &self,
        rows: &mut [Row<N>],
        number: u32,
        value: N,
    ) -> Result<(), Refusal> {
        let rows = table(rows)?;
        let k = place_of(number)?;
        let branch = self.branches[k].ok_or(Refusal::PlaceEmpty)?;
        if !branch.kind.is_source() {
            return Err(Refusal::NotASource);
        }
        if !value.is_sound() {
            return Err(Refusal::BadValue);
        }
        rows[k].value = value;
        Ok(())
    }

    /// The word of the branches whose kind passes.
    pub fn word_where(&self, passes: impl Fn(Kind) -> bool) -> u32 {
        let mut word = 0;
        for (k, branch) in self.branches.iter().enumerate() {
            if branch.is_some_and(|branch| passes(branch.kind)) {
                word |= 1 << k;
            }
        }
        word
    }
}
