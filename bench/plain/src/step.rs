//! One time step (docs/STEP.md) with its linear system (docs/LINEAR.md). Every sum takes its terms in the stated order.

use crate::arithmetic::Arithmetic;
use crate::graph::Network;
use crate::refusal::{Refusal, Shown};
use crate::sheet::{Kind, Plan, Row, PLACES};
use crate::words::{has, Members};

/// The places of a work area that a step uses.
pub const AREA: usize = 304;

const MOST_UNKNOWNS: usize = 15;
const COLUMNS: usize = 16;

type System<N> = [[N; COLUMNS]; MOST_UNKNOWNS];

/// The parts of the work area: conductances and offsets by place, and the system.
struct Parts<'a, N> {
    conductances: &'a mut [N; PLACES],
    offsets: &'a mut [N; PLACES],
    system: &'a mut System<N>,
}

impl<N> Parts<'_, N> {
    fn of(area: &mut [N; AREA]) -> Option<Parts<'_, N>> {
        let (conductances, rest) = area.split_first_chunk_mut()?;
        let (offsets, rest) = rest.split_first_chunk_mut()?;
        let (rows, _) = rest.as_chunks_mut();
        Some(Parts {
            conductances,
            offsets,
            system: rows.first_chunk_mut()?,
        })
    }
}

/// The sum goes on with the terms of a word's members, added or, where the sign is a minus, subtracted.
fn gather<N: Arithmetic>(start: N, members: u32, minus: u32, term: impl Fn(usize) -> N) -> N {
    Members(members).fold(start, |sum, k| {
        if has(minus, k) {
            sum.difference(term(k))
        } else {
            sum.sum(term(k))
        }
    })
}

/// Where two rows both have entries: equal ones, but for those opposite.
fn agreement(a: Shown, b: Shown) -> Shown {
    Shown {
        members: a.members & b.members,
        against: a.against ^ b.against,
    }
}

/// Solves the system of n unknowns in place; false where a column has no pivot.
fn solve<N: Arithmetic>(system: &mut System<N>, n: usize) -> bool {
    for column in 0..n {
        let Some(pivot) = (column..n).find(|r| system[*r][column].may_divide()) else {
            return false;
        };
        system.swap(column, pivot);
        let (above, below) = system.split_at_mut(column + 1);
        let upper = &above[column][column..=n];
        for row in &mut below[..n - column - 1] {
            let lower = &mut row[column..=n];
            let factor = lower[0].quotient(upper[0]);
            for (entry, lost) in lower.iter_mut().zip(upper) {
                *entry = entry.difference(factor.product(*lost));
            }
        }
    }
    for r in (0..n).rev() {
        let mut right = system[r][n];
        for column in r + 1..n {
            right = right.difference(system[r][column].product(system[column][n]));
        }
        system[r][n] = right.quotient(system[r][r]);
    }
    true
}

fn advance<N: Arithmetic>(
    plan: &Plan,
    rows: &mut [Row<N>; PLACES],
    network: &Network,
    h: N,
    parts: Parts<N>,
) -> Result<(), Refusal> {
    let Parts {
        conductances,
        offsets,
        system,
    } = parts;
    let mut passive = 0;
    let mut voltage_sources = 0;
    for (k, branch) in plan.branches.iter().enumerate() {
        let Some(branch) = branch else { continue };
        let row = &rows[k];
        let (conductance, offset) = match branch.kind {
            Kind::Resistor => (N::ONE.quotient(row.value), N::ZERO),
            Kind::Inductor => (h.quotient(row.value), row.current),
            Kind::Capacitor => {
                let conductance = row.value.quotient(h);
                (conductance, conductance.product(row.voltage).negative())
            }
            Kind::CurrentSource => {
                offsets[k] = row.value;
                continue;
            }
            Kind::VoltageSource => {
                voltage_sources |= 1 << k;
                continue;
            }
        };
        conductances[k] = conductance;
        offsets[k] = offset;
        passive |= 1 << k;
    }
    let placed = network.tree | network.links;
    let unknowns = network.tree & !voltage_sources;
    let n = unknowns.count_ones() as usize;

    for (entries, t) in system.iter_mut().zip(Members(unknowns)) {
        let cut = network.rows[t];
        for (entry, r) in entries.iter_mut().zip(Members(unknowns)) {
            let both = agreement(cut, network.rows[r]);
            *entry = gather(N::ZERO, both.members & passive, both.against, |k| {
                conductances[k]
            });
        }
        let mut right = gather(N::ZERO, cut.members & !voltage_sources, !cut.against, |k| {
            offsets[k]
        });
        for v in Members(voltage_sources) {
            let both = agreement(cut, network.rows[v]);
            let level = rows[v].value;
            right = gather(right, both.members & passive, !both.against, |k| {
                conductances[k].product(level)
            });
        }
        entries[n] = right;
    }
    if !solve(system, n) {
        return Err(Refusal::NoPivot);
    }

    let mut voltages = [N::ZERO; PLACES];
    let mut currents = [N::ZERO; PLACES];
    for v in Members(voltage_sources) {
        voltages[v] = rows[v].value;
    }
    for (entries, t) in system.iter().zip(Members(unknowns)) {
        voltages[t] = entries[n];
    }
    for k in Members(network.links) {
        // The loop row of a link has its entries in the cut rows, with the other sign.
        let row = network.rows[k];
        voltages[k] = gather(N::ZERO, row.members & network.tree, !row.against, |t| {
            voltages[t]
        });
    }
    for k in Members(placed & !voltage_sources) {
        currents[k] = if has(passive, k) {
            conductances[k].product(voltages[k]).sum(offsets[k])
        } else {
            rows[k].value
        };
    }
    for v in Members(voltage_sources) {
        let cut = network.rows[v];
        currents[v] = gather(N::ZERO, cut.members & network.links, !cut.against, |k| {
            currents[k]
        });
    }
    if Members(placed).any(|k| !currents[k].is_sound() || !voltages[k].is_sound()) {
        return Err(Refusal::UnsoundResult);
    }
    for k in Members(placed) {
        rows[k].current = currents[k];
        rows[k].voltage = voltages[k];
    }
    Ok(())
}

/// Moves a sheet on by one time step of length h.
pub fn step<N: Arithmetic>(
    plan: &Plan,
    rows: &mut [Row<N>],
    h: N,
    work: &mut [N],
) -> Result<(), Refusal> {
    let rows = rows.try_into().map_err(|_| Refusal::WrongLength)?;
    let area = work.first_chunk_mut::<AREA>().ok_or(Refusal::WrongLength)?;
    if !h.is_sound() || !h.may_divide() {
        return Err(Refusal::BadStepLength);
    }
    let network = Network::of(plan)?;
    area.fill(N::ZERO);
    let parts = Parts::of(area).ok_or(Refusal::WrongLength)?;
    let answer = advance(plan, rows, &network, h, parts);
    area.fill(N::ZERO);
    answer
}
