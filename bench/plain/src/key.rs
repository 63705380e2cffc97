//! Readings (docs/READINGS_AND_TRACES.md) and the printed whole key (docs/PRINTED_KEY.md).

use crate::arithmetic::{remainder_of, Arithmetic};
use crate::cards::{read_cards, Fault};
use crate::graph::Network;
use crate::refusal::{Refusal, Shown};
use crate::sheet::{fresh_rows, Plan, Row, PLACES};
use crate::step::{step, AREA};
use crate::words::{has, Members};

/// The longest input, in bytes.
pub const LONGEST: usize = 4096;

/// A voltage in whole thousandths, halves away from zero.
pub fn reading_of(voltage: f64) -> Result<i32, Refusal> {
    let thousandths = (voltage * 1000.0).round();
    // Nothing holds of a NaN.
    if thousandths.abs() < 1e9 {
        Ok(thousandths as i32)
    } else {
        Err(Refusal::ReadingOutOfRange)
    }
}

/// Text of words and decimal numbers.
struct Text(String);

impl Text {
    fn word(&mut self, word: &str) {
        self.0.push_str(word);
    }

    fn number(&mut self, mut n: u32) {
        let mut digits = [0; 10];
        let mut at = digits.len();
        loop {
            at -= 1;
            digits[at] = b'0' + (n % 10) as u8;
            n /= 10;
            if n == 0 {
                break;
            }
        }
        self.0
            .extend(digits[at..].iter().map(|digit| char::from(*digit)));
    }

    fn named(&mut self, name: &str, k: usize) {
        self.word(name);
        self.number(k as u32);
    }

    fn signed(&mut self, row: Shown) {
        for k in Members(row.members) {
            self.named(if has(row.against, k) { " -" } else { " +" }, k);
        }
    }

    fn refusal(&mut self, refusal: Refusal) {
        self.named("refused ", refusal.number() as usize);
        if let Some(shown) = refusal.shown() {
            self.signed(shown);
        }
    }

    fn stop(&mut self, stop: Stop) {
        match stop {
            Stop::Refused(refusal) => self.refusal(refusal),
            Stop::Faulty(Fault {
                refusal,
                line,
                byte,
            }) => {
                self.refusal(refusal);
                self.named(" line ", line);
                self.named(" byte ", byte);
            }
        }
        self.word("\n");
    }

    /// The lines of the tree, the loops and the cuts.
    fn network(&mut self, network: &Network) {
        self.word("tree");
        for t in Members(network.tree) {
            self.named(" ", t);
        }
        for (name, word) in [("\nloop ", network.links), ("\ncut ", network.tree)] {
            for k in Members(word) {
                self.named(name, k);
                self.signed(network.rows[k]);
            }
        }
        self.word("\n");
    }

    fn readings(&mut self, readings: &[Option<i32>; PLACES]) {
        for (k, reading) in readings.iter().enumerate() {
            if let Some(reading) = *reading {
                self.named("mv ", k);
                self.word(if reading < 0 { " -" } else { " " });
                self.number(reading.unsigned_abs());
                self.word("\n");
            }
        }
    }

    fn residues(&mut self, plan: &Plan, rows: &[Row<u16>; PLACES]) {
        for (k, row) in rows.iter().enumerate() {
            if plan.branches[k].is_some() {
                self.named("res ", k);
                self.named(" ", remainder_of(row.current).into());
                self.named(" ", remainder_of(row.voltage).into());
                self.word("\n");
            }
        }
    }
}

/// What stands in the way of a block of lines.
enum Stop {
    Refused(Refusal),
    Faulty(Fault),
}

impl From<Refusal> for Stop {
    fn from(refusal: Refusal) -> Stop {
        Stop::Refused(refusal)
    }
}

impl From<Fault> for Stop {
    fn from(fault: Fault) -> Stop {
        Stop::Faulty(fault)
    }
}

fn push_network(
    text: &mut Text,
    input: &[u8],
    plan: &mut Plan,
    rows: &mut [Row<f64>; PLACES],
) -> Result<(), Stop> {
    if input.len() > LONGEST {
        return Err(Refusal::InputTooLong.into());
    }
    read_cards(input, plan, rows)?;
    text.network(&Network::of(plan)?);
    Ok(())
}

fn push_readings(text: &mut Text, plan: &Plan, rows: &mut [Row<f64>; PLACES]) -> Result<(), Stop> {
    step(plan, rows, f64::ONE, &mut [0.0; AREA])?;
    let mut readings = [None; PLACES];
    for (k, reading) in readings.iter_mut().enumerate() {
        if plan.branches[k].is_some() {
            *reading = Some(reading_of(rows[k].voltage)?);
        }
    }
    text.readings(&readings);
    Ok(())
}

fn push_residues(text: &mut Text, input: &[u8]) -> Result<(), Stop> {
    let (mut plan, mut rows) = (Plan::EMPTY, fresh_rows::<u16>());
    read_cards(input, &mut plan, &mut rows)?;
    step(&plan, &mut rows, u16::ONE, &mut [0; AREA])?;
    text.residues(&plan, &rows);
    Ok(())
}

/// The whole key of a card file.
pub fn whole_key(input: &[u8]) -> String {
    let mut text = Text(String::with_capacity(4096));
    let (mut plan, mut rows) = (Plan::EMPTY, fresh_rows());
    if let Err(stop) = push_network(&mut text, input, &mut plan, &mut rows) {
        text.stop(stop);
        return text.0;
    }
    if let Err(stop) = push_readings(&mut text, &plan, &mut rows) {
        text.stop(stop);
    }
    if let Err(stop) = push_residues(&mut text, input) {
        text.stop(stop);
    }
    text.0
}
