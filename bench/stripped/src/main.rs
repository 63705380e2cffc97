//! stripped key < CARDS        prints the whole key
//! stripped steps N < CARDS    does what crates/steps does: its source reads and prints through Rattle's library

use arithmetic::Arithmetic;
use cards::read_cards;
use sheet::{fresh_rows, Plan, Refusal, Row};
use std::io::{self, Read, Write};
use std::process::ExitCode;
use stepping::step;

fn take_steps(plan: &Plan, rows: &mut [Row<f64>], steps: u32) -> Result<(), Refusal> {
    let mut work = [<f64 as Arithmetic>::zero(); 304];
    for _ in 0..steps {
        step::<f64>(plan, rows, <f64 as Arithmetic>::one(), &mut work)?;
    }
    Ok(())
}

fn shown_rows(plan: &Plan, rows: &[Row<f64>]) -> String {
    let looks = (0..32).filter_map(|k| plan.look::<f64>(rows, k).map(|look| (k, look)));
    looks
        .map(|(k, look)| {
            let (current, voltage) = (look.current.to_bits(), look.voltage.to_bits());
            format!("row {k} {current:016x} {voltage:016x}\n")
        })
        .collect()
}

fn steps(count: u32, cards: &[u8]) -> String {
    let (mut plan, mut rows) = (Plan::empty(), fresh_rows::<f64>());
    if let Err(fault) = read_cards(cards, &mut plan, &mut rows) {
        return format!(
            "refused {} line {} byte {}\n",
            fault.refusal.number(),
            fault.line,
            fault.byte
        );
    }
    match take_steps(&plan, &mut rows, count) {
        Ok(()) => shown_rows(&plan, &rows),
        Err(refusal) => format!("refused {}\n", refusal.number()),
    }
}

fn main() -> io::Result<ExitCode> {
    let words: Vec<String> = std::env::args().skip(1).collect();
    let words: Vec<&str> = words.iter().map(String::as_str).collect();
    let mut cards = Vec::new();
    io::stdin().read_to_end(&mut cards)?;
    let text = match words[..] {
        ["key"] => stripped::whole_key(&cards).as_bytes().to_vec(),
        ["steps", count] if count.parse::<u32>().is_ok() => {
            steps(count.parse().unwrap_or(0), &cards).into_bytes()
        }
        _ => b"usage: stripped key|steps N < FILE\n".to_vec(),
    };
    io::stdout().write_all(&text)?;
    Ok(ExitCode::SUCCESS)
}
