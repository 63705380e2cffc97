//! plain key < CARDS        prints the whole key
//! plain steps N < CARDS    steps the cards N times with length 1 and prints what crates/steps prints
//! plain check < STREAM     replays a stream of the reference

use plain::cards::read_cards;
use plain::key::whole_key;
use plain::replay::check;
use plain::sheet::{fresh_rows, Plan};
use plain::step::{step, AREA};
use std::io::{self, Read, Write};
use std::process::ExitCode;

fn steps(count: u32, cards: &[u8]) -> String {
    let (mut plan, mut rows) = (Plan::EMPTY, fresh_rows::<f64>());
    if let Err(fault) = read_cards(cards, &mut plan, &mut rows) {
        return format!(
            "refused {} line {} byte {}\n",
            fault.refusal.number(),
            fault.line,
            fault.byte
        );
    }
    let mut area = [0.0; AREA];
    for _ in 0..count {
        if let Err(refusal) = step(&plan, &mut rows, 1.0, &mut area) {
            return format!("refused {}\n", refusal.number());
        }
    }
    let mut text = String::new();
    for (k, row) in rows.iter().enumerate() {
        if plan.branches[k].is_some() {
            text += &format!(
                "row {k} {:016x} {:016x}\n",
                row.current.to_bits(),
                row.voltage.to_bits()
            );
        }
    }
    text
}

fn main() -> io::Result<ExitCode> {
    let words: Vec<String> = std::env::args().skip(1).collect();
    let words: Vec<&str> = words.iter().map(String::as_str).collect();
    let mut input = Vec::new();
    io::stdin().read_to_end(&mut input)?;
    let (text, is_well) = match words[..] {
        ["key"] => (whole_key(&input), true),
        ["check"] => {
            let (told, is_well) = check(&input);
            (told + "\n", is_well)
        }
        ["steps", count] => match count.parse() {
            Ok(count) => (steps(count, &input), true),
            Err(_) => ("steps takes a number\n".to_string(), false),
        },
        _ => ("usage: plain key|steps N|check < FILE\n".to_string(), false),
    };
    io::stdout().write_all(text.as_bytes())?;
    Ok(if is_well {
        ExitCode::SUCCESS
    } else {
        ExitCode::FAILURE
    })
}
