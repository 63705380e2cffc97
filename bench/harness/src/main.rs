//! Measures the engine beside plain Rust, its own source compiled by rustc, and ngspice, in one run and by turns.
//! `bench/run` builds it and calls it as
//!
//!     harness KEY STEPS PLAIN STRIPPED COUNT EXAMPLES NAME CARDS NETLIST [NAME CARDS NETLIST]..
//!
//! with the programs `key`, `steps`, `plain` and `stripped`, how many steps are taken, a folder of card files on which
//! the three keys are compared first, and for each circuit its name, its card file and the companion network of one step
//! of it. With `-` for a network nothing is run beside ngspice.

use std::error::Error;
use std::fs::{self, File};
use std::hint::black_box;
use std::process::{Command, Stdio};
use std::time::Instant;

/// Turns of each measurement.
const KEY_TURNS: usize = 401;
const STEP_TURNS: usize = 7;
const PROCESS_TURNS: usize = 101;

/// How long one turn of whole keys takes about, in processor seconds.
const TURN: f64 = 0.002;

extern "C" {
    /// As station/covshurii.h has it.
    fn covshurii_key(
        cards: *const u8,
        cards_length: usize,
        buffer: *mut u8,
        buffer_length: usize,
    ) -> usize;

    /// The C library's, on Linux.
    fn getrusage(who: i32, usage: *mut Usage) -> i32;
}

/// What a process has used: processor time in seconds and microseconds, its own and the system's, and figures that are
/// not read here.
#[repr(C)]
#[derive(Default)]
struct Usage {
    own: [i64; 2],
    system: [i64; 2],
    others: [i64; 14],
}

const THIS_PROCESS: i32 = 0;
const ENDED_PROGRAMS: i32 = -1;

type Answer<T> = Result<T, Box<dyn Error>>;

fn engine_key(cards: &[u8], buffer: &mut [u8]) -> usize {
    // SAFETY: the pointers and lengths are those of two slices that do not overlap.
    unsafe {
        covshurii_key(
            cards.as_ptr(),
            cards.len(),
            buffer.as_mut_ptr(),
            buffer.len(),
        )
    }
}

fn plain_key(cards: &[u8], buffer: &mut [u8]) -> usize {
    let text = plain::key::whole_key(cards);
    buffer[..text.len()].copy_from_slice(text.as_bytes());
    text.len()
}

fn stripped_key(cards: &[u8], buffer: &mut [u8]) -> usize {
    let text = stripped::whole_key(cards);
    let text = text.as_bytes();
    buffer[..text.len()].copy_from_slice(text);
    text.len()
}

/// The engine, plain Rust and the engine's own source: all figures stand in this order.
const KEYS: [fn(&[u8], &mut [u8]) -> usize; 3] = [engine_key, plain_key, stripped_key];

struct Circuit {
    name: String,
    cards: String,
    netlist: String,
}

fn median(mut figures: Vec<f64>) -> f64 {
    figures.sort_by(f64::total_cmp);
    figures[figures.len() / 2]
}

/// Processor seconds used by this process, or by all programs that it ran and that have ended.
fn used_by(who: i32) -> f64 {
    let mut usage = Usage::default();
    // SAFETY: the structure is laid out as the C library's on Linux with 64 bits.
    let failed = unsafe { getrusage(who, &mut usage) };
    assert_eq!(failed, 0, "getrusage failed");
    [usage.own, usage.system]
        .map(|[s, us]| s as f64 + us as f64 * 1e-6)
        .iter()
        .sum()
}

fn load() -> String {
    let load = fs::read_to_string("/proc/loadavg").unwrap_or_default();
    load.split(' ').take(3).collect::<Vec<_>>().join(" ")
}

/// All three make the same key of a card file.
fn compare_keys(cards: &[u8]) -> Answer<()> {
    let texts = KEYS.map(|key| {
        let mut buffer = [0; 8192];
        let length = key(cards, &mut buffer);
        buffer.get(..length).map(<[u8]>::to_vec)
    });
    if texts[0].is_none() || texts.iter().any(|text| *text != texts[0]) {
        return Err(format!("the keys differ: {}", String::from_utf8_lossy(cards)).into());
    }
    Ok(())
}

/// Processor seconds for one whole key in this process.
fn key_times(circuit: &Circuit) -> Answer<[f64; 3]> {
    let cards = fs::read(&circuit.cards)?;
    compare_keys(&cards)?;
    let batch = |key: fn(&[u8], &mut [u8]) -> usize, count: usize| {
        let mut buffer = [0; 8192];
        let before = used_by(THIS_PROCESS);
        for _ in 0..count {
            black_box(key(black_box(&cards), black_box(&mut buffer)));
        }
        (used_by(THIS_PROCESS) - before) / count as f64
    };
    let counts = KEYS.map(|key| {
        batch(key, 100);
        (TURN / batch(key, 100)).ceil() as usize
    });
    let mut times = [const { Vec::new() }; 3];
    for _ in 0..KEY_TURNS {
        for ((times, key), count) in times.iter_mut().zip(KEYS).zip(counts) {
            times.push(batch(key, count));
        }
    }
    Ok(times.map(median))
}

/// Runs a program on a card file; what it prints.
fn output(program: &[&str], input: &str) -> Answer<Vec<u8>> {
    let ran = Command::new(program[0])
        .args(&program[1..])
        .stdin(File::open(input)?)
        .output()?;
    if !ran.status.success() {
        return Err(format!("{program:?} ended with {}", ran.status).into());
    }
    Ok(ran.stdout)
}

/// Runs a program on a file; the seconds on the clock.
fn run_time(program: &[&str], input: &str) -> Answer<f64> {
    let mut command = Command::new(program[0]);
    command
        .args(&program[1..])
        .stdin(File::open(input)?)
        .stdout(Stdio::null())
        .stderr(Stdio::null());
    let begin = Instant::now();
    let status = command.status()?;
    let taken = begin.elapsed().as_secs_f64();
    if !status.success() {
        return Err(format!("{program:?} ended with {status}").into());
    }
    Ok(taken)
}

/// Processor seconds of a program's run on a file.
fn processor_time(program: &[&str], input: &str) -> Answer<f64> {
    Ok(both_times(program, input)?.1)
}

/// Seconds of a program's run on a file: on the clock, and of the processor.
fn both_times(program: &[&str], input: &str) -> Answer<(f64, f64)> {
    let before = used_by(ENDED_PROGRAMS);
    let clock = run_time(program, input)?;
    Ok((clock, used_by(ENDED_PROGRAMS) - before))
}

/// Processor seconds for one step by each program, named with the words before the number of steps. Each turn is many
/// steps less none, in a process.
fn step_times(programs: [&[&str]; 3], count: &str, circuit: &Circuit) -> Answer<[f64; 3]> {
    let none = programs.map(|program| [program, &["0"]].concat());
    let all = programs.map(|program| [program, &[count]].concat());
    let figures = output(&all[0], &circuit.cards)?;
    for program in &all {
        if output(program, &circuit.cards)? != figures {
            return Err("the figures after the steps differ".into());
        }
    }
    let many: f64 = count.parse()?;
    let mut times = [const { Vec::new() }; 3];
    for _ in 0..STEP_TURNS {
        for (times, (none, all)) in times.iter_mut().zip(none.iter().zip(&all)) {
            let none = processor_time(none, &circuit.cards)?;
            times.push((processor_time(all, &circuit.cards)? - none) / many);
        }
    }
    Ok(times.map(median))
}

/// Seconds for a run of `key` and for one of ngspice: on the clock, and of the processor.
fn process_times(key: &str, circuit: &Circuit) -> Answer<[(f64, f64); 2]> {
    let (mut ours, mut theirs) = (Vec::new(), Vec::new());
    for _ in 0..PROCESS_TURNS {
        ours.push(both_times(&[key], &circuit.cards)?);
        theirs.push(both_times(
            &["ngspice", "-b", &circuit.netlist],
            "/dev/null",
        )?);
    }
    Ok([ours, theirs].map(|times| {
        let (clock, processor) = times.into_iter().unzip();
        (median(clock), median(processor))
    }))
}

fn main() -> Answer<()> {
    let words: Vec<String> = std::env::args().skip(1).collect();
    let [key, steps, plain, stripped, count, examples, rest @ ..] = &words[..] else {
        return Err(
            "usage: harness KEY STEPS PLAIN STRIPPED COUNT EXAMPLES NAME CARDS NETLIST ..".into(),
        );
    };
    let circuits: Vec<Circuit> = rest
        .chunks_exact(3)
        .map(|words| Circuit {
            name: words[0].clone(),
            cards: words[1].clone(),
            netlist: words[2].clone(),
        })
        .collect();
    let mut compared = 0;
    for file in fs::read_dir(examples)? {
        compare_keys(&fs::read(file?.path())?)?;
        compared += 1;
    }
    println!("{compared} examples, no difference");
    println!("load of the machine before: {}", load());
    println!("\nprocessor microseconds       engine      plain   stripped   engine / plain   engine / stripped");
    let mut in_process = Vec::new();
    for circuit in &circuits {
        let times = key_times(circuit)?;
        in_process.push(times[0]);
        line_of_three("whole key", circuit, times);
    }
    let programs: [&[&str]; 3] = [&[steps], &[plain, "steps"], &[stripped, "steps"]];
    for circuit in &circuits {
        line_of_three("one step", circuit, step_times(programs, count, circuit)?);
    }
    if circuits.iter().any(|circuit| circuit.netlist == "-") {
        println!("\nload of the machine after: {}", load());
        return Ok(());
    }
    println!("\nmilliseconds of a run           key    ngspice    ngspice / key");
    let mut runs = Vec::new();
    for circuit in &circuits {
        let [ours, theirs] = process_times(key, circuit)?;
        line(
            "on the clock",
            circuit,
            ours.0 * 1e3,
            theirs.0 * 1e3,
            theirs.0 / ours.0,
        );
        line(
            "processor",
            circuit,
            ours.1 * 1e3,
            theirs.1 * 1e3,
            theirs.1 / ours.1,
        );
        runs.push(theirs.1);
    }
    println!("\nprocessor time of a run of ngspice / of a whole key in process");
    for (circuit, (run, whole)) in circuits.iter().zip(runs.iter().zip(in_process)) {
        println!(
            "             {:>3} branches {:>9.0}",
            circuit.name,
            run / whole
        );
    }
    println!("\nload of the machine after: {}", load());
    Ok(())
}

fn line(what: &str, circuit: &Circuit, engine: f64, plain: f64, ratio: f64) {
    println!(
        "{what:<12} {:>3} branches {engine:>9.2}  {plain:>9.2}  {ratio:>15.2}",
        circuit.name
    );
}

fn line_of_three(what: &str, circuit: &Circuit, times: [f64; 3]) {
    let [engine, plain, stripped] = times.map(|time| time * 1e6);
    println!(
        "{what:<12} {:>3} branches {engine:>9.2}  {plain:>9.2}  {stripped:>9.2}  {:>15.2}  {:>18.2}",
        circuit.name,
        engine / plain,
        engine / stripped
    );
}
