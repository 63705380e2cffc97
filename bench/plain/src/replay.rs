//! Replays a stream of files and stories (reference/README.md) and compares keys, answers, rows and readings. Slips and
//! traces are left out: they are no part of this program.

use crate::arithmetic::{remainder_of, Arithmetic};
use crate::key::{reading_of, whole_key};
use crate::refusal::Refusal;
use crate::sheet::{fresh_rows, Kind, Placement, Plan, Row};
use crate::step::step;

/// A figure as a stream writes it.
trait Figure: Arithmetic {
    fn read(word: &str) -> Option<Self>;
    fn show(self) -> String;
}

impl Figure for f64 {
    fn read(word: &str) -> Option<f64> {
        u64::from_str_radix(word, 16).ok().map(f64::from_bits)
    }

    fn show(self) -> String {
        format!("{:016x}", self.to_bits())
    }
}

impl Figure for u16 {
    fn read(word: &str) -> Option<u16> {
        u16::from_str_radix(word, 16).ok()
    }

    fn show(self) -> String {
        format!("{:04x}", remainder_of(self))
    }
}

struct Stream<'a> {
    rest: &'a [u8],
    lines: usize,
}

impl<'a> Stream<'a> {
    fn bytes(&mut self, length: usize) -> Option<&'a [u8]> {
        let (bytes, rest) = self.rest.split_at_checked(length)?;
        self.rest = rest.strip_prefix(b"\n")?;
        self.lines += 1 + bytes.iter().filter(|byte| **byte == b'\n').count();
        Some(bytes)
    }

    fn peek(&self) -> Option<&'a str> {
        let end = self.rest.iter().position(|byte| *byte == b'\n')?;
        std::str::from_utf8(&self.rest[..end]).ok()
    }

    fn line(&mut self) -> Option<&'a str> {
        let line = self.peek()?;
        self.rest = &self.rest[line.len() + 1..];
        self.lines += 1;
        Some(line)
    }
}

fn answer(result: Result<(), Refusal>) -> String {
    match result {
        Ok(()) => "ok".to_string(),
        Err(refusal) => match refusal.shown() {
            None => format!("refused {}", refusal.number()),
            Some(shown) => format!(
                "refused {} {:08x} {:08x}",
                refusal.number(),
                shown.members,
                shown.against
            ),
        },
    }
}

fn same(expected: &str, found: &str) -> Result<(), String> {
    if expected == found {
        Ok(())
    } else {
        Err(format!("expected {expected:?}, found {found:?}"))
    }
}

fn number(word: Option<&str>) -> Option<u32> {
    word?.parse().ok()
}

/// One call on the sheet; none where the line is malformed.
fn call<N: Figure>(line: &str, plan: &mut Plan, own: &mut [Row<N>]) -> Option<Result<(), Refusal>> {
    let mut words = line.split(' ');
    let name = words.next()?;
    let length = number(words.next())? as usize;
    let mut lent = vec![Row::ZERO; length];
    let rows = if length == 32 { own } else { &mut lent[..] };
    let mut next = || number(words.next());
    Some(match name {
        "blank" => plan.blank(rows),
        "lift" => plan.lift(rows, next()?),
        "place" => {
            let (number, kind, tail, head) = (next()?, next()?, next()?, next()?);
            let (value, start) = (N::read(words.next()?)?, N::read(words.next()?)?);
            let kind = Kind::of_number(kind);
            plan.place(
                rows,
                Placement {
                    number,
                    kind,
                    tail,
                    head,
                    value,
                    start,
                },
            )
        }
        "set" => {
            let number = next()?;
            plan.set(rows, number, N::read(words.next()?)?)
        }
        "step" => {
            let area = next()? as usize;
            let h = N::read(words.next()?)?;
            step(plan, rows, h, &mut vec![N::ONE; area])
        }
        _ => return None,
    })
}

fn story<N: Figure>(
    stream: &mut Stream,
    reading: impl Fn(N) -> Option<String>,
) -> Result<(), String> {
    let (mut plan, mut rows) = (Plan::EMPTY, fresh_rows::<N>());
    while let Some(line) = stream.peek() {
        let name = line.split(' ').next().unwrap_or("");
        if matches!(name, "file" | "story" | "end") {
            return Ok(());
        }
        stream.line();
        match name {
            "slip" | "trace" => continue,
            "reading" => {
                let k = line
                    .split(' ')
                    .nth(1)
                    .and_then(|word| word.parse::<usize>().ok())
                    .ok_or("malformed")?;
                let found = reading(rows[k].voltage).ok_or("a reading in remainders")?;
                same(line, &format!("reading {k} {found}"))?;
                continue;
            }
            _ => {}
        }
        let found = call(line, &mut plan, &mut rows).ok_or("malformed call")?;
        same(stream.line().ok_or("no answer")?, &answer(found))?;
        if name == "step" {
            for (k, row) in rows.iter().enumerate() {
                if plan.branches[k].is_some() {
                    let found = format!("row {k} {} {}", row.current.show(), row.voltage.show());
                    same(stream.line().ok_or("no row")?, &found)?;
                }
            }
        }
    }
    Err("no end".to_string())
}

fn replay(stream: &mut Stream) -> Result<(u32, u32), String> {
    let (mut files, mut stories) = (0, 0);
    loop {
        let line = stream.line().ok_or("no end")?;
        let mut words = line.split(' ');
        match (words.next(), words.next()) {
            (Some("end"), None) => return Ok((files, stories)),
            (Some("file"), length) => {
                let length = number(length).ok_or("malformed")? as usize;
                let file = stream.bytes(length).ok_or("cut off")?;
                let length = stream
                    .line()
                    .and_then(|line| number(line.strip_prefix("key ")))
                    .ok_or("no key")?;
                let key = stream.bytes(length as usize).ok_or("cut off")?;
                same(&String::from_utf8_lossy(key), &whole_key(file))?;
                files += 1;
            }
            (Some("story"), Some("f64")) => {
                story::<f64>(stream, |voltage| {
                    Some(match reading_of(voltage) {
                        Ok(reading) => reading.to_string(),
                        Err(refusal) => answer(Err(refusal)),
                    })
                })?;
                stories += 1;
            }
            (Some("story"), Some("res")) => {
                story::<u16>(stream, |_| None)?;
                stories += 1;
            }
            _ => return Err(format!("malformed part {line:?}")),
        }
    }
}

/// What a replay comes to, and whether it found no difference.
pub fn check(stream: &[u8]) -> (String, bool) {
    let mut stream = Stream {
        rest: stream,
        lines: 0,
    };
    match replay(&mut stream) {
        Ok((files, stories)) => (
            format!("{files} files, {stories} stories, no difference"),
            true,
        ),
        Err(stop) => (format!("line {}: {stop}", stream.lines), false),
    }
}
