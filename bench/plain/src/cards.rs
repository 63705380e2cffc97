//! The card reader (docs/CARDS.md).

use crate::arithmetic::Arithmetic;
use crate::refusal::Refusal;
use crate::sheet::{Kind, Placement, Plan, Row};

/// A refused card: why, and the line and the byte in it, both counted from 1.
#[derive(Clone, Copy, Debug)]
pub struct Fault {
    pub refusal: Refusal,
    pub line: usize,
    pub byte: usize,
}

/// What is wrong in a line, and at which byte.
struct Wrong {
    refusal: Refusal,
    byte: usize,
}

#[derive(Clone, Copy)]
struct Field<'a> {
    text: &'a [u8],
    byte: usize,
}

impl Field<'_> {
    fn wrong(self, refusal: Refusal) -> Wrong {
        Wrong {
            refusal,
            byte: self.byte,
        }
    }
}

/// The fields of a line, one after another.
struct Fields<'a> {
    line: &'a [u8],
    at: usize,
}

impl<'a> Fields<'a> {
    /// The next field, or that it is missing one past the line's end.
    fn wanted(&mut self) -> Result<Field<'a>, Wrong> {
        self.next().ok_or(Wrong {
            refusal: Refusal::BadNumberField,
            byte: self.line.len() + 1,
        })
    }
}

impl<'a> Iterator for Fields<'a> {
    type Item = Field<'a>;

    fn next(&mut self) -> Option<Field<'a>> {
        let rest = &self.line[self.at..];
        let start = rest.iter().position(|byte| *byte != b' ')?;
        let text = &rest[start..];
        let length = text
            .iter()
            .position(|byte| *byte == b' ')
            .unwrap_or(text.len());
        let byte = self.at + start + 1;
        self.at += start + length;
        Some(Field {
            text: &text[..length],
            byte,
        })
    }
}

/// One to six digits.
fn digits(text: &[u8]) -> Option<u32> {
    if text.is_empty() || text.len() > 6 {
        return None;
    }
    let mut number = 0;
    for byte in text {
        let digit = byte.wrapping_sub(b'0');
        if digit > 9 {
            return None;
        }
        number = number * 10 + u32::from(digit);
    }
    Some(number)
}

fn count(field: Field) -> Result<u32, Wrong> {
    digits(field.text).ok_or_else(|| field.wrong(Refusal::BadNumberField))
}

/// A value or a start.
fn figure<N: Arithmetic>(field: Field, may_be_negative: bool) -> Result<N, Wrong> {
    let unsigned = field.text.strip_prefix(b"-").filter(|_| may_be_negative);
    let text = unsigned.unwrap_or(field.text);
    let malformed = || field.wrong(Refusal::BadNumberField);
    let (size, top) = match text.iter().position(|byte| *byte == b'/') {
        None => {
            let top = digits(text).ok_or_else(malformed)?;
            (N::whole(top), top)
        }
        Some(slash) => {
            let top = digits(&text[..slash]).ok_or_else(malformed)?;
            let bottom = N::whole(digits(&text[slash + 1..]).ok_or_else(malformed)?);
            if !bottom.may_divide() {
                return Err(field.wrong(Refusal::ZeroDenominator));
            }
            (N::whole(top).quotient(bottom), top)
        }
    };
    // A minus before zero says nothing.
    Ok(if unsigned.is_some() && top != 0 {
        size.negative()
    } else {
        size
    })
}

/// The card of a line; none where the line is skipped.
fn card<N: Arithmetic>(line: &[u8]) -> Result<Option<Placement<N>>, Wrong> {
    let mut fields = Fields { line, at: 0 };
    let Some(name) = fields.next() else {
        return Ok(None);
    };
    let kind = match name.text[0] {
        b'*' => return Ok(None),
        b'R' => Kind::Resistor,
        b'L' => Kind::Inductor,
        b'C' => Kind::Capacitor,
        b'V' => Kind::VoltageSource,
        b'I' => Kind::CurrentSource,
        _ => return Err(name.wrong(Refusal::NoSuchLetter)),
    };
    let number = count(Field {
        text: &name.text[1..],
        byte: name.byte + 1,
    })?;
    let tail = count(fields.wanted()?)?;
    let head = count(fields.wanted()?)?;
    let value = figure(fields.wanted()?, kind.is_source())?;
    let mut next = fields.next();
    let mut start = N::ZERO;
    if kind.has_start() {
        if let Some(field) = next {
            start = figure(field, true)?;
            next = fields.next();
        }
    }
    if let Some(field) = next {
        return Err(field.wrong(Refusal::FieldLeftOver));
    }
    Ok(Some(Placement {
        number,
        kind: Some(kind),
        tail,
        head,
        value,
        start,
    }))
}

/// Blanks the sheet and places the cards of a text on it, up to the first fault.
pub fn read_cards<N: Arithmetic>(
    input: &[u8],
    plan: &mut Plan,
    rows: &mut [Row<N>],
) -> Result<(), Fault> {
    plan.blank(rows).map_err(|refusal| Fault {
        refusal,
        line: 0,
        byte: 0,
    })?;
    for (n, text) in input.split(|byte| *byte == b'\n').enumerate() {
        let line = n + 1;
        let at = |Wrong { refusal, byte }| Fault {
            refusal,
            line,
            byte,
        };
        if let Some(placement) = card(text).map_err(at)? {
            plan.place(rows, placement).map_err(|refusal| Fault {
                refusal,
                line,
                byte: 1,
            })?;
        }
    }
    Ok(())
}
