//! Formatting that is compiled for the type that is written to, as in Rattle's library, without widths and fills.

pub struct Error;

pub type Result = std::result::Result<(), Error>;

pub trait Write {
    fn write_str(&mut self, text: &str) -> Result;
}

pub struct Formatter<W> {
    pub(crate) writer: W,
}

pub trait Display {
    fn fmt<W: Write>(&self, f: &mut Formatter<W>) -> Result;
}

/// The parts of a text, as `write!` hands them over: the first, and the others.
pub trait Parts {
    fn write_to<W: Write>(&self, f: &mut Formatter<W>) -> Result;
}

impl<W: Write> Formatter<W> {
    pub fn write_str(&mut self, text: &str) -> Result {
        self.writer.write_str(text)
    }

    /// What `write!` calls.
    pub fn write_fmt(&mut self, parts: impl Parts) -> Result {
        parts.write_to(self)
    }
}

impl Parts for () {
    fn write_to<W: Write>(&self, _: &mut Formatter<W>) -> Result {
        Ok(())
    }
}

impl<D: Display, P: Parts> Parts for (&D, P) {
    fn write_to<W: Write>(&self, f: &mut Formatter<W>) -> Result {
        self.0.fmt(f)?;
        self.1.write_to(f)
    }
}

impl Display for &str {
    fn fmt<W: Write>(&self, f: &mut Formatter<W>) -> Result {
        f.writer.write_str(self)
    }
}

/// A number in decimal, behind a minus if it is below zero.
fn write_decimal<W: Write>(is_below: bool, size: u64, f: &mut Formatter<W>) -> Result {
    let mut text = [0; 24];
    let mut begin = text.len();
    let mut rest = size;
    loop {
        begin -= 1;
        text[begin] = b'0' + (rest % 10) as u8;
        rest /= 10;
        if rest == 0 {
            break;
        }
    }
    if is_below {
        begin -= 1;
        text[begin] = b'-';
    }
    // SAFETY: there are digits from there on, and a minus before them.
    f.writer
        .write_str(unsafe { std::str::from_utf8_unchecked(&text[begin..]) })
}

macro_rules! whole {
    ($($number:ty)*) => {
        $(impl Display for $number {
            fn fmt<W: Write>(&self, f: &mut Formatter<W>) -> Result {
                write_decimal(false, *self as u64, f)
            }
        })*
    };
}

whole!(u16 u32 usize);

impl Display for i32 {
    fn fmt<W: Write>(&self, f: &mut Formatter<W>) -> Result {
        write_decimal(*self < 0, self.unsigned_abs() as u64, f)
    }
}
