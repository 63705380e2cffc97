//! Numbers behind one interface: binary64 and remainders modulo 8,191 (docs/ARITHMETICS.md).

/// The largest whole number that an arithmetic is asked for.
const LARGEST: u32 = 999_999;

pub trait Arithmetic: Copy {
    const ZERO: Self;
    const ONE: Self;

    fn whole(n: u32) -> Self;
    fn sum(self, other: Self) -> Self;
    fn difference(self, other: Self) -> Self;
    fn product(self, other: Self) -> Self;
    fn quotient(self, other: Self) -> Self;
    fn negative(self) -> Self;
    fn is_zero(self) -> bool;
    fn is_sound(self) -> bool;

    fn may_divide(self) -> bool {
        !self.is_zero()
    }
}

impl Arithmetic for f64 {
    const ZERO: f64 = 0.0;
    const ONE: f64 = 1.0;

    fn whole(n: u32) -> f64 {
        n.min(LARGEST).into()
    }

    fn sum(self, other: f64) -> f64 {
        self + other
    }

    fn difference(self, other: f64) -> f64 {
        self - other
    }

    fn product(self, other: f64) -> f64 {
        self * other
    }

    fn quotient(self, other: f64) -> f64 {
        self / other
    }

    fn negative(self) -> f64 {
        -self
    }

    fn is_zero(self) -> bool {
        self == 0.0
    }

    fn is_sound(self) -> bool {
        self.is_finite()
    }
}

const PRIME: u32 = 8191;

/// The inverse of each remainder; 0 at 0.
static INVERSES: [u16; PRIME as usize] = inverses();

const fn inverses() -> [u16; PRIME as usize] {
    let mut table = [0; PRIME as usize];
    table[1] = 1;
    let mut n = 2;
    while n < PRIME {
        // n × (PRIME / n) + PRIME % n leaves 0.
        let rest = table[(PRIME % n) as usize] as u32;
        table[n as usize] = ((PRIME - PRIME / n) * rest % PRIME) as u16;
        n += 1;
    }
    table
}

fn remainder(n: u32) -> u16 {
    (n % PRIME) as u16
}

/// The remainder that a value means.
pub fn remainder_of(value: u16) -> u16 {
    remainder(value.into())
}

/// Any 16-bit number is taken as a value; every answer is below 8,191.
impl Arithmetic for u16 {
    const ZERO: u16 = 0;
    const ONE: u16 = 1;

    fn whole(n: u32) -> u16 {
        remainder(n.min(LARGEST))
    }

    fn sum(self, other: u16) -> u16 {
        remainder(u32::from(self) + u32::from(other))
    }

    fn difference(self, other: u16) -> u16 {
        // 9 × 8,191 is above any 16-bit number.
        remainder(u32::from(self) + 9 * PRIME - u32::from(other))
    }

    fn product(self, other: u16) -> u16 {
        remainder(u32::from(self) * u32::from(other))
    }

    fn quotient(self, other: u16) -> u16 {
        self.product(INVERSES[usize::from(remainder_of(other))])
    }

    fn negative(self) -> u16 {
        0u16.difference(self)
    }

    fn is_zero(self) -> bool {
        remainder_of(self) == 0
    }

    fn is_sound(self) -> bool {
        true
    }
}
