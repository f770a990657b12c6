// What is promised of an answer to a power (a/b)^(p/q), decided in whole numbers.
use super::Big;
use std::cmp::Ordering;

// Units of a power.
pub const UNIT: u64 = 1 << 30;
// The greatest numerator of a base and the greatest denominator of an exponent.
pub const LAST_BASE: u64 = (1 << 32) - 1;
pub const LAST_EXPONENT: u64 = (1 << 24) - 1;
// Up to this denominator of a reduced exponent powers are whole numbers written out. The power of a reduced ratio other
// than 1 is a fraction only if the ratio's numerator, below 2^32, is a q-th power: beyond q = 31 no end is ever the power
// itself, and rounded whole numbers can tell.
const WRITTEN_OUT: u64 = 128;

// What repeated squaring asks of a number.
trait Factor: Sized {
    fn of(n: u64) -> Self;
    fn times(&self, other: &Self) -> Self;
    fn raised(n: u64, exponent: u64) -> Self {
        let base = Self::of(n);
        (0..64 - exponent.leading_zeros()).rev().fold(Self::of(1), |power, bit| {
            let square = power.times(&power);
            if exponent >> bit & 1 == 1 { square.times(&base) } else { square }
        })
    }
}

impl Factor for Big {
    fn of(n: u64) -> Big {
        Big::of(n as u128)
    }
    fn times(&self, other: &Big) -> Big {
        Big::times(self, other)
    }
}

// 256 bits, least first and the highest one set, times 2 to the exponent.
#[derive(Clone, Copy, PartialEq)]
struct Rounded {
    bits: [u64; 4],
    exponent: i64,
}

impl Rounded {
    // Of n above 0.
    fn of(n: u64) -> Rounded {
        let shift = n.leading_zeros();
        Rounded { bits: [0, 0, 0, n << shift], exponent: -192 - shift as i64 }
    }
    fn times(&self, other: &Rounded, up: bool) -> Rounded {
        let mut product = [0u64; 8];
        for i in 0..4 {
            let mut carry = 0u128;
            for j in 0..4 {
                let sum = product[i + j] as u128 + self.bits[i] as u128 * other.bits[j] as u128 + carry;
                product[i + j] = sum as u64;
                carry = sum >> 64;
            }
            product[i + 4] = carry as u64;
        }
        let mut exponent = self.exponent + other.exponent + 256;
        if product[7] >> 63 == 0 {
            for i in (1..8).rev() {
                product[i] = product[i] << 1 | product[i - 1] >> 63;
            }
            product[0] <<= 1;
            exponent -= 1;
        }
        let rounded = Rounded { bits: [product[4], product[5], product[6], product[7]], exponent };
        if up && product[..4] != [0; 4] { rounded.next() } else { rounded }
    }
    fn next(mut self) -> Rounded {
        for bits in self.bits.iter_mut() {
            *bits = bits.wrapping_add(1);
            if *bits != 0 {
                return self;
            }
        }
        Rounded { bits: [0, 0, 0, 1 << 63], exponent: self.exponent + 1 }
    }
    fn against(&self, other: &Rounded) -> Ordering {
        self.exponent.cmp(&other.exponent).then_with(|| self.bits.iter().rev().cmp(other.bits.iter().rev()))
    }
}

// A number between two, each product rounded down and up.
struct Between {
    low: Rounded,
    high: Rounded,
}

impl Factor for Between {
    fn of(n: u64) -> Between {
        Between { low: Rounded::of(n), high: Rounded::of(n) }
    }
    fn times(&self, other: &Between) -> Between {
        Between { low: self.low.times(&other.low, false), high: self.high.times(&other.high, true) }
    }
}

impl Between {
    // None where they overlap.
    fn against(&self, other: &Between) -> Option<Ordering> {
        if self.high.against(&other.low) == Ordering::Less {
            Some(Ordering::Less)
        } else if self.low.against(&other.high) == Ordering::Greater {
            Some(Ordering::Greater)
        } else {
            None
        }
    }
}

// How the comparisons with powers were decided, and how many ends are the power itself.
#[derive(Default)]
pub struct Tally {
    pub written_out: u64,
    pub rounded: u64,
    pub undecided: u64,
    pub equal: u64,
}

fn divisor(a: u64, b: u64) -> u64 {
    if b == 0 { a } else { divisor(b, a % b) }
}

// Of the inequality t/2^30 <= (a/b)^(p/q), which is t^q * b^p <= a^p * 2^(30 q), all but t.
struct Sides<T> {
    q: u64,
    left: T,
    right: T,
}

impl<T: Factor> Sides<T> {
    fn of(a: u64, b: u64, p: u64, q: u64) -> Sides<T> {
        Sides { q, left: T::raised(b, p), right: T::raised(a, p).times(&T::raised(UNIT, q)) }
    }
    fn with(&self, t: u64) -> T {
        T::raised(t, self.q).times(&self.left)
    }
}

struct Power {
    written_out: Option<Sides<Big>>,
    rounded: Sides<Between>,
}

impl Power {
    fn of(case: &[u64; 5]) -> Power {
        let (base, exponent) = (divisor(case[1], case[2]), divisor(case[3], case[4]));
        let (a, b, p, q) = (case[1] / base, case[2] / base, case[3] / exponent, case[4] / exponent);
        Power { written_out: if q <= WRITTEN_OUT { Some(Sides::of(a, b, p, q)) } else { None }, rounded: Sides::of(a, b, p, q) }
    }
    // Units t against the power, t above 0; None where it isn't decided.
    fn against(&self, t: u64, tally: &mut Tally) -> Option<Ordering> {
        let rounded = self.rounded.with(t).against(&self.rounded.right);
        let order = match &self.written_out {
            None => rounded,
            Some(sides) => Some(sides.with(t).against(&sides.right)),
        };
        assert!(rounded.is_none() || rounded == order, "what is rounded says the same as what is written out, if anything");
        match (&self.written_out, order) {
            (_, None) => tally.undecided += 1,
            (None, _) => tally.rounded += 1,
            _ => tally.written_out += 1,
        }
        tally.equal += (order == Some(Ordering::Equal)) as u64;
        order
    }
}

// Whether low and high are ends of the power as promised. `slip` falsifies that: high + 1 is to be no more than the power,
// or low - 1 no less.
pub fn is_power(case: &[u64; 5], low: u64, high: u64, slip: bool, tally: &mut Tally) -> bool {
    let near = UNIT <= low && low <= high && high <= 1 << 51 && high as u128 * (1 << 27) <= low as u128 * ((1 << 27) + 1);
    if !near {
        return false;
    }
    let power = Power::of(case);
    let mut is = |t: u64, order: Ordering| {
        let found = power.against(t, tally);
        found == Some(order) || found == Some(Ordering::Equal)
    };
    if slip { is(high + 1, Ordering::Less) || is(low - 1, Ordering::Greater) } else { is(low, Ordering::Less) && is(high, Ordering::Greater) }
}

// Two answers to the same case both hold the power, so neither ends before the other begins. Each high is at most its low
// times 1 + 2^-27, and each low at most the other's high: so from either low to either high it is that factor twice at most.
// `slip` falsifies the first: one is to end before the other begins.
pub fn agree(one: [u64; 2], other: [u64; 2], slip: bool) -> bool {
    if slip {
        return one[1] < other[0] || other[1] < one[0];
    }
    let factor = (1u128 << 27) + 1;
    let (low, high) = (one[0].min(other[0]) as u128, one[1].max(other[1]) as u128);
    one[0] <= other[1] && other[0] <= one[1] && high << 54 <= low * factor * factor
}

pub fn is_inside(a: u64, b: u64, p: u64, q: u64) -> bool {
    0 < b && b <= a && a <= LAST_BASE && a <= b << 20 && p < q && q <= LAST_EXPONENT
}
