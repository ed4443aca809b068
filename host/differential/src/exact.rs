//! The house exponential and the rules of the two tables in whole numbers alone: a float is a sign, a whole number and
//! a power of two, an operation is exact, and one rounding to nearest even follows.

/// ±m · 2^e.
#[derive(Clone, Copy)]
struct Exact {
    negative: bool,
    m: u128,
    e: i32,
}

impl Exact {
    /// The value of finite bits.
    fn of(bits: u32) -> Exact {
        let (exponent, fraction) = ((bits >> 23 & 0xFF) as i32, u128::from(bits & 0x007F_FFFF));
        let negative = bits >> 31 == 1;
        match exponent {
            0 => Exact { negative, m: fraction, e: -149 },
            _ => Exact { negative, m: fraction | 1 << 23, e: exponent - 150 },
        }
    }

    fn whole(m: u128, e: i32) -> Exact {
        Exact { negative: false, m, e }
    }

    fn opposite(self) -> Exact {
        Exact { negative: !self.negative, ..self }
    }

    fn times(self, other: Exact) -> Exact {
        Exact { negative: self.negative != other.negative, m: self.m * other.m, e: self.e + other.e }
    }

    /// The sum, or a number that rounds as it does: a term more than 2^60 times smaller is replaced by a smaller unit.
    fn plus(self, other: Exact) -> Exact {
        if self.m == 0 || other.m == 0 {
            let both = self.negative && other.negative;
            return if self.m != 0 { self } else if other.m != 0 { other } else { Exact { negative: both, ..self } };
        }
        let (high, low) = if self.e >= other.e { (self, other) } else { (other, self) };
        let step = high.e - low.e;
        let (high_m, low_m, e) =
            if step <= 60 { (high.m << step, low.m, low.e) } else { (high.m << 60, 1, high.e - 60) };
        match (high.negative == low.negative, high_m >= low_m) {
            (true, _) => Exact { negative: high.negative, m: high_m + low_m, e },
            (false, true) => Exact { negative: high.negative && high_m != low_m, m: high_m - low_m, e },
            (false, false) => Exact { negative: low.negative, m: low_m - high_m, e },
        }
    }

    /// The bits of the nearest f32, ties to even.
    fn rounded(self) -> u32 {
        let sign = u32::from(self.negative) << 31;
        if self.m == 0 {
            return sign;
        }
        let width = 128 - self.m.leading_zeros() as i32;
        let e = (self.e + width - 24).max(-149);
        let cut = e - self.e;
        let mut m = if cut <= 0 {
            self.m << -cut
        } else if cut > 127 {
            0
        } else {
            let (kept, rest, half) = (self.m >> cut, self.m & ((1 << cut) - 1), 1u128 << (cut - 1));
            kept + u128::from(rest > half || (rest == half && kept & 1 == 1))
        };
        let mut e = e;
        if m == 1 << 24 {
            (m, e) = (1 << 23, e + 1);
        }
        if m < 1 << 23 {
            return sign | m as u32;
        }
        if e + 150 >= 255 {
            return sign | 0x7F80_0000;
        }
        sign | ((e + 150) as u32) << 23 | (m as u32 & 0x007F_FFFF)
    }
}

fn multiply(a: u32, b: u32) -> u32 {
    Exact::of(a).times(Exact::of(b)).rounded()
}

fn subtract(a: u32, b: u32) -> u32 {
    Exact::of(a).plus(Exact::of(b).opposite()).rounded()
}

const LOG2E: u32 = 0x3FB8_AA3B;
const C1: u32 = 0x3F31_7218;
const C2: u32 = 0x3E75_FDF0;
const ONE: u32 = 0x3F80_0000;
const ONE_HUNDRED_AND_TWENTY: u32 = 0x42F0_0000;
const INFINITY: u32 = 0x7F80_0000;

/// E(d) over a power table, None for d below 0 or NaN.
pub fn exp_neg(d: u32, powers: &[u32; 256]) -> Option<u32> {
    let minus_zero = d == 0x8000_0000;
    if d > INFINITY && !minus_zero {
        return None;
    }
    let y = if d == INFINITY { INFINITY } else { multiply(d, LOG2E) };
    if !minus_zero && y >= ONE_HUNDRED_AND_TWENTY {
        return Some(0);
    }
    // n is the floor of 256 y.
    let scaled = Exact::of(y);
    let shift = scaled.e + 8;
    let n = if shift >= 0 { scaled.m << shift } else if shift <= -128 { 0 } else { scaled.m >> -shift };
    let (k, f) = ((n / 256) as i32, (n % 256) as usize);
    let exact = scaled.plus(Exact::whole(n, -8).opposite());
    let r = exact.rounded();
    assert!(Exact::of(r).plus(exact.opposite()).m == 0, "r is exact");
    let p = subtract(ONE, multiply(r, subtract(C1, multiply(r, C2))));
    Some(Exact::of(multiply(powers[f], p)).times(Exact::whole(1, -k)).rounded())
}

/// A whole number of any size, least limb first.
struct Big(Vec<u32>);

impl Big {
    fn squared(&self) -> Big {
        let mut out = vec![0u32; self.0.len() * 2];
        for (i, &a) in self.0.iter().enumerate() {
            let mut carry = 0u64;
            for (j, &b) in self.0.iter().enumerate() {
                let sum = u64::from(out[i + j]) + u64::from(a) * u64::from(b) + carry;
                out[i + j] = sum as u32;
                carry = sum >> 32;
            }
            out[i + self.0.len()] = carry as u32;
        }
        while out.last() == Some(&0) {
            out.pop();
        }
        Big(out)
    }

    fn bits(&self) -> u64 {
        match self.0.last() {
            Some(last) => self.0.len() as u64 * 32 - u64::from(last.leading_zeros()),
            None => 0,
        }
    }
}

/// The number of bits of n^256. For odd n above 1 it is at most b exactly if n^256 < 2^b, since no such power is 2^b.
fn bits_of_power(n: u32) -> u64 {
    (0..8).fold(Big(vec![n]), |power, _| power.squared()).bits()
}

/// Whether bits are P[f]: m · 2^-24 with 2^23 <= m <= 2^24 and (2m-1)^256 < 2^(6400-f) < (2m+1)^256.
pub fn is_power_entry(f: u64, bits: u32) -> bool {
    let value = Exact::of(bits);
    let shift = value.e + 24;
    if value.negative || value.m == 0 || !(0..=1).contains(&shift) {
        return false;
    }
    let m = (value.m << shift) as u32;
    (1 << 23..=1 << 24).contains(&m) && bits_of_power(2 * m - 1) <= 6400 - f && bits_of_power(2 * m + 1) > 6400 - f
}

/// Whether bits are the default scale of a size: m · 2^-x with 2^23 <= m < 2^24 and (2m-1)² D < 2^(2x+2) < (2m+1)² D.
pub fn is_default_scale(size: u64, bits: u32) -> bool {
    let value = Exact::of(bits);
    if value.negative || value.m < 1 << 23 || !(-60..=-1).contains(&value.e) {
        return false;
    }
    let (d, target) = (u128::from(size), 1u128 << (2 * -value.e + 2));
    (2 * value.m - 1).pow(2) * d < target && target < (2 * value.m + 1).pow(2) * d
}

#[cfg(test)]
mod tests {
    use super::*;
    use crate::random::Random;

    #[test]
    fn operations_have_the_machine_s_bits() {
        let mut random = Random::new(1, 1);
        for _ in 0..200_000 {
            let (a, b) = (random.bits32(), random.bits32());
            let near = (a & 0xFF80_0000).wrapping_add(random.below(3) as u32 * 0x0080_0000) ^ random.bits32() & 0x807F_FFFF;
            for b in [b, near] {
                let (x, y) = (f32::from_bits(a), f32::from_bits(b));
                if x.is_finite() && y.is_finite() {
                    assert_eq!(multiply(a, b), (x * y).to_bits(), "{x:e} * {y:e}");
                    assert_eq!(subtract(a, b), (x - y).to_bits(), "{x:e} - {y:e}");
                }
            }
        }
    }
}
