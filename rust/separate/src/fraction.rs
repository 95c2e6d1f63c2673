//! Fractions in lowest terms.

/// The greatest common divisor.
pub fn divisor(a: u128, b: u128) -> u128 {
    if b == 0 { a } else { divisor(b, a % b) }
}

/// The least common multiple of two numbers that are not 0.
pub fn multiple(a: u128, b: u128) -> u128 {
    a / divisor(a, b) * b
}

/// `up` by `down`, in lowest terms.
#[derive(Clone, Copy, PartialEq, Eq, Debug)]
pub struct Fraction {
    pub up: u128,
    pub down: u128,
}

impl Fraction {
    pub const ZERO: Fraction = Fraction { up: 0, down: 1 };

    pub fn new(up: u128, down: u128) -> Fraction {
        let by = divisor(up, down);
        Fraction { up: up / by, down: down / by }
    }
}

impl std::ops::Add for Fraction {
    type Output = Fraction;

    fn add(self, other: Fraction) -> Fraction {
        let down = multiple(self.down, other.down);
        Fraction::new(self.up * (down / self.down) + other.up * (down / other.down), down)
    }
}

#[cfg(test)]
mod tests {
    use super::*;

    #[test]
    fn sums() {
        assert_eq!(Fraction::new(1, 6) + Fraction::new(1, 3), Fraction::new(1, 2));
        assert_eq!(Fraction::ZERO + Fraction::new(6, 8), Fraction { up: 3, down: 4 });
        assert_eq!(multiple(4, 6), 12);
    }
}
