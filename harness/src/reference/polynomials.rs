//! A polynomial's value.

/// POL1 to POL5, as doubles.
#[derive(Clone, Copy, Debug, PartialEq)]
pub struct Polynomial(pub [f64; 5]);

impl Polynomial {
    /// 02, P1: "The value is worked out from POL5 down, multiply then add, each rounded once": Rust fuses nothing.
    pub fn at(&self, raw: i64) -> f64 {
        let Polynomial([first, second, third, fourth, fifth]) = *self;
        // Exact: a raw value has at most 32 bits.
        let x = raw as f64;
        [fourth, third, second, first].into_iter().fold(fifth, |value, next| value * x + next)
    }
}

#[cfg(test)]
mod tests {
    use super::Polynomial;

    #[test]
    fn by_hand() {
        assert_eq!(Polynomial([1.0, 2.0, 3.0, 4.0, 5.0]).at(10), 54_321.0);
        assert_eq!(Polynomial([-0.0, 0.0, 0.0, 0.0, 0.0]).at(0).to_bits(), 0);
        assert_eq!(Polynomial([-0.0; 5]).at(0).to_bits(), 1 << 63);
        assert_eq!(Polynomial([-0.0, 0.0, 0.0, 0.0, 0.0]).at(-1).to_bits(), 1 << 63);
    }
}
