//! Real numbers off the wire, by exact integers.

/// 02, P6: "bits with their width: 32 for PFC 1, else 64", of the number that a field's bits make.
pub fn real(pfc: i64, field: u64) -> (u64, i64) {
    match pfc {
        1 => (field, 32),
        2 => (field, 64),
        // "the signed top 24 bits times two to the power (signed low 8 bits − 23)"
        3 => (double(signed(field >> 8, 24), signed(field & 0xFF, 8) - 23), 64),
        // "the mantissa is 40 bits, its low 16 bits following the exponent byte, and the power is exponent − 39"
        _ => {
            let mantissa = (field >> 24) << 16 | field & 0xFFFF;
            (double(signed(mantissa, 40), signed(field >> 16 & 0xFF, 8) - 39), 64)
        }
    }
}

fn signed(bits: u64, width: u32) -> i64 {
    let value = bits as i64;
    if value >> (width - 1) == 1 {
        value - (1 << width)
    } else {
        value
    }
}

/// The bits of the double that is mantissa × 2^power: the mantissa is doubled until it has 53 digits.
fn double(mantissa: i64, power: i64) -> u64 {
    if mantissa == 0 {
        return 0;
    }
    let (mut digits, mut power) = (mantissa.unsigned_abs(), power);
    while digits < 1 << 52 {
        digits *= 2;
        power -= 1;
    }
    let (sign, exponent) = (u64::from(mantissa < 0), (power + 1_075) as u64);
    sign << 63 | exponent << 52 | (digits - (1 << 52))
}

#[cfg(test)]
mod tests {
    use super::{double, real};

    #[test]
    fn by_hand() {
        assert_eq!(real(3, 0x4000_0000), (0.5f64.to_bits(), 64));
        assert_eq!(real(4, 0x4000_0000_0001), (0x3FE0_0000_0000_4000, 64));
        assert_eq!(real(3, 0x0000_0080), (0, 64));
        assert_eq!(real(1, 0x7F80_0001), (0x7F80_0001, 32));
    }

    /// A product with a power of two is exact.
    #[test]
    fn as_a_product_of_doubles() {
        let ones = (0..40).flat_map(|bit| [1i64 << bit, -(1 << bit), (1 << bit) - 1, 1 - (1 << bit)]);
        for mantissa in ones.filter(|mantissa| (-(1 << 39)..1 << 39).contains(mantissa)) {
            for power in -167..=104 {
                let product = mantissa as f64 * 2f64.powi(power);
                assert_eq!(double(mantissa, i64::from(power)), product.to_bits(), "{mantissa} {power}");
            }
        }
    }
}
