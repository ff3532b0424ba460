//! Ages as document 01 prints them.

/// The whole thousandths of a height that is not negative, the rest dropped; none from 2^43 on. By integers: a
/// significand times a power of two.
pub fn thousandths(height: f64) -> Option<u64> {
    if height >= (1u64 << 43) as f64 {
        return None;
    }
    let bits = height.to_bits() & (u64::MAX >> 1);
    let (exponent, fraction) = (bits >> 52, bits & ((1 << 52) - 1));
    let (significand, shift) =
        if exponent == 0 { (fraction, 1074) } else { (fraction | 1 << 52, 1075 - exponent) };
    let scaled = u128::from(significand) * 1000;
    Some(scaled.checked_shr(shift as u32).unwrap_or(0) as u64)
}

#[cfg(test)]
mod tests {
    use super::thousandths;

    #[test]
    fn rest_dropped() {
        let limit = (1u64 << 43) as f64;
        assert_eq!([0.0, -0.0, 1.0, 0.001, 0.999_999].map(thousandths), [0, 0, 1000, 1, 999].map(Some));
        assert_eq!([2.0004, 1.9999, 1.0f64.next_down()].map(thousandths), [2000, 1999, 999].map(Some));
        assert_eq!(thousandths(f64::from_bits(1)), Some(0));
        assert_eq!(thousandths(limit.next_down()), Some(8_796_093_022_207_999));
        assert_eq!([limit, limit.next_up(), f64::MAX].map(thousandths), [None; 3]);
    }
}
