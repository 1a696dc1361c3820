//! Fields of a record, bit by bit, the most significant first.

/// The field of `count` bits from bit `at` on.
pub fn field(record: &[u8], at: usize, count: usize) -> u64 {
    (at..at + count).fold(0, |value, bit| 2 * value + bit_of(record, bit))
}

fn bit_of(record: &[u8], bit: usize) -> u64 {
    u64::from(record[bit / 8] >> (7 - bit % 8) & 1)
}

/// Writes the lowest `count` bits of `value` from bit `at` on.
pub fn put(record: &mut [u8], at: usize, count: usize, value: u64) {
    for k in 0..count {
        let bit = at + k;
        let mask = 0x80 >> (bit % 8);
        if value >> (count - 1 - k) & 1 == 1 {
            record[bit / 8] |= mask;
        } else {
            record[bit / 8] &= !mask;
        }
    }
}

#[cfg(test)]
mod tests {
    use super::*;

    #[test]
    fn a_field_that_is_put_is_read() {
        let mut record = [0xff; 8];
        put(&mut record, 17, 20, 1_000);
        assert_eq!(field(&record, 17, 20), 1_000);
        assert_eq!(field(&record, 0, 17), (1 << 17) - 1);
        assert_eq!(field(&record, 37, 27), (1 << 27) - 1);
    }
}
