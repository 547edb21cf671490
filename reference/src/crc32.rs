//! CRC-32, the usual one: a line of a trial tells by it which bytes the net
//! has, without printing them.

/// The polynomial with its bits reversed.
const POLYNOMIAL: u32 = 0xEDB8_8320;

/// Initial value and final exclusive or are all ones.
const ALL_ONES: u32 = 0xFFFF_FFFF;

pub fn crc32(bytes: &[u8]) -> u32 {
    let after = |crc: u32, &byte: &u8| {
        let place = (crc ^ u32::from(byte)) & 0xFF;
        (crc >> 8) ^ TABLE[place as usize]
    };
    bytes.iter().fold(ALL_ONES, after) ^ ALL_ONES
}

/// For each byte, what its eight bits make of the remainder.
const TABLE: [u32; 256] = {
    let mut table = [0; 256];
    let mut byte = 0;
    while byte < 256 {
        table[byte] = eight_bits(byte as u32);
        byte += 1;
    }
    table
};

const fn eight_bits(mut remainder: u32) -> u32 {
    let mut bit = 0;
    while bit < 8 {
        let low = remainder & 1;
        remainder >>= 1;
        if low == 1 {
            remainder ^= POLYNOMIAL;
        }
        bit += 1;
    }
    remainder
}

#[cfg(test)]
mod tests {
    use super::crc32;

    #[test]
    fn the_check_value_is_that_of_the_nine_digits() {
        assert_eq!(crc32(b"123456789"), 0xCBF4_3926);
    }

    #[test]
    fn no_bytes_give_0_and_one_changed_byte_gives_another_number() {
        assert_eq!(crc32(b""), 0);
        let zeros = [0; 3600];
        let mut changed = zeros;
        changed[3599] = 1;
        assert_ne!(crc32(&zeros), crc32(&changed));
    }
}
