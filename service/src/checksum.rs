//! CRC-64/XZ, the checksum of docs/SAVED.md, for the other files of a directory.

/// The polynomial of ECMA-182, its lowest power in the highest bit.
const POLYNOMIAL: u64 = 0xc96c_5795_d787_0f42;

/// What a byte in the lowest place comes to.
static OF_BYTE: [u64; 256] = of_bytes();

const fn of_bytes() -> [u64; 256] {
    let (mut all, mut byte) = ([0; 256], 0);
    while byte < 256 {
        let (mut sum, mut bit) = (byte as u64, 0);
        while bit < 8 {
            sum = (sum >> 1) ^ (POLYNOMIAL * (sum & 1));
            bit += 1;
        }
        all[byte] = sum;
        byte += 1;
    }
    all
}

/// The checksum of all bytes so far and these; of none it is 0.
pub fn checksum(before: u64, bytes: &[u8]) -> u64 {
    !bytes.iter().fold(!before, |sum, it| (sum >> 8) ^ OF_BYTE[usize::from(sum as u8 ^ it)])
}

#[cfg(test)]
mod tests {
    use super::*;

    /// The check value of the catalogue of CRC algorithms.
    #[test]
    fn the_nine_digits() {
        assert_eq!(checksum(0, b"123456789"), 0x995d_c9bb_df19_39fa);
        assert_eq!(checksum(checksum(0, b"1234"), b"56789"), 0x995d_c9bb_df19_39fa);
        assert_eq!(checksum(0, b""), 0);
    }
}
