//! A frame is a line with two upper-case hexadecimal digits for each byte, ended by a line feed. Its check byte brings
//! the sum to 0.

/// The two digits of each byte.
const HEX: [[u8; 2]; 256] = {
    let digits = b"0123456789ABCDEF";
    let mut hex = [[0; 2]; 256];
    let mut byte = 0;
    while byte < 256 {
        hex[byte] = [digits[byte / 16], digits[byte % 16]];
        byte += 1;
    }
    hex
};

const NO_DIGIT: u8 = 255;

/// What each character stands for as a digit.
const DIGIT: [u8; 256] = {
    let mut values = [NO_DIGIT; 256];
    let mut value = 0;
    while value < 16 {
        values[HEX[value][1] as usize] = value as u8;
        value += 1;
    }
    values
};

/// The characters of a line for so many bytes before the check byte.
pub(crate) const fn line_length(body: usize) -> usize {
    2 * body + 3
}

/// Writes the line of a frame over a slice of its length.
pub(crate) fn write_line<const BODY: usize>(line: &mut [u8], body: [u8; BODY]) {
    let line = &mut line[..line_length(BODY)];
    let mut sum = 0u8;
    for (digits, byte) in line.as_chunks_mut().0.iter_mut().zip(body) {
        *digits = HEX[usize::from(byte)];
        sum = sum.wrapping_add(byte);
    }
    let [high, low] = HEX[usize::from(0u8.wrapping_sub(sum))];
    line[2 * BODY..].copy_from_slice(&[high, low, b'\n']);
}

/// The bytes of the line at the front of some characters, check byte included; none where they begin with no whole line
/// of so many bytes.
pub(crate) fn read_line<const BYTES: usize>(characters: &[u8]) -> Option<[u8; BYTES]> {
    let digits = characters.get(..2 * BYTES)?;
    if characters.get(2 * BYTES) != Some(&b'\n') {
        return None;
    }
    let mut bytes = [0; BYTES];
    let (mut worst, mut sum) = (0, 0u8);
    for (byte, [high, low]) in bytes.iter_mut().zip(digits.as_chunks().0) {
        let (high, low) = (DIGIT[usize::from(*high)], DIGIT[usize::from(*low)]);
        worst |= high | low;
        *byte = (high << 4) | low;
        sum = sum.wrapping_add(*byte);
    }
    if worst < 16 && sum == 0 { Some(bytes) } else { None }
}
