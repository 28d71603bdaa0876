//! The level of a link (document 02, T-01): its received signal in dBm, and its two's complement in a byte of a file or
//! a word of a state.

/// What a link of kind 02, which has no level, is read as.
pub const LOWEST_LEVEL: i16 = -127;
pub const HIGHEST_LEVEL: i16 = 0;

pub(crate) fn in_range(level: i16) -> bool {
    (LOWEST_LEVEL..=HIGHEST_LEVEL).contains(&level)
}

pub fn byte_of_level(level: i16) -> u8 {
    level as u8
}

pub fn level_of_byte(byte: u8) -> i16 {
    i16::from(byte as i8)
}

pub fn word_of_level(level: i16) -> u16 {
    level as u16
}

pub fn level_of_word(word: u16) -> i16 {
    word as i16
}
