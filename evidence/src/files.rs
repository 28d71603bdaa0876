//! Survey files, read into words and levels and written from them.

use crate::frames::{line_length, read_line, write_line};
use crate::levels::in_range;
use crate::{LOWEST_LEVEL, MAX_LINKS, Refusal, byte_of_level, check_fresh, level_of_byte};

const UNITS: u8 = 0x01;
const LINK: u8 = 0x03;
const END: u8 = 0x0F;

const COUNT_LINE: usize = line_length(3);
const BARE_LINK_LINE: usize = line_length(5);
const LINK_LINE: usize = line_length(6);

/// What a file says: its unit count, unchecked, and its number of links.
#[derive(Clone, Copy, Debug, PartialEq, Eq)]
pub struct Contents {
    pub units: u16,
    pub links: u16,
}

/// A frame of a file.
enum Frame {
    Units(u16),
    /// Two ends and a level.
    Link([u16; 2], i16),
    End(u16),
}

impl Frame {
    /// The frame at the front of some characters and the rest of them; none where their first line is faulty.
    fn read(characters: &[u8]) -> Option<(Frame, &[u8])> {
        let short = |[_, high, low, _]: [u8; 4]| u16::from_be_bytes([high, low]);
        Some(match characters.first_chunk()? {
            b"01" => (Frame::Units(short(read_line(characters)?)), &characters[COUNT_LINE..]),
            b"0F" => (Frame::End(short(read_line(characters)?)), &characters[COUNT_LINE..]),
            b"02" => {
                let [_, a, b, c, d, _] = read_line(characters)?;
                (Frame::Link(ends([a, b, c, d]), LOWEST_LEVEL), &characters[BARE_LINK_LINE..])
            }
            b"03" => {
                let [_, a, b, c, d, level, _] = read_line(characters)?;
                (Frame::Link(ends([a, b, c, d]), level_of_byte(level)), &characters[LINK_LINE..])
            }
            _ => return None,
        })
    }
}

fn ends([a, b, c, d]: [u8; 4]) -> [u16; 2] {
    [u16::from_be_bytes([a, b]), u16::from_be_bytes([c, d])]
}

/// How far the frames have come in their order.
enum Order {
    Start,
    Links,
    Ended,
    Broken,
}

/// Refused with 1, 2, 3, 6, 16, 14; the ends go to the front of the words, the levels to the front of the levels.
pub fn read_file(input: &[u8], words: &mut [u16], levels: &mut [i16]) -> Result<Contents, Refusal> {
    let contents = check_file(input)?;
    let links = usize::from(contents.links);
    let words = words.get_mut(..2 * links).ok_or(Refusal::TooShort)?;
    let levels = levels.get_mut(..links).ok_or(Refusal::TooShort)?;
    let mut rest = &input[COUNT_LINE..];
    for (ends, level) in words.as_chunks_mut().0.iter_mut().zip(levels) {
        if let Some((Frame::Link(read, heard), later)) = Frame::read(rest) {
            (*ends, *level) = (read, heard);
            rest = later;
        }
    }
    Ok(contents)
}

/// Each number is judged over the whole file before the next: 1, 2, 3, 6, 16.
fn check_file(input: &[u8]) -> Result<Contents, Refusal> {
    let (mut units, mut links, mut stated) = (0, 0usize, 0);
    let (mut order, mut outside) = (Order::Start, false);
    let mut rest = input;
    while !rest.is_empty() {
        let (frame, later) = Frame::read(rest).ok_or(Refusal::FaultyLine)?;
        rest = later;
        order = match (order, frame) {
            (Order::Start, Frame::Units(n)) => {
                units = n;
                Order::Links
            }
            (Order::Links, Frame::Link(_, level)) => {
                links += 1;
                outside |= !in_range(level);
                Order::Links
            }
            (Order::Links, Frame::End(m)) => {
                stated = usize::from(m);
                Order::Ended
            }
            _ => Order::Broken,
        };
    }
    if !matches!(order, Order::Ended) {
        return Err(Refusal::OutOfOrder);
    }
    if stated != links {
        return Err(Refusal::CountDiffers);
    }
    if links > MAX_LINKS {
        return Err(Refusal::TooManyLinks);
    }
    if outside {
        return Err(Refusal::LevelOutside);
    }
    Ok(Contents { units, links: links as u16 })
}

/// The characters of a file with so many links.
pub fn file_length(links: usize) -> usize {
    2 * COUNT_LINE + links * LINK_LINE
}

/// Returns the characters written at the front of the slice. Refused with 4, 5, 6, 15, 16, 7, 8, 9, 22, 14.
pub fn write_file(units: u16, table: &[u16], levels: &[i16], out: &mut [u8]) -> Result<usize, Refusal> {
    check_fresh(units, table, levels)?;
    let links = table.len() / 2;
    let length = file_length(links);
    let out = out.get_mut(..length).ok_or(Refusal::TooShort)?;
    let (first, rest) = out.split_at_mut(COUNT_LINE);
    let (lines, last) = rest.split_at_mut(links * LINK_LINE);
    write_line(first, count_body(UNITS, units));
    for ((line, [a, b]), &level) in lines.chunks_exact_mut(LINK_LINE).zip(table.as_chunks().0).zip(levels) {
        let ([a, b], [c, d]) = (a.to_be_bytes(), b.to_be_bytes());
        write_line(line, [LINK, a, b, c, d, byte_of_level(level)]);
    }
    write_line(last, count_body(END, links as u16));
    Ok(length)
}

fn count_body(kind: u8, count: u16) -> [u8; 3] {
    let [high, low] = count.to_be_bytes();
    [kind, high, low]
}
