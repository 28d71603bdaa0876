//! Survey files, whole and damaged; and states with words changed in any way.

use crate::random::Random;
use crate::sites::{Site, any_site};
use crate::words::State;
use crate::{
    ABSENT, HIGHEST_LEVEL, LOWEST_LEVEL, MAX_INPUT, MAX_LINKS, MAX_UNITS, Survey, byte_of_level, word_of_level,
};

/// The line of a frame, whatever its bytes are.
fn line(body: &[u8]) -> Vec<u8> {
    let check = body.iter().fold(0u8, |left, &byte| left.wrapping_sub(byte));
    let mut digits: String = body.iter().chain([&check]).map(|byte| format!("{byte:02X}")).collect();
    digits.push('\n');
    digits.into_bytes()
}

fn frame(kind: u8, numbers: &[u16]) -> Vec<u8> {
    let mut body = vec![kind];
    body.extend(numbers.iter().flat_map(|number| number.to_be_bytes()));
    line(&body)
}

/// A link's line: of kind 03, or where there is no level of kind 02.
fn link_line(ends: &[u16], level: Option<u8>) -> Vec<u8> {
    let mut body = vec![if level.is_some() { 0x03 } else { 0x02 }];
    body.extend(ends.iter().flat_map(|end| end.to_be_bytes()));
    body.extend(level);
    line(&body)
}

/// The lines of a file, with nothing checked: links with levels, without, or of both kinds.
fn lines_of(random: &mut Random, site: &Site) -> Vec<Vec<u8>> {
    let kinds = random.below(4);
    let mut lines = vec![frame(0x01, &[site.units])];
    for (j, ends) in site.table.chunks(2).enumerate() {
        let bare = kinds == 0 || (kinds == 1 && random.once_in(2));
        let level = site.levels.get(j).filter(|_| !bare);
        lines.push(link_line(ends, level.map(|&level| byte_of_level(level))));
    }
    lines.push(frame(0x0F, &[site.links() as u16]));
    lines
}

/// A level outside its range, near it or anywhere.
pub fn odd_level(random: &mut Random) -> i16 {
    match random.below(3) {
        0 => random.pick(&[LOWEST_LEVEL - 1, HIGHEST_LEVEL + 1]),
        1 => random.pick(&[i16::MIN, i16::MAX, 127, 128, -128, -256, -255, 256]),
        _ => random.between(1, i16::MAX as usize) as i16,
    }
}

/// A word near a limit that the site has, or any.
pub fn odd_word(random: &mut Random, units: u16, links: u16) -> u16 {
    let near = random.pick(&[
        0,
        1,
        units,
        units.wrapping_mul(2),
        links,
        256,
        804,
        1024,
        2048,
        8158,
        32768,
        word_of_level(LOWEST_LEVEL),
        ABSENT,
    ]);
    match random.below(4) {
        0 => near,
        1 => near.wrapping_sub(1),
        2 => near.wrapping_add(1),
        _ => random.word(),
    }
}

/// A table with a fault, most of the time: an end that is missing, equal ends, a link again, a word too many, too many
/// links, levels that are too many or too few, a level outside its range.
pub fn spoil_site(random: &mut Random, site: &mut Site) {
    for _ in 0..random.between(1, 2) {
        let (units, links) = (site.units, site.links());
        match random.below(11) {
            0 => site.units = odd_word(random, units, links as u16),
            1 => site.table.push(odd_word(random, units, links as u16)),
            2 => {
                let more = random.between(1000, 1100);
                while site.table.len() < 2 * more {
                    site.table.push(random.word() % units.max(1));
                }
                site.levels.resize(more, LOWEST_LEVEL);
            }
            7 | 8 => {
                let count = match random.below(4) {
                    0 => site.levels.len().saturating_sub(1),
                    1 => random.below(2 * site.levels.len() + 2),
                    2 => site.table.len(),
                    _ => site.levels.len() + 1,
                };
                site.levels.resize(count, LOWEST_LEVEL);
            }
            _ if links == 0 => {
                site.table.extend([0, 0]);
                site.levels.push(HIGHEST_LEVEL);
            }
            9 | 10 => {
                let at = random.below(site.levels.len().max(1));
                if let Some(level) = site.levels.get_mut(at) {
                    *level = odd_level(random);
                }
            }
            3 => {
                let at = random.below(2 * links);
                site.table[at] = odd_word(random, units, links as u16);
            }
            4 => {
                let at = 2 * random.below(links);
                site.table[at + 1] = site.table[at];
            }
            _ => {
                let at = 2 * random.below(links);
                let mut again = [site.table[at], site.table[at + 1]];
                random.shuffle(&mut again);
                let to = random.below(links + 1);
                site.table.splice(2 * to..2 * to, again);
                site.levels.insert(to.min(site.levels.len()), LOWEST_LEVEL);
            }
        }
    }
}

/// A table of parents with one changed, or with more or fewer of them.
pub fn spoil_parents(random: &mut Random, parents: &mut Vec<u16>) {
    let units = parents.len();
    if units > 0 && !random.once_in(4) {
        parents[random.below(units)] = if random.once_in(2) { ABSENT } else { random.below(units + 1) as u16 };
    } else {
        parents.resize(random.below(258), ABSENT);
    }
}

/// A file and the name of its kind.
pub fn any_file(random: &mut Random) -> (&'static str, Vec<u8>) {
    let mut site = any_site(random);
    let mut lines = lines_of(random, &site);
    let kind = match random.below(36) {
        0..=7 => "valid file",
        8..=11 => {
            spoil_site(random, &mut site);
            lines = lines_of(random, &site);
            "file of a faulty table"
        }
        32..=35 if site.links() > 0 => return bad_level(random, &mut site),
        12..=13 => {
            let last = lines.len() - 1;
            lines[last] = frame(0x0F, &[odd_word(random, site.units, site.links() as u16)]);
            "file with a wrong count"
        }
        14..=15 => {
            let (a, b) = (random.below(lines.len()), random.below(lines.len()));
            lines.swap(a, b);
            "file with lines swapped"
        }
        16 => {
            let again = lines[random.below(lines.len())].clone();
            lines.insert(random.below(lines.len() + 1), again);
            "file with a line twice"
        }
        17 => {
            lines.remove(random.below(lines.len()));
            "file without a line"
        }
        18..=19 => {
            let at = random.below(lines.len());
            lines[at] = odd_line(random);
            "file with an odd line"
        }
        20..=27 => return damaged(random, lines.concat()),
        28 => return joined(random, lines.concat()),
        29 => return ("noise", noise(random)),
        30 if random.once_in(8) => return long(random, lines),
        30 => return ("empty file", Vec::new()),
        31 => {
            let other = any_site(random);
            return ("two files", [lines.concat(), lines_of(random, &other).concat()].concat());
        }
        _ => "valid file",
    };
    (kind, lines.concat())
}

/// Level bytes 01 to 80, at times beside a fault of another kind.
fn bad_level(random: &mut Random, site: &mut Site) -> (&'static str, Vec<u8>) {
    if random.once_in(3) {
        spoil_site(random, site);
    }
    let mut lines = lines_of(random, site);
    for _ in 0..random.between(1, 3) {
        let j = random.below(site.links().max(1));
        let ends = site.table.get(2 * j..2 * j + 2).unwrap_or(&[0, 1]);
        let any = random.between(0x01, 0x80) as u8;
        let level = random.pick(&[0x01, 0x02, 0x7F, 0x80, any]);
        lines[j + 1] = link_line(ends, Some(level));
    }
    if random.once_in(4) {
        let (a, b) = (random.below(lines.len()), random.below(lines.len()));
        lines.swap(a, b);
    }
    ("file with a bad level", lines.concat())
}

/// A line whose sum is right and something else is not, or a bare one.
fn odd_line(random: &mut Random) -> Vec<u8> {
    let kind = random.pick(&[0x00, 0x01, 0x02, 0x03, 0x0F, 0x11, 0x12, 0x13, 0x1E, 0x1F, 0xFF]);
    let mut body = vec![kind];
    body.extend((0..random.below(12)).map(|_| random.word() as u8));
    match random.below(4) {
        0 => vec![b'\n'],
        1 => line(&body).to_ascii_lowercase(),
        _ => line(&body),
    }
}

/// Bytes changed, cut away or put in.
fn damaged(random: &mut Random, mut file: Vec<u8>) -> (&'static str, Vec<u8>) {
    let kind = match random.below(6) {
        0 => {
            for _ in 0..1 << random.below(5) {
                let at = random.below(file.len());
                file[at] ^= 1 << random.below(8);
            }
            "file with bits flipped"
        }
        1 => {
            for _ in 0..random.between(1, 4) {
                let at = random.below(file.len());
                file[at] = random.pick(b"0123456789ABCDEFGabcdef \n\r\0:/@\x80\xFF");
            }
            "file with bytes changed"
        }
        2 => {
            file.truncate(random.below(file.len()));
            "file cut at its end"
        }
        3 => {
            file.drain(..random.between(1, file.len()));
            "file cut at its start"
        }
        4 => {
            let from = random.below(file.len());
            let to = random.between(from, file.len().min(from + 20));
            file.drain(from..to);
            "file with a gap"
        }
        _ => {
            for _ in 0..random.between(1, 20) {
                file.insert(random.below(file.len() + 1), random.pick(b"0123456789ABCDEF\n\r "));
            }
            "file made longer"
        }
    };
    (kind, file)
}

/// The front of a file and the rest of another.
fn joined(random: &mut Random, file: Vec<u8>) -> (&'static str, Vec<u8>) {
    let site = any_site(random);
    let other = lines_of(random, &site).concat();
    let (front, rest) = (random.below(file.len() + 1), random.below(other.len() + 1));
    ("files joined", [&file[..front], &other[rest..]].concat())
}

fn noise(random: &mut Random) -> Vec<u8> {
    let digits = random.once_in(2);
    (0..random.below(200))
        .map(|_| if digits { random.pick(b"0123456789ABCDEF\n") } else { random.word() as u8 })
        .collect()
}

/// As long as an input may be, and longer.
fn long(random: &mut Random, mut lines: Vec<Vec<u8>>) -> (&'static str, Vec<u8>) {
    let more = link_line(&[0, 1], random.pick(&[None, Some(0x81), Some(0x00), Some(0x01)]));
    let last = lines.pop().unwrap_or_default();
    let mut file = lines.concat();
    while file.len() + more.len() + last.len() <= MAX_INPUT {
        file.extend(&more);
    }
    file.extend(&last);
    match random.below(3) {
        0 => {}
        1 => file.resize(random.between(MAX_INPUT - 1, MAX_INPUT + 2), b'0'),
        _ => {
            let twice = [&file[..], &more[..], &file[..]].concat();
            file = twice[..random.between(MAX_INPUT, twice.len())].to_vec();
        }
    }
    (if file.len() > MAX_INPUT { "file above 65,535 bytes" } else { "file near 65,535 bytes" }, file)
}

/// Words of a state changed in any way.
pub fn spoil_words(random: &mut Random, words: &mut [u16]) {
    const CLOCK: usize = 2050;
    const PLAN: usize = Survey::WORDS - MAX_UNITS - 1;
    const LEVELS: usize = PLAN - MAX_LINKS;
    let (units, links) = (words[0], words[1]);
    // where the entries of units, links and the clock are
    let table = 2 + 2 * usize::from(links.min(1024));
    for _ in 0..1 << random.below(4) {
        let at = match random.below(9) {
            8 => PLAN + random.below(MAX_UNITS + 1),
            0 => random.below(2),
            1 => CLOCK + random.below(4),
            2 => random.below(table),
            3 => table.min(CLOCK - 1),
            4 => LEVELS + random.below(MAX_LINKS),
            _ => random.below(words.len()),
        };
        words[at] = match random.below(6) {
            0 => words[at].wrapping_add(1),
            1 => words[at].wrapping_sub(1),
            2 => words[random.below(words.len())],
            3 if (LEVELS..PLAN).contains(&at) => word_of_level(odd_level(random)),
            _ => odd_word(random, units, links),
        };
    }
}

/// A state that may be anything, and the name of its kind.
pub fn any_words(random: &mut Random) -> (&'static str, Box<State>) {
    let kept = |random: &mut Random| crate::states::any_kept(random).to_words();
    match random.below(16) {
        0..=5 => ("state after a load", crate::states::reached(random).to_words()),
        6..=10 => ("kept state", kept(random)),
        11..=13 => {
            let mut words = kept(random);
            spoil_words(random, &mut words[..]);
            ("state with words changed", words)
        }
        14 => {
            let word = random.pick(&[0, 0, 1, 11, ABSENT]);
            ("state of one word", Box::new([word; Survey::WORDS]))
        }
        _ => ("state of random words", Box::new(std::array::from_fn(|_| random.word()))),
    }
}
