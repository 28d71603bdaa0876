//! Files and tables against the customer's list of refusals, each number judged over the whole input by a search of its
//! own.

use plain::damage::{any_file, spoil_site};
use plain::random::Random;
use plain::sites::any_site;
use plain::{check_fresh, check_table, file_length, read_file, write_file};

/// The bytes of a line, if it is whole.
fn frame(line: &[u8]) -> Option<Vec<u8>> {
    let digits = std::str::from_utf8(line.strip_suffix(b"\n")?).ok()?;
    if digits.len() % 2 == 1 || !digits.chars().all(|c| "0123456789ABCDEF".contains(c)) {
        return None;
    }
    let bytes: Vec<u8> =
        (0..digits.len()).step_by(2).map(|i| u8::from_str_radix(&digits[i..i + 2], 16).unwrap()).collect();
    let length = match bytes.first()? {
        0x01 | 0x0F => 4,
        0x02 => 6,
        0x03 => 7,
        _ => return None,
    };
    let sum: u32 = bytes.iter().map(|&byte| u32::from(byte)).sum();
    (bytes.len() == length && sum.is_multiple_of(256)).then_some(bytes)
}

fn number(bytes: &[u8], at: usize) -> u16 {
    256 * u16::from(bytes[at]) + u16::from(bytes[at + 1])
}

/// The level of a link's frame: what a byte says as a signed number, -127 where there is none.
fn level(bytes: &[u8]) -> i16 {
    match bytes[0] {
        0x02 => -127,
        _ if bytes[5] < 128 => i16::from(bytes[5]),
        _ => i16::from(bytes[5]) - 256,
    }
}

/// What a file says, or the number of its refusal.
#[derive(Debug, PartialEq)]
struct Read {
    units: u16,
    table: Vec<u16>,
    levels: Vec<i16>,
}

fn read_slowly(input: &[u8]) -> Result<Read, u8> {
    let frames: Option<Vec<Vec<u8>>> = input.split_inclusive(|&c| c == b'\n').map(frame).collect();
    let frames = frames.ok_or(1)?;
    let kinds: Vec<u8> = frames.iter().map(|bytes| bytes[0]).collect();
    match kinds[..] {
        [0x01, ref links @ .., 0x0F] if links.iter().all(|&kind| kind == 0x02 || kind == 0x03) => {}
        _ => return Err(2),
    }
    let links = &frames[1..frames.len() - 1];
    if usize::from(number(&frames[frames.len() - 1], 1)) != links.len() {
        return Err(3);
    }
    if links.len() > 1024 {
        return Err(6);
    }
    let levels: Vec<i16> = links.iter().map(|bytes| level(bytes)).collect();
    if levels.iter().any(|&level| !(-127..=0).contains(&level)) {
        return Err(16);
    }
    let table = links.iter().flat_map(|bytes| [number(bytes, 1), number(bytes, 3)]).collect();
    Ok(Read { units: number(&frames[0], 1), table, levels })
}

fn check_slowly(units: u16, table: &[u16], levels: &[i16]) -> Result<(), u8> {
    let links: Vec<&[u16]> = table.chunks(2).collect();
    let alike = |i: usize, j: usize| links[i] == links[j] || (links[i][0] == links[j][1] && links[i][1] == links[j][0]);
    if units == 0 || units > 256 {
        Err(4)
    } else if table.len() % 2 == 1 {
        Err(5)
    } else if table.len() > 2048 {
        Err(6)
    } else if levels.len() != links.len() {
        Err(15)
    } else if levels.iter().any(|&level| !(-127..=0).contains(&level)) {
        Err(16)
    } else if table.iter().any(|&end| end >= units) {
        Err(7)
    } else if links.iter().any(|ends| ends[0] == ends[1]) {
        Err(8)
    } else if (0..links.len()).any(|j| (0..j).any(|i| alike(i, j))) {
        Err(9)
    } else {
        Ok(())
    }
}

/// 22, of a table that passes all else.
fn check_units_slowly(units: u16, table: &[u16]) -> Result<(), u8> {
    if units >= 2 && (0..units).any(|unit| !table.contains(&unit)) { Err(22) } else { Ok(()) }
}

#[test]
fn read() {
    let mut seen = [0; 17];
    for case in 0..20_000 {
        let random = &mut Random::new(11, case);
        let (kind, input) = any_file(random);
        let (mut words, mut levels) = ([7; 2049], [7; 1025]);
        let ours = read_file(&input, &mut words, &mut levels).map_err(|refusal| refusal.number());
        match read_slowly(&input) {
            Err(number) => {
                assert_eq!(ours, Err(number), "case {case}, {kind}");
                assert!(words == [7; 2049] && levels == [7; 1025], "case {case}, {kind}");
                seen[usize::from(number)] += 1;
            }
            Ok(slowly) => {
                let contents = ours.unwrap();
                let links = usize::from(contents.links);
                assert_eq!((contents.units, 2 * links), (slowly.units, slowly.table.len()), "case {case}, {kind}");
                assert!(
                    words[..2 * links] == slowly.table && words[2 * links..].iter().all(|&word| word == 7),
                    "case {case}, {kind}"
                );
                assert!(
                    levels[..links] == slowly.levels && levels[links..].iter().all(|&level| level == 7),
                    "case {case}, {kind}"
                );
                // a place too few for the ends, for the levels, or for both
                for (fewer_words, fewer_levels) in [(1, 0), (0, 1), (1, 1)] {
                    if links > 0 {
                        let (mut words, mut levels) = (vec![7; 2 * links - fewer_words], vec![7; links - fewer_levels]);
                        let refused = read_file(&input, &mut words, &mut levels).map_err(|refusal| refusal.number());
                        assert_eq!(refused, Err(14), "case {case}, {kind}");
                        assert!(
                            words.iter().all(|&word| word == 7) && levels.iter().all(|&level| level == 7),
                            "case {case}, {kind}"
                        );
                    }
                }
                seen[0] += 1;
            }
        }
    }
    assert!([0, 1, 2, 3, 6, 16].iter().all(|&number| seen[number] > 20), "{seen:?}");
}

#[test]
fn check_and_write() {
    let mut seen = [0; 23];
    for case in 0..10_000 {
        let random = &mut Random::new(12, case);
        let mut site = any_site(random);
        if random.once_in(2) {
            spoil_site(random, &mut site);
        }
        let stored = check_table(site.units, &site.table, &site.levels).map_err(|refusal| refusal.number());
        assert_eq!(stored, check_slowly(site.units, &site.table, &site.levels), "case {case}");
        let ours = check_fresh(site.units, &site.table, &site.levels).map_err(|refusal| refusal.number());
        assert_eq!(ours, stored.and_then(|()| check_units_slowly(site.units, &site.table)), "case {case}");
        seen[usize::from(ours.err().unwrap_or(0))] += 1;

        let length = file_length(site.links());
        let mut out = vec![7; length + 2];
        let written = write_file(site.units, &site.table, &site.levels, &mut out).map_err(|refusal| refusal.number());
        match ours {
            Err(number) => {
                assert_eq!(written, Err(number), "case {case}");
                assert!(out.iter().all(|&byte| byte == 7), "case {case}");
            }
            Ok(()) => {
                assert_eq!((written, length), (Ok(length), 18 + 15 * site.links()), "case {case}");
                assert_eq!(out[length..], [7, 7], "case {case}");
                assert!(out[9..length - 9].chunks(15).all(|line| line.starts_with(b"03")), "case {case}");
                let short = write_file(site.units, &site.table, &site.levels, &mut out[..length - 1]);
                assert_eq!(short.map_err(|refusal| refusal.number()), Err(14), "case {case}");
                let back = Read { units: site.units, table: site.table, levels: site.levels };
                assert_eq!(read_slowly(&out[..length]), Ok(back), "case {case}");
            }
        }
    }
    assert!([0, 4, 5, 6, 7, 8, 9, 15, 16, 22].iter().all(|&number| seen[number] > 20), "{seen:?}");
}
