//! Levels of links (document 02, T-01): two's complement, both kinds of link lines, and vectors of an independent
//! model, those of units without a link (T-10) among them.

use plain::{
    Refusal, Survey, byte_of_level, check_table, level_of_byte, level_of_word, read_file, report_of_file,
    word_of_level, write_file,
};
use std::path::{Path, PathBuf};

/// Two's complement by its definition: what is negative is raised by a power of two.
#[test]
fn bytes_and_words() {
    for level in -128..128 {
        assert_eq!(i32::from(byte_of_level(level)), (i32::from(level) + 256) % 256);
        assert_eq!(level_of_byte(byte_of_level(level)), level);
    }
    for byte in 0..=255 {
        assert_eq!(byte_of_level(level_of_byte(byte)), byte);
    }
    for word in 0..=u16::MAX {
        let level = level_of_word(word);
        assert_eq!((i32::from(level) + 65536) % 65536, i32::from(word));
        assert_eq!(word_of_level(level), word);
    }
    assert_eq!([0, -1, -61, -127].map(byte_of_level), [0x00, 0xFF, 0xC3, 0x81]);
    assert_eq!([0, -1, -127].map(word_of_level), [0, 65535, 65409]);
}

/// The bytes 00 and 81 to FF are levels; 01 to 80 are refused.
#[test]
fn each_level_byte() {
    for byte in 0..=255u8 {
        let check = 0u8.wrapping_sub(0x03 + 0x01).wrapping_sub(byte);
        let file = format!("010002FD\n0300000001{byte:02X}{check:02X}\n0F0001F0\n");
        let (mut words, mut levels) = ([7; 2], [7; 1]);
        let read = read_file(file.as_bytes(), &mut words, &mut levels);
        if (0x01..=0x80).contains(&byte) {
            assert_eq!((read, words, levels), (Err(Refusal::LevelOutside), [7; 2], [7; 1]), "{file}");
            continue;
        }
        assert!(read.is_ok() && words == [0, 1] && levels == [level_of_byte(byte)], "{file}");
        let mut copy = [0; 33];
        assert_eq!(write_file(2, &words, &levels, &mut copy), Ok(33), "{file}");
        assert_eq!(copy, file.as_bytes());
    }
}

/// A file of both kinds comes back with kind 03 alone, and -127 where there was no level.
#[test]
fn both_kinds() {
    let mixed = "010004FB\n0300000001C339\n0200010002FB\n030000000200FB\n0200020003F9\n0F0004ED\n";
    let whole = "010004FB\n0300000001C339\n03000100028179\n030000000200FB\n03000200038177\n0F0004ED\n";
    for file in [mixed, whole] {
        let (mut words, mut levels) = ([7; 9], [7; 5]);
        let contents = read_file(file.as_bytes(), &mut words, &mut levels).unwrap();
        assert_eq!((contents.units, contents.links), (4, 4));
        assert_eq!((words, levels), ([0, 1, 1, 2, 0, 2, 2, 3, 7], [-61, -127, 0, -127, 7]));
        let mut copy = [0; 78];
        assert_eq!(write_file(4, &words[..8], &levels[..4], &mut copy), Ok(78));
        assert_eq!(std::str::from_utf8(&copy).unwrap(), whole);
    }
}

/// 15 and 16 stand after 6 and before 7.
#[test]
fn numbers_in_order() {
    let check =
        |units, table: &[u16], levels: &[i16]| check_table(units, table, levels).map_err(|refusal| refusal.number());
    assert_eq!(check(0, &[0], &[1]), Err(4));
    assert_eq!(check(3, &[0], &[1, 1]), Err(5));
    assert_eq!(check(3, &[0; 2050], &[1]), Err(6));
    assert_eq!(check(3, &[0, 0], &[1, 1]), Err(15));
    assert_eq!(check(3, &[0, 1], &[]), Err(15));
    assert_eq!(check(3, &[3, 3], &[1]), Err(16));
    assert_eq!(check(3, &[3, 3], &[-128]), Err(16));
    assert_eq!(check(3, &[3, 3], &[-127]), Err(7));
    assert_eq!(check(3, &[0, 1, 1, 2], &[-127, 0]), Ok(()));
}

// ---- vectors: NAME.in and NAME.out, those that begin with t01 or t10

/// The vectors of a family, here or under the folder that SURVEY_LEVELS names.
fn vectors(family: &str) -> Vec<PathBuf> {
    let here = Path::new(env!("CARGO_MANIFEST_DIR")).join("tests/levels");
    let folder = std::env::var_os("SURVEY_LEVELS").map_or(here, PathBuf::from).join(family);
    let entries = std::fs::read_dir(&folder).unwrap_or_else(|e| panic!("{}: {e}", folder.display()));
    let known = |name: &str| name.starts_with("t01_") || name.starts_with("t10_");
    let ours = |path: &PathBuf| path.file_name().is_some_and(|name| known(&name.to_string_lossy()));
    let mut found: Vec<PathBuf> = entries
        .map(|entry| entry.unwrap().path())
        .filter(|path| ours(path) && path.extension().is_some_and(|e| e == "in"))
        .collect();
    found.sort();
    assert!(!found.is_empty(), "no vectors in {}", folder.display());
    found
}

fn contents(path: &Path) -> Vec<u8> {
    std::fs::read(path).unwrap_or_else(|e| panic!("{}: {e}", path.display()))
}

fn refusal_line(number: u8) -> Vec<u8> {
    format!("1E{number:02X}{:02X}\n", 0u8.wrapping_sub(0x1E).wrapping_sub(number)).into_bytes()
}

/// What the program prints.
#[test]
fn reports() {
    for path in vectors("program") {
        let mut out = vec![0; 21_274];
        let length = report_of_file(&contents(&path), &mut out);
        assert!(out[..length] == contents(&path.with_extension("out")), "{}", path.display());
    }
}

/// The file written from what was read, or the refusal's line.
#[test]
fn rewritten() {
    for path in vectors("rewrite") {
        let (mut words, mut levels, mut out) = ([0; 2048], [0; 1024], vec![0; 15_378]);
        let written = read_file(&contents(&path), &mut words, &mut levels).and_then(|contents| {
            let links = usize::from(contents.links);
            write_file(contents.units, &words[..2 * links], &levels[..links], &mut out)
        });
        let printed = match written {
            Ok(length) => out[..length].to_vec(),
            Err(refusal) => refusal_line(refusal.number()),
        };
        assert!(printed == contents(&path.with_extension("out")), "{}", path.display());
    }
}

/// The numbers of a stream.
struct Numbers(Vec<i64>);

impl Numbers {
    fn of(path: &Path) -> Numbers {
        let text = String::from_utf8(contents(path)).unwrap();
        let mut numbers: Vec<i64> = text.split_whitespace().map(|word| word.parse().unwrap()).collect();
        numbers.reverse();
        Numbers(numbers)
    }

    fn next<T: TryFrom<i64>>(&mut self) -> T {
        T::try_from(self.0.pop().unwrap()).ok().unwrap()
    }

    fn list<T: TryFrom<i64>>(&mut self) -> Vec<T> {
        let length: usize = self.next();
        (0..length).map(|_| self.next()).collect()
    }
}

/// Loads (1, of a stored table 3) and writes (4): the number of a refusal, else 0 and the first countdown or the
/// characters.
#[test]
fn loads_and_writes() {
    for path in vectors("loads") {
        let mut given = Numbers::of(&path);
        let mut lines = String::new();
        for _ in 0..given.next() {
            let call: u8 = given.next();
            let units: u16 = given.next();
            let (table, levels): (Vec<u16>, Vec<i16>) = (given.list(), given.list());
            let (parents, places): (Vec<u16>, usize) = (given.list(), given.next());
            assert!(parents.is_empty() && [1, 3, 4].contains(&call), "{}", path.display());
            let answer = if call == 4 {
                write_file(units, &table, &levels, &mut vec![0; places])
            } else {
                let mut survey = Survey::new();
                let load = if call == 3 { Survey::load_stored } else { Survey::load };
                load(&mut survey, units, &table, &levels).map(|()| usize::from(survey.status().unwrap().countdown))
            };
            lines += &answer.map_or_else(|refusal| format!("{}\n", refusal.number()), |value| format!("0 {value}\n"));
        }
        assert_eq!(lines.as_bytes(), contents(&path.with_extension("out")), "{}", path.display());
    }
}
