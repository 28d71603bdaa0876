//! The plain version against the vectors that stand in the repository.

use plain::{ABSENT, Survey, check_table, read_file, report_of_file, write_file};
use std::fmt::Write;
use std::path::{Path, PathBuf};

fn crates() -> PathBuf {
    Path::new(env!("CARGO_MANIFEST_DIR")).join("../crates")
}

fn read(path: &Path) -> Vec<u8> {
    std::fs::read(path).unwrap_or_else(|e| panic!("{}: {e}", path.display()))
}

fn text(path: &Path) -> String {
    String::from_utf8(read(path)).unwrap()
}

fn loaded(input: &[u8]) -> Survey {
    let (mut words, mut levels) = ([0; 2048], [0; 1024]);
    let contents = read_file(input, &mut words, &mut levels).unwrap();
    let links = usize::from(contents.links);
    let mut survey = Survey::new();
    survey.load_stored(contents.units, &words[..2 * links], &levels[..links]).unwrap();
    survey
}

/// A whole file with its lines of kind 02 turned into lines of kind 03 with the lowest level: their sums are by 82
/// greater.
fn with_levels(file: &[u8]) -> Vec<u8> {
    let lines = std::str::from_utf8(file).unwrap().lines().map(|line| match line.strip_prefix("02") {
        Some(rest) => {
            let (ends, check) = rest.split_at(8);
            format!("03{ends}81{:02X}\n", u8::from_str_radix(check, 16).unwrap().wrapping_sub(0x82))
        }
        None => format!("{line}\n"),
    });
    lines.collect::<String>().into_bytes()
}

/// A folder of NAME.in and NAME.out: what the program reads, and what it prints.
#[test]
fn reports_of_files() {
    let folder = std::env::var_os("SURVEY_VECTORS").map_or(crates().join("check_vectors/data"), PathBuf::from);
    let entries = std::fs::read_dir(&folder).unwrap_or_else(|e| panic!("{}: {e}", folder.display()));
    let mut inputs: Vec<PathBuf> =
        entries.map(|entry| entry.unwrap().path()).filter(|path| path.extension().is_some_and(|e| e == "in")).collect();
    inputs.sort();
    assert!(inputs.len() >= 100, "only {} vectors in {}", inputs.len(), folder.display());
    for path in inputs {
        let expected = read(&path.with_extension("out"));
        let mut out = vec![0xA5; expected.len() + 3];
        assert_eq!(report_of_file(&read(&path), &mut out), expected.len(), "{}", path.display());
        assert!(out[..expected.len()] == expected && out[expected.len()..] == [0xA5; 3], "{}", path.display());

        // one place too few: nothing is written
        let mut short = vec![0xA5; expected.len() - 1];
        assert_eq!(report_of_file(&read(&path), &mut short), 0, "{}", path.display());
        assert!(short.iter().all(|&b| b == 0xA5), "{}", path.display());
    }
}

/// Each file read, checked and written back: the number of its refusal, or every byte the same but for the kind of its
/// links.
#[test]
fn files_read_and_written() {
    let lines = text(&crates().join("check_files/stdout"));
    assert!(lines.lines().count() >= 100);
    for line in lines.lines() {
        let (name, expected) = line.split_once(' ').unwrap();
        let input = read(&crates().join("check_files/data").join(name));
        let (mut words, mut levels) = ([0; 2048], [0; 1024]);
        let mut copy = vec![0; 2 * input.len()];
        let outcome = if input.len() > plain::MAX_INPUT {
            Err(1)
        } else {
            read_file(&input, &mut words, &mut levels)
                .and_then(|contents| {
                    let links = usize::from(contents.links);
                    let (table, levels) = (&words[..2 * links], &levels[..links]);
                    check_table(contents.units, table, levels)?;
                    write_file(contents.units, table, levels, &mut copy)
                })
                .map_err(|refusal| refusal.number())
        };
        match outcome {
            Err(number) => assert_eq!(number.to_string(), expected, "{name}"),
            Ok(length) => assert!(expected.parse::<u8>().is_err() && copy[..length] == with_levels(&input), "{name}"),
        }
    }
}

/// The parts of an expected output that begin with a name, each with the lines up to the next.
fn parts<'a>(lines: &'a str, names: &'a str) -> Vec<(&'a str, String)> {
    let names: Vec<&str> = names.lines().collect();
    let mut parts: Vec<(&str, String)> = Vec::new();
    for line in lines.lines() {
        if names.contains(&line) {
            parts.push((line, String::new()));
        } else {
            writeln!(parts.last_mut().unwrap().1, "{line}").unwrap();
        }
    }
    assert_eq!(parts.len(), names.len());
    parts
}

fn each_round(folder: &str, load: fn(&[u8]) -> Survey, say: fn(&Survey, &mut String)) {
    let folder = crates().join(folder);
    for (name, expected) in parts(&text(&folder.join("stdout")), &text(&folder.join("args"))) {
        let mut survey = load(&read(&folder.join("data").join(name)));
        let mut said = String::new();
        say(&survey, &mut said);
        while !survey.finished() {
            survey.round().unwrap();
            say(&survey, &mut said);
        }
        for (line, (ours, theirs)) in said.lines().zip(expected.lines()).enumerate() {
            assert_eq!(ours, theirs, "{name}, line {}", line + 1);
        }
        assert_eq!(said, expected, "{name}");
    }
}

/// The status after the load and after each round.
#[test]
fn traces() {
    each_round("check_traces", loaded, |survey, said| {
        let s = survey.status().unwrap();
        writeln!(said, "{} {} {} {}", s.stage, s.countdown, s.rounds, s.requests).unwrap();
    });
}

/// Every table after the load and after each round: of survey files, which begin with 0, and of streams, with levels
/// (document 02, T-02) and with a tree drawn by the planner (T-05).
#[test]
fn tables() {
    each_round("check_tables", |text| if text.starts_with(b"0") { loaded(text) } else { streamed(text) }, say_tables);
}

/// A stream of numbers: the unit count, the list of words, the list of levels, and with a plan the list of parents; a
/// list is its length and its numbers.
fn streamed(input: &[u8]) -> Survey {
    let mut numbers = std::str::from_utf8(input).unwrap().split_whitespace().map(|word| word.parse::<i32>().unwrap());
    let units = numbers.next().unwrap() as u16;
    let mut list = || -> Option<Vec<i32>> {
        let length = numbers.next()? as usize;
        Some(numbers.by_ref().take(length).collect())
    };
    let words = |list: Vec<i32>| -> Vec<u16> { list.into_iter().map(|word| word.try_into().unwrap()).collect() };
    let table = words(list().unwrap());
    let levels: Vec<i16> = list().unwrap().into_iter().map(|level| level.try_into().unwrap()).collect();
    let mut survey = Survey::new();
    match list() {
        Some(parents) => survey.load_planned(units, &table, &levels, &words(parents)),
        None => survey.load(units, &table, &levels),
    }
    .unwrap();
    survey
}

fn word(x: u16) -> String {
    if x == ABSENT { "-".into() } else { x.to_string() }
}

fn say_tables(s: &Survey, said: &mut String) {
    let (n, m) = (usize::from(s.units), usize::from(s.links));
    let status = s.status().unwrap();
    writeln!(
        said,
        "round {} stage {} countdown {} requests {}",
        status.rounds, status.stage, status.countdown, status.requests
    )
    .unwrap();
    for (name, entries) in [
        ("color", &s.color[..n]),
        ("parent", &s.parent[..n]),
        ("dist", &s.dist[..n]),
        ("descendants", &s.nd[..n]),
        ("place", &s.pre[..n]),
        ("least", &s.low[..n]),
        ("greatest", &s.high[..n]),
        ("little", &s.little[..n]),
        ("big", &s.big[..n]),
        ("segments-least", &s.global_low[..n]),
        ("segments-greatest", &s.global_high[..n]),
        ("joins-parent", &s.aux_parents[..n]),
        ("joins-link", &s.aux_links[..m]),
        ("class", &s.aux_color[..n]),
        ("link-class", &s.class[..m]),
        ("label", &s.label[..m]),
    ] {
        let words: Vec<String> = entries.iter().map(|&x| format!(" {}", word(x))).collect();
        writeln!(said, "{name}{}", words.concat()).unwrap();
    }
    if s.stage >= 3 {
        say_arcs(s, said);
    }
}

/// The tables by directed tree link u>v, in order of u and v.
fn say_arcs(s: &Survey, said: &mut String) {
    let ends = |arc: u16| {
        let v = arc / 2;
        let parent = s.parent[usize::from(v)];
        if arc.is_multiple_of(2) { (parent, v) } else { (v, parent) }
    };
    let mut arcs: Vec<u16> = (0..2 * s.units).filter(|&arc| s.parent[usize::from(arc / 2)] != ABSENT).collect();
    arcs.sort_by_key(|&arc| ends(arc));
    let named = |arc: u16| if arc == ABSENT { "-".into() } else { format!("{}>{}", ends(arc).0, ends(arc).1) };
    for (name, entries, names) in [
        ("follower", &s.next, true),
        ("predecessor", &s.pred, true),
        ("working", &s.jump, true),
        ("sum", &s.sum, false),
        ("forward", &s.forward, false),
    ] {
        let words: Vec<String> = arcs
            .iter()
            .map(|&arc| {
                let entry = entries[usize::from(arc)];
                format!(" {}:{}", named(arc), if names { named(entry) } else { word(entry) })
            })
            .collect();
        writeln!(said, "{name}{}", words.concat()).unwrap();
    }
}
