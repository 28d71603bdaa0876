//! The header beside the plain version: its functions and the numbers that it lists for each are those that the search
//! asks for, its refusals are 1 to 23, and its sizes are the plain version's.

use plain::search::REFUSALS;
use plain::{FOREMAN_LINE, LIVE_WORDS, MAX_LINKS, MAX_UNITS, SERVICE_LINE, Survey, file_length, report_length};
use std::collections::{BTreeMap, BTreeSet};
use std::path::Path;

fn header() -> String {
    let path = Path::new(env!("CARGO_MANIFEST_DIR")).join("../include/link_survey.h");
    std::fs::read_to_string(&path).unwrap_or_else(|e| panic!("{}: {e}", path.display()))
}

/// The numbers of a text, but for those in brackets.
fn numbers(text: &str) -> BTreeSet<u32> {
    let mut depth = 0;
    let mut bare = String::new();
    for c in text.chars() {
        depth += i32::from(c == '(') - i32::from(c == ')');
        bare.push(if depth > 0 || !c.is_ascii_digit() { ' ' } else { c });
    }
    bare.split_whitespace().map(|digits| digits.parse().unwrap()).collect()
}

/// Each function with the numbers of its "returns"; a report, which returns a number of bytes, lists its refusals in
/// brackets. The version is no call of the survey, and is refused nothing.
#[test]
fn functions_and_their_numbers() {
    let header = header();
    let mut listed: BTreeMap<&str, BTreeSet<u32>> = BTreeMap::new();
    let parts: Vec<&str> = header.split("\nuint32_t link_survey_").collect();
    for (before, after) in parts.iter().zip(&parts[1..]) {
        let name = &after[..after.find('(').unwrap()];
        if name == "version" {
            continue;
        }
        let comment = &before[before.rfind("/*").unwrap()..];
        let mut of = if name == "report" {
            let from = comment.find("the refusal (").unwrap() + "the refusal (".len();
            let mut of = numbers(&comment[from..from + comment[from..].find(')').unwrap()]);
            of.insert(14);
            of
        } else {
            numbers(&comment[comment.find("returns").unwrap()..])
        };
        of.remove(&0);
        assert!(listed.insert(name, of).is_none(), "{name} is declared twice");
    }
    let asked: BTreeMap<&str, BTreeSet<u32>> =
        REFUSALS.iter().map(|&(name, of)| (name, of.iter().copied().collect())).collect();
    assert_eq!(listed, asked);
}

/// A macro's number.
fn macro_of(header: &str, name: &str) -> usize {
    let lines = header.lines().filter_map(|line| line.strip_prefix(&format!("#define LINK_SURVEY_{name} ")));
    let found: Vec<&str> = lines.collect();
    assert_eq!(found.len(), 1, "{name}");
    found[0].trim().parse().unwrap()
}

#[test]
fn refusals_and_sizes() {
    let header = header();
    let from = header.find("enum link_survey_refusal {").unwrap();
    let refusals = &header[from..from + header[from..].find("};").unwrap()];
    let values: Vec<u32> = refusals
        .lines()
        .filter_map(|line| line.trim().strip_prefix("LINK_SURVEY_"))
        .map(|rest| rest.split([',', '/']).next().unwrap().split('=').nth(1).unwrap().trim().parse().unwrap())
        .collect();
    assert_eq!(values, (0..=23).collect::<Vec<_>>());
    for (name, number) in [
        ("STATE_WORDS", Survey::WORDS),
        ("LIVE_WORDS", LIVE_WORDS),
        ("MAX_UNITS", MAX_UNITS),
        ("MAX_LINKS", MAX_LINKS),
        ("MAX_ROUNDS", Survey::MAX_ROUNDS.into()),
        ("MAX_REPORT_BYTES", report_length(MAX_UNITS, MAX_LINKS)),
        ("MAX_FILE_BYTES", file_length(MAX_LINKS)),
        ("FOREMAN_LINE_BYTES", FOREMAN_LINE),
        ("SERVICE_LINE_BYTES", SERVICE_LINE),
    ] {
        assert_eq!(macro_of(&header, name), number, "{name}");
    }
}
