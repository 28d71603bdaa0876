//! The lines of the two handsets (T-06): of the plain version against vectors, and what the request says of them.

mod streams;

use plain::random::Random;
use plain::sites::any_site;
use plain::states::{any_kept, loaded};
use plain::{FINISHED, FOREMAN_LINE, Refusal, SERVICE_LINE, Survey};

const MARK: u8 = 0xA5;

type Call = fn(&Survey, &mut [u8]) -> Result<usize, Refusal>;

/// A line, after a look at the bytes past it, and at a slice that is one place too short.
fn line(survey: &Survey, call: Call, length: usize) -> String {
    let mut out = [MARK; 24];
    assert_eq!(call(survey, &mut out), Ok(length));
    assert!(out[length..].iter().all(|&b| b == MARK));
    let mut short = vec![MARK; length - 1];
    assert_eq!(call(survey, &mut short), Err(Refusal::TooShort));
    assert!(short.iter().all(|&b| b == MARK));
    String::from_utf8(out[..length].to_vec()).unwrap()
}

fn foreman(survey: &Survey) -> String {
    line(survey, Survey::foreman_line, FOREMAN_LINE)
}

fn service(survey: &Survey) -> String {
    line(survey, Survey::service_line, SERVICE_LINE)
}

/// Each case of `check_lines`: both lines after the load and after each round.
#[test]
fn line_vectors() {
    streams::vectors("lines").hold(|name, numbers, said| {
        let (call, site, parents): (u8, _, Vec<u16>) = (numbers.next(), numbers.site(), numbers.list());
        let mut survey = Survey::new();
        if call == 2 {
            survey.load_planned(site.units, &site.table, &site.levels, &parents).unwrap();
        } else {
            assert!(call == 1 && parents.is_empty(), "{name}: another call than a load");
            survey.load(site.units, &site.table, &site.levels).unwrap();
        }
        loop {
            *said += &foreman(&survey);
            *said += &service(&survey);
            if survey.finished() {
                return;
            }
            survey.round().unwrap();
        }
    });
}

/// Document 02's two lines of case B just loaded, and a state that is not kept, whatever the slice.
#[test]
fn case_b() {
    let mut survey = Survey::new();
    assert_eq!(survey.foreman_line(&mut []), Err(Refusal::NotKept));
    assert_eq!(survey.service_line(&mut [MARK; 30]), Err(Refusal::NotKept));
    survey.load(4, &[0, 1, 1, 2, 0, 2, 2, 3], &[0; 4]).unwrap();
    assert_eq!(foreman(&survey), "2001001EC1\n");
    assert_eq!(service(&survey), "2101001E00000000C0\n");
}

/// Any two kept surveys that agree in unit count, stage and rounds made in it have equal foreman's lines; the service
/// line holds the status.
#[test]
fn equal_lines() {
    let (mut random, mut compared) = (Random::new(6, 0), 0);
    for _ in 0..2000 {
        let survey = any_kept(&mut random);
        let status = survey.status().unwrap();
        let mut other = loaded(&any_site(&mut random));
        (other.units, other.stage, other.made) = (survey.units, survey.stage, survey.made);
        (other.rounds, other.requests) = (random.below(805) as u16, random.below(8159) as u16);
        if other.status().is_ok() {
            compared += 1;
            assert_eq!(foreman(&other), foreman(&survey));
        }
        let bytes = |from: usize, to: usize, line: &str| u16::from_str_radix(&line[from..to], 16).unwrap();
        let (first, second) = (foreman(&survey), service(&survey));
        assert!(first.starts_with("20") && second.starts_with("21") && survey.stage <= FINISHED);
        assert_eq!((bytes(2, 4, &first), bytes(4, 8, &first)), (status.stage, status.countdown));
        assert_eq!((bytes(2, 4, &second), bytes(4, 8, &second)), (status.stage, status.countdown));
        assert_eq!((bytes(8, 12, &second), bytes(12, 16, &second)), (status.rounds, status.requests));
    }
    println!("{compared} pairs compared");
    assert!(compared >= 500);
}
