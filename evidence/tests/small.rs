//! All small sites (document 02, T-13) and parts that add up (T-14): the plain version against the lines of
//! `small_sites`, against vectors, and on sites of every shape, whichever tree was used.

mod streams;

use plain::random::Random;
use plain::sites::{any_parents, any_site};
use plain::states::loaded;
use plain::{Refusal, Survey};
use std::fmt::Write;
use std::path::Path;
use streams::{line, vectors};

/// Every set of links among one to five units as a stored table: the unit count, the number of the set and a bit for
/// each single point.
#[test]
fn all_small_sites() {
    let mut said = String::new();
    for units in 1..=5u16 {
        let pairs: Vec<[u16; 2]> = (0..units).flat_map(|a| (a + 1..units).map(move |b| [a, b])).collect();
        for set in 0..1u16 << pairs.len() {
            let table: Vec<u16> = (0..pairs.len()).filter(|j| set >> j & 1 == 1).flat_map(|j| pairs[j]).collect();
            let mut survey = Survey::new();
            survey.load_stored(units, &table, &vec![-127; table.len() / 2]).unwrap();
            survey.run(u16::MAX).unwrap();
            let single = (0..units).fold(0, |bits, v| bits | u16::from(survey.unit(v).unwrap().single) << v);
            let body = [[0, 0x22], units.to_be_bytes(), set.to_be_bytes(), single.to_be_bytes()].concat();
            let bytes = [&body[1..6], &body[7..]].concat();
            let check = bytes.iter().fold(0u8, |left, &byte| left.wrapping_sub(byte));
            bytes.iter().chain([&check]).for_each(|byte| write!(said, "{byte:02X}").unwrap());
            said.push('\n');
        }
    }
    let folder = Path::new(env!("CARGO_MANIFEST_DIR")).join("../crates/small_sites");
    assert_eq!(said, std::fs::read_to_string(folder.join("stdout")).unwrap());
}

fn sum(survey: &Survey) -> usize {
    survey.sums().unwrap().parts.iter().map(|&(_, part)| part).sum()
}

#[test]
fn parts_vectors() {
    let cases = vectors("parts").hold(|_, numbers, said| {
        let site = numbers.site();
        let mut survey = loaded(&site);
        assert_eq!(survey.sums(), Err(Refusal::NotFinished));
        survey.run(u16::MAX).unwrap();
        let sums = survey.sums().unwrap();
        let parts = sums.parts.iter().flat_map(|&(label, part)| [usize::from(label), part]);
        let last = [sum(&survey), usize::from(site.units) - sums.groups];
        *said += &line([sums.parts.len()].into_iter().chain(parts).chain(last));
    });
    println!("{cases} cases");
}

/// Sites of every shape, by the survey's own tree and by one drawn by a planner.
#[test]
fn parts_add_up() {
    let (mut sites, mut plans) = (0, 0);
    for case in 0..2000 {
        let random = &mut Random::new(14, case);
        let site = any_site(random);
        let mut survey = loaded(&site);
        survey.run(u16::MAX).unwrap();
        let sums = survey.sums().unwrap();
        assert_eq!(sum(&survey), usize::from(site.units) - sums.groups, "case {case}");
        sites += 1;
        let mut planned = Survey::new();
        let parents = any_parents(random, site.units, &site.table);
        if planned.load_planned(site.units, &site.table, &site.levels, &parents).is_ok() {
            planned.run(u16::MAX).unwrap();
            assert_eq!(planned.sums().unwrap(), sums, "case {case}");
            plans += 1;
        }
    }
    println!("{sites} sites, {plans} plans");
}
