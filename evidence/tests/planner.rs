//! Trees drawn by the planner (T-05): labels, lone links and single points are those of the survey's own tree.

mod streams;

use plain::{ABSENT, LOWEST_LEVEL, Refusal, Survey, write_file};
use streams::{line, vectors};

/// All three loads (1, with a plan 2, of a stored table 3) and writing (4): the number of a refusal, else 0 and the
/// first countdown or the characters.
#[test]
fn load_vectors() {
    let cases = vectors("loads").hold(|_, numbers, said| {
        let (call, site): (u8, _) = (numbers.next(), numbers.site());
        let (parents, places): (Vec<u16>, usize) = (numbers.list(), numbers.next());
        let (units, table, levels) = (site.units, &site.table[..], &site.levels[..]);
        let mut survey = Survey::new();
        let loaded = match call {
            1 => survey.load(units, table, levels),
            2 => survey.load_planned(units, table, levels, &parents),
            3 => survey.load_stored(units, table, levels),
            _ => Ok(()),
        };
        let answer = match call {
            4 => write_file(units, table, levels, &mut vec![0; places]),
            _ => loaded.map(|()| survey.status().unwrap().countdown.into()),
        };
        *said += &answer.map_or_else(|refusal| line([refusal.number()]), |value| line([0, value]));
    });
    println!("{cases} cases");
}

fn levels(table: &[u16]) -> Vec<i16> {
    vec![LOWEST_LEVEL; table.len() / 2]
}

fn planned(units: u16, table: &[u16], parents: &[u16]) -> Result<Survey, Refusal> {
    let mut survey = Survey::new();
    survey.load_planned(units, table, &levels(table), parents)?;
    survey.run(u16::MAX)?;
    Ok(survey)
}

/// Labels and lone marks of the links, single marks of the units.
fn answers(survey: &Survey) -> (Vec<(u16, bool)>, Vec<bool>) {
    let link = |j| survey.link(j).map(|link| (link.label, link.lone)).unwrap();
    ((0..survey.links).map(link).collect(), (0..survey.units).map(|v| survey.unit(v).unwrap().single).collect())
}

const B: [u16; 8] = [0, 1, 1, 2, 0, 2, 2, 3];

#[test]
fn rounds_with_a_plan() {
    assert_eq!(planned(1, &[], &[ABSENT]).unwrap().rounds, 15);
    for parents in [[ABSENT, 0, 1, 2], [ABSENT, 0, 0, 2], [ABSENT, 2, 0, 2]] {
        assert_eq!(planned(4, &B, &parents).unwrap().rounds, 24);
    }
    assert_eq!(planned(2, &[0, 1], &[ABSENT, 0]).unwrap().rounds, 18);
}

/// A link off the plan between ancestor and descendant.
#[test]
fn ancestor_and_descendant() {
    let survey = planned(4, &[3, 2, 3, 1, 0, 3, 1, 2], &[ABSENT, 2, 3, 0]).unwrap();
    assert_eq!(survey.label[..4], [0, 0, 2, 0]);
}

#[test]
fn refused_plans() {
    let number =
        |units, table: &[u16], parents: &[u16]| planned(units, table, parents).map(|_| ()).unwrap_err().number();
    assert_eq!(number(2, &[0, 1], &[1]), 17);
    assert_eq!(number(2, &[0, 1, 1, 0], &[]), 9);
    for parents in [[1, ABSENT], [1, 0], [ABSENT, ABSENT], [ABSENT, 2]] {
        assert_eq!(number(2, &[0, 1], &parents), 18);
    }
    assert_eq!(number(4, &B, &[ABSENT, 2, 1, 2]), 18);
    assert_eq!(number(3, &[0, 1], &[ABSENT, 0, ABSENT]), 22);
    assert_eq!(number(3, &[0, 1], &[ABSENT, 0, 0]), 18);
}

/// Every table of up to five units in which each unit has a link, with every table of parents: those that no check
/// refuses are its spanning forests rooted at the colour units, as many as those counted as sets of links.
#[test]
fn all_forests_of_small_tables() {
    let mut pairs = 0;
    for units in 1..=5u16 {
        let all: Vec<[u16; 2]> = (0..units).flat_map(|a| (a + 1..units).map(move |b| [a, b])).collect();
        for set in 0..1u32 << all.len() {
            let table: Vec<u16> = (0..all.len()).filter(|j| set >> j & 1 == 1).flat_map(|j| all[j]).collect();
            let mut own = Survey::new();
            if own.load(units, &table, &levels(&table)).is_err() {
                continue;
            }
            own.run(u16::MAX).unwrap();
            let choices = u32::from(units) + 1;
            for code in 0..choices.pow(u32::from(units)) {
                let parent = |v: u32| match (code / choices.pow(v) % choices) as u16 {
                    w if w == units => ABSENT,
                    w => w,
                };
                let parents: Vec<u16> = (0..u32::from(units)).map(parent).collect();
                if let Ok(survey) = planned(units, &table, &parents) {
                    assert_eq!(answers(&survey), answers(&own), "{units} {table:?} {parents:?}");
                    pairs += 1;
                }
            }
        }
    }
    println!("{pairs} pairs of a table and a forest");
    assert_eq!((pairs, spanning_forests()), (8199, 8199));
}

/// The same number, by the spanning trees of each group as sets of links: a set with as many links as units less
/// groups, and no ring.
fn spanning_forests() -> u32 {
    let mut count = 0;
    for units in 1..=5usize {
        let all: Vec<[usize; 2]> = (0..units).flat_map(|a| (a + 1..units).map(move |b| [a, b])).collect();
        for set in 0..1u32 << all.len() {
            let links: Vec<[usize; 2]> = (0..all.len()).filter(|j| set >> j & 1 == 1).map(|j| all[j]).collect();
            if units > 1 && (0..units).any(|v| !links.iter().any(|link| link.contains(&v))) {
                continue;
            }
            let joins = |kept: &[[usize; 2]]| {
                let mut group: Vec<usize> = (0..units).collect();
                let mut joined = 0;
                for &[a, b] in kept {
                    let (from, to) = (group[a], group[b]);
                    if from != to {
                        group.iter_mut().filter(|g| **g == from).for_each(|g| *g = to);
                        joined += 1;
                    }
                }
                joined
            };
            let whole = joins(&links);
            for part in 0..1u32 << links.len() {
                let kept: Vec<[usize; 2]> = (0..links.len()).filter(|j| part >> j & 1 == 1).map(|j| links[j]).collect();
                count += u32::from(kept.len() == whole && joins(&kept) == whole);
            }
        }
    }
    count
}
