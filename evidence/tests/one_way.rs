//! One-way links (document 02, T-11): the plain version against vectors, and against who reaches whom.

mod streams;

use plain::one_way;
use plain::random::Random;
use plain::sites::any_one_way;
use std::collections::BTreeSet;
use streams::{line, vectors};

const MARK: u16 = 0xC3A5;

#[test]
fn one_way_vectors() {
    let cases = vectors("one_way").hold(|_, numbers, said| {
        let (units, table, places): (u16, Vec<u16>, usize) = (numbers.next(), numbers.list(), numbers.next());
        let mut out = vec![MARK; places];
        let answer = one_way(units, &table, &mut out);
        let written = answer.map_or(0, |_| usize::from(units));
        assert!(out[written..].iter().all(|&word| word == MARK));
        *said += &match answer {
            Ok(passes) => line([0, passes].iter().chain(&out[..written])),
            Err(refusal) => line([refusal.number()]),
        };
    });
    println!("{cases} cases");
}

/// Who reaches whom along links, each itself too.
fn reaches(units: u16, links: &[[u16; 2]]) -> Vec<Vec<bool>> {
    let mut reaches: Vec<Vec<bool>> = (0..units).map(|v| (0..units).map(|w| v == w).collect()).collect();
    for from in &mut reaches {
        loop {
            let before = from.clone();
            for link in links {
                let [a, b] = link.map(usize::from);
                from[b] |= from[a];
            }
            if *from == before {
                break;
            }
        }
    }
    reaches
}

/// Each unit has the least number of those that it reaches and that reach it; and no more passes than there are groups.
fn right(units: u16, table: &[u16]) -> (u16, usize) {
    let mut numbers = vec![MARK; units.into()];
    let passes = one_way(units, table, &mut numbers).unwrap();
    let reaches = reaches(units, table.as_chunks().0);
    for v in 0..usize::from(units) {
        let least = (0..usize::from(units)).find(|&w| reaches[v][w] && reaches[w][v]).unwrap();
        assert_eq!(usize::from(numbers[v]), least, "{units} {table:?}");
    }
    let groups = numbers.iter().collect::<BTreeSet<_>>().len();
    assert!((1..=groups).contains(&passes.into()), "{units} {table:?}: {passes} passes, {groups} groups");
    (passes, groups)
}

/// All tables of ordered pairs among up to four units.
#[test]
fn all_small_tables() {
    let mut tables = 0;
    for units in 1..=4u16 {
        let all: Vec<[u16; 2]> =
            (0..units).flat_map(|a| (0..units).filter(move |&b| b != a).map(move |b| [a, b])).collect();
        for set in 0..1u32 << all.len() {
            right(units, &(0..all.len()).filter(|j| set >> j & 1 == 1).flat_map(|j| all[j]).collect::<Vec<_>>());
            tables += 1;
        }
    }
    println!("{tables} tables");
}

#[test]
fn larger_tables() {
    let mut most = 0;
    for case in 0..400 {
        let (units, table) = any_one_way(&mut Random::new(11, case));
        most = most.max(right(units, &table).0);
    }
    println!("{most} passes at most");
}

/// As the readings have them: a chain up takes a pass a unit, a chain down two.
#[test]
fn chains() {
    let up: Vec<u16> = (1..256).flat_map(|v| [v - 1, v]).collect();
    let down: Vec<u16> = (1..256).flat_map(|v| [v, v - 1]).collect();
    assert_eq!((right(4, &up[..6]), right(4, &down[..6])), ((4, 4), (2, 4)));
    assert_eq!((right(256, &up), right(256, &down)), ((256, 256), (2, 256)));
    assert_eq!(right(256, &[&up[..], &down[..]].concat()), (1, 1));
}

/// 9 is the same ordered pair twice; the numbers in their order.
#[test]
fn numbers_in_order() {
    let number =
        |units, table: &[u16], places| one_way(units, table, &mut vec![0; places]).map_err(|refusal| refusal.number());
    assert_eq!(number(2, &[0, 1, 1, 0], 2), Ok(1));
    assert_eq!(number(2, &[0, 1, 0, 1], 0), Err(9));
    assert_eq!(number(2, &[0, 1, 1, 0], 1), Err(14));
    assert_eq!(number(2, &[1, 1, 0, 1, 0, 1], 0), Err(8));
    assert_eq!(number(2, &[1, 1, 0, 2], 0), Err(7));
    assert_eq!(number(2, &[2; 2050], 0), Err(6));
    assert_eq!(number(2, &[2; 2051], 0), Err(5));
    assert_eq!((number(0, &[2], 0), number(257, &[2], 0)), (Err(4), Err(4)));
}
