//! Lifting order (document 02, T-07): the plain version against vectors, and against every list of the units of small
//! sites.

mod streams;

use plain::random::Random;
use plain::{Survey, check_pairs, lifting_order};
use streams::{line, vectors};

const MARK: u16 = 0xC3A5;

#[test]
fn lifting_vectors() {
    let cases = vectors("lifting").hold(|_, numbers, said| {
        let site = numbers.site();
        let mut survey = Survey::new();
        survey.load(site.units, &site.table, &site.levels).unwrap();
        let budget = numbers.next();
        if budget > 0 {
            survey.run(budget).unwrap();
        }
        let mut out = vec![MARK; numbers.next()];
        let answer = survey.lifting_order(&numbers.list::<u16>(), &mut out);
        let units = *answer.as_ref().unwrap_or(&0);
        assert!(out[units..].iter().all(|&word| word == MARK));
        *said += &match answer {
            Ok(units) => line([0].iter().chain(&out[..units])),
            Err(refusal) => line([refusal.number()]),
        };
    });
    println!("{cases} cases");
}

/// Whether a list lifts every unit as the request asks: each once, unit 0 last, each pair kept, and after each lift,
/// and before the first, every standing unit linked up with unit 0 through standing units.
fn lifts(units: u16, links: &[[u16; 2]], pairs: &[[u16; 2]], order: &[u16]) -> bool {
    let place = |unit: u16| order.iter().position(|&v| v == unit).unwrap();
    order.last() == Some(&0)
        && pairs.iter().all(|&[before, after]| place(before) < place(after))
        && (0..order.len()).all(|lifted| linked_up(units, links, &order[lifted..]))
}

fn linked_up(units: u16, links: &[[u16; 2]], standing: &[u16]) -> bool {
    let mut reached = vec![0];
    for _ in 0..units {
        for &[a, b] in links {
            for (from, to) in [(a, b), (b, a)] {
                if reached.contains(&from) && standing.contains(&to) && !reached.contains(&to) {
                    reached.push(to);
                }
            }
        }
    }
    standing.iter().all(|unit| reached.contains(unit))
}

/// All lists of the units, each once.
fn lists(units: u16) -> Vec<Vec<u16>> {
    let mut lists = vec![vec![]];
    for _ in 0..units {
        lists = lists
            .into_iter()
            .flat_map(|list: Vec<u16>| {
                (0..units).filter(|v| !list.contains(v)).map(|v| [&list[..], &[v]].concat()).collect::<Vec<_>>()
            })
            .collect();
    }
    lists
}

/// All sites of up to five units, with pairs that chance picks: of all lists that lift as asked the order is the one
/// that, read from unit 0 on, has the least unit wherever two differ; none exactly where there is none.
#[test]
fn all_lists_of_small_sites() {
    let random = &mut Random::new(7, 0);
    let (mut asked, mut none) = (0, 0);
    for units in 1..=5u16 {
        let lists = lists(units);
        let all: Vec<[u16; 2]> = (0..units).flat_map(|a| (a + 1..units).map(move |b| [a, b])).collect();
        for set in 0..1u32 << all.len() {
            let links: Vec<[u16; 2]> = (0..all.len()).filter(|j| set >> j & 1 == 1).map(|j| all[j]).collect();
            for _ in 0..6 {
                let pairs: Vec<[u16; 2]> = (0..random.below(5))
                    .map(|_| std::array::from_fn(|_| random.below(usize::from(units)) as u16))
                    .collect();
                assert!(check_pairs(units, pairs.as_flattened()).is_ok());
                let backwards = |list: &&Vec<u16>| list.iter().rev().copied().collect::<Vec<_>>();
                let best = lists.iter().filter(|list| lifts(units, &links, &pairs, list)).min_by_key(backwards);
                assert_eq!(lifting_order(units, &links, &pairs).as_ref(), best, "{units} {links:?} {pairs:?}");
                asked += 1;
                none += usize::from(best.is_none());
            }
        }
    }
    println!("{asked} questions, {none} without an order");
}

/// 19 for 257 pairs, an odd number of words (513 too) or a word that is no unit; not for 256 pairs, nor for a pair
/// twice.
#[test]
fn pairs_judged() {
    let check = |units, pairs: &[u16]| check_pairs(units, pairs).map_err(|refusal| refusal.number());
    assert_eq!(check(2, &[]), Ok(()));
    assert_eq!(check(2, &[1, 0].repeat(256)), Ok(()));
    assert_eq!(check(2, &[1; 513]), Err(19));
    assert_eq!(check(2, &[1, 0].repeat(257)), Err(19));
    assert_eq!(check(2, &[1]), Err(19));
    assert_eq!(check(2, &[1, 2]), Err(19));
    assert_eq!(check(2, &[2, 1]), Err(19));
}
