//! Show the ring (document 02, T-04) and doubtful links (T-08): the plain version against vectors, against all rings
//! and all settings of small sites, and its two ways of deciding whether a ring exists against each other and against
//! the survey's labels.

mod streams;

use plain::random::Random;
use plain::sites::{Site, any_site};
use plain::states::loaded;
use plain::{Refusal, Survey, Verdict, judge_ring, ring_through, ringed, verdict};
use streams::{Numbers, line, vectors};

const MARK: u16 = 0xC3A5;

fn links_of(site: &Site) -> &[[u16; 2]] {
    site.table.as_chunks().0
}

/// A survey of a site that has made as many rounds as its budget allows; 0 is no run.
fn surveyed(numbers: &mut Numbers) -> (Site, Survey) {
    let site = numbers.site();
    let mut survey = Survey::new();
    survey.load(site.units, &site.table, &site.levels).unwrap();
    let budget = numbers.next();
    if budget > 0 {
        survey.run(budget).unwrap();
    }
    (site, survey)
}

/// 0 where there is no ring, 1 for a ring that the judge lets pass, else the refusal; the other places stay.
fn shown(survey: &Survey, site: &Site, first: u16, second: u16, places: usize) -> u8 {
    let mut out = vec![MARK; places];
    let answer = survey.ring(first, second, &mut out);
    let units = usize::from(*answer.as_ref().unwrap_or(&0));
    assert!(out[units..].iter().all(|&word| word == MARK));
    match answer {
        Ok(0) => 0,
        Ok(_) => {
            assert_eq!(judge_ring(site.units, links_of(site), first.into(), second.into(), &out[..units]), Ok(()));
            1
        }
        Err(refusal) => refusal.number(),
    }
}

#[test]
fn ring_vectors() {
    let cases = vectors("rings").hold(|_, numbers, said| {
        let (site, survey) = surveyed(numbers);
        let questions = numbers.next();
        *said += &line(
            (0..questions)
                .map(|_| shown(&survey, &site, numbers.next(), numbers.next(), numbers.next()))
                .collect::<Vec<_>>(),
        );
    });
    println!("{cases} cases");
}

#[test]
fn doubtful_vectors() {
    let cases = vectors("doubtful").hold(|_, numbers, said| {
        let (_, survey) = surveyed(numbers);
        let marks: Vec<u8> = numbers.list();
        let questions = numbers.next();
        let answer = |numbers: &mut Numbers| match survey.doubtful(numbers.next(), numbers.next(), &marks) {
            Ok(verdict) => verdict as u8,
            Err(refusal) => refusal.number(),
        };
        *said += &line((0..questions).map(|_| answer(numbers)).collect::<Vec<_>>());
    });
    println!("{cases} cases");
}

/// Every ring of a site: three or more different units, each linked to the next, the last to the first. As sets of
/// positions.
fn all_rings(units: u16, links: &[[u16; 2]]) -> Vec<u32> {
    let position = |a: u16, b: u16| links.iter().position(|&link| link == [a, b] || link == [b, a]);
    let mut rings = Vec::new();
    let mut ways: Vec<Vec<u16>> = (0..units).map(|v| vec![v]).collect();
    while let Some(way) = ways.pop() {
        let joined = |w: u16| position(*way.last().unwrap(), w);
        if way.len() >= 3 && joined(way[0]).is_some() {
            let pairs = way.iter().zip(way.iter().cycle().skip(1));
            rings.push(pairs.fold(0, |set, (&a, &b)| set | 1 << position(a, b).unwrap()));
        }
        ways.extend(
            (0..units).filter(|&w| !way.contains(&w) && joined(w).is_some()).map(|w| [&way[..], &[w]].concat()),
        );
    }
    rings.sort();
    rings.dedup();
    rings
}

/// Every set of links among so many units, the links in order.
fn all_tables(units: u16) -> impl Iterator<Item = Vec<[u16; 2]>> {
    let all: Vec<[u16; 2]> = (0..units).flat_map(|a| (a + 1..units).map(move |b| [a, b])).collect();
    (0..1u32 << all.len()).map(move |set| (0..all.len()).filter(|j| set >> j & 1 == 1).map(|j| all[j]).collect())
}

fn holds(ring: u32, first: usize, second: usize) -> bool {
    ring >> first & ring >> second & 1 == 1
}

/// All sites of up to five units, every two positions: a ring is shown and passes the judge exactly where one is among
/// all rings.
#[test]
fn all_small_rings() {
    let (mut asked, mut found) = (0, 0);
    for units in 1..=5 {
        for links in all_tables(units) {
            let rings = all_rings(units, &links);
            for (first, second) in
                (0..links.len()).flat_map(|first| (0..links.len()).map(move |second| (first, second)))
            {
                let exists = rings.iter().any(|&ring| holds(ring, first, second));
                let shown = ring_through(units, &links, first, second);
                assert_eq!(shown.is_some(), exists, "{units} {links:?} {first} {second}");
                if let Some(ring) = shown {
                    assert_eq!(
                        judge_ring(units, &links, first, second, &ring),
                        Ok(()),
                        "{units} {links:?} {first} {second} {ring:?}"
                    );
                    found += 1;
                }
                asked += 1;
            }
        }
    }
    println!("{asked} questions, {found} rings");
}

/// All sites of up to four units with all marks, and five units with some: the verdict is what trying every setting
/// tells.
#[test]
fn all_settings_of_small_sites() {
    let random = &mut Random::new(8, 0);
    let (mut asked, mut each) = (0, [0; 3]);
    for units in 1..=5 {
        for links in all_tables(units) {
            let rings = all_rings(units, &links);
            let sets: Vec<u32> = if units < 5 {
                (0..1 << links.len()).collect()
            } else {
                (0..4).map(|_| random.below(1 << links.len()) as u32).collect()
            };
            for doubtful in sets {
                let marks: Vec<u8> = (0..links.len())
                    .map(|j| if doubtful >> j & 1 == 1 { random.between(1, 255) as u8 } else { 0 })
                    .collect();
                for (first, second) in
                    (0..links.len()).flat_map(|first| (first..links.len()).map(move |second| (first, second)))
                {
                    let through: Vec<u32> = rings.iter().copied().filter(|&ring| holds(ring, first, second)).collect();
                    // a setting is the set of links that are missing, each a doubtful one
                    let mut settings = (0..1 << links.len()).filter(|missing| missing & !doubtful == 0);
                    let ringed = |missing: u32| through.iter().any(|ring| ring & missing == 0);
                    let (always, some) = (settings.clone().all(ringed), settings.any(ringed));
                    let expected = if always {
                        Verdict::Always
                    } else if some {
                        Verdict::Perhaps
                    } else {
                        Verdict::Never
                    };
                    assert_eq!(
                        verdict(units, &links, &marks, first, second),
                        expected,
                        "{units} {links:?} {marks:?} {first} {second}"
                    );
                    each[expected as usize] += 1;
                    asked += 1;
                }
            }
        }
    }
    println!("{asked} questions: never, perhaps, always {each:?}");
}

/// Large sites too: paths and blocks decide alike, with all links and with some; a ring that is shown passes the judge;
/// and a finished survey's labels say the same: two links are on a ring where they share a label, one where it is not
/// lone.
#[test]
fn paths_blocks_and_labels() {
    let (mut asked, mut found) = (0, 0);
    for case in 0..3000 {
        let random = &mut Random::new(4, case);
        let site = any_site(random);
        if site.links() == 0 {
            continue;
        }
        let links = links_of(&site);
        let mut survey = loaded(&site);
        survey.run(u16::MAX).unwrap();
        let kept: Vec<bool> = links.iter().map(|_| !random.once_in(6)).collect();
        let some: Vec<[u16; 2]> = links.iter().zip(&kept).filter(|&(_, &kept)| kept).map(|(&link, _)| link).collect();
        for _ in 0..6 {
            let first = random.below(links.len());
            let second = if random.once_in(6) { first } else { random.below(links.len()) };
            let shown = ring_through(site.units, links, first, second);
            let alike = survey.label[first] == survey.label[second];
            let lone = survey.link(first as u16).unwrap().lone;
            assert_eq!(shown.is_some(), if first == second { !lone } else { alike }, "case {case}");
            assert_eq!(shown.is_some(), ringed(site.units, links, |_| true, first, second), "case {case}");
            if let Some(ring) = shown {
                assert_eq!(judge_ring(site.units, links, first, second, &ring), Ok(()), "case {case}");
                found += 1;
            }
            let place = |j: usize| kept[..j].iter().filter(|&&kept| kept).count();
            let by_paths =
                kept[first] && kept[second] && ring_through(site.units, &some, place(first), place(second)).is_some();
            assert_eq!(ringed(site.units, links, |j| kept[j], first, second), by_paths, "case {case}");
            asked += 1;
        }
    }
    println!("{asked} questions, {found} rings");
}

/// The judge finds each fault.
#[test]
fn judged() {
    // two rings of three at unit 2, and a link that hangs on
    let links = [[0, 1], [1, 2], [2, 0], [2, 3], [3, 4], [4, 2], [4, 5]];
    let judge = |first, second, ring: &[u16]| judge_ring(6, &links, first, second, ring);
    assert_eq!(judge(0, 2, &[0, 1, 2]), Ok(()));
    assert_eq!(judge(2, 0, &[2, 0, 1]), Ok(()));
    assert!(judge(0, 0, &[0, 1]).is_err_and(|why| why.contains("three")));
    assert!(judge(0, 0, &[]).is_err_and(|why| why.contains("three")));
    assert!(judge(0, 2, &[0, 1, 6]).is_err_and(|why| why.contains("has not")));
    assert!(judge(0, 3, &[0, 1, 2, 3, 4, 2]).is_err_and(|why| why.contains("twice")));
    assert!(judge(0, 2, &[0, 1, 3]).is_err_and(|why| why.contains("follow")));
    assert!(judge(0, 2, &[0, 1, 2, 3]).is_err_and(|why| why.contains("follow")));
    assert!(judge(0, 2, &[1, 0, 2]).is_err_and(|why| why.contains("start")));
    assert!(judge(0, 2, &[1, 2, 0]).is_err_and(|why| why.contains("start")));
    assert!(judge(0, 3, &[0, 1, 2]).is_err_and(|why| why.contains("second")));
}

/// 10, 12, 13, 14 or 15 in their order, and a kept finished state that no load reaches: its labels and tree play no
/// part.
#[test]
fn numbers_in_order() {
    let site = Site { units: 4, table: vec![0, 1, 1, 2, 0, 2, 2, 3], levels: vec![-127; 4] };
    let mut survey = loaded(&site);
    let (out, marks): (&mut [u16], &[u8]) = (&mut [MARK; 3], &[0; 3]);
    assert_eq!(
        (survey.ring(4, 0, out), survey.doubtful(4, 0, marks)),
        (Err(Refusal::NotFinished), Err(Refusal::NotFinished))
    );
    survey.stage = plain::FINISHED;
    for (first, second) in [(4, 0), (0, 4)] {
        assert_eq!(
            (survey.ring(first, second, out), survey.doubtful(first, second, marks)),
            (Err(Refusal::NoSuchName), Err(Refusal::NoSuchName))
        );
    }
    assert_eq!(
        (survey.ring(3, 3, out), survey.doubtful(3, 3, marks)),
        (Err(Refusal::TooShort), Err(Refusal::LevelsDiffer))
    );
    assert_eq!((survey.ring(3, 3, &mut [0; 4]), survey.doubtful(3, 3, &[0; 4])), (Ok(0), Ok(Verdict::Never)));
    assert_eq!((survey.ring(0, 2, &mut [0; 4]), survey.doubtful(0, 2, &[0; 4])), (Ok(3), Ok(Verdict::Always)));
    assert_eq!(survey.doubtful(0, 2, &[0, 7, 0, 0]), Ok(Verdict::Perhaps));
    survey.made = 1;
    assert_eq!((survey.ring(4, 0, out), survey.doubtful(4, 0, marks)), (Err(Refusal::NotKept), Err(Refusal::NotKept)));
}
