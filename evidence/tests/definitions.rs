//! The plain version against the rules said slowly, on states that a load reaches and on kept states that none does.

mod rules;

use plain::random::Random;
use plain::sites::{Site, any_site};
use plain::states::{any_kept, loaded};
use plain::{LOWEST_LEVEL, Survey, countdown, level_of_word, word_of_level};

fn same(ours: &Survey, theirs: &Survey, case: &str) {
    for ((name, _, ours), (_, _, theirs)) in ours.parts().iter().zip(&theirs.parts()) {
        assert!(ours == theirs, "{case}: {name}\nours   {ours:?}\ntheirs {theirs:?}");
    }
}

fn answers_agree(survey: &Survey, case: &str) {
    for unit in 0..survey.units {
        assert_eq!(survey.unit(unit).unwrap().single, rules::single(survey, unit), "{case}: unit {unit}");
    }
    for position in 0..survey.links {
        assert_eq!(survey.link(position).unwrap().lone, rules::lone(survey, position), "{case}: link {position}");
    }
}

/// Steps both to the end: each round leaves the same state, kept again, with a lesser countdown.
fn follow(mut survey: Survey, case: &str) {
    while !survey.finished() {
        let slow = rules::step(&survey);
        let before = countdown(survey.units, survey.stage, survey.made);
        let case = format!("{case}, stage {} round {}", survey.stage, survey.made);
        survey.round().unwrap();
        same(&survey, &slow, &case);
        assert!(survey.kept(), "{case}");
        assert!(countdown(survey.units, survey.stage, survey.made) < before, "{case}");
    }
    answers_agree(&survey, case);
}

/// The slow rules take a while: half of the sites of many units are left out.
fn small(survey: &Survey, random: &mut Random) -> bool {
    survey.units <= 40 || random.once_in(2)
}

#[test]
fn from_loads() {
    for case in 0..600 {
        let random = &mut Random::new(1, case);
        let survey = loaded(&any_site(random));
        if small(&survey, random) {
            follow(survey, &format!("load {case}"));
        }
    }
}

#[test]
fn from_any_kept_state() {
    for case in 0..20_000 {
        let random = &mut Random::new(2, case);
        let survey = any_kept(random);
        assert!(survey.kept(), "state {case}");
        if small(&survey, random) {
            follow(survey, &format!("state {case}"));
        }
    }
}

#[test]
fn a_run_is_its_rounds() {
    for case in 0..300 {
        let random = &mut Random::new(3, case);
        let mut by_rounds = any_kept(random);
        let mut by_run = by_rounds.clone();
        let budget = random.below(100) as u16;
        let mut made = 0;
        if by_rounds.finished() {
            continue;
        }
        while made < budget && !by_rounds.finished() {
            by_rounds.round().unwrap();
            made += 1;
        }
        assert_eq!(by_run.run(budget), Ok(made));
        same(&by_run, &by_rounds, &format!("run {case}"));
    }
}

#[test]
fn words_there_and_back() {
    for case in 0..100 {
        let survey = any_kept(&mut Random::new(4, case));
        let words = survey.to_words();
        same(&Survey::from_words(&words), &survey, "words");
        assert_eq!(
            (words[0], words[1], words[2050], words[2053]),
            (survey.units, survey.links, survey.stage, survey.requests)
        );
        assert_eq!((words.len(), &words[11014..12038]), (12295, &survey.levels[..]));
        assert_eq!((&words[12038..12294], words[12294]), (&survey.plan[..], survey.given));
    }
}

/// A load keeps the levels as the last words, with 0 past the links, and no round changes them. Where all are equal, no
/// other word has to do with them.
#[test]
fn levels_of_a_load() {
    for case in 0..200 {
        let site = any_site(&mut Random::new(6, case));
        let mut survey = loaded(&site);
        survey.run(u16::MAX).unwrap();
        let levels: Vec<i16> = survey.levels.iter().map(|&word| level_of_word(word)).collect();
        assert!(
            levels[..site.links()] == site.levels && levels[site.links()..].iter().all(|&level| level == 0),
            "load {case}"
        );
        let [words, others] = [-61, LOWEST_LEVEL].map(|level| {
            let mut survey = loaded(&Site { levels: vec![level; site.links()], ..site.clone() });
            survey.run(u16::MAX).unwrap();
            survey.to_words()
        });
        assert!(words[..11014] == others[..11014], "load {case}");
    }
}

/// Any levels give the same first countdown, distances, labels, lone links and single points (T-02); parents and rounds
/// may differ.
#[test]
fn whatever_the_levels() {
    let mut parents = 0;
    for case in 0..1_000 {
        let site = any_site(&mut Random::new(7, case));
        let [mut survey, mut bare] = [site.levels.clone(), vec![LOWEST_LEVEL; site.links()]]
            .map(|levels| loaded(&Site { levels, ..site.clone() }));
        assert_eq!(survey.status().unwrap().countdown, bare.status().unwrap().countdown, "load {case}");
        survey.run(u16::MAX).unwrap();
        bare.run(u16::MAX).unwrap();
        assert!(survey.dist == bare.dist && survey.label == bare.label, "load {case}");
        for unit in 0..survey.units {
            assert_eq!(survey.unit(unit).unwrap().single, bare.unit(unit).unwrap().single, "load {case}: unit {unit}");
        }
        for position in 0..survey.links {
            assert_eq!(
                survey.link(position).unwrap().lone,
                bare.link(position).unwrap().lone,
                "load {case}: link {position}"
            );
        }
        parents += usize::from(survey.parent != bare.parent);
    }
    assert!(parents > 80, "only {parents} sites have parents of their own");
}

/// One word of a kept state out of its bound, and it is kept no more.
#[test]
fn every_entry_is_judged() {
    let random = &mut Random::new(5, 0);
    let survey = any_kept(random);
    let words = survey.to_words();
    for i in 0..words.len() {
        // a level is -127 to 0, all else but the requests at most 2,048
        let outside = match i {
            2053 => [8159, 65534],
            11014..12038 => [1, word_of_level(-128)],
            _ => [2049, 65534],
        };
        for out in outside {
            let mut words = words.clone();
            words[i] = out;
            assert!(!Survey::from_words(&words).kept(), "word {i} = {out}");
        }
    }
}
