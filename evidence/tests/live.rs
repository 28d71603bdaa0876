//! Live tables (document 02, T-09) as words: the plain version against vectors, and against load and a count of its
//! own.

mod streams;

use plain::random::Random;
use plain::sites::{any_site, some_level};
use plain::words::{live_add, live_open, live_withdraw};
use plain::{ABSENT, LIVE_WORDS, LiveWords, check_table, level_of_word, word_of_level};
use streams::{Numbers, line, vectors};

/// Where the ends, the levels and the counts of a live table begin.
const ENDS: usize = 2;
const LEVELS: usize = ENDS + 2048;
const COUNTS: usize = LEVELS + 1024;

/// Unit count, words and levels.
fn held(live: &LiveWords) -> (u16, Vec<u16>, Vec<i16>) {
    let links = usize::from(live[1]);
    (
        live[0],
        live[ENDS..ENDS + 2 * links].to_vec(),
        live[LEVELS..LEVELS + links].iter().map(|&word| level_of_word(word)).collect(),
    )
}

/// Past the links ends are absent and levels 0.
fn rest_clean(live: &LiveWords) -> bool {
    let links = usize::from(live[1]);
    live[ENDS + 2 * links..LEVELS].iter().all(|&end| end == ABSENT)
        && live[LEVELS + links..COUNTS].iter().all(|&level| level == 0)
}

/// The table in hand after a step, and what is said of the step.
fn step(live: &mut LiveWords, numbers: &mut Numbers, said: &mut String, whole: bool) {
    let before = *live;
    let kind: u8 = numbers.next();
    let number = match kind {
        1 => {
            let site = numbers.site();
            live_open(live, site.units, &site.table, &site.levels)
        }
        2 => live_add(live, numbers.next(), numbers.next(), numbers.next()),
        3 => live_withdraw(live, numbers.next(), numbers.next()),
        _ => {
            let (what, index): (usize, usize) = (numbers.next(), numbers.next());
            live[[0, 1, ENDS, LEVELS, COUNTS][what] + index] =
                if what == 3 { word_of_level(numbers.next()) } else { numbers.next() };
            return;
        }
    };
    if number != 0 {
        assert!(*live == before, "a refused step leaves the table");
    } else {
        assert!(rest_clean(live));
    }
    *said += &if !whole || (kind == 1 && number != 0) {
        line([number])
    } else {
        let units = usize::from(live[0]);
        line(
            [number, u32::from(live[1])]
                .into_iter()
                .chain(live[COUNTS..COUNTS + units].iter().map(|&count| u32::from(count))),
        )
    };
}

#[test]
fn live_vectors() {
    let cases = vectors("live").hold(|name, numbers, said| {
        let whole = name.contains("changes");
        let mut live = [0; LIVE_WORDS];
        for _ in 0..numbers.next::<usize>() {
            step(&mut live, numbers, said, whole);
        }
        if whole {
            let (units, words, levels) = held(&live);
            let words = [units, live[1]].into_iter().chain(words).map(i32::from);
            *said += &line(words.chain(levels.into_iter().map(i32::from)));
        }
    });
    println!("{cases} cases");
}

/// Lists of changes: the table held passes load's checks, each stored number is the count, a refused change is one that
/// load refuses with the same number or a link that is not there, and a withdrawn link is the one named, the others in
/// their order.
#[test]
fn lists_of_changes() {
    let (mut made, mut refused) = (0, 0);
    for case in 0..600 {
        let random = &mut Random::new(9, case);
        let site = any_site(random);
        let mut live = [7; LIVE_WORDS];
        assert_eq!(live_open(&mut live, site.units, &site.table, &site.levels), 0);
        for _ in 0..20 {
            let (units, words, levels) = held(&live);
            let mut unit = || random.below(usize::from(units) + 1) as u16;
            let (a, b) = (unit(), unit());
            let number = if random.once_in(2) {
                let level = if random.once_in(8) { random.word() as i16 } else { some_level(random) };
                let (longer, heard) = ([&words[..], &[a, b]].concat(), [&levels[..], &[level]].concat());
                let expected =
                    check_table(units, &longer, &heard).map_or_else(|refusal| u32::from(refusal.number()), |()| 0);
                let number = live_add(&mut live, a, b, level);
                assert_eq!(number, expected, "case {case}");
                if number == 0 {
                    assert_eq!(held(&live), (units, longer, heard), "case {case}");
                }
                number
            } else {
                let at = words.as_chunks().0.iter().position(|&link| link == [a, b] || link == [b, a]);
                let expected = if a >= units || b >= units {
                    7
                } else if a == b {
                    8
                } else if at.is_none() {
                    21
                } else {
                    0
                };
                let number = live_withdraw(&mut live, a, b);
                assert_eq!(number, expected, "case {case}");
                if let (0, Some(at)) = (number, at) {
                    let mut levels = levels.clone();
                    levels.remove(at);
                    assert_eq!(
                        held(&live),
                        (units, [&words[..2 * at], &words[2 * at + 2..]].concat(), levels),
                        "case {case}"
                    );
                }
                number
            };
            let (units, words, levels) = held(&live);
            assert!(check_table(units, &words, &levels).is_ok() && rest_clean(&live), "case {case}");
            for v in 0..256 {
                assert_eq!(
                    usize::from(live[COUNTS + usize::from(v)]),
                    words.iter().filter(|&&end| end == v).count(),
                    "case {case}"
                );
            }
            if number == 0 { made += 1 } else { refused += 1 }
        }
    }
    println!("{made} changes made, {refused} refused");
}

/// Each number of a given table, alone and before the next ones.
#[test]
fn given_tables() {
    let mut live = [0; LIVE_WORDS];
    live_open(&mut live, 4, &[0, 1, 1, 2, 0, 2, 2, 3], &[-1, -2, -3, -4]);
    let numbers = |live: &LiveWords| {
        let (mut longer, mut shorter) = (*live, *live);
        (live_add(&mut longer, 0, 3, -5), live_withdraw(&mut shorter, 0, 1))
    };
    let spoilt = |at: &[(usize, u16)]| {
        let mut live = live;
        at.iter().for_each(|&(at, word)| live[at] = word);
        numbers(&live)
    };
    assert_eq!(numbers(&live), (0, 0));
    assert_eq!(spoilt(&[(COUNTS, 3)]), (10, 10));
    assert_eq!(spoilt(&[(COUNTS + 255, 1)]), (10, 10));
    assert_eq!(spoilt(&[(COUNTS, 3), (ENDS + 4, 1), (ENDS + 5, 2)]), (9, 9));
    assert_eq!(spoilt(&[(ENDS, 1), (ENDS + 4, 1), (ENDS + 5, 2)]), (8, 8));
    assert_eq!(spoilt(&[(ENDS, 1), (ENDS + 7, 4)]), (7, 7));
    assert_eq!(spoilt(&[(ENDS + 7, 4), (LEVELS + 3, 1)]), (16, 16));
    assert_eq!(spoilt(&[(1, 1025), (LEVELS + 3, 1)]), (6, 6));
    assert_eq!(spoilt(&[(1, 1025), (0, 257)]), (4, 4));
    assert_eq!(spoilt(&[(0, 0)]), (4, 4));
    // past the links nothing is judged
    assert_eq!(spoilt(&[(ENDS + 8, 0), (LEVELS + 4, 1)]), (0, 0));
}
