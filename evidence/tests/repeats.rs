//! A repeated link is found soon (document 02, T-03): of 1,024 links with a repeat, the proved load takes at most a
//! quarter of what a plain loop over all pairs takes. Both are timed in one run, by turns, and their shortest
//! times are compared.
//!
//!     cargo test --release --features face --test repeats -- --nocapture

use plain::Survey;
use plain::face::PROVED;
use plain::random::Random;
use plain::sites::{Site, scattered, some_level};
use plain::words::State;
use std::hint::black_box;
use std::time::{Duration, Instant};

const LINKS: usize = 1024;
const SAMPLES: usize = 101;
/// Loads in a sample: one alone is too short for the clock.
const LOADS: u32 = 16;
/// The load may take the time of the loop over this.
const QUARTER: u32 = 4;

/// 256 units and 1,024 links, of which no two are the same.
fn full_site() -> Site {
    let random = &mut Random::new(9, 1024);
    let mut site = scattered(random, 256, LINKS);
    for level in &mut site.levels {
        *level = some_level(random);
    }
    site
}

/// The link at one position put at another, turned or not.
fn repeated(mut site: Site, from: usize, to: usize, turned: bool) -> Site {
    let (a, b) = (site.table[2 * from], site.table[2 * from + 1]);
    let again = if turned { [b, a] } else { [a, b] };
    site.table[2 * to..2 * to + 2].copy_from_slice(&again);
    site
}

/// Looks at every pair of links, whatever it has found.
fn all_pairs(table: &[u16]) -> bool {
    let (links, _) = table.as_chunks::<2>();
    let mut found = false;
    for (j, &[a, b]) in links.iter().enumerate() {
        for &[c, d] in &links[..j] {
            found |= (a == c && b == d) || (a == d && b == c);
        }
    }
    found
}

/// The shortest time of a refused load, and of a loop over all pairs: other work on the machine only makes a sample
/// longer, so the shortest one of many is the call's own.
fn shortest(site: &Site) -> (Duration, Duration) {
    let before: Box<State> = Box::new([0xC3A5; Survey::WORDS]);
    let mut state = before.clone();
    let (mut load, mut all) = (Duration::MAX, Duration::MAX);
    for _ in 0..SAMPLES {
        let start = Instant::now();
        for _ in 0..LOADS {
            let number =
                (PROVED.load)(&mut state, black_box(site.units), black_box(&site.table), black_box(&site.levels));
            assert_eq!(number, 9);
        }
        load = load.min(start.elapsed() / LOADS);
        let start = Instant::now();
        assert!(black_box(all_pairs(black_box(&site.table))));
        all = all.min(start.elapsed());
    }
    assert!(state == before, "a refused load alters nothing");
    (load, all)
}

fn within_a_quarter(name: &str, site: &Site) {
    assert_eq!(site.links(), LINKS);
    let (load, all) = shortest(site);
    println!("{name}: load {load:?}, all pairs {all:?}, ratio {:.4}", load.as_secs_f64() / all.as_secs_f64());
    assert!(QUARTER * load <= all, "{name}: load {load:?}, all pairs {all:?}");
}

/// One test and not three, so that no two are timed at once.
#[test]
fn a_load_refuses_within_a_quarter() {
    let site = full_site();
    assert!(!all_pairs(&site.table));
    within_a_quarter("the first two", &repeated(site.clone(), 0, 1, false));
    within_a_quarter("the first two, turned", &repeated(site.clone(), 0, 1, true));
    within_a_quarter("the last two", &repeated(site.clone(), LINKS - 2, LINKS - 1, false));
    within_a_quarter("the last two, turned", &repeated(site.clone(), LINKS - 2, LINKS - 1, true));
    within_a_quarter("the first and the last", &repeated(site, 0, LINKS - 1, false));
}
