//! Times of both sides, alternating, and their ratios.

use crate::work::{Bench, LARGEST, SHIFTS, Side, Work, site};
use plain::random::Random;
use plain::sites::{Site, ring_and_more};
use std::hint::black_box;
use std::time::Instant;

const SAMPLES: usize = 301;
/// A sample takes about this long.
const SAMPLE_SECONDS: f64 = 0.0005;

/// The least, the middle and the greatest of the middle half.
struct Spread {
    low: f64,
    median: f64,
    high: f64,
}

fn spread(mut values: Vec<f64>) -> Spread {
    values.sort_by(f64::total_cmp);
    let at = |part: usize| values[part * (values.len() - 1) / 4];
    Spread { low: at(1), median: at(2), high: at(3) }
}

/// Makes a call some way further down the stack.
#[inline(never)]
fn deeper(levels: usize, call: &mut dyn FnMut()) {
    let room = black_box([0u8; 88]);
    if levels == 0 {
        call();
    } else {
        deeper(levels - 1, call);
    }
    black_box(&room);
}

fn sample(bench: &mut Bench, side: Side, work: Work, repeats: usize, random: &mut Random) -> f64 {
    let (levels, shift) = (random.below(48), random.below(SHIFTS));
    let mut seconds = 0.0;
    deeper(levels, &mut || {
        let start = Instant::now();
        for _ in 0..repeats {
            bench.once(side, work, shift);
        }
        seconds = start.elapsed().as_secs_f64() / repeats as f64;
    });
    seconds
}

/// The seconds of two sides, and their ratio sample by sample.
struct Compared {
    proved: f64,
    plain: f64,
    ratio: Spread,
}

fn compare(bench: &mut Bench, plain: Side, work: Work, samples: usize) -> Compared {
    let random = &mut Random::new(7, 0);
    bench.check();
    let once = sample(bench, plain, work, 3, random);
    let repeats = ((SAMPLE_SECONDS / once) as usize).max(1);
    let (mut ours, mut theirs) = (Vec::new(), Vec::new());
    for turn in 0..samples {
        // each side goes first every other time
        for side in if turn % 2 == 0 { [Side::Proved, plain] } else { [plain, Side::Proved] } {
            let seconds = sample(bench, side, work, repeats, random);
            if side == Side::Proved { ours.push(seconds) } else { theirs.push(seconds) }
        }
    }
    let ratio = spread(ours.iter().zip(&theirs).map(|(a, b)| a / b).collect());
    Compared { proved: spread(ours).median, plain: spread(theirs).median, ratio }
}

/// The largest sites.
pub fn largest() {
    println!(
        "Time of the proved library over that of the plain version: ratio of the medians of {SAMPLES} samples, \
         which alternate"
    );
    println!(
        "(in brackets: the middle half of the ratios, sample by sample). Words: load, run to the end, report; \
         the plain version on"
    );
    println!("its struct, or behind the same calls on lent words. Bytes: from a file to its report.\n");
    println!(
        "{:8}{:>6}{:>6}{:>7}   {:20} {:20} {:20}",
        "site", "units", "links", "rounds", "words", "words, plain too", "bytes"
    );
    for shape in LARGEST {
        let mut bench = Bench::new(site(shape, 256).expect("a shape"));
        let rounds = bench.rounds();
        print!("{shape:8}{:>6}{:>6}{rounds:>7}  ", bench.site.units, bench.site.links());
        for (plain, work) in [(Side::Plain, Work::Words), (Side::PlainOnWords, Work::Words), (Side::Plain, Work::Bytes)]
        {
            let c = compare(&mut bench, plain, work, SAMPLES);
            print!(" {:5.2} ({:5.2} – {:5.2})  ", c.proved / c.plain, c.ratio.low, c.ratio.high);
        }
        println!();
    }
}

/// How the time of load, run and report grows.
pub fn growth() {
    println!(
        "\nGrowth: time over that of the first row of its kind; and the same for each round, unit and link \
         (1: linear).\n"
    );
    println!(
        "{:8}{:>6}{:>6}{:>7}   {:>8}{:>8}   {:>16}{:>8}",
        "site", "units", "links", "rounds", "proved", "plain", "each: proved", "plain"
    );
    for shape in LARGEST {
        rows(shape, [32, 64, 128, 256].map(|units| site(shape, units).expect("a shape")));
    }
    rows("links", [257, 384, 640, 1024].map(|links| ring_and_more(&mut Random::new(1, 1), 256, links)));
}

fn rows(name: &str, sites: [Site; 4]) {
    let mut first: Option<(f64, f64, f64)> = None;
    for site in sites {
        let mut bench = Bench::new(site);
        let c = compare(&mut bench, Side::Plain, Work::Words, SAMPLES / 3);
        let (units, links, rounds) = (bench.site.units, bench.site.links(), bench.rounds());
        let size = f64::from(rounds) * (f64::from(units) + links as f64);
        let (proved, plain, least) = *first.get_or_insert((c.proved, c.plain, size));
        let (proved, plain, size) = (c.proved / proved, c.plain / plain, size / least);
        println!(
            "{name:8}{units:>6}{links:>6}{rounds:>7}   {proved:>8.2}{plain:>8.2}   {:>16.2}{:>8.2}",
            proved / size,
            plain / size
        );
    }
}
