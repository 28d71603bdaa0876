//! Whether the search finds a fault: wrong libraries, the plain version behind the same calls with one fault in each,
//! must each be found soon; the plain version itself must not differ from itself, and must bring up every number of
//! every call.

use plain::search::Search;
use plain::seats::{SEATS, load_seat, tick};
use plain::words::{self, Calls, PLAIN, State};
use plain::{ABSENT, LIVE_WORDS, Live, LiveWords, Survey, check_fresh, level_of_word};

/// So many cases are made at most for one wrong library.
const CASES: u64 = 100_000;

/// A change of one call, and what is wrong with it.
type Fault = (&'static str, fn(&mut Calls));

const LEVELS: usize = 2 + 2048;
const COUNTS: usize = LEVELS + 1024;

fn table(state: &State) -> &[u16] {
    &state[2..2 + 2 * usize::from(state[1])]
}

/// What the ring's call gives, in memory of its own.
fn ring(state: &State, first: u16, second: u16) -> (u32, Vec<u16>) {
    let (mut out, mut count) = (vec![0; 256], 0);
    let number = words::ring(state, first, second, &mut out, &mut count);
    out.truncate(count.into());
    (number, out)
}

/// Writes a reply of units.
fn write(units: &[u16], out: &mut [u16]) {
    out[..units.len()].copy_from_slice(units);
}

const RINGS: [Fault; 8] = [
    ("a ring through the first link alone", |calls| {
        calls.ring = |state, first, second, out, count| {
            let number = words::ring(state, first, second, &mut out.to_vec(), count);
            if number == 0 && *count > 0 { words::ring(state, first, first, out, count) } else { number }
        }
    }),
    ("the ends of the first link turned", |calls| {
        calls.ring = |state, first, second, out, count| {
            let number = words::ring(state, first, second, out, count);
            if number == 0 && *count > 0 {
                out[..2].reverse();
                out[2..usize::from(*count)].reverse();
            }
            number
        }
    }),
    ("14 by the length of the ring", |calls| {
        calls.ring = |state, first, second, out, count| {
            let (number, units) = ring(state, first, second);
            if number != 0 {
                return number;
            }
            if out.len() < units.len() {
                return 14;
            }
            write(&units, out);
            *count = units.len() as u16;
            0
        }
    }),
    ("14 before 13", |calls| {
        calls.ring = |state, first, second, out, count| match words::ring(state, first, second, out, count) {
            13 if out.len() < usize::from(state[0]) => 14,
            number => number,
        }
    }),
    ("by the labels of the state", |calls| {
        calls.ring = |state, first, second, out, count| {
            let labels = Survey::from_words(state).label;
            let number = words::ring(state, first, second, &mut out.to_vec(), count);
            if number == 0 && labels[usize::from(first)] != labels[usize::from(second)] {
                *count = 0;
                return 0;
            }
            words::ring(state, first, second, out, count)
        }
    }),
    ("no count where there is no ring", |calls| {
        calls.ring = |state, first, second, out, count| {
            let (number, units) = ring(state, first, second);
            if number == 0 && units.is_empty() && out.len() >= usize::from(state[0]) {
                0
            } else {
                words::ring(state, first, second, out, count)
            }
        }
    }),
    ("the same position twice is no ring", |calls| {
        calls.ring = |state, first, second, out, count| {
            let number = words::ring(state, first, second, &mut out.to_vec(), count);
            if number == 0 && first == second {
                *count = 0;
                return 0;
            }
            words::ring(state, first, second, out, count)
        }
    }),
    ("a word past the ring", |calls| {
        calls.ring = |state, first, second, out, count| {
            let number = words::ring(state, first, second, out, count);
            if let (0, Some(word)) = (number, out.get_mut(usize::from(*count))) {
                *word = 0;
            }
            number
        }
    }),
];

/// The greatest unit that may stand next, in place of the least.
fn greatest_first(state: &State, pairs: &[u16], out: &mut [u16]) -> u32 {
    let number = words::lifting_order(state, pairs, &mut out.to_vec());
    if number != 0 {
        return number;
    }
    let units = usize::from(state[0]);
    let (mut standing, mut built) = (vec![false; units], Vec::new());
    while built.len() < units {
        let stands = |&v: &u16| standing[usize::from(v)];
        let linked =
            |v: u16| table(state).as_chunks().0.iter().any(|&[a, b]| (a == v && stands(&b)) || (b == v && stands(&a)));
        let waits = |v: u16| pairs.as_chunks().0.iter().any(|[before, after]| *before == v && !stands(after));
        let may = |v: &u16| !stands(v) && !waits(*v) && if built.is_empty() { *v == 0 } else { linked(*v) };
        let next = (0..state[0]).rev().find(may).expect("an order exists");
        standing[usize::from(next)] = true;
        built.insert(0, next);
    }
    write(&built, out);
    0
}

const LIFTING: [Fault; 9] = [
    ("the greatest unit next", |calls| calls.lifting_order = greatest_first),
    ("the pairs turned", |calls| {
        calls.lifting_order = |state, pairs, out| {
            let turned: Vec<u16> = pairs.chunks(2).flat_map(|pair| pair.iter().rev()).copied().collect();
            words::lifting_order(state, &turned, out)
        }
    }),
    ("256 pairs are too many", |calls| {
        calls.lifting_order = |state, pairs, out| match words::lifting_order(state, pairs, &mut out.to_vec()) {
            0 | 20 if pairs.len() == 512 => 19,
            _ => words::lifting_order(state, pairs, out),
        }
    }),
    ("an odd word is left out", |calls| {
        calls.lifting_order = |state, pairs, out| words::lifting_order(state, &pairs[..pairs.len() / 2 * 2], out)
    }),
    ("513 words are taken", |calls| {
        calls.lifting_order =
            |state, pairs, out| words::lifting_order(state, if pairs.len() == 513 { &pairs[..512] } else { pairs }, out)
    }),
    ("a unit before itself is left out", |calls| {
        calls.lifting_order = |state, pairs, out| {
            let others: Vec<u16> =
                pairs.chunks(2).filter(|pair| pair.len() < 2 || pair[0] != pair[1]).flatten().copied().collect();
            words::lifting_order(state, if pairs.len() > 512 { pairs } else { &others }, out)
        }
    }),
    ("a name too great by one is taken", |calls| {
        calls.lifting_order = |state, pairs, out| {
            let others: Vec<u16> =
                pairs.chunks(2).filter(|pair| !pair.contains(&state[0])).flatten().copied().collect();
            words::lifting_order(state, if pairs.len() > 512 { pairs } else { &others }, out)
        }
    }),
    ("the last of 256 pairs is not looked at", |calls| {
        calls.lifting_order = |state, pairs, out| {
            let bad = pairs.len() != 512 || pairs.iter().any(|&unit| unit >= state[0]);
            words::lifting_order(state, if bad { pairs } else { &pairs[..510] }, out)
        }
    }),
    ("a word is written though there is no order", |calls| {
        calls.lifting_order = |state, pairs, out| {
            let number = words::lifting_order(state, pairs, out);
            if number == 20 {
                out[0] = out[0].wrapping_add(1);
            }
            number
        }
    }),
];

const DOUBTFUL: [Fault; 6] = [
    ("only a mark of 1 is doubtful", |calls| {
        calls.doubtful = |state, first, second, marks, verdict| {
            let ones: Vec<u8> = marks.iter().map(|&mark| u8::from(mark == 1)).collect();
            words::doubtful(state, first, second, &ones, verdict)
        }
    }),
    ("15 before 13", |calls| {
        calls.doubtful =
            |state, first, second, marks, verdict| match words::doubtful(state, first, second, marks, verdict) {
                13 if marks.len() != usize::from(state[1]) => 15,
                number => number,
            }
    }),
    ("marks past the links are taken", |calls| {
        calls.doubtful = |state, first, second, marks, verdict| {
            words::doubtful(state, first, second, &marks[..marks.len().min(state[1].into())], verdict)
        }
    }),
    ("the two links themselves are sure", |calls| {
        calls.doubtful = |state, first, second, marks, verdict| {
            let mut marks = marks.to_vec();
            for position in [first, second] {
                if let Some(mark) = marks.get_mut(usize::from(position)) {
                    *mark = 0;
                }
            }
            words::doubtful(state, first, second, &marks, verdict)
        }
    }),
    ("never for perhaps", |calls| {
        calls.doubtful = |state, first, second, marks, verdict| {
            let number = words::doubtful(state, first, second, marks, verdict);
            if number == 0 && *verdict == 1 {
                *verdict = 0;
            }
            number
        }
    }),
    ("the verdict of the first link alone", |calls| {
        calls.doubtful =
            |state, first, second, marks, verdict| match words::doubtful(state, first, second, marks, &mut 0) {
                0 => words::doubtful(state, first, first, marks, verdict),
                number => number,
            }
    }),
];

/// The method with backward labels from every unit, or without removal of links that cross.
fn another_method(
    units: u16,
    table: &[u16],
    numbers: &mut [u16],
    passes: &mut u16,
    all_begin: bool,
    crossing: bool,
) -> u32 {
    let number = words::one_way(units, table, numbers, passes);
    if number != 0 {
        return number;
    }
    let mut left: Vec<[usize; 2]> = table.as_chunks::<2>().0.iter().map(|link| link.map(usize::from)).collect();
    let mut done = vec![false; units.into()];
    *passes = 0;
    while done.contains(&false) {
        *passes += 1;
        let mut forward: Vec<u16> = (0..units).collect();
        spread(&mut forward, &left, |link| link);
        let begin = |v: u16| if all_begin || forward[usize::from(v)] == v { v } else { ABSENT };
        let mut backward: Vec<u16> = (0..units).map(begin).collect();
        spread(&mut backward, &left, |[a, b]| [b, a]);
        (0..done.len()).for_each(|v| done[v] |= forward[v] == backward[v]);
        left.retain(|&[a, b]| {
            !done[a] && !done[b] && (crossing || (forward[a] == forward[b] && backward[a] == backward[b]))
        });
    }
    0
}

fn spread(least: &mut [u16], links: &[[usize; 2]], way: fn([usize; 2]) -> [usize; 2]) {
    for _ in 0..least.len() {
        for [a, b] in links.iter().map(|&link| way(link)) {
            least[b] = least[b].min(least[a]);
        }
    }
}

const ONE_WAY: [Fault; 6] = [
    ("9 for a link either way", |calls| {
        calls.one_way = |units, table, numbers, passes| {
            let links = table.as_chunks().0;
            match words::one_way(units, table, &mut numbers.to_vec(), &mut 0) {
                0 | 14 if links.iter().any(|&[a, b]| links.contains(&[b, a])) => 9,
                _ => words::one_way(units, table, numbers, passes),
            }
        }
    }),
    ("backward labels begin at every unit", |calls| {
        calls.one_way = |units, table, numbers, passes| another_method(units, table, numbers, passes, true, false)
    }),
    ("links that cross stay", |calls| {
        calls.one_way = |units, table, numbers, passes| another_method(units, table, numbers, passes, false, true)
    }),
    ("14 where there is no word past the numbers", |calls| {
        calls.one_way =
            |units, table, numbers, passes| match words::one_way(units, table, &mut numbers.to_vec(), &mut 0) {
                0 if numbers.len() == usize::from(units) => 14,
                _ => words::one_way(units, table, numbers, passes),
            }
    }),
    ("a word past the numbers", |calls| {
        calls.one_way = |units, table, numbers, passes| {
            let number = words::one_way(units, table, numbers, passes);
            if let (0, Some(word)) = (number, numbers.get_mut(usize::from(units))) {
                *word = ABSENT;
            }
            number
        }
    }),
    ("two ends of one number are no fault", |calls| {
        calls.one_way = |units, table, numbers, passes| match words::one_way(units, table, numbers, passes) {
            8 => {
                let others: Vec<u16> = table.as_chunks().0.iter().filter(|[a, b]| a != b).flatten().copied().collect();
                words::one_way(units, &others, numbers, passes)
            }
            number => number,
        }
    }),
];

/// A change of the lists that a live table holds, with everything else right.
fn rewritten(live: &mut LiveWords, change: fn(&mut Live)) {
    let mut lists = Live::from_words(live);
    change(&mut lists);
    *live = *lists.to_words();
}

const LIVE: [Fault; 13] = [
    ("counts past the units are not judged", |calls| {
        calls.live_add = |live, a, b, level| {
            let mut cleared = *live;
            cleared[COUNTS + usize::from(live[0]).min(256)..].fill(0);
            let number = words::live_add(&mut cleared, a, b, level);
            if number == 0 {
                *live = cleared;
            }
            number
        }
    }),
    ("levels past the links are judged", |calls| {
        calls.live_withdraw = |live, a, b| {
            let past = LEVELS + usize::from(live[1]).min(1024);
            let outside = live[past..COUNTS].iter().any(|&word| !(-127..=0).contains(&level_of_word(word)));
            match words::live_withdraw(&mut live.clone(), a, b) {
                0 if outside => 16,
                _ => words::live_withdraw(live, a, b),
            }
        }
    }),
    ("levels stay when a link goes", |calls| {
        calls.live_withdraw = |live, a, b| {
            let before = *live;
            let number = words::live_withdraw(live, a, b);
            if number == 0 {
                let links = usize::from(live[1]);
                live[LEVELS..LEVELS + links].copy_from_slice(&before[LEVELS..LEVELS + links]);
            }
            number
        }
    }),
    ("a link is withdrawn as it stands only", |calls| {
        calls.live_withdraw = |live, a, b| match words::live_withdraw(&mut live.clone(), a, b) {
            0 if !Live::from_words(live).links.iter().any(|&(link, _)| link == [a, b]) => 21,
            _ => words::live_withdraw(live, a, b),
        }
    }),
    ("the last link's words stay", |calls| {
        calls.live_withdraw = |live, a, b| {
            let before = *live;
            let number = words::live_withdraw(live, a, b);
            if number == 0 {
                let at = 2 + 2 * usize::from(live[1]);
                live[at..at + 2].copy_from_slice(&before[at..at + 2]);
            }
            number
        }
    }),
    ("the last link's level stays", |calls| {
        calls.live_withdraw = |live, a, b| {
            let before = *live;
            let number = words::live_withdraw(live, a, b);
            if number == 0 {
                let at = LEVELS + usize::from(live[1]);
                live[at] = before[at];
            }
            number
        }
    }),
    ("what stood past the links stays", |calls| {
        calls.live_add = |live, a, b, level| {
            let before = *live;
            let number = words::live_add(live, a, b, level);
            if number == 0 {
                let past = 2 + 2 * usize::from(live[1]);
                live[past..LEVELS].copy_from_slice(&before[past..LEVELS]);
            }
            number
        }
    }),
    ("9 for a link as it stands only", |calls| {
        calls.live_add = |live, a, b, level| match words::live_add(live, a, b, level) {
            9 if words::live_withdraw(&mut live.clone(), b, a) == 0 => {
                let lists = Live::from_words(live);
                if lists.links.iter().any(|&(link, _)| link == [a, b]) {
                    return 9;
                }
                let lent = [a, b, level as u16];
                live[2 + 2 * lists.links.len()..][..2].copy_from_slice(&lent[..2]);
                live[1] += 1;
                0
            }
            number => number,
        }
    }),
    ("6 not before the table is past its room", |calls| {
        calls.live_add = |live, a, b, level| match words::live_add(live, a, b, level) {
            6 if live[1] == 1024 => 0,
            number => number,
        }
    }),
    ("a refused opening clears the table", |calls| {
        calls.live_open = |live, units, table, levels| {
            let number = words::live_open(live, units, table, levels);
            if number != 0 {
                *live = [0; LIVE_WORDS];
            }
            number
        }
    }),
    ("an opening refuses with 22", |calls| {
        calls.live_open = |live, units, table, levels| match check_fresh(units, table, levels) {
            Ok(()) => words::live_open(live, units, table, levels),
            Err(refusal) => refusal.number().into(),
        }
    }),
    ("8 after 21", |calls| {
        calls.live_withdraw = |live, a, b| match words::live_withdraw(live, a, b) {
            8 if a == b
                && words::live_add(&mut live.clone(), a, b, 0) == 8
                && !Live::from_words(live).links.iter().any(|([c, d], _)| c == d) =>
            {
                21
            }
            number => number,
        }
    }),
    ("a level is stored as its distance from 0", |calls| {
        calls.live_add = |live, a, b, level| {
            let number = words::live_add(live, a, b, level);
            if number == 0 {
                rewritten(live, |lists| {
                    if let Some((_, level)) = lists.links.last_mut() {
                        *level = -*level;
                    }
                });
            }
            number
        }
    }),
];

const SEAT: [Fault; 9] = [
    ("the turn moves though every seat is finished", |calls| {
        calls.seats.tick = |last, seats| {
            let number = tick(last, seats);
            if number == 11 {
                *last = (*last + 1) % 8;
            }
            number
        }
    }),
    ("the search begins at the seat last served", |calls| {
        calls.seats.tick = |last, seats| {
            let mut before = if *last < 8 { (*last + 7) % 8 } else { *last };
            let number = tick(&mut before, seats);
            if number == 0 {
                *last = before;
            }
            number
        }
    }),
    ("an empty seat is judged", |calls| {
        calls.seats.tick = |last, seats| if seats.iter().any(|seat| seat[0] == 0) { 10 } else { tick(last, seats) }
    }),
    ("a finished seat is not judged", |calls| {
        calls.seats.tick = |last, seats| {
            let mut judged = *seats;
            judged.iter_mut().filter(|seat| seat[2050] == 11).for_each(|seat| (seat[0], seat[2050]) = (0, 0));
            let mut turn = *last;
            match tick(&mut turn, &mut judged) {
                0 => {
                    *last = turn;
                    words::round(&mut seats[usize::from(turn)])
                }
                number => number,
            }
        }
    }),
    ("a loaded seat without units counts as empty", |calls| {
        calls.seats.tick = |last, seats| {
            let mut judged = *seats;
            judged.iter_mut().filter(|seat| seat[0] == 0).for_each(|seat| seat[2050] = 0);
            let mut turn = *last;
            match tick(&mut turn, &mut judged) {
                0 => {
                    *last = turn;
                    words::round(&mut seats[usize::from(turn)])
                }
                number => number,
            }
        }
    }),
    ("a stored table is loaded in a seat as a fresh one", |calls| calls.seats.load_stored = load_seat),
    ("a seat last served above 7 is taken by its last bits", |calls| {
        calls.seats.tick = |last, seats| {
            let mut turn = *last % 8;
            let number = tick(&mut turn, seats);
            if number == 0 {
                *last = turn;
            }
            number
        }
    }),
    ("23 after the table's numbers", |calls| {
        calls.seats.load = |seats, seat, units, table, levels| match load_seat(seats, seat, units, table, levels) {
            23 => match check_fresh(units, table, levels) {
                Ok(()) => 23,
                Err(refusal) => refusal.number().into(),
            },
            number => number,
        }
    }),
    ("the seat after is loaded", |calls| {
        calls.seats.load = |seats, seat, units, table, levels| {
            let next = if usize::from(seat) < SEATS { (seat + 1) % 8 } else { seat };
            load_seat(seats, next, units, table, levels)
        }
    }),
];

/// Where the levels stand in a state.
const STATE_LEVELS: usize = Survey::WORDS - 1 - 256 - 1024;

/// A load that takes levels from one number to another.
fn wide_load(state: &mut State, units: u16, table: &[u16], levels: &[i16], from: i16, to: i16) -> u32 {
    let near: Vec<i16> =
        levels.iter().map(|&level| if (from..=to).contains(&level) { level.clamp(-127, 0) } else { level }).collect();
    let number = words::load(state, units, table, &near);
    if number == 0 {
        for (word, &level) in state[STATE_LEVELS..].iter_mut().zip(levels) {
            *word = level as u16;
        }
    }
    number
}

/// The link lines of a file.
fn link_lines(input: &[u8]) -> Vec<&[u8]> {
    input.split(|&byte| byte == b'\n').filter(|line| line.starts_with(b"02") || line.starts_with(b"03")).collect()
}

/// The byte 00, or 81 to FF: where a line has no level, it has a good one.
fn good_level(line: &[u8]) -> bool {
    line.starts_with(b"02") || &line[10..12] == b"00" || (line[10] >= b'8' && &line[10..12] != b"80")
}

const OF_LEVELS: [Fault; 11] = [
    ("15 for too few levels only", |calls| {
        calls.load =
            |state, units, table, levels| words::load(state, units, table, &levels[..levels.len().min(table.len() / 2)])
    }),
    ("levels down to -128", |calls| {
        calls.load = |state, units, table, levels| wide_load(state, units, table, levels, -128, 0)
    }),
    ("levels up to 1", |calls| {
        calls.load = |state, units, table, levels| wide_load(state, units, table, levels, -127, 1)
    }),
    ("a state's levels are judged up to the links", |calls| {
        calls.status = |state, reply| {
            let mut judged = *state;
            judged[STATE_LEVELS + usize::from(state[1]).min(1024)..][..1024 - usize::from(state[1]).min(1024)].fill(0);
            words::status(&judged, reply)
        }
    }),
    ("a state's levels are not judged", |calls| {
        calls.status = |state, reply| {
            let mut judged = *state;
            judged[STATE_LEVELS..][..1024].fill(0);
            words::status(&judged, reply)
        }
    }),
    ("a load leaves the levels past the links absent", |calls| {
        calls.load = |state, units, table, levels| {
            let number = words::load(state, units, table, levels);
            if number == 0 {
                state[STATE_LEVELS + levels.len()..][..1024 - levels.len()].fill(ABSENT);
            }
            number
        }
    }),
    ("reading takes too few places for the levels", |calls| {
        calls.read = |input, table, levels, units, links| {
            let mut all = vec![0; levels.len().max(1024)];
            let number = words::read(input, table, &mut all, units, links);
            let read = if number == 0 { levels.len().min((*links).into()) } else { 0 };
            levels[..read].copy_from_slice(&all[..read]);
            number
        }
    }),
    ("reading does not look for 16", |calls| {
        calls.read = |input, table, levels, units, links| match words::read(input, table, levels, units, links) {
            16 => 0,
            number => number,
        }
    }),
    ("reading looks at the last level alone", |calls| {
        calls.read = |input, table, levels, units, links| match words::read(input, table, levels, units, links) {
            16 if link_lines(input).last().is_some_and(|line| good_level(line)) => 0,
            number => number,
        }
    }),
    ("a link of kind 02 is read with 0", |calls| {
        calls.read = |input, table, levels, units, links| {
            let number = words::read(input, table, levels, units, links);
            if number == 0 {
                let bare = link_lines(input).into_iter().enumerate().filter(|(_, line)| line.starts_with(b"02"));
                bare.for_each(|(j, _)| levels[j] = 0);
            }
            number
        }
    }),
    ("kind 03 is not known", |calls| {
        calls.read = |input, table, levels, units, links| {
            if input.starts_with(b"03") || input.windows(3).any(|at| at == b"\n03") {
                1
            } else {
                words::read(input, table, levels, units, links)
            }
        }
    }),
];

const PLANS: [Fault; 3] = [
    ("17 for too few parents only", |calls| {
        calls.load_planned = |state, units, table, levels, parents| {
            let few = &parents[..parents.len().min(units.into())];
            words::load_planned(state, units, table, levels, few)
        }
    }),
    ("22 before 18", |calls| {
        calls.load_planned =
            |state, units, table, levels, parents| match words::load_planned(state, units, table, levels, parents) {
                18 if check_fresh(units, table, levels).is_err() => 22,
                number => number,
            }
    }),
    ("the plan is not marked as given", |calls| {
        calls.load_planned = |state, units, table, levels, parents| {
            let number = words::load_planned(state, units, table, levels, parents);
            if number == 0 {
                state[Survey::WORDS - 1] = 0;
            }
            number
        }
    }),
];

/// The report of a table that a file holds, were it loaded as a fresh one.
fn fresh_report(input: &[u8], out: &mut [u8]) -> u32 {
    let (mut table, mut levels, mut units, mut links) = (vec![0; 2048], vec![0; 1024], 0, 0);
    let read = words::read(input, &mut table, &mut levels, &mut units, &mut links);
    let ends = &table[..2 * usize::from(links)];
    if read == 0
        && matches!(check_fresh(units, ends, &levels[..links.into()]), Err(refusal) if refusal.number() == 22)
        && out.len() >= 7
    {
        out[..7].copy_from_slice(b"1E16CC\n");
        return 7;
    }
    words::report(input, out)
}

/// What stands after so many bytes is touched.
fn touch(out: &mut [u8], written: usize) {
    if let Some(byte) = out.get_mut(written) {
        *byte = byte.wrapping_add(1);
    }
}

/// The characters of a state's report.
fn report_length(state: &State) -> usize {
    26 + 23 * usize::from(state[0]) + 15 * usize::from(state[1])
}

const FILES: [Fault; 6] = [
    ("the printer takes a file as a fresh table", |calls| calls.report = fresh_report),
    ("a byte past what is printed", |calls| {
        calls.report = |input, out| {
            let count = words::report(input, out);
            touch(out, count as usize);
            count
        }
    }),
    ("the last character is not counted", |calls| {
        calls.report = |input, out| words::report(input, out).saturating_sub(1)
    }),
    ("links are written with kind 02", |calls| {
        calls.write = |units, table, levels, out| {
            let number = words::write(units, table, levels, out);
            if number == 0 && !table.is_empty() {
                out[10] = b'2';
            }
            number
        }
    }),
    ("a byte past the written file", |calls| {
        calls.write = |units, table, levels, out| {
            let number = words::write(units, table, levels, out);
            if number == 0 {
                touch(out, 18 + 15 * (table.len() / 2));
            }
            number
        }
    }),
    ("14 before 22 in writing", |calls| {
        calls.write = |units, table, levels, out| match words::write(units, table, levels, out) {
            22 if out.len() < 18 + 15 * (table.len() / 2) => 14,
            number => number,
        }
    }),
];

const ROUNDS: [Fault; 7] = [
    ("a stored table is loaded as a fresh one", |calls| calls.load_stored = words::load),
    ("a stored table's levels are taken for 0", |calls| {
        calls.load_stored = |state, units, table, levels| {
            let number = words::load_stored(state, units, table, levels);
            if number == 0 {
                state[STATE_LEVELS..][..levels.len()].fill(0);
            }
            number
        }
    }),
    ("a round hands the state back unmoved", |calls| calls.round = |state| words::round(&mut state.clone())),
    ("all work in the first round", |calls| {
        calls.round = |state| match words::round(&mut state.clone()) {
            0 => words::run(state, u16::MAX, &mut 0),
            number => number,
        }
    }),
    ("a run makes a round too few", |calls| {
        calls.run = |state, budget, made| match words::run(&mut state.clone(), 0, &mut 0) {
            0 => words::run(state, budget.saturating_sub(1), made),
            number => number,
        }
    }),
    ("the budget is told as the rounds made", |calls| {
        calls.run = |state, budget, made| {
            let number = words::run(state, budget, made);
            if number == 0 {
                *made = budget;
            }
            number
        }
    }),
    ("a run of no round is not judged", |calls| {
        calls.run = |state, budget, made| match words::run(&mut state.clone(), budget, &mut 0) {
            10 | 11 if budget == 0 => {
                *made = 0;
                0
            }
            _ => words::run(state, budget, made),
        }
    }),
];

const QUESTIONS: [Fault; 10] = [
    ("no unit is a single point", |calls| {
        calls.unit = |state, unit, reply| {
            let number = words::unit(state, unit, reply);
            if number == 0 {
                reply[4] = 0;
            }
            number
        }
    }),
    ("13 before 12 of a unit", |calls| {
        calls.unit = |state, unit, reply| match words::unit(state, unit, reply) {
            12 if unit >= state[0] => 13,
            number => number,
        }
    }),
    ("one label for all links", |calls| {
        calls.link = |state, position, reply| {
            let number = words::link(state, position, reply);
            if number == 0 {
                let mut first = [0; 3];
                words::link(state, 0, &mut first);
                reply[1] = first[1];
            }
            number
        }
    }),
    ("a link after the last is answered", |calls| {
        calls.link = |state, position, reply| match words::link(state, position, reply) {
            13 if position == state[1] => 0,
            number => number,
        }
    }),
    ("a byte past the report of a state", |calls| {
        calls.state_report = |state, out| {
            let number = words::state_report(state, out);
            if number == 0 {
                touch(out, report_length(state));
            }
            number
        }
    }),
    ("14 before 12 in the report of a state", |calls| {
        calls.state_report = |state, out| match words::state_report(state, out) {
            12 if out.len() < report_length(state) => 14,
            number => number,
        }
    }),
    ("the foreman sees the service line", |calls| calls.foreman_line = words::service_line),
    ("14 before 10 in the foreman's line", |calls| {
        calls.foreman_line = |state, out| match words::foreman_line(state, out) {
            10 if out.is_empty() => 14,
            number => number,
        }
    }),
    ("the service line is the foreman's", |calls| calls.service_line = words::foreman_line),
    ("a service line on a refusal", |calls| {
        calls.service_line = |state, out| {
            let number = words::service_line(state, out);
            if number != 0 {
                touch(out, 0);
            }
            number
        }
    }),
];

/// The case of seed 1 in which each fault is found.
fn found(faults: &[Fault]) {
    for (name, spoil) in faults {
        let mut library = PLAIN;
        spoil(&mut library);
        match Search::new(library).first_found(1, CASES) {
            Some((case, difference)) => {
                println!("{case:>6}  {name}: {}", difference.lines().next().unwrap_or_default())
            }
            None => panic!("not found in {CASES} cases: {name}"),
        }
    }
}

#[test]
fn rings() {
    found(&RINGS);
}

#[test]
fn lifting_orders() {
    found(&LIFTING);
}

#[test]
fn doubtful_links() {
    found(&DOUBTFUL);
}

#[test]
fn one_way_links() {
    found(&ONE_WAY);
}

#[test]
fn live_tables() {
    found(&LIVE);
}

#[test]
fn seats() {
    found(&SEAT);
}

#[test]
fn levels() {
    found(&OF_LEVELS);
}

#[test]
fn plans() {
    found(&PLANS);
}

#[test]
fn files_and_printing() {
    found(&FILES);
}

#[test]
fn loads_and_rounds() {
    found(&ROUNDS);
}

#[test]
fn questions_and_lines() {
    found(&QUESTIONS);
}

/// The plain version beside itself: no difference, and nothing that never came up.
#[test]
fn no_fault() {
    let mut search = Search::new(PLAIN);
    assert_eq!(search.first_found(1, CASES), None);
    assert_eq!(search.missing(), Vec::<String>::new());
}
