//! The deepest stack of each call of the C face: the call is made on a painted stack of its own, and then the paint is
//! looked at.

use crate::asked::{pairs, positions};
use crate::work::{LARGEST, site};
use plain::face::PROVED;
use plain::random::Random;
use plain::seats::empty_seats;
use plain::sites::{Site, any_parents};
use plain::words::{Calls, PLAIN};
use plain::{LIVE_WORDS, Survey, file_length, report_length, write_file};
use std::arch::asm;
use std::ffi::c_void;

const STACK: usize = 1 << 20;

/// Calls a function on another stack. The called function keeps r12, as the platform's convention says.
///
/// # Safety
/// The top is 16-aligned, with room enough below it; the call gets data that it may have.
unsafe fn on_stack(top: *mut u8, call: extern "C" fn(*mut c_void), data: *mut c_void) {
    unsafe {
        asm!(
            "xchg rsp, r12",
            "call {call}",
            "mov rsp, r12",
            call = in(reg) call,
            inout("r12") top => _,
            in("rdi") data,
            clobber_abi("C"),
        );
    }
}

extern "C" fn enter(data: *mut c_void) {
    // the data is the closure that `depth` passes
    let call = unsafe { &mut *data.cast::<&mut dyn FnMut()>() };
    call();
}

/// How far down a call goes. A byte that is stored as the paint would not be seen: two paints, and the deeper of both.
fn painted(memory: &mut [u128], call: &mut dyn FnMut()) -> usize {
    [0xA5u8, 0x5A].into_iter().map(|paint| painted_with(memory, paint, call)).max().unwrap_or(0)
}

fn painted_with(memory: &mut [u128], paint: u8, call: &mut dyn FnMut()) -> usize {
    let paint = u128::from_ne_bytes([paint; 16]);
    memory.fill(paint);
    let mut call = call;
    unsafe { on_stack(memory.as_mut_ptr_range().end.cast(), enter, (&raw mut call).cast()) };
    let untouched = std::hint::black_box(&*memory).iter().take_while(|&&word| word == paint).count();
    assert!(untouched > 0, "the stack was too small");
    size_of_val(&memory[untouched..])
}

/// The bytes of a call less those of the way into it.
struct Meter {
    memory: Vec<u128>,
    entry: usize,
}

impl Meter {
    fn new() -> Meter {
        let mut meter = Meter { memory: vec![0; STACK / 16], entry: 0 };
        meter.entry = painted(&mut meter.memory, &mut || {});
        meter
    }

    fn depth(&mut self, mut call: impl FnMut()) -> usize {
        painted(&mut self.memory, &mut call) - self.entry
    }

    /// Of a call that is not refused.
    fn done(&mut self, mut call: impl FnMut() -> u32) -> usize {
        let mut number = 0;
        let depth = self.depth(|| number = call());
        assert_eq!(number, 0, "a call was refused");
        depth
    }
}

const CALLS: [&str; 25] = [
    "report",
    "read",
    "write",
    "load",
    "load_stored",
    "load_planned",
    "round",
    "run",
    "status",
    "unit",
    "link",
    "state_report",
    "foreman_line",
    "service_line",
    "ring",
    "lifting_order",
    "doubtful",
    "one_way",
    "live_open",
    "live_add",
    "live_withdraw",
    "seat_load",
    "seat_load_stored",
    "seat_load_planned",
    "tick",
];

/// The deepest that each call goes on one site: round by round, and at the end.
fn depths(meter: &mut Meter, calls: &Calls, site: &Site) -> [usize; CALLS.len()] {
    let (units, table, levels) = (site.units, &site.table[..], &site.levels[..]);
    let mut file = vec![0; file_length(site.links())];
    write_file(units, table, levels, &mut file).expect("a site passes the checks");
    let mut out = vec![0; report_length(usize::from(units), site.links())];
    let mut state = Box::new([0; Survey::WORDS]);
    let mut number = 0;

    let report = meter.depth(|| number = (calls.report)(&file, &mut out));
    assert_eq!(number as usize, out.len());
    let (mut words, mut heard) = (vec![0; table.len()], vec![0; site.links()]);
    let read = meter.done(|| (calls.read)(&file, &mut words, &mut heard, &mut 0, &mut 0));
    assert_eq!((&words[..], &heard[..]), (table, levels));
    let write = meter.done(|| (calls.write)(units, table, levels, &mut file));
    let parents = any_parents(&mut Random::new(5, 1), units, table);
    let load_planned = meter.done(|| (calls.load_planned)(&mut state, units, table, levels, &parents));
    let load = meter.done(|| (calls.load)(&mut state, units, table, levels));
    let load_stored = meter.done(|| (calls.load_stored)(&mut state, units, table, levels));
    let first = state.clone();
    let run = meter.done(|| {
        state.copy_from_slice(&first[..]);
        (calls.run)(&mut state, u16::MAX, &mut 0)
    });
    let status = meter.done(|| (calls.status)(&state, &mut [0; 4]));
    let unit = meter.done(|| (calls.unit)(&state, 0, &mut [0; 5]));
    let link = meter.done(|| (calls.link)(&state, 0, &mut [0; 3]));
    let state_report = meter.done(|| (calls.state_report)(&state, &mut out));
    let foreman_line = meter.done(|| (calls.foreman_line)(&state, &mut out));
    let service_line = meter.done(|| (calls.service_line)(&state, &mut out));

    let ([one, other], pairs) = (positions(site), pairs(site));
    let (marks, mut ring_units) = (vec![0; site.links()], [0; 256]);
    let ring = meter.done(|| (calls.ring)(&state, one, other, &mut ring_units, &mut 0));
    let lifting_order = meter.done(|| (calls.lifting_order)(&state, &pairs, &mut ring_units));
    let doubtful = meter.done(|| (calls.doubtful)(&state, one, other, &marks, &mut 0));
    let one_way = meter.done(|| (calls.one_way)(units, table, &mut ring_units, &mut 0));

    let mut live = [0; LIVE_WORDS];
    let live_open = meter.done(|| (calls.live_open)(&mut live, units, &table[2..], &levels[1..]));
    let opened = live;
    let live_add = meter.done(|| {
        live = opened;
        (calls.live_add)(&mut live, table[0], table[1], levels[0])
    });
    let added = live;
    let live_withdraw = meter.done(|| {
        live = added;
        (calls.live_withdraw)(&mut live, table[0], table[1])
    });

    let mut seats = empty_seats();
    let seat_load = meter.done(|| (calls.seats.load)(&mut seats, 7, units, table, levels));
    let seat_load_stored = meter.done(|| (calls.seats.load_stored)(&mut seats, 7, units, table, levels));
    let seat_load_planned = meter.done(|| (calls.seats.load_planned)(&mut seats, 7, units, table, levels, &parents));
    seats.fill(*first);
    let (mut tick, mut round) = (0, 0);
    state.copy_from_slice(&first[..]);
    let mut before = first;
    while number != 11 {
        before.copy_from_slice(&state[..]);
        round = round.max(meter.depth(|| {
            state.copy_from_slice(&before[..]);
            number = (calls.round)(&mut state);
        }));
        if number == 0 {
            tick = tick.max(meter.done(|| {
                seats[0].copy_from_slice(&before[..]);
                (calls.seats.tick)(&mut 7, &mut seats)
            }));
        }
        assert!([0, 11].contains(&number));
    }
    [
        report,
        read,
        write,
        load,
        load_stored,
        load_planned,
        round,
        run,
        status,
        unit,
        link,
        state_report,
        foreman_line,
        service_line,
        ring,
        lifting_order,
        doubtful,
        one_way,
        live_open,
        live_add,
        live_withdraw,
        seat_load,
        seat_load_stored,
        seat_load_planned,
        tick,
    ]
}

pub fn print() {
    println!(
        "Deepest stack in bytes, to the next 16, over the largest sites and, for a round and a tick, over all \
         their rounds.\n"
    );
    println!("{:18}{:>10}{:>20}", "call", "proved", "plain on words");
    let mut meter = Meter::new();
    let mut most = [[0; CALLS.len()]; 2];
    for shape in LARGEST {
        let site = site(shape, 256).expect("a shape");
        for (most, calls) in most.iter_mut().zip([PROVED, PLAIN]) {
            for (most, depth) in most.iter_mut().zip(depths(&mut meter, &calls, &site)) {
                *most = depth.max(*most);
            }
        }
    }
    for (i, call) in CALLS.iter().enumerate() {
        println!("{call:18}{:>10}{:>20}", most[0][i], most[1][i]);
    }
}
