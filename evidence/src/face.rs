//! The proved library through its C face. A slice goes over as its pointer and its length, an array of fixed size as
//! its pointer.

use crate::LiveWords;
use crate::seats::{SeatCalls, Seats};
use crate::words::{Calls, LinkReply, State, StatusReply, UnitReply};

/// Whose turn it is, as the header has it.
#[repr(C)]
struct Turn {
    last: u16,
}

unsafe extern "C" {
    fn link_survey_report(input: *const u8, input_len: usize, out: *mut u8, out_len: usize) -> u32;
    fn link_survey_read(
        input: *const u8,
        input_len: usize,
        table: *mut u16,
        table_len: usize,
        levels: *mut i16,
        levels_len: usize,
        units: *mut u16,
        links: *mut u16,
    ) -> u32;
    fn link_survey_write(
        units: u16,
        table: *const u16,
        table_len: usize,
        levels: *const i16,
        levels_len: usize,
        out: *mut u8,
        out_len: usize,
    ) -> u32;
    fn link_survey_load(
        state: *mut u16,
        units: u16,
        table: *const u16,
        table_len: usize,
        levels: *const i16,
        levels_len: usize,
    ) -> u32;
    fn link_survey_load_stored(
        state: *mut u16,
        units: u16,
        table: *const u16,
        table_len: usize,
        levels: *const i16,
        levels_len: usize,
    ) -> u32;
    fn link_survey_load_planned(
        state: *mut u16,
        units: u16,
        table: *const u16,
        table_len: usize,
        levels: *const i16,
        levels_len: usize,
        parents: *const u16,
        parents_len: usize,
    ) -> u32;
    fn link_survey_round(state: *mut u16) -> u32;
    fn link_survey_run(state: *mut u16, budget: u16, made: *mut u16) -> u32;
    fn link_survey_status(state: *const u16, reply: *mut u16) -> u32;
    fn link_survey_unit(state: *const u16, unit: u16, reply: *mut u16) -> u32;
    fn link_survey_link(state: *const u16, position: u16, reply: *mut u16) -> u32;
    fn link_survey_state_report(state: *const u16, out: *mut u8, out_len: usize) -> u32;
    fn link_survey_foreman_line(state: *const u16, out: *mut u8, out_len: usize) -> u32;
    fn link_survey_service_line(state: *const u16, out: *mut u8, out_len: usize) -> u32;
    fn link_survey_ring(
        state: *const u16,
        first: u16,
        second: u16,
        out: *mut u16,
        out_len: usize,
        count: *mut u16,
    ) -> u32;
    fn link_survey_lifting_order(
        state: *const u16,
        pairs: *const u16,
        pairs_len: usize,
        out: *mut u16,
        out_len: usize,
    ) -> u32;
    fn link_survey_doubtful(
        state: *const u16,
        first: u16,
        second: u16,
        marks: *const u8,
        marks_len: usize,
        verdict: *mut u16,
    ) -> u32;
    fn link_survey_one_way(
        units: u16,
        table: *const u16,
        table_len: usize,
        numbers: *mut u16,
        numbers_len: usize,
        passes: *mut u16,
    ) -> u32;
    fn link_survey_live_open(
        live: *mut u16,
        units: u16,
        table: *const u16,
        table_len: usize,
        levels: *const i16,
        levels_len: usize,
    ) -> u32;
    fn link_survey_live_add(live: *mut u16, a: u16, b: u16, level: i16) -> u32;
    fn link_survey_live_withdraw(live: *mut u16, a: u16, b: u16) -> u32;
    fn link_survey_seat_load(
        seats: *mut Seats,
        seat: u16,
        units: u16,
        table: *const u16,
        table_len: usize,
        levels: *const i16,
        levels_len: usize,
    ) -> u32;
    fn link_survey_seat_load_stored(
        seats: *mut Seats,
        seat: u16,
        units: u16,
        table: *const u16,
        table_len: usize,
        levels: *const i16,
        levels_len: usize,
    ) -> u32;
    fn link_survey_seat_load_planned(
        seats: *mut Seats,
        seat: u16,
        units: u16,
        table: *const u16,
        table_len: usize,
        levels: *const i16,
        levels_len: usize,
        parents: *const u16,
        parents_len: usize,
    ) -> u32;
    fn link_survey_tick(turn: *mut Turn, seats: *mut Seats) -> u32;
}

// Each call is lent whole arrays, and whole slices with their true lengths, and keeps none of them.

pub fn report(input: &[u8], out: &mut [u8]) -> u32 {
    unsafe { link_survey_report(input.as_ptr(), input.len(), out.as_mut_ptr(), out.len()) }
}

pub fn read(input: &[u8], table: &mut [u16], levels: &mut [i16], units: &mut u16, links: &mut u16) -> u32 {
    let (table, table_len) = (table.as_mut_ptr(), table.len());
    unsafe {
        link_survey_read(input.as_ptr(), input.len(), table, table_len, levels.as_mut_ptr(), levels.len(), units, links)
    }
}

pub fn write(units: u16, table: &[u16], levels: &[i16], out: &mut [u8]) -> u32 {
    let (table, table_len) = (table.as_ptr(), table.len());
    unsafe { link_survey_write(units, table, table_len, levels.as_ptr(), levels.len(), out.as_mut_ptr(), out.len()) }
}

pub fn load(state: &mut State, units: u16, table: &[u16], levels: &[i16]) -> u32 {
    unsafe { link_survey_load(state.as_mut_ptr(), units, table.as_ptr(), table.len(), levels.as_ptr(), levels.len()) }
}

pub fn load_stored(state: &mut State, units: u16, table: &[u16], levels: &[i16]) -> u32 {
    unsafe {
        link_survey_load_stored(state.as_mut_ptr(), units, table.as_ptr(), table.len(), levels.as_ptr(), levels.len())
    }
}

pub fn load_planned(state: &mut State, units: u16, table: &[u16], levels: &[i16], parents: &[u16]) -> u32 {
    let (words, len) = (table.as_ptr(), table.len());
    let (heights, links) = (levels.as_ptr(), levels.len());
    unsafe {
        link_survey_load_planned(state.as_mut_ptr(), units, words, len, heights, links, parents.as_ptr(), parents.len())
    }
}

pub fn round(state: &mut State) -> u32 {
    unsafe { link_survey_round(state.as_mut_ptr()) }
}

pub fn run(state: &mut State, budget: u16, made: &mut u16) -> u32 {
    unsafe { link_survey_run(state.as_mut_ptr(), budget, made) }
}

pub fn status(state: &State, reply: &mut StatusReply) -> u32 {
    unsafe { link_survey_status(state.as_ptr(), reply.as_mut_ptr()) }
}

pub fn unit(state: &State, unit: u16, reply: &mut UnitReply) -> u32 {
    unsafe { link_survey_unit(state.as_ptr(), unit, reply.as_mut_ptr()) }
}

pub fn link(state: &State, position: u16, reply: &mut LinkReply) -> u32 {
    unsafe { link_survey_link(state.as_ptr(), position, reply.as_mut_ptr()) }
}

pub fn state_report(state: &State, out: &mut [u8]) -> u32 {
    unsafe { link_survey_state_report(state.as_ptr(), out.as_mut_ptr(), out.len()) }
}

pub fn foreman_line(state: &State, out: &mut [u8]) -> u32 {
    unsafe { link_survey_foreman_line(state.as_ptr(), out.as_mut_ptr(), out.len()) }
}

pub fn service_line(state: &State, out: &mut [u8]) -> u32 {
    unsafe { link_survey_service_line(state.as_ptr(), out.as_mut_ptr(), out.len()) }
}

pub fn ring(state: &State, first: u16, second: u16, out: &mut [u16], count: &mut u16) -> u32 {
    unsafe { link_survey_ring(state.as_ptr(), first, second, out.as_mut_ptr(), out.len(), count) }
}

pub fn lifting_order(state: &State, pairs: &[u16], out: &mut [u16]) -> u32 {
    unsafe { link_survey_lifting_order(state.as_ptr(), pairs.as_ptr(), pairs.len(), out.as_mut_ptr(), out.len()) }
}

pub fn doubtful(state: &State, first: u16, second: u16, marks: &[u8], verdict: &mut u16) -> u32 {
    unsafe { link_survey_doubtful(state.as_ptr(), first, second, marks.as_ptr(), marks.len(), verdict) }
}

pub fn one_way(units: u16, table: &[u16], numbers: &mut [u16], passes: &mut u16) -> u32 {
    unsafe { link_survey_one_way(units, table.as_ptr(), table.len(), numbers.as_mut_ptr(), numbers.len(), passes) }
}

pub fn live_open(live: &mut LiveWords, units: u16, table: &[u16], levels: &[i16]) -> u32 {
    unsafe {
        link_survey_live_open(live.as_mut_ptr(), units, table.as_ptr(), table.len(), levels.as_ptr(), levels.len())
    }
}

pub fn live_add(live: &mut LiveWords, a: u16, b: u16, level: i16) -> u32 {
    unsafe { link_survey_live_add(live.as_mut_ptr(), a, b, level) }
}

pub fn live_withdraw(live: &mut LiveWords, a: u16, b: u16) -> u32 {
    unsafe { link_survey_live_withdraw(live.as_mut_ptr(), a, b) }
}

fn seat_load(seats: &mut Seats, seat: u16, units: u16, table: &[u16], levels: &[i16]) -> u32 {
    unsafe { link_survey_seat_load(seats, seat, units, table.as_ptr(), table.len(), levels.as_ptr(), levels.len()) }
}

fn seat_load_stored(seats: &mut Seats, seat: u16, units: u16, table: &[u16], levels: &[i16]) -> u32 {
    unsafe {
        link_survey_seat_load_stored(seats, seat, units, table.as_ptr(), table.len(), levels.as_ptr(), levels.len())
    }
}

fn seat_load_planned(seats: &mut Seats, seat: u16, units: u16, table: &[u16], levels: &[i16], parents: &[u16]) -> u32 {
    let (words, len) = (table.as_ptr(), table.len());
    let (heights, links) = (levels.as_ptr(), levels.len());
    unsafe {
        link_survey_seat_load_planned(seats, seat, units, words, len, heights, links, parents.as_ptr(), parents.len())
    }
}

fn tick(last: &mut u16, seats: &mut Seats) -> u32 {
    unsafe { link_survey_tick(std::ptr::from_mut(last).cast(), seats) }
}

pub const PROVED_SEATS: SeatCalls =
    SeatCalls { load: seat_load, load_stored: seat_load_stored, load_planned: seat_load_planned, tick };

pub const PROVED: Calls = Calls {
    report,
    read,
    write,
    load,
    load_stored,
    load_planned,
    round,
    run,
    status,
    unit,
    link,
    state_report,
    foreman_line,
    service_line,
    ring,
    lifting_order,
    doubtful,
    one_way,
    live_open,
    live_add,
    live_withdraw,
    seats: PROVED_SEATS,
};
