//! Several sites over one channel (document 02, T-12) on lent words, as the C face has it: eight states, and the number
//! of the seat last served.

use crate::words::{State, load, load_planned, load_stored, round};
use crate::{FINISHED, Refusal, Survey};

pub const SEATS: usize = 8;
/// The seat last served before any tick.
pub const FIRST_TURN: u16 = 7;

pub type Seats = [State; SEATS];

/// One side's calls.
#[derive(Clone, Copy)]
pub struct SeatCalls {
    pub load: fn(&mut Seats, u16, u16, &[u16], &[i16]) -> u32,
    pub load_stored: fn(&mut Seats, u16, u16, &[u16], &[i16]) -> u32,
    pub load_planned: fn(&mut Seats, u16, u16, &[u16], &[i16], &[u16]) -> u32,
    pub tick: fn(&mut u16, &mut Seats) -> u32,
}

pub const PLAIN: SeatCalls =
    SeatCalls { load: load_seat, load_stored: load_seat_stored, load_planned: load_seat_planned, tick };

/// Eight empty seats.
pub fn empty_seats() -> Box<Seats> {
    let seats: Box<[State]> = vec![[0; Survey::WORDS]; SEATS].into_boxed_slice();
    seats.try_into().expect("eight seats")
}

/// Refused with 23, then as the load of a state.
fn in_seat(seats: &mut Seats, seat: u16, load: impl FnOnce(&mut State) -> u32) -> u32 {
    seats.get_mut(usize::from(seat)).map_or(Refusal::NoSuchSeat.number().into(), load)
}

pub fn load_seat(seats: &mut Seats, seat: u16, units: u16, table: &[u16], levels: &[i16]) -> u32 {
    in_seat(seats, seat, |state| load(state, units, table, levels))
}

fn load_seat_stored(seats: &mut Seats, seat: u16, units: u16, table: &[u16], levels: &[i16]) -> u32 {
    in_seat(seats, seat, |state| load_stored(state, units, table, levels))
}

fn load_seat_planned(seats: &mut Seats, seat: u16, units: u16, table: &[u16], levels: &[i16], parents: &[u16]) -> u32 {
    in_seat(seats, seat, |state| load_planned(state, units, table, levels, parents))
}

/// Refused with 10, 11.
pub fn tick(last: &mut u16, seats: &mut Seats) -> u32 {
    let surveys: Vec<Survey> = seats.iter().map(Survey::from_words).collect();
    let loaded = |survey: &Survey| survey.units != 0 || survey.stage != 0;
    if usize::from(*last) >= SEATS || surveys.iter().any(|survey| loaded(survey) && !survey.kept()) {
        return 10;
    }
    let after = (*last as usize + 1)..(*last as usize + 1 + SEATS);
    let unfinished = |seat: &usize| loaded(&surveys[*seat]) && surveys[*seat].stage != FINISHED;
    let Some(seat) = after.map(|seat| seat % SEATS).find(unfinished) else {
        return 11;
    };
    *last = seat as u16;
    round(&mut seats[seat])
}
