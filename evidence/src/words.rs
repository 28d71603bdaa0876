//! The calls on lent words, as the C face has them: the number of the refusal, 0 where there is none. A state and a
//! reply are arrays of their fixed size; a report, a file, or the ends or levels of a file's links go to the front of a
//! slice.

use crate::seats::{self, SeatCalls};
use crate::{Live, LiveWords, Refusal, Survey, read_file, report_of_file, write_file};

/// The words of a state, in the order of `Survey::parts`.
pub type State = [u16; Survey::WORDS];

/// Stage, countdown, all rounds, requests.
pub type StatusReply = [u16; 4];
/// Unit, colour, parent, place, single.
pub type UnitReply = [u16; 5];
/// Position, label, lone.
pub type LinkReply = [u16; 3];

/// From a file to its ends, its levels, its unit count and its number of links.
pub type ReadCall = fn(&[u8], &mut [u16], &mut [i16], &mut u16, &mut u16) -> u32;

/// A unit count, a table and its levels to the words of a state.
pub type LoadCall = fn(&mut State, u16, &[u16], &[i16]) -> u32;

/// The same with a table of parents.
pub type PlannedLoadCall = fn(&mut State, u16, &[u16], &[i16], &[u16]) -> u32;

/// Two positions of a finished survey to a ring and the number of its units.
pub type RingCall = fn(&State, u16, u16, &mut [u16], &mut u16) -> u32;

/// Two positions and a mark for each link to a verdict.
pub type DoubtfulCall = fn(&State, u16, u16, &[u8], &mut u16) -> u32;

/// One side's calls.
#[derive(Clone, Copy)]
pub struct Calls {
    pub report: fn(&[u8], &mut [u8]) -> u32,
    pub read: ReadCall,
    pub write: fn(u16, &[u16], &[i16], &mut [u8]) -> u32,
    pub load: LoadCall,
    pub load_stored: LoadCall,
    pub load_planned: PlannedLoadCall,
    pub round: fn(&mut State) -> u32,
    pub run: fn(&mut State, u16, &mut u16) -> u32,
    pub status: fn(&State, &mut StatusReply) -> u32,
    pub unit: fn(&State, u16, &mut UnitReply) -> u32,
    pub link: fn(&State, u16, &mut LinkReply) -> u32,
    pub state_report: fn(&State, &mut [u8]) -> u32,
    pub foreman_line: fn(&State, &mut [u8]) -> u32,
    pub service_line: fn(&State, &mut [u8]) -> u32,
    pub ring: RingCall,
    pub lifting_order: fn(&State, &[u16], &mut [u16]) -> u32,
    pub doubtful: DoubtfulCall,
    pub one_way: fn(u16, &[u16], &mut [u16], &mut u16) -> u32,
    pub live_open: fn(&mut LiveWords, u16, &[u16], &[i16]) -> u32,
    pub live_add: fn(&mut LiveWords, u16, u16, i16) -> u32,
    pub live_withdraw: fn(&mut LiveWords, u16, u16) -> u32,
    pub seats: SeatCalls,
}

pub const PLAIN: Calls = Calls {
    report,
    read,
    write,
    load,
    load_stored,
    load_planned,
    round,
    run,
    status,
    unit,
    link,
    state_report,
    foreman_line,
    service_line,
    ring,
    lifting_order,
    doubtful,
    one_way,
    live_open,
    live_add,
    live_withdraw,
    seats: seats::PLAIN,
};

fn number(answer: Result<(), Refusal>) -> u32 {
    match answer {
        Ok(()) => 0,
        Err(refusal) => u32::from(refusal.number()),
    }
}

/// The characters written; 0, and nothing written, where the slice is too short.
pub fn report(input: &[u8], out: &mut [u8]) -> u32 {
    report_of_file(input, out) as u32
}

/// The unit count and the number of links go to words of their own. Refused with 1, 2, 3, 6, 16, 14.
pub fn read(input: &[u8], table: &mut [u16], levels: &mut [i16], units: &mut u16, links: &mut u16) -> u32 {
    number((|| {
        let contents = read_file(input, table, levels)?;
        (*units, *links) = (contents.units, contents.links);
        Ok(())
    })())
}

/// Refused with 4, 5, 6, 15, 16, 7, 8, 9, 22, 14.
pub fn write(units: u16, table: &[u16], levels: &[i16], out: &mut [u8]) -> u32 {
    number(write_file(units, table, levels, out).map(|_| ()))
}

/// Of a fresh table. Refused with 4, 5, 6, 15, 16, 7, 8, 9, 22.
pub fn load(state: &mut State, units: u16, table: &[u16], levels: &[i16]) -> u32 {
    number((|| {
        let mut survey = Survey::new();
        survey.load(units, table, levels)?;
        survey.write_words(state);
        Ok(())
    })())
}

/// Of a stored table. Refused with 4, 5, 6, 15, 16, 7, 8, 9.
pub fn load_stored(state: &mut State, units: u16, table: &[u16], levels: &[i16]) -> u32 {
    number((|| {
        let mut survey = Survey::new();
        survey.load_stored(units, table, levels)?;
        survey.write_words(state);
        Ok(())
    })())
}

/// With a tree drawn by the planner. Refused with 4, 5, 6, 15, 16, 7, 8, 9, 17, 18, 22.
pub fn load_planned(state: &mut State, units: u16, table: &[u16], levels: &[i16], parents: &[u16]) -> u32 {
    number((|| {
        let mut survey = Survey::new();
        survey.load_planned(units, table, levels, parents)?;
        survey.write_words(state);
        Ok(())
    })())
}

/// Refused with 10, 11.
pub fn round(state: &mut State) -> u32 {
    number((|| {
        let mut survey = Survey::from_words(state);
        survey.round()?;
        survey.write_words(state);
        Ok(())
    })())
}

/// The rounds made go to `made`. Refused with 10, 11.
pub fn run(state: &mut State, budget: u16, made: &mut u16) -> u32 {
    number((|| {
        let mut survey = Survey::from_words(state);
        *made = survey.run(budget)?;
        survey.write_words(state);
        Ok(())
    })())
}

/// Refused with 10.
pub fn status(state: &State, reply: &mut StatusReply) -> u32 {
    number((|| {
        let status = Survey::from_words(state).status()?;
        *reply = [status.stage, status.countdown, status.rounds, status.requests];
        Ok(())
    })())
}

/// Refused with 10, 12, 13.
pub fn unit(state: &State, unit: u16, reply: &mut UnitReply) -> u32 {
    number((|| {
        let answer = Survey::from_words(state).unit(unit)?;
        *reply = [answer.unit, answer.color, answer.parent, answer.place, u16::from(answer.single)];
        Ok(())
    })())
}

/// Refused with 10, 12, 13.
pub fn link(state: &State, position: u16, reply: &mut LinkReply) -> u32 {
    number((|| {
        let answer = Survey::from_words(state).link(position)?;
        *reply = [answer.position, answer.label, u16::from(answer.lone)];
        Ok(())
    })())
}

/// Refused with 10, 12, 14.
pub fn state_report(state: &State, out: &mut [u8]) -> u32 {
    number(Survey::from_words(state).report(out).map(|_| ()))
}

/// Refused with 10, 14.
pub fn foreman_line(state: &State, out: &mut [u8]) -> u32 {
    number(Survey::from_words(state).foreman_line(out).map(|_| ()))
}

/// Refused with 10, 14.
pub fn service_line(state: &State, out: &mut [u8]) -> u32 {
    number(Survey::from_words(state).service_line(out).map(|_| ()))
}

/// The ring's units go to the front of the slice, their number to `count`: 0 where there is no ring. Refused with 10,
/// 12, 13, 14.
pub fn ring(state: &State, first: u16, second: u16, out: &mut [u16], count: &mut u16) -> u32 {
    number((|| {
        *count = Survey::from_words(state).ring(first, second, out)?;
        Ok(())
    })())
}

/// Refused with 10, 12, 14, 19, 20.
pub fn lifting_order(state: &State, pairs: &[u16], out: &mut [u16]) -> u32 {
    number(Survey::from_words(state).lifting_order(pairs, out).map(|_| ()))
}

/// Refused with 10, 12, 13, 15.
pub fn doubtful(state: &State, first: u16, second: u16, marks: &[u8], verdict: &mut u16) -> u32 {
    number((|| {
        *verdict = Survey::from_words(state).doubtful(first, second, marks)? as u16;
        Ok(())
    })())
}

/// Refused with 4, 5, 6, 7, 8, 9, 14.
pub fn one_way(units: u16, table: &[u16], numbers: &mut [u16], passes: &mut u16) -> u32 {
    number((|| {
        *passes = crate::one_way(units, table, numbers)?;
        Ok(())
    })())
}

/// Refused with 4, 5, 6, 15, 16, 7, 8, 9.
pub fn live_open(live: &mut LiveWords, units: u16, table: &[u16], levels: &[i16]) -> u32 {
    number((|| {
        *live = *Live::open(units, table, levels)?.to_words();
        Ok(())
    })())
}

/// Refused with 4, 6, 16, 7, 8, 9, 10 of the table, then 6, 16, 7, 8, 9 of the link.
pub fn live_add(live: &mut LiveWords, a: u16, b: u16, level: i16) -> u32 {
    number(changed(live, |live| live.add(a, b, level)))
}

/// Refused with 4, 6, 16, 7, 8, 9, 10 of the table, then 7, 8, 21 of the units.
pub fn live_withdraw(live: &mut LiveWords, a: u16, b: u16) -> u32 {
    number(changed(live, |live| live.withdraw(a, b)))
}

fn changed(words: &mut LiveWords, change: impl FnOnce(&mut Live) -> Result<(), Refusal>) -> Result<(), Refusal> {
    let mut live = Live::from_words(words);
    change(&mut live)?;
    *words = *live.to_words();
    Ok(())
}
