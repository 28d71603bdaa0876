//! One call made by both sides, and all that it leaves compared.

use super::lent::Lent;
use crate::words::{Calls, LinkReply, LoadCall, PLAIN, State, StatusReply, UnitReply};
use crate::{Survey, judge_ring};

/// A call on a state, with the memory for its reply as it is lent.
#[derive(Clone, Debug)]
pub enum Call {
    Load { units: u16, table: Vec<u16>, levels: Vec<i16> },
    LoadStored { units: u16, table: Vec<u16>, levels: Vec<i16> },
    LoadPlanned { units: u16, table: Vec<u16>, levels: Vec<i16>, parents: Vec<u16> },
    Round,
    Run { budget: u16, made: u16 },
    Status { reply: StatusReply },
    Unit { unit: u16, reply: UnitReply },
    Link { position: u16, reply: LinkReply },
    Report { out: Vec<u8> },
    ForemanLine { out: Vec<u8> },
    ServiceLine { out: Vec<u8> },
    Ring { first: u16, second: u16, out: Vec<u16>, count: u16 },
    LiftingOrder { pairs: Vec<u16>, out: Vec<u16> },
    Doubtful { first: u16, second: u16, marks: Vec<u8>, verdict: u16 },
}

impl Call {
    /// As the header has it.
    pub fn name(&self) -> &'static str {
        match self {
            Call::Load { .. } => "load",
            Call::LoadStored { .. } => "load_stored",
            Call::LoadPlanned { .. } => "load_planned",
            Call::Round => "round",
            Call::Run { .. } => "run",
            Call::Status { .. } => "status",
            Call::Unit { .. } => "unit",
            Call::Link { .. } => "link",
            Call::Report { .. } => "state_report",
            Call::ForemanLine { .. } => "foreman_line",
            Call::ServiceLine { .. } => "service_line",
            Call::Ring { .. } => "ring",
            Call::LiftingOrder { .. } => "lifting_order",
            Call::Doubtful { .. } => "doubtful",
        }
    }
}

pub const WORD_MARGIN: u16 = 0xC3A5;
pub const LEVEL_MARGIN: i16 = 0x3CA5;
const BYTE_MARGIN: u8 = 0xA5;

/// Both sides got the same number.
pub fn agree(proved: u32, plain: u32) -> Result<u32, String> {
    if proved == plain { Ok(plain) } else { Err(format!("returned: proved {proved}, plain {plain}")) }
}

pub fn lent_state(words: &State) -> Lent<u16> {
    Lent::new(words, WORD_MARGIN)
}

/// The number that both returned, and the word that is the call's reply or counts it, if it has one.
pub type Came = (u32, Option<u16>);

/// Makes the call; what came, or where the two sides differ.
pub fn both(library: &Calls, state: &mut Lent<u16>, call: &Call) -> Result<Came, String> {
    let mut word = None;
    let number = match call {
        Call::Load { units, table, levels } => loaded(state, [library.load, PLAIN.load], *units, table, levels),
        Call::LoadStored { units, table, levels } => {
            loaded(state, [library.load_stored, PLAIN.load_stored], *units, table, levels)
        }
        Call::LoadPlanned { units, table, levels, parents } => planned(library, state, *units, table, levels, parents),
        Call::Round => agree((library.round)(state.proved_array()), (PLAIN.round)(state.plain_array())),
        Call::Run { budget, made } => replied(&[*made], |lent| {
            let proved = (library.run)(state.proved_array(), *budget, &mut lent.proved()[0]);
            let plain = (PLAIN.run)(state.plain_array(), *budget, &mut lent.plain()[0]);
            (proved, plain)
        }),
        Call::Status { reply } => replied(reply, |lent| {
            let proved = (library.status)(state.proved_array(), lent.proved_array());
            let plain = (PLAIN.status)(state.plain_array(), lent.plain_array());
            (proved, plain)
        }),
        Call::Unit { unit, reply } => replied(reply, |lent| {
            let proved = (library.unit)(state.proved_array(), *unit, lent.proved_array());
            let plain = (PLAIN.unit)(state.plain_array(), *unit, lent.plain_array());
            (proved, plain)
        }),
        Call::Link { position, reply } => replied(reply, |lent| {
            let proved = (library.link)(state.proved_array(), *position, lent.proved_array());
            let plain = (PLAIN.link)(state.plain_array(), *position, lent.plain_array());
            (proved, plain)
        }),
        Call::Report { out } => written(out, "report", |lent| {
            let proved = (library.state_report)(state.proved_array(), lent.proved());
            let plain = (PLAIN.state_report)(state.plain_array(), lent.plain());
            (proved, plain)
        }),
        Call::ForemanLine { out } => written(out, "line", |lent| {
            let proved = (library.foreman_line)(state.proved_array(), lent.proved());
            let plain = (PLAIN.foreman_line)(state.plain_array(), lent.plain());
            (proved, plain)
        }),
        Call::ServiceLine { out } => written(out, "line", |lent| {
            let proved = (library.service_line)(state.proved_array(), lent.proved());
            let plain = (PLAIN.service_line)(state.plain_array(), lent.plain());
            (proved, plain)
        }),
        Call::Ring { first, second, out, count } => {
            let came = shown(library, state, [*first, *second], out, *count)?;
            word = came.1;
            Ok(came.0)
        }
        Call::LiftingOrder { pairs, out } => {
            let mut pairs = Lent::new(pairs, WORD_MARGIN);
            replied(out, |lent| {
                let proved = (library.lifting_order)(state.proved_array(), pairs.proved(), lent.proved());
                let plain = (PLAIN.lifting_order)(state.plain_array(), pairs.plain(), lent.plain());
                (proved, plain)
            })
            .and_then(|number| pairs.difference("pairs").map(|()| number))
        }
        Call::Doubtful { first, second, marks, verdict } => {
            let mut marks = Lent::new(marks, BYTE_MARGIN);
            replied(&[*verdict], |lent| {
                let proved =
                    (library.doubtful)(state.proved_array(), *first, *second, marks.proved(), &mut lent.proved()[0]);
                let plain = (PLAIN.doubtful)(state.plain_array(), *first, *second, marks.plain(), &mut lent.plain()[0]);
                word = Some(lent.plain()[0]);
                (proved, plain)
            })
            .and_then(|number| marks.difference("marks").map(|()| number))
        }
    }?;
    state.difference("state").map_err(|difference| named(&difference))?;
    Ok((number, word))
}

/// A ring is the library's choice, and so is judged; whether there is one is not.
fn shown(
    library: &Calls,
    state: &mut Lent<u16>,
    [first, second]: [u16; 2],
    out: &[u16],
    count: u16,
) -> Result<Came, String> {
    let mut lent = Lent::new(out, WORD_MARGIN);
    let mut counted = Lent::new(&[count], WORD_MARGIN);
    let proved = (library.ring)(state.proved_array(), first, second, lent.proved(), &mut counted.proved()[0]);
    let plain = (PLAIN.ring)(state.plain_array(), first, second, lent.plain(), &mut counted.plain()[0]);
    let number = agree(proved, plain)?;
    let (ours, theirs) = (counted.plain()[0], counted.proved()[0]);
    if number == 0 && ours != 0 {
        let written = usize::from(theirs);
        let site = Survey::from_words(state.plain_array());
        let ring =
            lent.proved().get(..written).ok_or(format!("count: proved {theirs}, more than there is room for"))?;
        judge_ring(site.units, site.pairs(), first.into(), second.into(), ring)
            .map_err(|why| format!("ring {ring:?}: {why}"))?;
        lent.choose(written);
        counted.choose(1);
    }
    lent.difference("ring")?;
    counted.difference("count")?;
    Ok((number, Some(theirs)))
}

/// A load by both sides.
fn loaded(
    state: &mut Lent<u16>,
    [proved, plain]: [LoadCall; 2],
    units: u16,
    table: &[u16],
    levels: &[i16],
) -> Result<u32, String> {
    let mut table = Lent::new(table, WORD_MARGIN);
    let mut levels = Lent::new(levels, LEVEL_MARGIN);
    let proved = proved(state.proved_array(), units, table.proved(), levels.proved());
    let plain = plain(state.plain_array(), units, table.plain(), levels.plain());
    let number = agree(proved, plain)?;
    table.difference("table")?;
    levels.difference("levels")?;
    Ok(number)
}

/// A load with a plan by both sides.
fn planned(
    library: &Calls,
    state: &mut Lent<u16>,
    units: u16,
    table: &[u16],
    levels: &[i16],
    parents: &[u16],
) -> Result<u32, String> {
    let mut table = Lent::new(table, WORD_MARGIN);
    let mut levels = Lent::new(levels, LEVEL_MARGIN);
    let mut parents = Lent::new(parents, WORD_MARGIN);
    let proved = (library.load_planned)(state.proved_array(), units, table.proved(), levels.proved(), parents.proved());
    let plain = (PLAIN.load_planned)(state.plain_array(), units, table.plain(), levels.plain(), parents.plain());
    let number = agree(proved, plain)?;
    table.difference("table")?;
    levels.difference("levels")?;
    parents.difference("parents")?;
    Ok(number)
}

/// A call with a reply, which is lent with its margins.
fn replied(reply: &[u16], call: impl FnOnce(&mut Lent<u16>) -> (u32, u32)) -> Result<u32, String> {
    let mut lent = Lent::new(reply, WORD_MARGIN);
    let (proved, plain) = call(&mut lent);
    let number = agree(proved, plain)?;
    lent.difference("reply")?;
    Ok(number)
}

/// A call that writes to a slice of bytes, which is lent with its margins.
fn written(out: &[u8], name: &str, call: impl FnOnce(&mut Lent<u8>) -> (u32, u32)) -> Result<u32, String> {
    let mut lent = Lent::new(out, BYTE_MARGIN);
    let (proved, plain) = call(&mut lent);
    let number = agree(proved, plain)?;
    lent.difference(name)?;
    Ok(number)
}

/// What the program prints for a file; the number of characters that both returned.
pub fn both_report(library: &Calls, input: &[u8], out: &[u8]) -> Result<(u32, Vec<u8>), String> {
    let mut input = Lent::new(input, BYTE_MARGIN);
    let mut out = Lent::new(out, BYTE_MARGIN);
    let proved = (library.report)(input.proved(), out.proved());
    let plain = (PLAIN.report)(input.plain(), out.plain());
    let written = agree(proved, plain)?;
    input.difference("input")?;
    out.difference("out")?;
    Ok((written, out.plain().to_vec()))
}

/// Reads a file into the words lent for its ends and the places for its levels, and into one word each for the unit
/// count and the number of links.
pub fn both_read(
    library: &Calls,
    input: &[u8],
    table: &[u16],
    levels: &[i16],
    units: u16,
    links: u16,
) -> Result<u32, String> {
    let mut input = Lent::new(input, BYTE_MARGIN);
    let mut table = Lent::new(table, WORD_MARGIN);
    let mut levels = Lent::new(levels, LEVEL_MARGIN);
    let mut units = Lent::new(&[units], WORD_MARGIN);
    let mut links = Lent::new(&[links], WORD_MARGIN);
    let proved =
        (library.read)(input.proved(), table.proved(), levels.proved(), &mut units.proved()[0], &mut links.proved()[0]);
    let plain =
        (PLAIN.read)(input.plain(), table.plain(), levels.plain(), &mut units.plain()[0], &mut links.plain()[0]);
    let number = agree(proved, plain)?;
    input.difference("input")?;
    table.difference("table")?;
    levels.difference("levels")?;
    units.difference("units")?;
    links.difference("links")?;
    Ok(number)
}

/// Writes the file of a table and its levels.
pub fn both_write(library: &Calls, units: u16, table: &[u16], levels: &[i16], out: &[u8]) -> Result<u32, String> {
    let mut table = Lent::new(table, WORD_MARGIN);
    let mut levels = Lent::new(levels, LEVEL_MARGIN);
    let mut out = Lent::new(out, BYTE_MARGIN);
    let proved = (library.write)(units, table.proved(), levels.proved(), out.proved());
    let plain = (PLAIN.write)(units, table.plain(), levels.plain(), out.plain());
    let number = agree(proved, plain)?;
    table.difference("table")?;
    levels.difference("levels")?;
    out.difference("out")?;
    Ok(number)
}

/// Names the table of a state's word.
fn named(difference: &str) -> String {
    let at: Option<usize> =
        difference.strip_prefix("state[").and_then(|rest| rest.split(']').next()).and_then(|at| at.parse().ok());
    let survey = Survey::new();
    let mut first = 0;
    for (name, _, part) in survey.parts() {
        if let Some(at) = at.filter(|at| (first..first + part.len()).contains(at)) {
            return format!("{difference}, that is {name}[{}]", at - first);
        }
        first += part.len();
    }
    difference.to_string()
}
