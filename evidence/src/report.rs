//! The report of a finished survey, and what the program prints for a file.

use crate::frames::{line_length, write_line};
use crate::{LinkAnswer, MAX_LINKS, Refusal, Survey, UnitAnswer, read_file};

/// The program's input is at most this long.
pub const MAX_INPUT: usize = 65535;

const COUNTS_LINE: usize = line_length(5);
const UNIT_LINE: usize = line_length(10);
const LINK_LINE: usize = line_length(6);
const REFUSAL_LINE: usize = line_length(2);

/// The characters of a report of n units and m links.
pub fn report_length(n: usize, m: usize) -> usize {
    2 * COUNTS_LINE + n * UNIT_LINE + m * LINK_LINE
}

fn counts_body(kind: u8, first: u16, second: u16) -> [u8; 5] {
    let ([a, b], [c, d]) = (first.to_be_bytes(), second.to_be_bytes());
    [kind, a, b, c, d]
}

fn unit_body(answer: UnitAnswer) -> [u8; 10] {
    let [a, b] = answer.unit.to_be_bytes();
    let [c, d] = answer.color.to_be_bytes();
    let [e, f] = answer.parent.to_be_bytes();
    let [g, h] = answer.place.to_be_bytes();
    [0x12, a, b, c, d, e, f, g, h, u8::from(answer.single)]
}

fn link_body(answer: LinkAnswer) -> [u8; 6] {
    let ([a, b], [c, d]) = (answer.position.to_be_bytes(), answer.label.to_be_bytes());
    [0x13, a, b, c, d, u8::from(answer.lone)]
}

impl Survey {
    /// Returns the characters written at the front of the slice. Refused with 10, 12, 14.
    pub fn report(&self, out: &mut [u8]) -> Result<usize, Refusal> {
        self.must_be_finished()?;
        let length = report_length(self.n(), self.m());
        let out = out.get_mut(..length).ok_or(Refusal::TooShort)?;
        self.write_report(out);
        Ok(length)
    }

    fn write_report(&self, out: &mut [u8]) {
        let (first, rest) = out.split_at_mut(COUNTS_LINE);
        let (unit_lines, rest) = rest.split_at_mut(self.n() * UNIT_LINE);
        let (link_lines, last) = rest.split_at_mut(self.m() * LINK_LINE);
        write_line(first, counts_body(0x11, self.rounds, self.requests));

        let (met, mut singles) = (self.labels_met(), 0);
        for (unit, line) in unit_lines.chunks_exact_mut(UNIT_LINE).enumerate() {
            let answer = self.unit_answer(unit as u16, met[unit]);
            singles += u16::from(answer.single);
            write_line(line, unit_body(answer));
        }

        let (sharing, mut lone) = (self.sharing(), 0);
        for (position, line) in link_lines.chunks_exact_mut(LINK_LINE).enumerate() {
            let answer = self.link_answer(position as u16, &sharing);
            lone += u16::from(answer.lone);
            write_line(line, link_body(answer));
        }
        write_line(last, counts_body(0x1F, singles, lone));
    }
}

/// Writes what the program prints for an input, and returns its length; nothing and 0 where the slice is too short.
pub fn report_of_file(input: &[u8], out: &mut [u8]) -> usize {
    let mut survey = Survey::new();
    let refusal = match survey_file(input, &mut survey) {
        Ok(()) => match survey.report(out) {
            Ok(length) => return length,
            Err(Refusal::TooShort) => return 0,
            Err(refusal) => refusal,
        },
        Err(refusal) => refusal,
    };
    match out.get_mut(..REFUSAL_LINE) {
        Some(line) => {
            write_line(line, [0x1E, refusal.number()]);
            REFUSAL_LINE
        }
        None => 0,
    }
}

/// Reads, loads as a stored table and runs to the end.
fn survey_file(input: &[u8], survey: &mut Survey) -> Result<(), Refusal> {
    if input.len() > MAX_INPUT {
        return Err(Refusal::FaultyLine);
    }
    let (mut words, mut levels) = ([0; 2 * MAX_LINKS], [0; MAX_LINKS]);
    let contents = read_file(input, &mut words, &mut levels)?;
    let links = usize::from(contents.links);
    survey.load_stored(contents.units, &words[..2 * links], &levels[..links])?;
    survey.run(u16::MAX)?;
    Ok(())
}
