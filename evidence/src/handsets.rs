//! The lines of the two handsets (T-06).

use crate::frames::{line_length, write_line};
use crate::{Refusal, Status, Survey};

/// The characters of the foreman's line, and of the service line.
pub const FOREMAN_LINE: usize = line_length(4);
pub const SERVICE_LINE: usize = line_length(8);

/// A kept state's stage is at most 11.
fn stage_byte(status: Status) -> u8 {
    u8::try_from(status.stage).expect("the stage of a kept state is a byte")
}

fn foreman_body(status: Status) -> [u8; 4] {
    let [a, b] = status.countdown.to_be_bytes();
    [0x20, stage_byte(status), a, b]
}

fn service_body(status: Status) -> [u8; 8] {
    let [a, b] = status.countdown.to_be_bytes();
    let [c, d] = status.rounds.to_be_bytes();
    let [e, f] = status.requests.to_be_bytes();
    [0x21, stage_byte(status), a, b, c, d, e, f]
}

impl Survey {
    /// Returns the characters written at the front of the slice. Refused with 10, 14.
    pub fn foreman_line(&self, out: &mut [u8]) -> Result<usize, Refusal> {
        let status = self.status()?;
        write_line(out.get_mut(..FOREMAN_LINE).ok_or(Refusal::TooShort)?, foreman_body(status));
        Ok(FOREMAN_LINE)
    }

    /// The same of the service line. Refused with 10, 14.
    pub fn service_line(&self, out: &mut [u8]) -> Result<usize, Refusal> {
        let status = self.status()?;
        write_line(out.get_mut(..SERVICE_LINE).ok_or(Refusal::TooShort)?, service_body(status));
        Ok(SERVICE_LINE)
    }
}
