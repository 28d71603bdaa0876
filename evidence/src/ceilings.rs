//! Ceilings of the ten stages, and the countdown.

use crate::FINISHED;

/// "The least k with 2 to the power k at least x."
pub fn lg(x: u16) -> u16 {
    match x {
        0 | 1 => 0,
        _ => (u16::BITS - (x - 1).leading_zeros()) as u16,
    }
}

/// The rounds that a stage makes at most with n units, 1 to 256; 0 where there is no such stage.
pub fn ceiling(n: u16, stage: u16) -> u16 {
    match stage {
        1 => n.max(2),
        2 => n + 1,
        3 | 5 | 10 => 2,
        4 | 6 => lg((2 * n).saturating_sub(2)) + 1,
        7 => lg(n) + 1,
        8 => 1,
        9 => n.saturating_sub(1).max(2),
        _ => 0,
    }
}

/// What is left of this stage's ceiling, and the ceilings of the later stages.
pub fn countdown(n: u16, stage: u16, made: u16) -> u16 {
    (stage..FINISHED).map(|later| ceiling(n, later)).sum::<u16>().saturating_sub(made)
}
