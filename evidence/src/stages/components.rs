//! Stage 1, colour.

use crate::Survey;

/// Both ends of a link take the lesser of what they have and what the other says.
pub(super) fn hear(new: &mut [u16; 256], said: &[u16; 256], [a, b]: [u16; 2]) {
    let (a, b) = (usize::from(a), usize::from(b));
    new[a] = new[a].min(said[b]);
    new[b] = new[b].min(said[a]);
}

/// What the units say: in the first round each its own number, later its present value.
pub(super) fn said(value: &[u16; 256], n: usize, first: bool) -> [u16; 256] {
    let mut said = *value;
    if first {
        for (v, own) in said[..n].iter_mut().enumerate() {
            *own = v as u16;
        }
    }
    said
}

impl Survey {
    pub(super) fn color_round(&mut self) -> bool {
        let n = self.n();
        let said = said(&self.color, n, self.made == 0);
        let mut new = said;
        for &link in self.pairs() {
            hear(&mut new, &said, link);
        }
        let unchanged = self.made != 0 && new == self.color;
        self.color = new;
        unchanged
    }
}
