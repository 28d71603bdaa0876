//! Memory lent to a call of both sides, with a margin before and after that no call may touch.

use std::fmt::Debug;
use std::hint::black_box;
use std::sync::LazyLock;

/// The places of a margin. SURVEY_MARGIN says another number; with 0 valgrind sees a read past what is lent, too.
static MARGIN: LazyLock<usize> = LazyLock::new(|| {
    let word = std::env::var("SURVEY_MARGIN").unwrap_or("24".into());
    word.parse().unwrap_or_else(|e| panic!("SURVEY_MARGIN, {word}: {e}"))
});

pub struct Lent<T> {
    before: Vec<T>,
    proved: Vec<T>,
    plain: Vec<T>,
}

impl<T: Copy + PartialEq + Debug> Lent<T> {
    pub fn new(contents: &[T], margin: T) -> Lent<T> {
        // no more room than that, so that valgrind knows where it ends
        let mut before = Vec::with_capacity(contents.len() + 2 * *MARGIN);
        before.resize(*MARGIN, margin);
        before.extend_from_slice(contents);
        before.resize(contents.len() + 2 * *MARGIN, margin);
        Lent { proved: before.clone(), plain: before.clone(), before }
    }

    fn inner(all: &mut [T]) -> &mut [T] {
        let end = all.len() - *MARGIN;
        &mut all[*MARGIN..end]
    }

    pub fn proved(&mut self) -> &mut [T] {
        Lent::inner(&mut self.proved)
    }

    pub fn plain(&mut self) -> &mut [T] {
        Lent::inner(&mut self.plain)
    }

    /// What was lent, as an array of its size.
    pub fn proved_array<const N: usize>(&mut self) -> &mut [T; N] {
        self.proved().try_into().expect("as long as the array")
    }

    pub fn plain_array<const N: usize>(&mut self) -> &mut [T; N] {
        self.plain().try_into().expect("as long as the array")
    }

    pub fn before(&self) -> &[T] {
        &self.before[*MARGIN..self.before.len() - *MARGIN]
    }

    /// The first place where the two sides differ, counted from the start of what was lent.
    pub fn difference(&self, name: &str) -> Result<(), String> {
        // what the compiler may think of a lent slice is no evidence: look at the memory
        let (proved, plain) = (black_box(&self.proved[..]), black_box(&self.plain[..]));
        if proved == plain {
            return Ok(());
        }
        let at = proved.iter().zip(plain).position(|(a, b)| a != b).unwrap_or(0);
        Err(format!("{name}[{}]: proved {:?}, plain {:?}", at as isize - *MARGIN as isize, proved[at], plain[at]))
    }

    /// Where the choice is the library's: what it wrote at the front, so far, is taken for what the plain version
    /// wrote, and nothing else.
    pub fn choose(&mut self, written: usize) {
        self.plain.copy_from_slice(&self.before);
        self.plain[*MARGIN..][..written].copy_from_slice(&self.proved[*MARGIN..][..written]);
    }

    /// A word changed by hand before the next call.
    pub fn set(&mut self, at: usize, value: T) {
        for side in [&mut self.before, &mut self.proved, &mut self.plain] {
            side[*MARGIN + at] = value;
        }
    }

    /// What both sides left is what the next call gets.
    pub fn go_on(&mut self) {
        self.before.copy_from_slice(&self.plain);
    }
}
