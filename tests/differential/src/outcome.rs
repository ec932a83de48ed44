//! What a call on blocks leaves, and how that of two sides is compared.

use crate::report::Report;
use std::fmt::Debug;

/// So much stands on each side of the buffer that a call is lent, so that what is written beside it is
/// seen.
const ROOM: usize = 64;

/// The number that was returned, the state, and the buffer with the room about it. The state is what the
/// call has of it: one, eight, or `()`.
#[derive(PartialEq)]
pub struct Outcome<S, T> {
    number: u8,
    state: S,
    all: Vec<T>,
}

impl<S: Copy + PartialEq + Debug, T: Copy + PartialEq + Debug + From<u8>> Outcome<S, T> {
    /// Lends the call a buffer of that length. There is a pattern in it, so that what is not written is
    /// seen too.
    pub fn of(len: usize, mut state: S, call: impl FnOnce(&mut S, &mut [T]) -> u8) -> Self {
        let mut all: Vec<T> = (0..ROOM + len + ROOM).map(pattern).collect();
        let number = call(&mut state, &mut all[ROOM..ROOM + len]);
        Outcome { number, state, all }
    }

    pub fn is_done(&self) -> bool {
        self.number == 0
    }

    pub fn buffer(&self) -> &[T] {
        &self.all[ROOM..self.all.len() - ROOM]
    }

    /// Holds this one, which is ours, to the oracle's. Of a buffer the first difference is printed.
    pub fn compare(&self, report: &Report, input: impl Debug, oracle: &Self) {
        let differ = self != oracle;
        if differ {
            let mut pairs = self.all.iter().zip(&oracle.all);
            let place = pairs.position(|(ours, oracles)| ours != oracles);
            report.print(input, self.at(place), oracle.at(place));
        }
        report.count(1, u64::from(differ));
    }

    /// Its number and state, and what stands at a place of the buffer.
    fn at(&self, place: Option<usize>) -> (u8, S, Option<(isize, T)>) {
        let value = |place| (place as isize - ROOM as isize, self.all[place]);
        (self.number, self.state, place.map(value))
    }
}

/// Never 0, and never the same twice in a row.
fn pattern<T: From<u8>>(k: usize) -> T {
    T::from((k % 250) as u8 + 1)
}
