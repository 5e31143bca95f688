//! The order of age among the sounding generators (R1.6, R1.7): who was assigned earlier is older.
//!
//! A doubly linked ring through two byte arrays, so that a note begins and ends in constant time
//! and no counter can wrap.

use crate::generators::MOST_GENERATORS;

/// The ring's head stands behind the last generator's number.
const HEAD: usize = MOST_GENERATORS;

#[derive(Clone, Copy, Debug)]
pub(crate) struct AgeOrder {
    newer: [u8; MOST_GENERATORS + 1],
    older: [u8; MOST_GENERATORS + 1],
}

impl AgeOrder {
    pub(crate) const EMPTY: AgeOrder = AgeOrder {
        newer: [HEAD as u8; MOST_GENERATORS + 1],
        older: [HEAD as u8; MOST_GENERATORS + 1],
    };

    /// Puts a generator that isn't in the order at its newest end.
    pub(crate) fn append(&mut self, generator: usize) {
        let newest = usize::from(self.older[HEAD]);
        self.newer[newest] = generator as u8;
        self.older[generator] = newest as u8;
        self.newer[generator] = HEAD as u8;
        self.older[HEAD] = generator as u8;
    }

    /// Takes a generator of the order out of it.
    pub(crate) fn remove(&mut self, generator: usize) {
        let (older, newer) = (self.older[generator], self.newer[generator]);
        self.newer[usize::from(older)] = newer;
        self.older[usize::from(newer)] = older;
    }

    /// The generators from the oldest to the newest.
    pub(crate) fn oldest_first(&self) -> impl Iterator<Item = usize> + '_ {
        let mut at = HEAD;
        std::iter::from_fn(move || {
            at = usize::from(self.newer[at]);
            (at != HEAD).then_some(at)
        })
    }

    /// The oldest of a set of generators (bit g for generator g).
    pub(crate) fn oldest_of(&self, set: u64) -> Option<usize> {
        if set == 0 {
            return None;
        }
        self.oldest_first().find(|&g| set >> g & 1 == 1)
    }
}
