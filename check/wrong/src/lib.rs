//! The second implementation with one fault at will. The right code is paper's own, copied by build.rs; the wrong one
//! is in faults/, each fault as the code that one place of paper has instead. Without a fault it does what paper does.

#![allow(warnings)]

use std::cell::Cell;
use std::fmt;

mod help;

/// A fault of one of the lists.
#[derive(Clone, Copy, PartialEq, Eq)]
pub struct Fault {
    number: u16,
    pub name: &'static str,
}

impl fmt::Debug for Fault {
    fn fmt(&self, f: &mut fmt::Formatter<'_>) -> fmt::Result {
        f.write_str(self.name)
    }
}

thread_local! {
    /// The number of the fault that is made, 0 for none.
    static MADE: Cell<u16> = const { Cell::new(0) };
}

/// Does something while this fault is made.
pub fn making<T>(fault: Option<Fault>, something: impl FnOnce() -> T) -> T {
    MADE.set(fault.map_or(0, |fault| fault.number));
    let done = something();
    MADE.set(0);
    done
}

fn makes(number: u16) -> bool {
    MADE.get() == number
}

include!(concat!(env!("OUT_DIR"), "/lib.rs"));
