//! A second implementation, by hand in plain Rust, of the device, the pitch of a note, the gains of a channel, the
//! hardest song, the MIP message from a song's log and the service page: sections 1 to 8 and 11 to 15 of docs/RULES.md.
//!
//! It serves as the other side of the differential test and as the baseline of the benchmark, so it is written as for a
//! small sound module: fixed arrays, bit sets for the generators, no allocation, no panic on any input.
//!
//! Numbers such as R5.6 are rules of that page. What this was written from is in check/README.md.

mod age;
mod answer;
mod arrange;
mod channel;
mod device;
mod distance;
mod drums;
mod gains;
mod generators;
mod page;
mod parser;
mod pitch;
mod song;
mod table;

pub use answer::{Answer, Number, Was};
pub use arrange::{mip_from_log, Arranged, Event, Log, LINE_BYTES, MESSAGE_BYTES};
pub use channel::Channel;
pub use device::Device;
pub use distance::Distance;
pub use gains::{float_gains, gains, Gain, Gains, WEIGHTS};
pub use generators::{GeneratorView, State, MOST_GENERATORS};
pub use page::PAGE_BYTES;
pub use parser::{Parser, Progress, SysEx, HEAD_BYTES, PAIR_BYTES};
pub use pitch::{pitch, Pitch};
pub use song::{most_thefts, write_song, LONGEST_SONG};
pub use table::{Entry, Table};
