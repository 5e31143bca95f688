//! The device record (R1.11) in a form that two implementations can be compared by, and what an implementation must
//! offer to be compared.

use crate::gains::Answered;
use crate::pages::Memory;
use paper::{
    Answer, Entry, GeneratorView, Number, Progress, State, HEAD_BYTES, MOST_GENERATORS, PAIR_BYTES,
};

pub const IDLE: GeneratorView = GeneratorView {
    state: State::Idle,
    channel: 0,
    key: 0,
};

/// A list of at most N items, comparable as the list and not as the array behind it.
#[derive(Clone, Copy, Debug, PartialEq, Eq)]
pub struct Items<T, const N: usize> {
    items: [T; N],
    length: usize,
}

impl<T: Copy, const N: usize> Items<T, N> {
    /// The places behind the last item hold `filler` and are so equal in equal lists.
    pub fn new(filler: T, source: impl Iterator<Item = T>) -> Items<T, N> {
        let mut list = Items {
            items: [filler; N],
            length: 0,
        };
        for item in source {
            list.items[list.length] = item;
            list.length += 1;
        }
        list
    }

    pub fn as_slice(&self) -> &[T] {
        &self.items[..self.length]
    }
}

/// What matters of the bytes of a SysEx under way: the first ones, and whether there were more.
#[derive(Clone, Copy, Debug, PartialEq, Eq)]
pub struct SysExBytes {
    first: Items<u8, { HEAD_BYTES + PAIR_BYTES }>,
    more: bool,
}

impl SysExBytes {
    pub fn new(bytes: &[u8]) -> SysExBytes {
        let first = bytes.iter().copied().take(HEAD_BYTES + PAIR_BYTES);
        SysExBytes {
            first: Items::new(0, first),
            more: bytes.len() > HEAD_BYTES + PAIR_BYTES,
        }
    }
}

/// Something that no implementation may give or hold, as it was found.
#[derive(Clone, Debug, PartialEq, Eq)]
pub struct Malformed(pub String);

/// What a call gave.
pub type Given<T> = Result<T, Malformed>;

/// Everything that the record holds.
#[derive(Clone, Debug, PartialEq, Eq)]
pub struct Record {
    pub polyphony: u8,
    pub id: u8,
    pub entries: Items<Entry, 16>,
    pub channels: [[u8; 13]; 16],
    /// The kind of channel 11: rhythm, or melody.
    pub second_drums: bool,
    /// Generators P and above are idle ones.
    pub generators: [GeneratorView; MOST_GENERATORS],
    pub oldest_first: Items<u8, MOST_GENERATORS>,
    pub progress: Progress,
    /// Empty outside SysEx.
    pub sysex: SysExBytes,
}

/// Names the first field in which two records differ, with both values.
pub fn difference(a: &Record, b: &Record) -> Option<String> {
    if a == b {
        return None;
    }
    let fields = [
        field("P", &a.polyphony, &b.polyphony),
        field("ID", &a.id, &b.id),
        field("table", &a.entries.as_slice(), &b.entries.as_slice()),
        first_of("numbers of channel", 1, &a.channels, &b.channels),
        field("channel 11 rhythm", &a.second_drums, &b.second_drums),
        first_of("generator", 0, &a.generators, &b.generators),
        field(
            "order of age",
            &a.oldest_first.as_slice(),
            &b.oldest_first.as_slice(),
        ),
        field("parser", &a.progress, &b.progress),
        field("SysEx under way", &a.sysex, &b.sysex),
    ];
    fields.into_iter().flatten().next()
}

fn field<T: PartialEq + std::fmt::Debug>(name: &str, a: &T, b: &T) -> Option<String> {
    (a != b).then(|| format!("{name}: {a:?} against {b:?}"))
}

fn first_of<T: PartialEq + std::fmt::Debug>(
    name: &str,
    base: usize,
    a: &[T],
    b: &[T],
) -> Option<String> {
    let at = a.iter().zip(b).position(|(a, b)| a != b)?;
    field(&format!("{name} {}", at + base), &a[at], &b[at])
}

/// An implementation of the device.
pub trait Implementation: Clone {
    fn byte(&mut self, byte: u8) -> Given<Answer>;
    fn report(&mut self, generator: u8) -> Given<Answer>;
    fn generator(&self, generator: u8) -> Given<Result<GeneratorView, Number>>;
    fn masked(&self, channel: u8) -> Given<Result<bool, Number>>;
    fn share(&self, channel: u8) -> Given<Result<u8, Number>>;
    fn rhythm(&self, channel: u8) -> Given<bool>;
    /// Writes the service page to the memory's buffer. It may be written to, so that one that is can be found.
    fn page(&mut self, memory: &mut Memory) -> Given<Result<(), Number>>;
    /// The gains of a channel on the wire, 0 to 15.
    fn gains(&self, channel: usize) -> Answered;
    fn record(&self) -> Given<Record>;
}
