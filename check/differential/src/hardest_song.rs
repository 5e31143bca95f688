//! Asks for the hardest song of n bytes and holds what comes back against R13.1, R13.3, R13.4 and R13.6, which leave
//! the song free, and against the bytes that the library says its song has (R13.5).
//!
//! The number of thefts is that of `paper`, whose song is another one. The bytes that were written are played anew, on
//! both sides' devices.

use crate::compare::same;
use crate::{library, reference};
use paper::{most_thefts, Number, LONGEST_SONG};
use proved::SongAnswer;

/// What is asked for: P, n and a buffer of so many bytes, each of them this one.
#[derive(Clone, Copy, Debug)]
pub struct Call {
    pub polyphony: u8,
    pub n: usize,
    pub length: usize,
    pub fill: u8,
}

/// So much memory on each side of a buffer.
pub const GUARD: usize = 1024;

/// A buffer with some memory on both sides.
pub struct Memory {
    bytes: Vec<u8>,
    fill: u8,
}

impl Memory {
    fn new(call: Call) -> Memory {
        Memory {
            bytes: vec![call.fill; GUARD + call.length + GUARD],
            fill: call.fill,
        }
    }

    /// What is lent.
    pub fn buffer(&mut self) -> &mut [u8] {
        let end = self.bytes.len() - GUARD;
        &mut self.bytes[GUARD..end]
    }

    /// Writes at a place of the buffer or beside it, as only a wrong library does.
    pub fn write(&mut self, place: isize, byte: u8) {
        let at = place.checked_add_unsigned(GUARD).map(usize::try_from);
        if let Some(place) = at.and_then(|at| self.bytes.get_mut(at.ok()?)) {
            *place = byte;
        }
    }

    /// The first n bytes of the buffer, if no other byte was written.
    fn song(&self, n: usize) -> Result<&[u8], String> {
        let (before, rest) = self.bytes.split_at(GUARD);
        let (song, after) = rest.split_at(n);
        let buffer_left = after.len() - GUARD;
        let written = |byte: &u8| *byte != self.fill;
        if before.iter().any(written) || after[buffer_left..].iter().any(written) {
            return Err("memory beside the buffer was written".to_string());
        }
        match after.iter().position(written) {
            None => Ok(song),
            Some(at) => Err(format!("byte {} of the buffer was written", n + at)),
        }
    }
}

/// What was compared.
#[derive(Clone, Copy, Debug, Default)]
pub struct Compared {
    pub calls: u64,
    /// Songs that were written, and played anew on both devices.
    pub songs: u64,
    /// By number 1 and by number 25.
    pub bad_polyphony: u64,
    pub too_long: u64,
    /// In all songs together.
    pub thefts: u64,
}

/// What a song is held against: what every hardest song must do, or the documented bytes (R13.5) as well.
#[derive(Clone, Copy, Debug, PartialEq, Eq)]
pub enum HeldAgainst {
    Ticket,
    DocumentedBytes,
}

/// Makes each call, up to the first that is not as it should be.
pub fn compare(
    calls: impl Iterator<Item = Call>,
    against: HeldAgainst,
    write: impl Fn(Call, &mut Memory) -> SongAnswer,
) -> Result<Compared, String> {
    let mut compared = Compared::default();
    for call in calls {
        let mut memory = Memory::new(call);
        let answer = write(call, &mut memory);
        let judged = judge(call, answer, &memory).map_err(|found| words(call, &found))?;
        compared.calls += 1;
        match judged {
            Ok(thefts) => {
                compared.songs += 1;
                compared.thefts += u64::from(thefts);
                if against == HeldAgainst::DocumentedBytes {
                    let song = &memory.buffer()[..call.n];
                    is_as_documented(song).map_err(|found| words(call, &found))?;
                }
            }
            Err(Number::SongTooLong) => compared.too_long += 1,
            Err(_) => compared.bad_polyphony += 1,
        }
    }
    Ok(compared)
}

fn words(call: Call, found: &str) -> String {
    let Call {
        polyphony,
        n,
        length,
        fill,
    } = call;
    format!("song: P {polyphony}, {n} bytes, buffer of {length} times {fill:02X}: {found}")
}

/// The answer, if it and what was written are right, whatever the song.
fn judge(call: Call, answer: SongAnswer, memory: &Memory) -> Result<Result<u32, Number>, String> {
    let answer = same("answer", reference::song(call), library::song_of(answer))?;
    let n = if answer.is_ok() { call.n } else { 0 };
    let song = memory.song(n)?;
    if let Ok(thefts) = answer {
        makes_so_many(call.polyphony, song, thefts)?;
    }
    Ok(answer)
}

/// R13.3, R13.4: the song makes the most thefts, and as many as were told.
fn makes_so_many(polyphony: u8, song: &[u8], thefts: u32) -> Result<(), String> {
    let most = most_thefts(polyphony, song.len());
    let played = reference::thefts(polyphony, song);
    let played_too = library::thefts(polyphony, song);
    if [played, played_too] == [thefts; 2] && thefts as usize == most {
        return Ok(());
    }
    Err(format!(
        "{thefts} thefts answered, {played} when the second implementation plays the song, \
         {played_too} when the library does, {most} by the formula"
    ))
}

/// The song that the library says it writes: note-on, channel 1, then the keys in turn with velocity 64.
fn is_as_documented(song: &[u8]) -> Result<(), String> {
    let documented = |place: usize| match (place, place % 2) {
        (0, _) => 0x90,
        (_, 1) => (place / 2 % 128) as u8,
        _ => 0x40,
    };
    let other = song.iter().enumerate();
    match other.clone().find(|&(at, &byte)| byte != documented(at)) {
        None => Ok(()),
        Some((at, byte)) => Err(format!(
            "byte {at} is {byte:02X} and {:02X} in the documented song",
            documented(at)
        )),
    }
}

/// What a buffer holds before: nothing, noise, and bytes that the song itself has.
const FILLS: [u8; 6] = [0x00, 0xFF, 0xA5, 0x90, 0x40, 0x07];

/// Every call of a run. The first ones are few and find most of what can be wrong, then come the longest songs, and
/// then every P.
pub fn calls() -> impl Iterator<Item = Call> {
    few_calls()
        .chain(longest().skip(1))
        .chain(limits())
        .chain((1..=64).flat_map(short))
}

/// Both sides of every limit, and one song of the longest, for a few P.
pub fn few_calls() -> impl Iterator<Item = Call> {
    let few = [1, 0, 2, 33, 63, 64, 65, 129, 255].into_iter();
    few.flat_map(|polyphony| grid(polyphony, &BUFFERS))
        .chain(grid(1, &LARGE_BUFFERS[2..3]))
        .filter(is_short_or_refused)
        .chain(longest().take(1))
}

/// Lengths about every limit, and far above, where bits are lost in a narrower number.
const LENGTHS: [usize; 18] = [
    0,
    1,
    2,
    3,
    5,
    131,
    255,
    256,
    300,
    65_535,
    65_536,
    65_537,
    65_541,
    131_072,
    (1 << 32) + 5,
    (1 << 32) - 1,
    1 << 63,
    usize::MAX,
];
/// Buffers with which these are tried; above the longest song as well.
const BUFFERS: [usize; 8] = [0, 1, 4, 5, 6, 299, 300, 301];
const LARGE_BUFFERS: [usize; 4] = [65_535, 65_536, 65_537, 70_000];

/// Every P there is with every such length and buffer; large buffers with a few.
fn limits() -> impl Iterator<Item = Call> {
    let few = [0, 1, 64, 65, 128, 255].into_iter();
    let large = few.flat_map(|polyphony| grid(polyphony, &LARGE_BUFFERS));
    let small = (0..=255).flat_map(|polyphony| grid(polyphony, &BUFFERS));
    small.chain(large).filter(is_short_or_refused)
}

/// Not so many bytes that they would take long: the longest songs are a few of their own.
fn is_short_or_refused(call: &Call) -> bool {
    let accepted = (1..=64).contains(&call.polyphony) && call.n <= call.length;
    !accepted || call.n <= SHORT || call.n > LONGEST_SONG
}

/// One P with every length and these buffers, each with another byte.
fn grid(polyphony: u8, buffers: &'static [usize]) -> impl Iterator<Item = Call> {
    let of_length = move |(at, n): (usize, usize)| {
        let numbered = buffers.iter().enumerate();
        numbered.map(move |(more, &length)| Call {
            polyphony,
            n,
            length,
            fill: FILLS[(at + more + usize::from(polyphony)) % FILLS.len()],
        })
    };
    LENGTHS.into_iter().enumerate().flat_map(of_length)
}

/// The longest songs, in buffers of their length and longer ones.
fn longest() -> impl Iterator<Item = Call> {
    let cases = [(0, 0), (0, 1), (0, 70_000), (1, 0), (1, 1)];
    let of_polyphony = move |polyphony| {
        let some = if polyphony % 63 == 1 { 5 } else { 1 };
        cases.into_iter().take(some).map(move |(less, more)| Call {
            polyphony,
            n: LONGEST_SONG - less,
            length: LONGEST_SONG - less + more,
            fill: FILLS[(more + less + usize::from(polyphony)) % FILLS.len()],
        })
    };
    [64, 1, 2, 33, 63].into_iter().flat_map(of_polyphony)
}

/// Every length up to here with every P: past the first theft of P 64, and past the first key that comes again.
const SHORT: usize = 300;
/// And some up to here, past the second time.
const MIDDLE: usize = 700;

/// Short songs of one P, in buffers of their length and longer ones, in turn.
pub fn short(polyphony: u8) -> impl Iterator<Item = Call> {
    let lengths = (0..=SHORT).chain((SHORT..=MIDDLE).step_by(23));
    lengths.map(move |n| {
        let turn = n + usize::from(polyphony);
        Call {
            polyphony,
            n,
            length: n + [0, 1, 2, 300][turn % 4],
            fill: FILLS[turn % FILLS.len()],
        }
    })
}

/// "With length 0 the pointer is not looked at."
const ADDRESSES: [usize; 4] = [0, 1, 4097, usize::MAX];

/// Calls that lend no buffer, by pointers to nowhere; how many.
pub fn nowhere() -> Result<u64, String> {
    let mut calls = 0;
    for (polyphony, address) in (0..=255).flat_map(|p| ADDRESSES.map(|address| (p, address))) {
        for n in [0, 1, 65_536, 65_537, usize::MAX] {
            let call = Call {
                polyphony,
                n,
                length: 0,
                fill: 0,
            };
            let answer = proved::write_song_nowhere(polyphony, n, address);
            let judged = same("answer", reference::song(call), library::song_of(answer));
            if let Err(found) = judged {
                return Err(words(call, &format!("pointer {address:#X}: {found}")));
            }
            calls += 1;
        }
    }
    Ok(calls)
}

/// Each song of `paper` has as many thefts on the library's device, up to each of its bytes; how many songs that is.
pub fn play_those_of_the_reference() -> Result<u64, String> {
    let mut songs = 0;
    for (polyphony, n) in (1..=64)
        .map(|p| (p, MIDDLE))
        .chain([(1, LONGEST_SONG), (64, LONGEST_SONG)])
    {
        let mut song = vec![0; n];
        let answer = paper::write_song(polyphony, n, &mut song);
        answer.map_err(|number| format!("song: {number:?} for P {polyphony}, {n} bytes"))?;
        let counts = library::thefts_up_to_each(polyphony, &song);
        for (at, thefts) in counts.enumerate() {
            let most = most_thefts(polyphony, at + 1);
            if thefts as usize != most {
                return Err(format!(
                    "song: P {polyphony}, the second implementation's, {} bytes: {thefts} thefts on the library, \
                     {most} by the formula",
                    at + 1
                ));
            }
            songs += 1;
        }
    }
    Ok(songs)
}
