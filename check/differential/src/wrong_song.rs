//! What can be wrong about the hardest song beside its rules (that is in `wrong`): the call, what a refusal answers and
//! leaves, what is written where, and the count.
//!
//! The thefts that are answered are counted while playing, or just those of the formula: a library that does not play
//! its song must be found too.

use crate::hardest_song::{Call, Memory};
use crate::reference;
use paper::{most_thefts, LONGEST_SONG};
use proved::SongAnswer;

/// How thefts are counted.
#[derive(Clone, Copy, Debug, PartialEq, Eq)]
pub enum Count {
    ByPlaying,
    ByTheFormula,
}

#[derive(Clone, Copy)]
pub enum Slip {
    /// The call as it is taken.
    Taken(fn(Call) -> Call),
    /// What a refusal with this number answers.
    Refused(fn(Call, u8) -> SongAnswer),
    /// What is answered beside a song.
    Number(u8),
    /// What this number leaves.
    Leaves(u8, fn(Call, &mut Memory)),
    /// Where a byte goes, by its place.
    Put(fn(Call, usize) -> Option<usize>),
    /// What is written beside the song.
    More(fn(Call, &mut Memory)),
    /// The count of one that has so many generators.
    Generators(fn(u8) -> u8),
    /// The count instead of this one.
    Thefts(fn(Call, u32) -> u32),
    /// The song of the second implementation, another one than the documented.
    OfTheReference,
}

#[rustfmt::skip]
pub const SLIPS: &[(&str, Slip)] = &[
    // The ranges.
    ("PolyphonyCutToSixBits", Slip::Taken(|call| Call { polyphony: call.polyphony % 64, ..call })),
    ("PolyphonyCutToSevenBits", Slip::Taken(|call| Call { polyphony: call.polyphony % 128, ..call })),
    ("PolyphonyHeldAt64", Slip::Taken(|call| Call { polyphony: call.polyphony.min(64), ..call })),
    ("NCutToSixteenBits", Slip::Taken(|call| Call { n: usize::from(call.n as u16), ..call })),
    ("NCutToThirtyTwoBits", Slip::Taken(|call| Call { n: call.n as u32 as usize, ..call })),
    ("NHeldAt65536", Slip::Taken(|call| Call { n: call.n.min(LONGEST_SONG), ..call })),
    ("NHeldAtTheLength", Slip::Taken(|call| Call { n: call.n.min(call.length), ..call })),
    // What a refusal answers.
    ("RefusedWithTheFormula", Slip::Refused(|call, number| {
        SongAnswer { thefts: formula(call.polyphony, call.n.min(LONGEST_SONG)), number }
    })),
    ("RefusedWithOneTheft", Slip::Refused(|_, number| SongAnswer { thefts: 1, number })),
    ("RefusedPWithOneTheft", Slip::Refused(|_, number| SongAnswer { thefts: u32::from(number == 1), number })),
    ("RefusedNWithOneTheft", Slip::Refused(|_, number| SongAnswer { thefts: u32::from(number == 25), number })),
    ("RefusedWithAllBits", Slip::Refused(|_, number| SongAnswer { thefts: u32::MAX, number })),
    ("RefusalUnnumbered", Slip::Refused(|_, _| SongAnswer { thefts: 0, number: 0 })),
    ("RefusedPNumbered2", Slip::Refused(|_, number| numbered(if number == 1 { 2 } else { number }))),
    ("RefusedPNumbered25", Slip::Refused(|_, _| numbered(25))),
    ("RefusedNNumbered1", Slip::Refused(|_, _| numbered(1))),
    ("RefusedNNumbered18", Slip::Refused(|_, number| numbered(if number == 25 { 18 } else { number }))),
    ("RefusedNNumbered24", Slip::Refused(|_, number| numbered(if number == 25 { 24 } else { number }))),
    ("RefusedNNumbered26", Slip::Refused(|_, number| numbered(if number == 25 { 26 } else { number }))),
    ("NumbersSwapped", Slip::Refused(|_, number| numbered(26 - number))),
    ("AcceptedYetNumbered1", Slip::Number(1)),
    ("AcceptedYetNumbered25", Slip::Number(25)),
    // What a refusal leaves.
    ("BufferClearedAtNumber1", Slip::Leaves(1, |_, memory| memory.buffer().fill(0))),
    ("BufferClearedAtNumber25", Slip::Leaves(25, |_, memory| memory.buffer().fill(0))),
    ("SongWrittenAtNumber1", Slip::Leaves(1, put_what_fits)),
    ("SongCutToTheBufferAtNumber25", Slip::Leaves(25, put_what_fits)),
    ("FirstByteWrittenAtNumber1", Slip::Leaves(1, |_, memory| memory.write(0, 0x90))),
    ("FirstByteWrittenAtNumber25", Slip::Leaves(25, |_, memory| memory.write(0, 0x90))),
    ("LastByteWrittenAtNumber1", Slip::Leaves(1, |call, memory| memory.write(call.length as isize - 1, 0x40))),
    ("LastByteWrittenAtNumber25", Slip::Leaves(25, |call, memory| memory.write(call.length as isize - 1, 0x40))),
    ("ByteBeforeWrittenAtNumber1", Slip::Leaves(1, |_, memory| memory.write(-1, 0x90))),
    ("ByteBeforeWrittenAtNumber25", Slip::Leaves(25, |_, memory| memory.write(-1, 0x90))),
    ("ByteBehindWrittenAtNumber1", Slip::Leaves(1, |call, memory| memory.write(call.length as isize, 0x40))),
    ("ByteBehindWrittenAtNumber25", Slip::Leaves(25, |call, memory| memory.write(call.length as isize, 0x40))),
    // What is written.
    ("NthByteWritten", Slip::More(|call, memory| memory.write(call.n as isize, 0x40))),
    ("NthByteWrittenIfTheBufferHasIt", Slip::More(|call, memory| if call.n < call.length {
        memory.write(call.n as isize, 0x40)
    })),
    ("ByteBeforeTheBufferWritten", Slip::More(|_, memory| memory.write(-1, 0x90))),
    ("ByteBehindTheBufferWritten", Slip::More(|call, memory| memory.write(call.length as isize, 0x40))),
    ("FarByteWritten", Slip::More(|call, memory| memory.write(call.length as isize + 1000, 0x40))),
    ("LastByteOfTheBufferWritten", Slip::More(|call, memory| if call.n < call.length {
        memory.write(call.length as isize - 1, 0x40)
    })),
    ("RestOfTheBufferCleared", Slip::More(|call, memory| memory.buffer()[call.n..].fill(0))),
    ("WholeBufferFilled", Slip::More(|call, memory| put_what_fits(Call { n: call.length, ..call }, memory))),
    ("NothingWritten", Slip::Put(|_, _| None)),
    ("FirstByteMissing", Slip::Put(|_, place| (place != 0).then_some(place))),
    ("SecondByteMissing", Slip::Put(|_, place| (place != 1).then_some(place))),
    ("LastByteMissing", Slip::Put(|call, place| (place + 1 != call.n).then_some(place))),
    ("SecondHalfMissing", Slip::Put(|call, place| (place < call.n / 2).then_some(place))),
    ("SongOneByteLater", Slip::Put(|_, place| Some(place + 1))),
    ("SongAtTheEndOfTheBuffer", Slip::Put(|call, place| Some(place + call.length - call.n))),
    // The count.
    ("OneTheftMore", Slip::Thefts(|_, counted| counted + 1)),
    ("OneTheftLess", Slip::Thefts(|_, counted| counted.saturating_sub(1))),
    ("OneTheftMoreInTheLongest", Slip::Thefts(|call, counted| counted + u32::from(call.n == LONGEST_SONG))),
    ("OneTheftLessInTheLongest", Slip::Thefts(|call, counted| counted - u32::from(call.n == LONGEST_SONG))),
    ("OneTheftWhereThereIsNone", Slip::Thefts(|_, counted| counted.max(1))),
    ("NoTheftInTheFirstSongThatHasOne", Slip::Thefts(|call, counted| match counted {
        1 if call.n % 2 == 1 => 0,
        _ => counted,
    })),
    ("StatusNotCounted", Slip::Thefts(|call, _| formula(call.polyphony, call.n + 1))),
    ("StatusCountedTwice", Slip::Thefts(|call, _| formula(call.polyphony, call.n.saturating_sub(1)))),
    ("OneGeneratorLess", Slip::Generators(|polyphony| polyphony.max(2) - 1)),
    ("OneGeneratorMore", Slip::Generators(|polyphony| polyphony.min(63) + 1)),
    ("P1ForEveryP", Slip::Generators(|_| 1)),
    ("P64ForEveryP", Slip::Generators(|_| 64)),
    ("EveryNoteCounted", Slip::Thefts(|call, _| notes(call))),
    ("NegativeWraps", Slip::Thefts(|call, _| notes(call).wrapping_sub(call.polyphony.into()))),
    ("NegativeIsOne", Slip::Thefts(|call, counted| if notes(call) < call.polyphony.into() { 1 } else { counted })),
    ("NothingIsAllBits", Slip::Thefts(|call, counted| if call.n == 0 { u32::MAX } else { counted })),
    ("TheftsInEightBits", Slip::Thefts(|_, counted| counted % 256)),
    ("TheftsInFourteenBits", Slip::Thefts(|_, counted| counted % (1 << 14))),
    ("TheftsHeldAt255", Slip::Thefts(|_, counted| counted.min(255))),
    ("NoTheftInAnOddSong", Slip::Thefts(|call, counted| if call.n % 2 == 1 { 0 } else { counted })),
    ("NoTheftInAnEvenSong", Slip::Thefts(|call, counted| if call.n % 2 == 0 { 0 } else { counted })),
    ("TheftsDoubled", Slip::Thefts(|_, counted| 2 * counted)),
    ("TheftsHalved", Slip::Thefts(|_, counted| counted / 2)),
    ("TheftsNeverCounted", Slip::Thefts(|_, _| 0)),
    ("TheftsOfTheLength", Slip::Thefts(|call, _| formula(call.polyphony, call.length))),
];

/// Songs that are not the documented one (R13.5), and right by R13.3; more of them are in `wrong`.
#[rustfmt::skip]
pub const FREE_SLIPS: &[(&str, Slip)] = &[
    ("LastByteOfTheLongestMissing", Slip::Put(|_, place| (place + 1 != LONGEST_SONG).then_some(place))),
    ("SongOfTheReference", Slip::OfTheReference),
];

fn numbered(number: u8) -> SongAnswer {
    SongAnswer { thefts: 0, number }
}

fn formula(polyphony: u8, n: usize) -> u32 {
    most_thefts(polyphony, n) as u32
}

/// The notes of a song.
fn notes(call: Call) -> u32 {
    (call.n.saturating_sub(1) / 2) as u32
}

/// A song for P 1, as far as the buffer has room.
fn put_what_fits(call: Call, memory: &mut Memory) {
    let _ = wrong::write_song(1, call.n.min(call.length), memory.buffer());
}

/// A song by the fault that is being made, and this slip, counted so. The answer is in the header's form, so that one
/// that has no meaning can be given too.
pub fn write(slip: Option<Slip>, count: Count, call: Call, memory: &mut Memory) -> SongAnswer {
    let call = match slip {
        Some(Slip::Taken(taken)) => taken(call),
        _ => call,
    };
    let mut song = memory.buffer().to_vec();
    let played = match slip {
        Some(Slip::OfTheReference) => paper::write_song(call.polyphony, call.n, &mut song),
        _ => wrong::write_song(call.polyphony, call.n, &mut song),
    };
    match played {
        Ok(played) => {
            song.truncate(call.n);
            put(slip, call, &song, memory);
            SongAnswer {
                thefts: thefts(slip, count, call, (&song, played)),
                number: if let Some(Slip::Number(number)) = slip {
                    number
                } else {
                    0
                },
            }
        }
        Err(number) => {
            let number = number as u8;
            match slip {
                Some(Slip::Leaves(at, leave)) if at == number => leave(call, memory),
                Some(Slip::Refused(answer)) => return answer(call, number),
                _ => {}
            }
            numbered(number)
        }
    }
}

fn put(slip: Option<Slip>, call: Call, song: &[u8], memory: &mut Memory) {
    for (place, &byte) in song.iter().enumerate() {
        let to = match slip {
            Some(Slip::Put(put)) => put(call, place),
            _ => Some(place),
        };
        if let Some(to) = to {
            memory.write(to as isize, byte);
        }
    }
    if let Some(Slip::More(more)) = slip {
        more(call, memory);
    }
}

fn thefts(slip: Option<Slip>, count: Count, call: Call, (song, played): (&[u8], u32)) -> u32 {
    let counted = match (slip, count) {
        (Some(Slip::Generators(other)), Count::ByPlaying) => {
            reference::thefts(other(call.polyphony), song)
        }
        (Some(Slip::Generators(other)), Count::ByTheFormula) => {
            formula(other(call.polyphony), call.n)
        }
        (_, Count::ByPlaying) => played,
        (_, Count::ByTheFormula) => formula(call.polyphony, call.n),
    };
    match slip {
        Some(Slip::Thefts(other)) => other(call, counted),
        _ => counted,
    }
}
