//! The lists of events that both sides are fed: each a start, then bytes and reports.

use crate::song::SONG;
use crate::staged_thefts;
use crate::writer::{Mix, Writer, FAULTS, PEDALS, PLAYING, SECOND_DRUMS, TABLES};
use random::Random;

#[derive(Clone, Copy, Debug, PartialEq, Eq)]
pub enum Event {
    Byte(u8),
    Report(u8),
}

#[derive(Clone, Copy, Debug, PartialEq, Eq)]
pub enum Kind {
    /// Uniform random bytes, some reports.
    Noise,
    /// Messages, mostly notes.
    Playing,
    /// Messages, many pedals and controllers.
    Pedals,
    /// Messages, many MIP messages and resets.
    Tables,
    /// Messages, many wrong ones.
    Faults,
    /// The song with bytes changed, put in and left out.
    Song,
    /// Notes that all but steal, by running status, with bytes changed, put in and left out; without reports.
    Thefts,
    /// Thefts of pedal notes and of held ones, each on a device that is filled for it.
    StagedThefts,
    /// Channel 11 from melody to rhythm and back, with notes of it and of channel 10.
    SecondDrums,
    /// Messages around a SysEx of about 100,000 bytes with real-time bytes within.
    LongSysEx,
}

pub struct List {
    pub kind: Kind,
    pub polyphony: u8,
    pub id: u8,
    pub events: Vec<Event>,
}

/// How often each kind of list comes, but for staged thefts, which come in turn, and the long one: it is every 200th
/// list. Channel 11's come in turn as well.
const KINDS: [(usize, Kind); 8] = [
    (4, Kind::Noise),
    (4, Kind::Playing),
    (3, Kind::Pedals),
    (3, Kind::Tables),
    (3, Kind::Faults),
    (3, Kind::Song),
    (2, Kind::Thefts),
    (2, Kind::SecondDrums),
];
const LONG_EVERY: u64 = 200;

const POLYPHONIES: [u8; 10] = [1, 2, 3, 4, 8, 16, 24, 32, 63, 64];
/// Of every ten lists the third has staged thefts, the fifth a refused start, in turn, and the seventh changes the kind
/// of channel 11, so that a short run meets each.
const TURN: u64 = 10;
/// From 2 on a staged theft has all that it needs; 1 is there for the edge.
const STAGED_POLYPHONIES: [u8; 9] = [4, 3, 64, 8, 2, 63, 16, 1, 24];
/// Mostly with room for drums of both channels.
const DRUM_POLYPHONIES: [u8; 8] = [8, 4, 16, 64, 3, 24, 1, 32];
const REFUSED_STARTS: [(u8, u8); 7] = [
    (0, 0),
    (65, 7),
    (255, 0),
    (4, 127),
    (64, 255),
    (0, 127),
    (255, 255),
];

impl List {
    /// The list with this number in its run, counted from 1.
    pub fn new(random: &mut Random, number: u64) -> List {
        let turn = (number / TURN) as usize;
        let kind = match (number % LONG_EVERY, number % TURN) {
            (0, _) => Kind::LongSysEx,
            (_, 3) => Kind::StagedThefts,
            (_, 7) => Kind::SecondDrums,
            _ => pick_weighted(random, &KINDS),
        };
        let (polyphony, id) = match number % TURN {
            3 => (
                STAGED_POLYPHONIES[turn % STAGED_POLYPHONIES.len()],
                start(random).1,
            ),
            7 => (
                DRUM_POLYPHONIES[turn % DRUM_POLYPHONIES.len()],
                start(random).1,
            ),
            5 => REFUSED_STARTS[turn % REFUSED_STARTS.len()],
            _ => start(random),
        };
        let length = 500 + random.below(8000);
        List {
            kind,
            polyphony,
            id,
            events: events(random, kind, length, (polyphony, id)),
        }
    }
}

/// Events of a kind for a device that started so; the long SysEx has its own length.
pub fn events(random: &mut Random, kind: Kind, length: usize, start: (u8, u8)) -> Vec<Event> {
    match kind {
        Kind::Noise => noise(random, length, start.0),
        Kind::Playing => messages(random, length, start, PLAYING),
        Kind::Pedals => messages(random, length, start, PEDALS),
        Kind::Tables => messages(random, length, start, TABLES),
        Kind::Faults => messages(random, length, start, FAULTS),
        Kind::Song => mutated_songs(random, length, start.0),
        Kind::Thefts => thefts(random, length),
        Kind::SecondDrums => second_drums(random, length, start),
        Kind::StagedThefts => staged_thefts::events(random, length, start),
        Kind::LongSysEx => long_sysex(random, start),
    }
}

pub fn pick_weighted<T: Copy>(random: &mut Random, choices: &[(usize, T)]) -> T {
    let mut left = random.below(choices.iter().map(|choice| choice.0).sum());
    for &(weight, item) in choices {
        if left < weight {
            return item;
        }
        left -= weight;
    }
    unreachable!("the weights add up")
}

fn start(random: &mut Random) -> (u8, u8) {
    let polyphony = match random.below(4) {
        0 => 1 + random.below(64) as u8,
        _ => random.pick(&POLYPHONIES),
    };
    let id = match random.below(3) {
        0 => random.below(127) as u8,
        _ => random.pick(&[0, 1, 126]),
    };
    (polyphony, id)
}

/// A generator number for a report: mostly one of the device's, sometimes any byte.
pub fn some_generator(random: &mut Random, polyphony: u8) -> u8 {
    match random.below(16) {
        0 => random.byte(),
        1 => random.pick(&[0, 1, 63, 64, 65, 255]),
        _ => random.below(usize::from(polyphony) + 1) as u8,
    }
}

fn noise(random: &mut Random, length: usize, polyphony: u8) -> Vec<Event> {
    (0..length)
        .map(|_| match random.below(20) {
            0 => Event::Report(some_generator(random, polyphony)),
            _ => Event::Byte(random.byte()),
        })
        .collect()
}

fn messages(random: &mut Random, length: usize, start: (u8, u8), mix: Mix) -> Vec<Event> {
    let mut writer = Writer::new(random, start);
    while writer.events.len() < length {
        writer.phrase(mix);
    }
    writer.events
}

fn second_drums(random: &mut Random, length: usize, start: (u8, u8)) -> Vec<Event> {
    let mut writer = Writer::of_drums(random, start);
    while writer.events.len() < length {
        writer.phrase(SECOND_DRUMS);
    }
    writer.events
}

/// The song again and again, each time with other mutations, seldom or often.
fn mutated_songs(random: &mut Random, length: usize, polyphony: u8) -> Vec<Event> {
    let mut events = Vec::new();
    while events.len() < length {
        let seldom = random.pick(&[5, 20, 100, 1000]);
        for &byte in SONG {
            if random.one_in(16) {
                events.push(Event::Report(some_generator(random, polyphony)));
            }
            if random.one_in(seldom) {
                mutate(random, byte, &mut events);
            } else {
                events.push(Event::Byte(byte));
            }
        }
    }
    events
}

fn mutate(random: &mut Random, byte: u8, events: &mut Vec<Event>) {
    match random.below(5) {
        // Left out.
        0 => {}
        // Another byte instead.
        1 => events.push(Event::Byte(random.byte())),
        // One bit changed.
        2 => events.push(Event::Byte(byte ^ 1 << random.below(8))),
        // Twice.
        3 => events.extend([Event::Byte(byte); 2]),
        // A byte put in before it.
        _ => events.extend([Event::Byte(random.byte()), Event::Byte(byte)]),
    }
}

/// A status and then keys in turn, up or down, more of them than generators or not: each steals, but for what is
/// changed.
fn thefts(random: &mut Random, length: usize) -> Vec<Event> {
    let status = 0x90 | random.below(16) as u8;
    let (first, keys) = (random.below(128), random.pick(&[128, 128, 117, 65, 64, 12]));
    let seldom = random.pick(&[10, 100, 1000, 10_000]);
    let down = random.one_in(2);
    let mut events = vec![Event::Byte(status)];
    for note in 0..length / 2 {
        let turn = if down {
            keys - 1 - note % keys
        } else {
            note % keys
        };
        for byte in [((first + turn) % 128) as u8, 1 + random.below(127) as u8] {
            if !random.one_in(seldom) {
                events.push(Event::Byte(byte));
                continue;
            }
            mutate(random, byte, &mut events);
            // Mostly, so that not all the rest is stray data where the change took the status.
            if !random.one_in(4) {
                events.push(Event::Byte(status));
            }
        }
    }
    events
}

fn long_sysex(random: &mut Random, start: (u8, u8)) -> Vec<Event> {
    let mut events = messages(random, 1000, start, PLAYING);
    let head = random.pick(&[[0x7F, 0x7F, 0x0B, 0x01], [0x7E, 0x7F, 0x09, 0x01]]);
    events.push(Event::Byte(0xF0));
    events.extend(head.map(Event::Byte));
    for _ in 0..100_000 {
        let byte = match random.below(10) {
            0 => 0xF8 + random.below(8) as u8,
            _ => random.data(),
        };
        events.push(Event::Byte(byte));
        if random.one_in(1000) {
            events.push(Event::Report(some_generator(random, start.0)));
        }
    }
    let end = random.pick(&[0xF7, 0xF7, 0x90, 0xF0, 0xF4]);
    events.push(Event::Byte(end));
    events.extend(messages(random, 1000, start, PLAYING));
    events
}
