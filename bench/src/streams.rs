//! The streams, the devices whose pages are asked for, the pitches and gains, and the log, that both implementations
//! are timed on.

use random::Random;

pub struct Stream {
    pub name: &'static str,
    pub polyphony: u8,
    /// Sent before the clock runs: MIP message and notes that fill the device.
    pub setup: Vec<u8>,
    pub bytes: Vec<u8>,
    /// Complete channel messages in `bytes`; none where the bytes are random.
    pub messages: Option<usize>,
}

/// About so many bytes in each stream.
const LENGTH: usize = 100_000;
const DRUM_CHANNEL: u8 = 9;

pub fn all() -> Vec<Stream> {
    vec![
        notes("dense notes, P 4", 4),
        notes("dense notes, P 16", 16),
        notes("dense notes, P 64", 64),
        noise(),
        controllers(),
        worst_song(),
    ]
}

/// A device whose page is asked for: its P, and what it has heard.
pub struct Shown {
    pub name: &'static str,
    pub polyphony: u8,
    pub heard: Vec<u8>,
}

/// A fresh device, one with every generator busy, one of which the page has every kind of line, and one whose table is
/// looked through for most channels to its end.
pub fn shown() -> [Shown; 4] {
    let shown = |name, polyphony, heard| Shown {
        name,
        polyphony,
        heard,
    };
    let listed = [(DRUM_CHANNEL, 0), (0, 4), (1, 24), (2, 25), (3, 127)];
    [
        shown("page, fresh, P 64", 64, Vec::new()),
        shown("page, 4 notes each, P 64", 64, four_notes_each()),
        shown("page, masked, unlisted, P 24", 24, mip(listed)),
        shown(
            "page, 15 masked, P 64",
            64,
            mip((0..15).map(|channel| (channel, 100 + channel))),
        ),
    ]
}

/// Calls for pitches: key, sensitivity and bend, all within their ranges.
pub fn pitches() -> Vec<(u8, u8, u16)> {
    let mut random = Random::new(5);
    let mut call = || {
        let (key, sensitivity) = (random.data(), random.below(25) as u8);
        (key, sensitivity, random.below(16384) as u16)
    };
    (0..LENGTH).map(|_| call()).collect()
}

/// Calls for gains: expression, volume and pan, all within their ranges.
pub fn gains() -> Vec<(u8, u8, u8)> {
    let mut random = Random::new(6);
    let mut call = || (random.data(), random.data(), random.data());
    (0..LENGTH).map(|_| call()).collect()
}

/// Volume, pan and expression of every channel, each of its own.
pub fn levels() -> Vec<u8> {
    let mut random = Random::new(7);
    let mut of_channel = |channel: u8| {
        let [volume, pan, expression] = [random.data(), random.data(), random.data()];
        [0xB0 | channel, 7, volume, 10, pan, 11, expression]
    };
    (0..16).flat_map(&mut of_channel).collect()
}

/// A MIP message for every device.
pub fn mip(pairs: impl IntoIterator<Item = (u8, u8)>) -> Vec<u8> {
    let mut bytes = vec![0xF0, 0x7F, 0x7F, 0x0B, 0x01];
    bytes.extend(pairs.into_iter().flat_map(|(mm, vv)| [mm, vv]));
    bytes.push(0xF7);
    bytes
}

/// The log of a song.
pub struct Log {
    pub order: [u8; 16],
    pub bytes: Vec<u8>,
    pub lines: usize,
}

/// Chords of three notes on sixteen channels in turn. A channel lets its chord go before it plays the next; drums end
/// by reports. No note is lost, so that every line is played.
pub fn chords() -> Log {
    let mut log = Log {
        order: [10, 1, 2, 3, 4, 5, 6, 7, 8, 9, 11, 12, 13, 14, 15, 16],
        bytes: Vec::new(),
        lines: 0,
    };
    // It plays along and says which generators the drums have.
    let (mut device, _) = paper::Device::start(64, 0);
    let mut drums = Vec::new();
    for turn in 0.. {
        if log.lines >= LENGTH {
            break;
        }
        let channel = (turn % 16) as u8;
        let mut bytes = vec![0x90 | channel];
        if channel == DRUM_CHANNEL {
            for generator in drums.drain(..) {
                device.report(generator);
                log.line('e', generator);
            }
        } else if turn >= 16 {
            bytes.extend(chord(turn - 16).into_iter().flat_map(|key| [key, 0]));
        }
        bytes.extend(chord(turn).into_iter().flat_map(|key| [key, 64]));
        for byte in bytes {
            log.line('b', byte);
            if let paper::Answer::Note {
                channel: 10,
                generator,
                ..
            } = device.byte(byte)
            {
                drums.push(generator);
            }
        }
    }
    log
}

/// The keys of a turn's chord; a channel has another one each time.
fn chord(turn: usize) -> [u8; 3] {
    [0, 4, 7].map(|step| (12 + (turn / 16 * 5 + step) % 24) as u8)
}

impl Log {
    fn line(&mut self, letter: char, number: u8) {
        self.bytes.extend(format!("{letter},{number}\n").bytes());
        self.lines += 1;
    }
}

/// Writes messages with running status.
struct Wire {
    bytes: Vec<u8>,
    messages: usize,
    running: u8,
}

impl Wire {
    fn new() -> Wire {
        Wire {
            bytes: Vec::with_capacity(LENGTH + 3),
            messages: 0,
            running: 0,
        }
    }

    fn message(&mut self, status: u8, data: &[u8]) {
        if self.running != status {
            self.bytes.push(status);
            self.running = status;
        }
        self.bytes.extend(data);
        self.messages += 1;
    }
}

/// Five channels share the generators; keys go down somewhat more often than up, so the device is mostly full.
fn notes(name: &'static str, polyphony: u8) -> Stream {
    let mut random = Random::new(1);
    let channels = [DRUM_CHANNEL, 0, 1, 2, 3];
    let values = [1, 2, 3, 4, 4].map(|quarter| (polyphony / 4) * quarter);
    let mut wire = Wire::new();
    while wire.bytes.len() < LENGTH {
        let channel = random.pick(&channels);
        let key = 36 + random.below(48) as u8;
        let velocity = match random.below(5) {
            0 | 1 => 0,
            _ => 64,
        };
        wire.message(0x90 | channel, &[key, velocity]);
    }
    Stream {
        name,
        polyphony,
        setup: mip(channels.into_iter().zip(values)),
        bytes: wire.bytes,
        messages: Some(wire.messages),
    }
}

fn noise() -> Stream {
    let mut random = Random::new(2);
    Stream {
        name: "random bytes, P 64",
        polyphony: 64,
        setup: Vec::new(),
        bytes: (0..LENGTH).map(|_| random.byte()).collect(),
        messages: None,
    }
}

/// Pedals, volumes, bends and their like over sixteen channels that hold 64 notes.
fn controllers() -> Stream {
    let mut random = Random::new(3);
    let mut wire = Wire::new();
    while wire.bytes.len() < LENGTH {
        let channel = random.below(16) as u8;
        match random.below(4) {
            0 => wire.message(0xB0 | channel, &[64, random.pick(&[0, 127])]),
            1 => wire.message(0xE0 | channel, &[random.data(), random.data()]),
            _ => {
                let number = random.pick(&[1, 6, 7, 10, 11, 98, 100, 101]);
                wire.message(0xB0 | channel, &[number, random.data()]);
            }
        }
    }
    Stream {
        name: "controllers and pedals, P 64",
        polyphony: 64,
        setup: four_notes_each(),
        bytes: wire.bytes,
        messages: Some(wire.messages),
    }
}

/// Sixteen channels with four generators each, all held.
pub fn four_notes_each() -> Vec<u8> {
    let mut bytes = mip((0..16).map(|channel| (channel, 4 * channel + 4)));
    for channel in 0..16 {
        bytes.push(0x90 | channel);
        bytes.extend((0..4).flat_map(|key| [36 + key, 64]));
    }
    bytes
}

/// All 64 generators held, and the next note-on of the drums must steal in the dearest way: the loser is the last
/// channel that the search comes to, and its one generator is the newest of all.
pub fn before_theft() -> Vec<u8> {
    let others = (1..9).chain(10..16).map(|channel| (channel, 64));
    let mut bytes = mip([(DRUM_CHANNEL, 1), (0, 64)].into_iter().chain(others));
    bytes.push(0x90);
    bytes.extend((0..63).flat_map(|key| [key, 64]));
    bytes.extend([0x90 | DRUM_CHANNEL, 42, 64]);
    bytes
}

/// Every note steals. Its key is of an exclusive group, but not of the group of the one before.
fn worst_song() -> Stream {
    let mut wire = Wire::new();
    wire.running = 0x90 | DRUM_CHANNEL;
    for key in [71, 73, 78, 80, 42].into_iter().cycle() {
        if wire.bytes.len() >= LENGTH {
            break;
        }
        wire.message(0x90 | DRUM_CHANNEL, &[key, 64]);
    }
    Stream {
        name: "every note a theft, P 64",
        polyphony: 64,
        setup: before_theft(),
        bytes: wire.bytes,
        messages: Some(wire.messages),
    }
}
