//! Holds lists without reports, from fresh devices of every P, against the most thefts that there can be (R13.2).
//!
//! Every beginning of a list is a song of so many bytes. Both sides play it, and neither may have made more thefts than
//! the formula says. Some lists are of the kinds that the comparison feeds, some are made greedily, to steal as much as
//! they can.

use crate::library::is_theft;
use crate::lists::{events, Event, Kind};
use proved::RECORD_BYTES;
use random::Random;

/// The most thefts that there can be, by P and n.
pub type Bound = fn(u8, usize) -> usize;

/// What was held against the bound.
#[derive(Clone, Copy, Debug, Default)]
pub struct Held {
    pub lists: u64,
    pub bytes: u64,
    /// Bytes up to which there were thefts, and as many as there can be.
    pub at_the_bound: u64,
}

const KINDS: [Kind; 8] = [
    Kind::Noise,
    Kind::Playing,
    Kind::Pedals,
    Kind::Tables,
    Kind::Faults,
    Kind::Song,
    Kind::Thefts,
    Kind::SecondDrums,
];
/// Lists of each kind for each P, and about so many events in each.
const LISTS: usize = 4;
const LENGTH: usize = 600;

/// Plays them all, up to the first that does worse.
pub fn hold(seed: u64, bound: Bound) -> Result<Held, String> {
    let mut random = Random::new(seed);
    let mut held = Held::default();
    for polyphony in 1..=64 {
        for _ in 0..LISTS {
            for kind in KINDS {
                let list = without_reports(&mut random, kind, polyphony);
                play(&mut held, bound, polyphony, list)?;
            }
            let list = greedy(&mut random, polyphony);
            play(&mut held, bound, polyphony, list)?;
        }
    }
    Ok(held)
}

fn without_reports(random: &mut Random, kind: Kind, polyphony: u8) -> Vec<u8> {
    let list = events(random, kind, LENGTH, (polyphony, 0));
    let byte = |event| match event {
        Event::Byte(byte) => Some(byte),
        Event::Report(_) => None,
    };
    list.into_iter().filter_map(byte).collect()
}

/// A fresh device of the library.
fn fresh(polyphony: u8) -> proved::Device {
    let mut device = proved::Device::memory([0; RECORD_BYTES]);
    device.start(polyphony, 0);
    device
}

fn play(held: &mut Held, bound: Bound, polyphony: u8, list: Vec<u8>) -> Result<(), String> {
    let mut library = fresh(polyphony);
    let (mut paper, _) = paper::Device::start(polyphony, 0);
    let mut thefts = [0, 0];
    held.lists += 1;
    for (at, &byte) in list.iter().enumerate() {
        thefts[0] += usize::from(is_theft(library.byte(byte)));
        thefts[1] += usize::from(paper.byte(byte).is_theft());
        let most = bound(polyphony, at + 1);
        if thefts[0] > most || thefts[0] != thefts[1] {
            return Err(format!(
                "most thefts: P {polyphony}, {} bytes make {} on the library, {} on the second implementation, \
                 and at most {most} by the formula: {:02X?}",
                at + 1, thefts[0], thefts[1], &list[..=at]
            ));
        }
        held.bytes += 1;
        held.at_the_bound += u64::from(thefts[0] == most && most > 0);
    }
    Ok(())
}

/// At each turn some messages are tried, and the one that steals most for its bytes goes into the list.
fn greedy(random: &mut Random, polyphony: u8) -> Vec<u8> {
    let mut device = fresh(polyphony);
    let mut list = Vec::new();
    while list.len() < LENGTH {
        let tried = [(); 4].map(|_| some_message(random, polyphony));
        let thefts = |message: &Vec<u8>| {
            let mut device = device;
            let stolen = message.iter().filter(|&&byte| is_theft(device.byte(byte)));
            // By the dozen, so that a message of one byte more counts for less.
            12 * stolen.count() / message.len().max(1)
        };
        let message = tried.into_iter().max_by_key(thefts).unwrap_or_default();
        message.iter().for_each(|&byte| {
            device.byte(byte);
        });
        list.extend(message);
    }
    list
}

/// Controllers that let notes go, with value 0.
const LET_GO: [u8; 8] = [64, 120, 121, 123, 124, 125, 126, 127];

/// Mostly a note by running status; also notes of other channels, what lets them go, pedals, tables and resets.
fn some_message(random: &mut Random, polyphony: u8) -> Vec<u8> {
    let (channel, key) = (random.below(3) as u8, random.data());
    let value = random.below(usize::from(polyphony) + 2) as u8;
    match random.below(24) {
        0 => vec![0x90 | channel, key, 64],
        1 => vec![0x99, key, 64],
        2 => vec![0x80 | channel, key, 64],
        3 => vec![0xB0 | channel, random.pick(&LET_GO), 0],
        4 => vec![0xB0 | channel, 64, 127],
        5 => vec![0xF0, 0x7F, 0x7F, 0x0B, 0x01, channel, value, 0xF7],
        6 => vec![0xF0, 0x7F, 0, 0x0B, 0x01, channel, 0, 9, value, 0xF7],
        7 if random.one_in(8) => vec![0xF0, 0x7E, 0x7F, 0x09, 0x01, 0xF7],
        8 => vec![0xF8],
        _ => vec![key, 64],
    }
}
