//! What the test files share: the starting order, feeding bytes, a record that can be compared and printed, and random
//! devices.
#![allow(dead_code)]

use paper::{Answer, Device, Entry, GeneratorView, Number, Progress, State, Was};
use random::Random;

/// The starting order, channels from 1 (R2.6). It is written out: what works it out is held against it.
pub const STARTING_ORDER: [u8; 16] = [10, 1, 2, 3, 4, 5, 6, 7, 8, 9, 11, 12, 13, 14, 15, 16];

/// A device that started well.
pub fn start(polyphony: u8, id: u8) -> Device {
    let (device, answer) = Device::start(polyphony, id);
    assert_eq!(answer, Answer::Done);
    device
}

/// Feeds bytes in hexadecimal, such as 90 3C 40, and gives the answers that aren't *none*.
pub fn feed(device: &mut Device, hex: &str) -> Vec<Answer> {
    bytes(hex)
        .into_iter()
        .map(|byte| device.byte(byte))
        .filter(|&answer| answer != Answer::None)
        .collect()
}

pub fn bytes(hex: &str) -> Vec<u8> {
    hex.split_whitespace()
        .map(|word| u8::from_str_radix(word, 16).expect("two hexadecimal digits"))
        .collect()
}

/// A MIP message to every device.
pub fn mip(pairs: &str) -> String {
    format!("F0 7F 7F 0B 01 {pairs} F7")
}

pub fn note(channel: u8, key: u8, generator: u8, was: Was) -> Answer {
    Answer::Note {
        channel,
        key,
        generator,
        was,
    }
}

pub fn refused_note(number: Number, channel: u8, key: u8) -> Answer {
    Answer::NoteRefused {
        number,
        channel,
        key,
    }
}

pub fn state(device: &Device, generator: u8) -> State {
    device.generator(generator).expect("a generator").state
}

/// The record, without the bytes of a SysEx under way.
#[derive(Debug, PartialEq)]
pub struct Record {
    pub polyphony: u8,
    pub id: u8,
    pub entries: Vec<Entry>,
    pub channels: Vec<[u8; 13]>,
    pub second_drums: bool,
    pub generators: Vec<GeneratorView>,
    pub oldest_first: Vec<u8>,
    pub progress: Progress,
}

pub fn record(device: &Device) -> Record {
    Record {
        polyphony: device.polyphony(),
        id: device.id(),
        entries: device.table().entries().to_vec(),
        channels: device.channels().iter().map(|c| c.numbers()).collect(),
        second_drums: device.second_drums(),
        generators: (0..device.polyphony())
            .map(|g| device.generator(g).expect("a generator"))
            .collect(),
        oldest_first: device.oldest_first().collect(),
        progress: device.parser().progress(),
    }
}

/// A random device of any P that has heard this many messages.
pub fn some_device(random: &mut Random, messages: usize) -> Device {
    let polyphony = 1 + random.below(64) as u8;
    let mut device = start(polyphony, 0);
    for _ in 0..messages {
        let channel = random.below(16) as u8;
        let message = match random.below(14) {
            0 => some_table(random, polyphony),
            1 => vec![0xB0 | channel, 64, random.data()],
            2 => some_channel_mode(random, channel),
            3 | 4 => vec![0x80 | channel, random.below(12) as u8, 0],
            // Mostly of channel 11, whose kind they change.
            5 => vec![
                0xB0 | random.pick(&[10, channel]),
                0,
                random.pick(&[120, 121, 0]),
            ],
            6 => vec![0xC0 | random.pick(&[10, channel]), random.data()],
            _ => vec![0x90 | channel, random.below(12) as u8, 64],
        };
        message.into_iter().for_each(|byte| {
            device.byte(byte);
        });
        if random.one_in(8) {
            device.report(random.below(64) as u8);
        }
    }
    device
}

/// One of 120 to 127, more often with 0 than with another value.
pub fn some_channel_mode(random: &mut Random, channel: u8) -> Vec<u8> {
    let number = 120 + random.below(8) as u8;
    vec![0xB0 | channel, number, random.pick(&[0, 0, 1, 64])]
}

/// A MIP message that lists some channels, with values from 0 to beyond P.
fn some_table(random: &mut Random, polyphony: u8) -> Vec<u8> {
    let mut channels: Vec<u8> = (0..16).collect();
    random.shuffle(&mut channels);
    channels.truncate(1 + random.below(16));
    let most = random.pick(&[polyphony, polyphony + 1, 127]);
    let mut values: Vec<u8> = channels
        .iter()
        .map(|_| random.below(usize::from(most) + 1) as u8)
        .collect();
    values.sort_unstable();
    let pairs = channels.into_iter().zip(values);
    let mut message = vec![0xF0, 0x7F, 0x7F, 0x0B, 0x01];
    message.extend(pairs.flat_map(|(channel, value)| [channel, value]));
    message.push(0xF7);
    message
}

/// 2,000 of them, the same ones each time.
pub fn random_devices() -> impl Iterator<Item = Device> {
    let mut random = Random::new(2);
    (0..2000).map(move |number| some_device(&mut random, number % 200))
}
