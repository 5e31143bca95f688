//! R13.2: no song makes more thefts than the formula says. Such songs are looked for: every list of bytes of several
//! alphabets, as long as some seconds allow, and longer ones by climbing.
//!
//! All lists of an alphabet are tried together. Of the lists of one length that leave the same record behind only one
//! with the most thefts goes on, since what comes after does the same to each of them. So a search has all lists,
//! though it keeps far fewer. What it finds must be the formula's number at each length, not just at most that: a
//! search that finds less has looked in the wrong place.

mod common;

use common::*;
use paper::{most_thefts, write_song, Answer, Device, Progress};
use random::Random;
use std::collections::HashMap;

/// What a record is known by: all of it that can make a difference later.
fn known_by(device: &Device) -> Vec<u8> {
    let (progress, data) = match device.parser().progress() {
        Progress::NoStatus => (0, 0),
        Progress::Status(status) => (status, 0x80),
        Progress::StatusAndData(status, data) => (status, data),
        Progress::Swallow(left) => (0xF1, left),
        Progress::SysEx => (0xF0, 0),
    };
    let mut key = vec![progress, data];
    if progress == 0xF0 {
        key.extend(sysex_known_by(device));
    }
    for generator in 0..device.polyphony() {
        let view = device.generator(generator).expect("a generator");
        key.extend([view.state as u8, view.channel, view.key]);
    }
    key.extend(device.oldest_first().chain([0xFF]));
    let entries = device.table().entries();
    key.extend(
        entries
            .iter()
            .flat_map(|entry| [entry.channel, entry.value]),
    );
    key.push(0xFF);
    key.push(u8::from(device.second_drums()));
    let fresh = start(1, 0);
    for (at, channel) in device.channels().iter().enumerate() {
        if *channel != fresh.channels()[at] {
            key.push(at as u8);
            key.extend(channel.numbers());
        }
    }
    key
}

/// A SysEx under way: its bytes, or, where it can no longer be a MIP message or a System On to this device, this alone.
fn sysex_known_by(device: &Device) -> Vec<u8> {
    let sysex = device.parser().sysex();
    let mut head = sysex.kept().to_vec();
    let pairs = head.split_off(head.len().min(4));
    if head.get(1) == Some(&device.id()) {
        head[1] = 0x7F;
    }
    let mip = [0x7F, 0x7F, 0x0B, 0x01].starts_with(&head);
    let system_on = [0x7E, 0x7F, 0x09, 0x01].starts_with(&head) && pairs.is_empty();
    match (mip || system_on) && !sysex.overflowed() {
        true => [&[head.len() as u8], &head[..], &pairs].concat(),
        false => vec![0xFF],
    }
}

/// Records that lists of one length lead to, each with the most thefts of such lists.
type Found = HashMap<Vec<u8>, (Device, usize)>;

/// One of these records after a word, with the thefts so far.
fn after<'a>(found: &'a Found, word: &'a [u8]) -> impl Iterator<Item = (Device, usize)> + 'a {
    found.values().map(move |&(mut device, thefts)| {
        let stolen = |&&byte: &&u8| device.byte(byte).is_theft();
        let more = word.iter().filter(stolen).count();
        (device, thefts + more)
    })
}

/// Of the lists that lead to one record, one with the most thefts.
fn merged(lists: impl Iterator<Item = (Device, usize)>) -> Found {
    let mut found = Found::new();
    for (device, thefts) in lists {
        let place = found.entry(known_by(&device)).or_insert((device, thefts));
        place.1 = place.1.max(thefts);
    }
    found
}

/// Every list of these words, as long as said: at each length the most thefts must be what the formula says.
fn search(polyphony: u8, words: &[Vec<u8>], most_bytes: usize) {
    let longest = words.iter().map(Vec::len).max().unwrap_or(1);
    let mut by_length = vec![merged([(start(polyphony, 0), 0)].into_iter())];
    for n in 1..=most_bytes {
        let fitting = words.iter().filter(|word| word.len() <= n);
        let lists = fitting.flat_map(|word| after(&by_length[n - word.len()], word));
        // Nothing comes after the longest lists, so that they need no merging.
        let (most, found) = match n < most_bytes {
            false => (lists.map(|(_, thefts)| thefts).max(), Found::new()),
            true => {
                let found = merged(lists);
                (found.values().map(|(_, thefts)| *thefts).max(), found)
            }
        };
        assert_eq!(
            most,
            Some(most_thefts(polyphony, n)),
            "P {polyphony}, {n} bytes"
        );
        by_length.push(found);
        if let Some(at) = n.checked_sub(longest) {
            by_length[at].clear();
        }
    }
}

/// Each byte as a word.
fn single(bytes: impl IntoIterator<Item = u8>) -> Vec<Vec<u8>> {
    bytes.into_iter().map(|byte| vec![byte]).collect()
}

/// Words of bytes in hexadecimal, parted by commas.
fn words(text: &str) -> Vec<Vec<u8>> {
    text.split(',').map(bytes).collect()
}

/// Every byte that there is.
#[test]
fn all_lists_of_all_bytes() {
    search(1, &single(0..=255), 3);
}

/// Every kind of status, on channels 1 and 10, with a few data bytes: keys, velocities 0 and above, hold, 123,
/// 126, programs.
#[test]
fn all_lists_of_every_status() {
    let of_channels = (0x80..=0xE0)
        .step_by(0x10)
        .flat_map(|kind| [kind, kind + 9]);
    let alphabet = of_channels
        .chain(0xF0..=0xF8)
        .chain([0x00, 0x2A, 0x40, 0x7B, 0x7E]);
    search(1, &single(alphabet), 7);
}

/// Notes of channels 1, 2 and 10, also of an exclusive group: on, off by status and by velocity 0, again while they
/// sound, by running status or not, cut short, and with a real-time byte between.
#[test]
fn all_lists_of_notes() {
    let alphabet = words("90, 91, 99, 80, 00, 01, 02, 2A, 2C, F8");
    for (polyphony, most_bytes) in [(1, 40), (2, 11), (3, 10)] {
        search(polyphony, &alphabet, most_bytes);
    }
}

/// Notes of channel 1 under the pedal, let go by it, by 120, 121 and 123, of these with a value that does nothing too,
/// and by 126, which has no such value.
#[test]
fn all_lists_of_pedals_and_channel_mode_messages() {
    let alphabet = words("90, B0, 00, 01, 40, 78, 79, 7B, 7E");
    for (polyphony, most_bytes) in [(1, 13), (2, 11), (3, 9), (4, 11)] {
        search(polyphony, &alphabet, most_bytes);
    }
}

/// Notes of channel 11 as melody and as drums, of a group too, beside drums of channel 10, with whole messages that
/// change the kind, let go of what it holds or take the pedal down.
#[test]
fn all_lists_of_kinds_of_channel_11() {
    let alphabet = words("9A, 99, 8A, CA, 00, 01, 2A, 2C, BA 00 78, BA 00 79, BA 40 7F, BA 7B 00");
    for (polyphony, most_bytes) in [(1, 14), (2, 11), (3, 10)] {
        search(polyphony, &alphabet, most_bytes);
    }
}

/// SysEx, byte by byte: whatever can be made of the bytes of a MIP message and of notes, cut, malformed or whole.
#[test]
fn all_lists_of_bytes_of_a_mip_message() {
    let alphabet = words("F0, F7, 7F, 0B, 01, 00, 90");
    search(1, &alphabet, 13);
    search(2, &alphabet, 12);
}

/// The same of a System On.
#[test]
fn all_lists_of_bytes_of_a_system_on() {
    let alphabet = words("F0, F7, 7E, 7F, 09, 01, 00, 90");
    search(1, &alphabet, 14);
}

/// Notes between whole messages: tables that mask a channel, give shares to one or to both, or list the drums last,
/// System On, pedals, and a song that begins with any of them.
#[test]
fn all_lists_of_notes_and_tables() {
    let alphabet = words(
        "90, 91, 99, 00, 01, 02, 24, F0 7E 7F 09 01 F7, F0 7F 7F 0B 01 00 01 F7, F0 7F 00 0B 01 01 01 F7, \
         F0 7F 7F 0B 01 01 01 00 02 F7, F0 7F 7F 0B 01 00 01 01 02 09 02 F7, B0 40 7F, B0 7B 00, \
         B0 7E 01",
    );
    for (polyphony, most_bytes) in [(1, 24), (2, 12), (3, 10)] {
        search(polyphony, &alphabet, most_bytes);
    }
}

/// What climbing goes by: thefts, and then notes that sound, which may become thefts.
fn height(polyphony: u8, list: &[u8]) -> (usize, usize) {
    let mut device = start(polyphony, 0);
    let answers: Vec<Answer> = list.iter().map(|&byte| device.byte(byte)).collect();
    let thefts = answers.iter().filter(|answer| answer.is_theft()).count();
    let notes = |answer: &&Answer| matches!(answer, Answer::Note { .. });
    (thefts, answers.iter().filter(notes).count())
}

/// Bytes to climb with: any, or such as make notes.
fn some_byte(random: &mut Random) -> u8 {
    match random.below(4) {
        0 => random.byte(),
        1 => random.pick(&[0x90, 0x91, 0x99, 0x9F, 0x80, 0xB0, 0xF0, 0xF7, 0xF8]),
        _ => random.data(),
    }
}

/// The list with some bytes changed, exchanged, or moved up over one that is left out.
fn changed(random: &mut Random, list: &[u8]) -> Vec<u8> {
    let mut list = list.to_vec();
    for _ in 0..1 + random.below(3) {
        let (at, other) = (random.below(list.len()), random.below(list.len()));
        match random.below(3) {
            0 => list[at] = some_byte(random),
            1 => list.swap(at, other),
            _ => {
                list.remove(at);
                list.insert(other, some_byte(random));
            }
        }
    }
    list
}

/// Climbs from this list, a change at a time that makes it no lower, and gives the thefts at the top.
fn climbed(random: &mut Random, polyphony: u8, mut list: Vec<u8>) -> usize {
    let mut top = height(polyphony, &list);
    for _ in 0..STEPS {
        let next = changed(random, &list);
        let reached = height(polyphony, &next);
        if reached >= top {
            (top, list) = (reached, next);
        }
        let most = most_thefts(polyphony, list.len());
        assert!(
            top.0 <= most,
            "P {polyphony}: more than {most} thefts by {list:02X?}"
        );
    }
    top.0
}

const STEPS: usize = 1500;

/// From random bytes up. Most ways must come to the formula's number, or it was no climb.
#[test]
fn no_climb_from_random_bytes_goes_higher() {
    let mut random = Random::new(1);
    let mut at_the_top = 0;
    for climb in 0..200 {
        let (polyphony, n) = (1 + climb % 4, 11 + random.below(20));
        let list = (0..n).map(|_| some_byte(&mut random)).collect();
        let thefts = climbed(&mut random, polyphony as u8, list);
        at_the_top += usize::from(thefts == most_thefts(polyphony as u8, n));
    }
    assert!(
        at_the_top >= 100,
        "only {at_the_top} of 200 came to the top"
    );
}

/// From the hardest song, which stands at the top already, along the ridge: other songs that make as many thefts.
#[test]
fn no_climb_from_the_hardest_song_goes_higher() {
    let mut random = Random::new(2);
    for polyphony in 1..=64 {
        let n = 2 * usize::from(polyphony) + 1 + random.below(40);
        let mut list = vec![0; n];
        write_song(polyphony, n, &mut list).expect("within its ranges");
        climbed(&mut random, polyphony, list);
    }
}
