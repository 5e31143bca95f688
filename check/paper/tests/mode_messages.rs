//! Controllers 124 to 127 with any value, as 123 with value 0, end notes (R6.12); 122, and 123 with another value, do
//! not (R6.13).

mod common;

use common::*;
use paper::{Answer, Device, Progress, State, Was};
use State::{Held, Idle, Releasing, Sustained};

/// Omni off, Omni on, mono and poly.
const MODE_MESSAGES: [u8; 4] = [124, 125, 126, 127];

/// Each with some values, its number first.
fn mode_messages() -> impl Iterator<Item = (u8, u8)> {
    let with_values = |number| [0, 1, 64, 127].map(|value| (number, value));
    MODE_MESSAGES.into_iter().flat_map(with_values)
}

/// Sends a controller to a channel, from 1; it must be answered *done*.
fn send(device: &mut Device, channel: u8, (number, value): (u8, u8)) {
    let answers = [0xB0 | (channel - 1), number, value].map(|byte| device.byte(byte));
    assert_eq!(answers, [Answer::None, Answer::None, Answer::Done]);
}

/// A device of P 8 behind these bytes.
fn behind(hex: &str) -> Device {
    let mut device = start(8, 0);
    feed(&mut device, hex);
    device
}

/// The states of the first generators.
fn states<const N: usize>(device: &Device) -> [State; N] {
    std::array::from_fn(|generator| state(device, generator as u8))
}

/// What each of them, sent to a channel, makes of the first generators behind each of these beginnings and these notes.
fn each_leaves<const N: usize>(channel: u8, before: &[&str], notes: &str, expected: [State; N]) {
    for first in before {
        for message in mode_messages() {
            let mut device = behind(&format!("{first} {notes}"));
            send(&mut device, channel, message);
            assert_eq!(states(&device), expected, "{message:?}, {first}");
        }
    }
}

#[test]
fn with_the_pedal_up_held_notes_release() {
    let pedals = ["", "B0 40 00", "B0 40 3F"];
    each_leaves(1, &pedals, "90 3C 40 40 40", [Releasing; 2]);
}

#[test]
fn with_the_pedal_down_held_notes_are_sustained_until_it_comes_up() {
    for pedal in ["B0 40 40", "B0 40 7F"] {
        for message in mode_messages() {
            let mut device = behind(&format!("{pedal} 90 3C 40 40 40"));
            send(&mut device, 1, message);
            assert_eq!(states(&device), [Sustained; 2], "{message:?}, {pedal}");
            feed(&mut device, "B0 40 00");
            assert_eq!(states(&device), [Releasing; 2], "{message:?}, {pedal}");
        }
    }
}

/// Channel 1 with a generator that releases, one on the pedal and one that is held.
const ONE_OF_EACH: &str = "90 3C 40 3C 00 B0 40 7F 90 40 40 40 00 43 40";

#[test]
fn sustained_and_releasing_ones_stay_so() {
    assert_eq!(states(&behind(ONE_OF_EACH)), [Releasing, Sustained, Held]);
    each_leaves(1, &[ONE_OF_EACH], "", [Releasing, Sustained, Sustained]);
}

#[test]
fn drums_release_whatever_their_pedal() {
    let pedals = ["B9 40 00", "B9 40 7F"];
    each_leaves(10, &pedals, "99 24 40 2A 40", [Releasing; 2]);
}

/// One note on each of sixteen channels, every other one with its pedal down.
#[test]
fn nothing_else_changes_on_any_channel() {
    let mut playing = start(16, 0);
    for wire in 0..16 {
        let hold = if wire % 2 == 1 { "7F" } else { "00" };
        let note = format!("B{wire:X} 40 {hold} 9{wire:X} 3C 40");
        feed(&mut playing, &note);
    }
    for (channel, message) in (1..=16).flat_map(|c| mode_messages().map(move |m| (c, m))) {
        let mut device = playing;
        send(&mut device, channel, message);
        let mut expected = record(&playing);
        let pedal_down = channel % 2 == 0 && channel != 10;
        let generator = &mut expected.generators[usize::from(channel) - 1];
        generator.state = if pedal_down { Sustained } else { Releasing };
        expected.progress = Progress::Status(0xB0 | (channel - 1));
        assert_eq!(record(&device), expected, "{message:?}");
    }
}

#[test]
fn none_of_the_thirteen_numbers_changes() {
    // Each is another than at the start.
    let stored = "C0 05 B0 01 11 07 12 0A 13 0B 14 40 7F 65 00 64 00 06 0C 00 18 20 19 E0 16 17";
    let numbers = [
        5, 0x11, 0x12, 0x13, 0x14, 0x7F, 0, 0, 0x17, 0x16, 12, 0x18, 0x19,
    ];
    for message in mode_messages() {
        let mut device = behind(stored);
        send(&mut device, 1, message);
        assert_eq!(device.channels()[0].numbers(), numbers, "{message:?}");
    }
}

/// A mask has released what was busy (R2.8) and lets no note in (R5.1). So all that can be seen there is that the
/// message is answered (R6.14) and does no more than a controller without effect.
#[test]
fn a_masked_channel_has_nothing_to_end() {
    for message in mode_messages() {
        let mut device = behind(ONE_OF_EACH);
        feed(&mut device, &mip("01 08"));
        assert_eq!(states(&device), [Releasing; 3]);
        let mut other = device;
        send(&mut device, 1, message);
        send(&mut other, 1, (122, 0));
        assert_eq!(record(&device), record(&other), "{message:?}");
    }
    for device in random_devices() {
        let all = (0..device.polyphony()).map(|g| device.generator(g).expect("a generator"));
        let mut busy = all.filter(|view| matches!(view.state, Held | Sustained));
        assert!(busy.all(|view| device.masked(view.channel) == Ok(false)));
    }
}

/// On random devices, every pair of a number and a value some four times on every channel.
#[test]
fn each_does_what_123_with_value_0_does() {
    let with_number = |value| MODE_MESSAGES.map(|number| (number, value));
    let messages: Vec<(u8, u8)> = (0..128).flat_map(with_number).collect();
    let mut changed = 0;
    for (turn, device) in random_devices().enumerate() {
        for (channel, &message) in (1..=16).zip(messages.iter().cycle().skip(turn)) {
            let (mut by_mode, mut by_notes_off) = (device, device);
            send(&mut by_mode, channel, message);
            send(&mut by_notes_off, channel, (123, 0));
            assert_eq!(record(&by_mode), record(&by_notes_off), "{message:?}");
            changed += usize::from(record(&by_mode).generators != record(&device).generators);
        }
    }
    assert!(changed > 1000, "only {changed} of 32,000 changed something");
}

/// What every controller with every value makes of the first generators: 123 with 0 and the mode messages `ended`,
/// another one what it is said to, and the rest nothing.
fn each_controller<const N: usize>(
    before: &Device,
    channel: u8,
    ended: [State; N],
    others: impl Fn(u8, u8) -> Option<[State; N]>,
) {
    for (number, value) in (0..128).flat_map(|number| (0..128).map(move |value| (number, value))) {
        let mut device = *before;
        send(&mut device, channel, (number, value));
        let expected = match (number, value) {
            (123, 0) | (124..=127, _) => ended,
            _ => others(number, value).unwrap_or(states(before)),
        };
        assert_eq!(states(&device), expected, "{number} with {value}");
    }
}

/// All Sound Off, and no other controller.
fn silenced(number: u8, value: u8) -> Option<[State; 2]> {
    ((number, value) == (120, 0)).then_some([Idle; 2])
}

#[test]
fn of_all_controllers_these_end_held_notes() {
    let before = behind("90 3C 40 40 40");
    each_controller(&before, 1, [Releasing; 2], silenced);
}

#[test]
fn of_all_controllers_these_end_notes_with_the_pedal_down() {
    let before = behind(ONE_OF_EACH);
    let others = |number, value| match (number, value) {
        (120, 0) => Some([Idle; 3]),
        (64, 0..=63) | (121, 0) => Some([Releasing, Releasing, Held]),
        _ => None,
    };
    each_controller(&before, 1, [Releasing, Sustained, Sustained], others);
}

#[test]
fn of_all_controllers_these_end_drums() {
    let before = behind("B9 40 7F 99 24 40 2A 40");
    each_controller(&before, 10, [Releasing; 2], silenced);
}

#[test]
fn by_running_status_between_other_controllers() {
    let mut device = behind("90 3C 40 91 3C 40");
    let answers = feed(&mut device, "B0 07 50 7E F8 01 7C 00 40 7F");
    assert_eq!(answers, [Answer::Done; 4]);
    assert_eq!(states(&device), [Releasing, Held]);
    let channel = device.channels()[0];
    assert_eq!((channel.volume, channel.hold), (80, 127));
    // The status stays: another one by it, with the pedal down now.
    feed(&mut device, "90 40 40 B0 07 65 7D 05");
    assert_eq!(states(&device), [Releasing, Held, Sustained]);
}

/// None of these ends a note that is held.
fn none_ends(messages: &[&str]) {
    for message in messages {
        let mut device = behind("90 3C 40");
        feed(&mut device, message);
        assert_eq!(state(&device, 0), Held, "{message}");
    }
}

#[test]
fn a_message_that_is_cut_ends_nothing() {
    none_ends(&["B0 7E", "B0 7E F8", "B0 7E F7", "B0 7E B0", "F6 7E 00"]);
}

#[test]
fn the_same_bytes_in_other_messages_end_nothing() {
    none_ends(&["80 7E 00", "90 7E 00", "A0 7E 00", "C0 7E", "E0 7E 00"]);
}

/// A keyboard holds as many notes as there are generators, and changes to mono: none hangs, and the next ones need no
/// theft.
#[test]
fn a_keyboard_that_changes_its_mode() {
    let mut device = start(4, 0);
    feed(&mut device, "90 3C 40 40 40 43 40 48 40");
    assert_eq!(states(&device), [Held; 4]);
    send(&mut device, 1, (126, 1));
    assert_eq!(states(&device), [Releasing; 4]);
    // Its keys come up later, and one sound has ended.
    assert_eq!(feed(&mut device, "80 3C 40 40 40"), [Answer::Done; 2]);
    assert_eq!(device.report(2), Answer::Done);
    assert_eq!(states(&device), [Releasing, Releasing, Idle, Releasing]);
    assert_eq!(
        feed(&mut device, "90 30 40 34 40 37 40"),
        [
            note(1, 0x30, 2, Was::Idle),
            note(1, 0x34, 0, Was::Release),
            note(1, 0x37, 1, Was::Release),
        ]
    );
}

/// What is played then is played as on a fresh device: chords are chords, and each channel has its own notes.
#[test]
fn the_module_stays_in_its_mode() {
    let chords = "90 3C 40 40 40 91 3C 40 9F 3C 40 99 24 40 80 3C 00";
    for (channel, message) in (1..=16).flat_map(|c| mode_messages().map(move |m| (c, m))) {
        let (mut fresh, mut device) = (start(8, 0), start(8, 0));
        send(&mut device, channel, message);
        assert_eq!(feed(&mut device, chords), feed(&mut fresh, chords));
        assert_eq!(record(&device), record(&fresh), "{message:?}");
    }
}
