//! The bank of a channel, and channel 11 as a rhythm channel (R1.8, R1.9, R1.14, R5.3, R5.12, R6.4, R6.11,
//! R6.12, R6.15, R6.16, R7.7).

mod common;

use common::*;
use paper::{mip_from_log, Answer, Device, Number, Progress, State, Was};
use State::{Held, Idle, Releasing, Sustained};

/// Bank MSB 120 and a program on channel 11, and MSB 121 and a program.
const TO_RHYTHM: &str = "BA 00 78 CA 00";
const TO_MELODY: &str = "BA 00 79 CA 00";

/// A device of P 8 behind these bytes.
fn behind(hex: &str) -> Device {
    let mut device = start(8, 0);
    feed(&mut device, hex);
    device
}

/// The same with channel 11 made a rhythm channel first.
fn rhythm_behind(hex: &str) -> Device {
    behind(&format!("{TO_RHYTHM} {hex}"))
}

fn send<const N: usize>(device: &mut Device, bytes: [u8; N]) -> [Answer; N] {
    bytes.map(|byte| device.byte(byte))
}

/// The states of the first generators.
fn states<const N: usize>(device: &Device) -> [State; N] {
    std::array::from_fn(|generator| state(device, generator as u8))
}

/// Bank MSB and LSB of a channel, from 1.
fn bank(device: &Device, channel: usize) -> (u8, u8) {
    let numbers = device.channels()[channel - 1];
    (numbers.bank_msb, numbers.bank_lsb)
}

/// The channels, from 1, that the query calls rhythm channels, of all bytes.
fn rhythm_channels(device: &Device) -> Vec<u8> {
    (0..=255)
        .filter(|&channel| device.rhythm(channel))
        .collect()
}

fn assert_fresh_banks(device: &Device) {
    for channel in 1..=16 {
        let expected = if channel == 10 { (120, 0) } else { (121, 0) };
        assert_eq!(bank(device, channel), expected, "channel {channel}");
    }
    assert_eq!(rhythm_channels(device), [10]);
}

#[test]
fn banks_start_at_121_and_0_and_at_120_and_0_on_channel_10() {
    for (polyphony, id) in [(1, 0), (8, 126), (64, 5), (0, 0), (65, 0), (4, 127)] {
        assert_fresh_banks(&Device::start(polyphony, id).0);
    }
}

/// Bank MSB and LSB stand behind the other eleven numbers.
#[test]
fn the_bank_comes_last_of_the_thirteen_numbers() {
    let device = behind("B0 00 01 20 02");
    let numbers = device.channels()[0].numbers();
    assert_eq!(numbers, [0, 0, 100, 64, 127, 0, 127, 127, 64, 0, 2, 1, 2]);
    let drums = device.channels()[9].numbers();
    assert_eq!(drums, [0, 0, 100, 64, 127, 0, 127, 127, 64, 0, 2, 120, 0]);
}

/// Whatever the channel and the value, and nothing else changes.
#[test]
fn controllers_0_and_32_are_stored_as_they_come() {
    let before = behind("90 3C 40 99 24 40 9A 3C 40 B0 65 00 64 00");
    for (wire, value) in (0..16).flat_map(|wire| (0..128).map(move |value| (wire, value))) {
        for (number, place) in [(0, 11), (32, 12)] {
            let mut device = before;
            let answers = send(&mut device, [0xB0 | wire, number, value]);
            assert_eq!(answers, [Answer::None, Answer::None, Answer::Done]);
            let mut expected = record(&before);
            expected.channels[usize::from(wire)][place] = value;
            expected.progress = Progress::Status(0xB0 | wire);
            assert_eq!(record(&device), expected, "{number} with {value}");
        }
    }
}

/// Controllers 0 and 32 are stored (R6.6), 38 changes nothing still (R6.13).
#[test]
fn neither_0_nor_32_nor_38_is_a_sensitivity() {
    let device = behind("B0 65 00 64 00 00 05 20 06 26 07");
    let numbers = device.channels()[0];
    assert_eq!(numbers.bend_sensitivity, 2);
    assert_eq!((numbers.bank_msb, numbers.bank_lsb), (5, 6));
}

#[test]
fn the_bank_of_a_masked_channel_is_stored() {
    let device = behind(&format!("{} BF 00 07 20 08", mip("00 08")));
    assert_eq!(device.masked(16), Ok(true));
    assert_eq!(bank(&device, 16), (7, 8));
}

#[test]
fn reset_all_controllers_leaves_banks_and_kind() {
    for wire in 0..16 {
        let mut device = behind(&format!("{TO_RHYTHM} B{wire:X} 00 05 20 06 79 00"));
        assert_eq!(bank(&device, wire + 1), (5, 6));
        assert_eq!(rhythm_channels(&device), [10, 11]);
        feed(&mut device, &format!("{TO_MELODY} BA 00 78 79 00"));
        assert_eq!(bank(&device, 11), (120, if wire == 10 { 6 } else { 0 }));
        assert_eq!(rhythm_channels(&device), [10]);
    }
}

#[test]
fn a_system_on_makes_banks_and_kind_fresh() {
    let all: String = (0..16)
        .map(|wire| format!("B{wire:X} 00 05 20 06 "))
        .collect();
    for kind in [TO_RHYTHM, TO_MELODY, ""] {
        let mut device = behind(&format!("{kind} {all} 9A 2A 40"));
        feed(&mut device, "F0 7E 7F 09 01 F7");
        assert_fresh_banks(&device);
        assert_eq!(record(&device), record(&start(8, 0)));
    }
}

/// For each kind, each MSB and some programs: 120 makes rhythm, 121 melody, and others keep the kind. LSBs say nothing.
#[test]
fn a_program_change_on_11_makes_the_kind_that_its_msb_says() {
    for (msb, lsb) in (0..128).flat_map(|msb| [0, 1, 120, 121].map(|lsb| (msb, lsb))) {
        for program in [0, 1, 8, 120, 121, 127] {
            let changed = format!("BA 20 {lsb:02X} 00 {msb:02X} CA {program:02X}");
            for (before, was_rhythm) in [(TO_RHYTHM, true), (TO_MELODY, false), ("", false)] {
                let device = behind(&format!("{before} {changed}"));
                let rhythm = match msb {
                    120 => true,
                    121 => false,
                    _ => was_rhythm,
                };
                assert_eq!(device.rhythm(11), rhythm, "{before} {changed}");
                assert_eq!(device.second_drums(), rhythm);
                assert_eq!(device.channels()[10].program, program);
                assert_eq!(bank(&device, 11), (msb, lsb));
            }
        }
    }
}

/// Melody at the start, and so with a program alone: the bank is 121 then.
#[test]
fn it_takes_both_the_bank_and_the_program() {
    for (hex, rhythm) in [
        ("", false),
        ("CA 00", false),
        ("BA 00 78", false),
        ("CA 00 BA 00 78", false),
        ("BA 00 78 20 00", false),
        ("BA 20 78 CA 00", false),
        ("BA 00 78 00 79 CA 00", false),
        ("BA 00 78 00 00 CA 00", false),
        ("BA 00 78 CA 00", true),
        ("BA 00 00 00 78 CA 05", true),
        ("BA 00 78 20 05 9A 3C 40 CA 00", true),
        ("BA 00 78 CA 00 BA 00 79", true),
        ("BA 00 78 CA 00 BA 00 00 CA 00", true),
        ("BA 00 78 CA 00 BA 00 79 CA 00", false),
        ("BA 00 78 CA 00 BA 00 79 00 78 CA 00", true),
    ] {
        assert_eq!(behind(hex).rhythm(11), rhythm, "{hex}");
    }
}

#[test]
fn by_running_status_and_with_real_time_bytes_between() {
    let mut device = behind("BA F8 00 FE 78 CA F8");
    assert_eq!(feed(&mut device, "F8 05"), [Answer::Done]);
    assert!(device.rhythm(11));
    // The second of two programs by one status comes behind no other bank.
    assert_eq!(feed(&mut device, "06"), [Answer::Done]);
    assert!(device.rhythm(11));
    assert_eq!(device.channels()[10].program, 6);
}

#[test]
fn what_is_cut_changes_nothing() {
    for hex in [
        "BA 00 CA 00",
        "BA 00 78 CA",
        "BA 00 78 CA F7 00",
        "BA 00 78 CA BA 00",
    ] {
        assert!(!behind(hex).rhythm(11), "{hex}");
    }
}

/// Every message but a program change on channel 11, behind a bank that would change the kind: all controllers with
/// some values, and the other kinds of message on every channel.
#[test]
fn no_other_message_changes_the_kind() {
    for (before, other_bank, rhythm) in [(TO_RHYTHM, 121, true), (TO_MELODY, 120, false)] {
        let mut before = behind(before);
        for wire in 0..16 {
            send(&mut before, [0xB0 | wire, 0, other_bank]);
        }
        for status in (0x80..=0xEF).filter(|&status| status != 0xCA) {
            for (first, second) in (0..128).flat_map(|first| [0, 64, 120, 121].map(|v| (first, v)))
            {
                let mut device = before;
                send(&mut device, [status, first, second]);
                assert_eq!(device.rhythm(11), rhythm, "{status:02X} {first} {second}");
                assert!(device.rhythm(10));
            }
        }
    }
}

/// 120 is stored on any channel, and means nothing there; a program of another channel says nothing of 11.
#[test]
fn the_banks_of_other_channels_mean_nothing() {
    for wire in (0..16).filter(|&wire| wire != 10) {
        let mut device = behind(&format!("B{wire:X} 00 78 C{wire:X} 00"));
        assert_eq!(bank(&device, wire + 1), (120, 0));
        assert_eq!(rhythm_channels(&device), [10]);
        // 11's own bank with a program of another channel, and the other way round.
        feed(&mut device, &format!("BA 00 78 C{wire:X} 00"));
        assert_eq!(rhythm_channels(&device), [10]);
        feed(&mut device, &format!("BA 00 79 B{wire:X} 00 78 CA 00"));
        assert_eq!(rhythm_channels(&device), [10]);
    }
}

#[test]
fn a_channel_with_bank_120_that_is_not_11_plays_melody() {
    for wire in (0..16).filter(|wire| ![9, 10].contains(wire)) {
        let mut device = behind(&format!(
            "B{wire:X} 00 78 C{wire:X} 00 9{wire:X} 2A 40 2E 40"
        ));
        assert_eq!(states(&device), [Held, Held]);
        feed(
            &mut device,
            &format!("8{wire:X} 2A 40 B{wire:X} 40 7F 7B 00"),
        );
        assert_eq!(states(&device), [Releasing, Sustained]);
    }
}

#[test]
fn channel_10_is_rhythm_whatever_its_bank_and_program() {
    for msb in 0..128 {
        let mut device = behind(&format!("99 2E 40 B9 00 {msb:02X} C9 05"));
        assert_eq!(bank(&device, 10), (msb, 0));
        assert_eq!(state(&device, 0), Held, "its notes stay");
        assert_eq!(rhythm_channels(&device), [10]);
        feed(&mut device, "89 2E 40");
        assert_eq!(state(&device, 0), Held);
        assert_eq!(feed(&mut device, "99 2A 40"), [note(10, 42, 0, Was::Idle)]);
    }
}

/// Channel 11 with a generator that releases, one on the pedal and two that are held; notes of channels 1 and 10.
const ONE_OF_EACH: &str = "9A 3C 40 3C 00 BA 40 7F 9A 40 40 40 00 43 40 90 30 40 99 24 40 9A 45 40";
const BEFORE: [State; 6] = [Releasing, Sustained, Held, Held, Held, Held];
const AFTER: [State; 6] = [Releasing, Releasing, Releasing, Held, Held, Releasing];

/// Held and sustained ones release, pedal or not, at the program's byte. The order of age, channels, keys, hold, table
/// and all other generators stay.
#[test]
fn a_change_of_kind_releases_the_busy_ones_of_11() {
    let mut device = behind(ONE_OF_EACH);
    assert_eq!(states(&device), BEFORE);
    feed(&mut device, "BA 00 78");
    assert_eq!(states(&device), BEFORE, "not by the bank");
    let mut expected = record(&device);
    assert_eq!(feed(&mut device, "CA 05"), [Answer::Done]);
    assert_eq!(states(&device), AFTER);
    for (view, state) in expected.generators.iter_mut().zip(AFTER) {
        view.state = state;
    }
    expected.channels[10][0] = 5;
    expected.second_drums = true;
    expected.progress = Progress::Status(0xCA);
    assert_eq!(record(&device), expected);
}

#[test]
fn a_change_back_releases_drums() {
    let mut device = rhythm_behind("9A 24 40 2A 40 99 24 40 90 24 40");
    feed(&mut device, "BA 00 79");
    assert_eq!(states(&device), [Held; 4]);
    feed(&mut device, "CA 00");
    assert_eq!(states(&device), [Releasing, Releasing, Held, Held]);
    assert_eq!(rhythm_channels(&device), [10]);
    feed(&mut device, TO_RHYTHM);
    assert_eq!(states(&device), [Releasing, Releasing, Held, Held]);
}

/// The kind is said once more, or the bank is another one: whatever is busy stays so.
#[test]
fn nothing_is_released_where_the_kind_stays() {
    for hex in [
        "CA 00",
        "BA 00 79 CA 00",
        "BA 00 00 CA 00",
        "BA 00 7F CA 07",
        "BA 00 77 CA 00",
        "CA 00 01 02",
    ] {
        let device = behind(&format!("{ONE_OF_EACH} {hex}"));
        assert_eq!(states(&device), BEFORE, "{hex}");
    }
    for hex in [
        "CA 00",
        "BA 00 78 CA 00",
        "BA 00 00 CA 00",
        "BA 00 7A CA 07",
        "CA 00 01 02",
    ] {
        let device = rhythm_behind(&format!("9A 24 40 2A 40 {hex}"));
        assert_eq!(states(&device), [Held; 2], "{hex}");
    }
}

/// What released in its time as melody is the oldest releasing one by its note, as ever (R5.6).
#[test]
fn what_a_change_released_is_taken_by_age() {
    let mut device = start(3, 0);
    feed(&mut device, "9A 3C 40 90 3C 40 9A 40 40 80 3C 40");
    feed(&mut device, TO_RHYTHM);
    let played = feed(&mut device, "90 30 40 31 40 32 40");
    let was = Was::Release;
    assert_eq!(
        played,
        [
            note(1, 0x30, 0, was),
            note(1, 0x31, 1, was),
            note(1, 0x32, 2, was)
        ]
    );
}

/// As P8, on channel 11.
#[test]
fn groups_hold_on_a_rhythm_channel_11() {
    let groups: [&[u8]; 5] = [&[42, 44, 46], &[71, 72], &[73, 74], &[78, 79], &[80, 81]];
    for (key, other) in (0..128).flat_map(|key| (0..128).map(move |other| (key, other))) {
        let excludes = groups
            .iter()
            .any(|group| group.contains(&key) && group.contains(&other));
        let mut device = rhythm_behind("");
        send(&mut device, [0x9A, other, 64, key, 64]);
        let expected = match key == other {
            true => [Releasing, Held],
            false if excludes => [Held, Idle],
            false => [Held, Held],
        };
        assert_eq!(states(&device), expected, "{other}, then {key}");
        assert_eq!(device.generator(0).map(|view| view.channel), Ok(11));
    }
}

#[test]
fn a_melody_channel_11_has_no_groups() {
    for hex in ["", TO_MELODY, "BA 00 78", "BA 00 78 CA 00 BA 00 79 CA 00"] {
        let device = behind(&format!("{hex} 9A 2E 40 2A 40 2C 40"));
        assert_eq!(states(&device), [Held; 3], "{hex}");
    }
}

/// The open hi-hat of each channel gives way to its own channel's closed one alone.
#[test]
fn groups_act_within_one_channel() {
    let mut device = rhythm_behind("99 2E 40 9A 2E 40");
    assert_eq!(feed(&mut device, "9A 2A 40"), [note(11, 42, 1, Was::Idle)]);
    assert_eq!(states(&device), [Held, Held, Idle]);
    assert_eq!(feed(&mut device, "9A 2E 40"), [note(11, 46, 1, Was::Idle)]);
    assert_eq!(feed(&mut device, "99 2C 40"), [note(10, 44, 0, Was::Idle)]);
    assert_eq!(states(&device), [Held, Held, Idle]);
    // Melody of the same keys goes on.
    feed(&mut device, "90 2E 40 9B 2C 40 99 2A 40 9A 2A 40");
    let keys: Vec<(u8, u8)> = (0..4)
        .map(|g| device.generator(g).expect("a generator"))
        .map(|view| (view.channel, view.key))
        .collect();
    assert_eq!(keys, [(10, 42), (11, 42), (1, 46), (12, 44)]);
}

#[test]
fn a_drum_of_10_leaves_melody_of_11_alone() {
    let mut device = behind("9A 2E 40 99 2E 40 2A 40");
    assert_eq!(states(&device), [Held, Held, Idle]);
    feed(&mut device, "9A 2C 40 99 2C 40");
    assert_eq!(states(&device), [Held, Held, Held]);
}

/// A full device: the group's generator is free before another is looked for.
#[test]
fn a_group_makes_room_on_a_full_device() {
    let mut device = start(2, 0);
    feed(&mut device, &format!("{TO_RHYTHM} 99 24 40 9A 2E 40"));
    assert_eq!(feed(&mut device, "9A 2C 40"), [note(11, 44, 1, Was::Idle)]);
    // Channel 10 has the share, and 11 the lower priority: a group of 10 finds nothing of its own on 11.
    assert_eq!(
        feed(&mut device, "99 2A 40"),
        [note(10, 42, 1, Was::Stolen)]
    );
    let refused = [refused_note(Number::NoneToSteal, 11, 46)];
    assert_eq!(feed(&mut device, "9A 2E 40"), refused);
}

/// The same key again releases; a releasing one of the group falls silent, and so does one that was melody.
#[test]
fn releasing_ones_of_the_group_fall_silent_on_11_too() {
    let mut device = rhythm_behind("9A 2E 40 2E 40");
    assert_eq!(states(&device), [Releasing, Held]);
    feed(&mut device, "9A 2A 40");
    assert_eq!(states(&device), [Held, Idle]);
    let mut device = behind("9A 2E 40 2C 40 3C 40 2C 00");
    feed(&mut device, TO_RHYTHM);
    assert_eq!(states(&device), [Releasing; 3]);
    assert_eq!(feed(&mut device, "9A 2A 40"), [note(11, 42, 0, Was::Idle)]);
    assert_eq!(states(&device), [Held, Idle, Releasing]);
}

/// The other way round: melody notes end no drum that still sounds.
#[test]
fn drums_that_release_outlive_a_change_to_melody() {
    let mut device = rhythm_behind("9A 2E 40");
    feed(&mut device, TO_MELODY);
    assert_eq!(feed(&mut device, "9A 2A 40"), [note(11, 42, 1, Was::Idle)]);
    assert_eq!(states(&device), [Releasing, Held]);
}

#[test]
fn a_note_off_ends_no_drum_on_11() {
    for pedal in ["", "BA 40 7F", "BA 40 00"] {
        for off in ["8A 24 40", "9A 24 00"] {
            let mut device = rhythm_behind(&format!("{pedal} 9A 24 40"));
            let before = record(&device).generators;
            assert_eq!(feed(&mut device, off), [Answer::Done]);
            assert_eq!(record(&device).generators, before, "{pedal} {off}");
            assert_eq!(device.report(0), Answer::Done);
            assert_eq!(state(&device, 0), Idle);
        }
    }
}

/// The hold is stored while 11 is rhythm, and holds notes when it is melody again.
#[test]
fn the_pedal_of_11_counts_for_melody_alone() {
    let mut device = rhythm_behind("BA 40 7F 9A 24 40 8A 24 40");
    assert_eq!(states(&device), [Held]);
    feed(&mut device, "BA 40 00");
    assert_eq!(states(&device), [Held], "nothing is sustained");
    feed(
        &mut device,
        &format!("BA 40 7F {TO_MELODY} 9A 3C 40 8A 3C 40"),
    );
    assert_eq!(states(&device), [Releasing, Sustained]);
    feed(
        &mut device,
        &format!("{TO_RHYTHM} {TO_MELODY} 9A 3E 40 8A 3E 40"),
    );
    assert_eq!(states(&device), [Releasing, Releasing, Sustained]);
}

/// 123 with 0, and 124 to 127 with any value.
fn ending() -> impl Iterator<Item = (u8, u8)> {
    let mode = (124..128).flat_map(|number| [0, 1, 16, 127].map(|value| (number, value)));
    [(123, 0)].into_iter().chain(mode)
}

#[test]
fn all_notes_off_and_mode_messages_release_drums_of_11_whatever_the_pedal() {
    for ((number, value), pedal) in ending().flat_map(|m| [0, 63, 64, 127].map(|p| (m, p))) {
        let before = format!("BA 40 {pedal:02X} 9A 24 40 2A 40 99 24 40 90 24 40");
        let sent = format!("BA {number:02X} {value:02X}");
        let device = rhythm_behind(&format!("{before} {sent}"));
        assert_eq!(
            states(&device),
            [Releasing, Releasing, Held, Held],
            "{sent}"
        );
        assert_eq!(rhythm_channels(&device), [10, 11]);
        // The same notes as melody are held by the pedal.
        let device = behind(&format!("{before} {sent}"));
        let ended = if pedal >= 64 { Sustained } else { Releasing };
        assert_eq!(states(&device), [ended, ended, Held, Held], "{sent}");
        // Those of channel 10 end as ever, and 11's do not by them.
        let device = rhythm_behind(&format!("{before} B9 {number:02X} {value:02X}"));
        assert_eq!(states(&device), [Held, Held, Releasing, Held], "{sent}");
    }
}

#[test]
fn of_123_other_values_and_122_end_no_drum_of_11() {
    for sent in [
        "7B 01", "7B 7F", "7A 00", "79 00", "79 01", "78 01", "40 00",
    ] {
        let device = rhythm_behind(&format!("9A 24 40 BA {sent}"));
        assert_eq!(states(&device), [Held], "{sent}");
    }
    let device = rhythm_behind("9A 24 40 BA 78 00");
    assert_eq!(states(&device), [Idle]);
}

/// A mask stops notes and nothing else: the kind is another one when the channel plays again.
#[test]
fn a_masked_channel_11_changes_its_kind() {
    let (masked, unmasked) = (mip("09 04 00 08"), mip("09 04 0A 08"));
    let mut device = behind(&format!("{masked} {TO_RHYTHM}"));
    assert_eq!((device.masked(11), device.rhythm(11)), (Ok(true), true));
    let refused = [refused_note(Number::ChannelMasked, 11, 42)];
    assert_eq!(feed(&mut device, "9A 2A 40"), refused);
    feed(&mut device, &format!("{unmasked} 9A 2E 40 2A 40 8A 2A 40"));
    assert_eq!(states(&device), [Held, Idle]);
    feed(&mut device, &format!("{masked} {TO_MELODY} {unmasked}"));
    assert_eq!(
        (states(&device), device.rhythm(11)),
        ([Releasing, Idle], false)
    );
    feed(&mut device, "9A 2E 40 2C 40 8A 2C 40");
    assert_eq!(states(&device), [Releasing, Held, Releasing]);
}

#[test]
fn a_mask_releases_drums_of_11() {
    let mut device = rhythm_behind("BA 40 7F 9A 24 40 2A 40");
    feed(&mut device, &mip("09 04 00 08"));
    assert_eq!(states(&device), [Releasing; 2]);
    assert_eq!(rhythm_channels(&device), [10, 11]);
}

/// A table says nothing of banks and kinds (R2.9), nor do they of shares.
#[test]
fn tables_and_kinds_do_not_touch_each_other() {
    let mut device = rhythm_behind("BA 00 05");
    feed(&mut device, &mip("0A 03 09 05"));
    assert_eq!((device.rhythm(11), bank(&device, 11)), (true, (5, 0)));
    assert_eq!((device.share(11), device.share(10)), (Ok(3), Ok(2)));
    feed(&mut device, TO_MELODY);
    assert_eq!((device.share(11), device.share(10)), (Ok(3), Ok(2)));
}

/// Drums of 11 are stolen as its melody is: in the starting table channel 11 stands behind 10 and 1 to 9.
#[test]
fn who_loses_is_as_before() {
    let mut device = start(3, 0);
    feed(&mut device, &format!("{TO_RHYTHM} 9A 24 40 26 40 90 3C 40"));
    assert_eq!(
        feed(&mut device, "99 24 40"),
        [note(10, 36, 0, Was::Stolen)]
    );
    assert_eq!(feed(&mut device, "90 3E 40"), [note(1, 62, 1, Was::Stolen)]);
    let refused = [refused_note(Number::NoneToSteal, 11, 42)];
    assert_eq!(feed(&mut device, "9A 2A 40"), refused);
}

/// Channels 11 and 10 with a share of two each, 10 with the lower priority: drums of 11 are its own count, not 10's.
#[test]
fn each_rhythm_channel_counts_its_own_drums() {
    let mut device = start(4, 0);
    let table = mip("0A 02 09 04");
    feed(
        &mut device,
        &format!("{TO_RHYTHM} {table} 99 24 40 26 40 9A 24 40 26 40"),
    );
    let stolen = [note(11, 40, 2, Was::Stolen)];
    assert_eq!(feed(&mut device, "9A 28 40"), stolen);
    let stolen = [note(10, 40, 0, Was::Stolen)];
    assert_eq!(feed(&mut device, "99 28 40"), stolen);
}

#[test]
fn the_query_knows_ten_and_a_rhythm_eleven_and_refuses_nothing() {
    assert_eq!(rhythm_channels(&start(1, 0)), [10]);
    assert_eq!(rhythm_channels(&rhythm_behind("")), [10, 11]);
    assert_eq!(rhythm_channels(&rhythm_behind(TO_MELODY)), [10]);
    let (refused, _) = Device::start(0, 200);
    assert_eq!(rhythm_channels(&refused), [10]);
    for device in random_devices() {
        let expected: &[u8] = if device.second_drums() {
            &[10, 11]
        } else {
            &[10]
        };
        assert_eq!(rhythm_channels(&device), expected);
    }
}

/// No drum is ever on the pedal.
#[test]
fn rhythm_channels_sustain_nothing() {
    let mut rhythm = 0;
    for device in random_devices() {
        rhythm += usize::from(device.rhythm(11));
        let views = record(&device).generators;
        let mut sustained = views.iter().filter(|view| view.state == Sustained);
        assert!(sustained.all(|view| !device.rhythm(view.channel)));
    }
    assert!((200..1800).contains(&rhythm), "{rhythm} of 2,000");
}

fn log(hex: &str) -> Vec<u8> {
    let line = |byte: u8| format!("b,{byte}\n").into_bytes();
    bytes(hex).into_iter().flat_map(line).collect()
}

/// What a change of kind ends counts no more (R14.5), and leaves room for others (R14.6).
#[test]
fn a_log_counts_no_note_beyond_a_change_of_kind() {
    let notes = |status: &str| {
        let keys: String = (0..64).map(|key| format!("{key:02X} 40 ")).collect();
        format!("{status} {keys}")
    };
    let order: Vec<u8> = (1..=16).collect();
    let (melody, other) = (notes("9A"), notes("90"));
    let spoilt = mip_from_log(&order, &log(&format!("{melody} {other}")));
    assert_eq!(spoilt.message, Err(Number::LogSpoilt));
    let all = mip_from_log(&order, &log(&format!("{melody} {TO_RHYTHM} {other}")));
    let message = all.message.expect("no note is lost");
    // Channel 1 alone has 64, and so has each with those before it.
    let values: Vec<u8> = message[5..37].chunks(2).map(|pair| pair[1]).collect();
    assert_eq!(values, [64; 16]);
}

#[test]
fn the_page_counts_no_note_beyond_a_change_of_kind() {
    let row = |device: &Device| {
        let mut page = [0; paper::PAGE_BYTES];
        device.page(&mut page).expect("it has room");
        String::from_utf8(page.to_vec())
            .expect("it is text")
            .lines()
            .nth(11)
            .map(str::to_string)
    };
    let mut device = behind("9A 3C 40 3E 40");
    assert_eq!(row(&device).as_deref(), Some("11 11   8   0 -  2"));
    feed(&mut device, TO_RHYTHM);
    assert_eq!(row(&device).as_deref(), Some("11 11   8   0 -  0"));
    feed(&mut device, "9A 2A 40");
    assert_eq!(row(&device).as_deref(), Some("11 11   8   0 -  1"));
}
