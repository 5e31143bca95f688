//! Bytes, note-ons and other messages where no number is given (sections 4 to 6 of the rules).

mod common;

use common::*;
use paper::{Answer, State, Was};

/// The thirteen numbers of channel 1 after these bytes.
fn numbers_after(hex: &str) -> [u8; 13] {
    let mut device = start(4, 0);
    feed(&mut device, hex);
    device.channels()[0].numbers()
}

const FRESH: [u8; 13] = [0, 0, 100, 64, 127, 0, 127, 127, 64, 0, 2, 121, 0];

#[test]
fn the_thirteen_numbers() {
    assert_eq!(numbers_after(""), FRESH);
    let stored = "C0 05 B0 01 11 07 12 0A 13 0B 14 40 3F 65 00 64 00 06 0C 00 18 20 19 E0 16 17";
    let all = [
        5, 0x11, 0x12, 0x13, 0x14, 0x3F, 0, 0, 0x17, 0x16, 12, 0x18, 0x19,
    ];
    assert_eq!(numbers_after(stored), all);
    let reset = [5, 0, 0x12, 0x13, 127, 0, 127, 127, 64, 0, 12, 0x18, 0x19];
    assert_eq!(numbers_after(&format!("{stored} B0 79 00")), reset);
    assert_eq!(numbers_after(&format!("{stored} B0 79 01")), all);
}

#[test]
fn sensitivity_needs_rpn_0_0_and_stops_at_24() {
    assert_eq!(numbers_after("B0 06 0C")[10], 2);
    assert_eq!(numbers_after("B0 65 00 64 01 06 0C")[10], 2);
    assert_eq!(numbers_after("B0 65 00 64 00 06 19")[10], 24);
    assert_eq!(numbers_after("B0 65 00 64 00 06 00 26 05 20 05")[10], 0);
    assert_eq!(
        numbers_after("B0 65 00 64 00 62 07")[6..8],
        [127, 127],
        "98 with any value"
    );
    assert_eq!(numbers_after("B0 65 00 64 00 63 00")[6..8], [127, 127]);
}

#[test]
fn what_changes_nothing_answers_done() {
    for hex in [
        "A0 3C 40", "D0 40", "B0 26 01", "B0 78 05", "B0 7A 00", "B0 7A 7F", "B0 7B 01",
    ] {
        let mut device = start(4, 0);
        feed(&mut device, "90 3C 40");
        assert_eq!(feed(&mut device, hex), [Answer::Done], "{hex}");
        assert_eq!(state(&device, 0), State::Held);
        assert_eq!(device.channels()[0].numbers(), FRESH);
    }
}

#[test]
fn real_time_bytes_have_no_effect_anywhere() {
    let mut device = start(4, 0);
    assert_eq!(
        feed(&mut device, "F8 90 F9 3C FA 40 FF 3E FE 40 FD"),
        [note(1, 60, 0, Was::Idle), note(1, 62, 1, Was::Idle)]
    );
    assert_eq!(
        feed(&mut device, "F0 7E F8 7F 09 FF 01 FE F7"),
        [Answer::Done]
    );
    assert_eq!(state(&device, 0), State::Idle);
}

#[test]
fn the_pedal_sustains_until_it_comes_up() {
    for up in ["B0 40 3F", "B0 79 00"] {
        let mut device = start(4, 0);
        feed(&mut device, "90 3C 40 B0 40 40 80 3C 00");
        assert_eq!(state(&device, 0), State::Sustained);
        feed(&mut device, up);
        assert_eq!(state(&device, 0), State::Releasing);
    }
}

#[test]
fn a_drum_ends_by_its_report() {
    let mut device = start(4, 0);
    feed(&mut device, "99 24 40 B9 40 7F");
    assert_eq!(feed(&mut device, "89 24 00 99 24 00"), [Answer::Done; 2]);
    assert_eq!(state(&device, 0), State::Held);
    feed(&mut device, "B9 7B 00");
    assert_eq!(state(&device, 0), State::Releasing);
    assert_eq!(device.report(0), Answer::Done);
    assert_eq!(state(&device, 0), State::Idle);
}

#[test]
fn all_notes_off_heeds_the_pedal_and_all_sound_off_does_not() {
    let mut device = start(4, 0);
    feed(&mut device, "90 3C 40 B0 40 7F 7B 00");
    assert_eq!(state(&device, 0), State::Sustained);
    feed(&mut device, "B0 78 00");
    assert_eq!(state(&device, 0), State::Idle);
}

#[test]
fn the_same_key_again_releases_and_takes_another() {
    let mut device = start(2, 0);
    feed(&mut device, "90 3C 40");
    assert_eq!(feed(&mut device, "3C 40"), [note(1, 60, 1, Was::Idle)]);
    assert_eq!(state(&device, 0), State::Releasing);
    assert_eq!(feed(&mut device, "3C 40"), [note(1, 60, 0, Was::Release)]);
    assert_eq!(device.oldest_first().collect::<Vec<u8>>(), [1, 0]);
}

#[test]
fn the_oldest_releasing_is_so_by_assignment() {
    let mut device = start(2, 0);
    feed(&mut device, "90 30 40 31 40 31 00 30 00");
    assert_eq!(feed(&mut device, "32 40"), [note(1, 0x32, 0, Was::Release)]);
}

#[test]
fn a_new_table_releases_the_newly_masked_pedal_or_not() {
    let mut device = start(4, 7);
    feed(&mut device, "90 30 40 B0 40 7F 90 30 00 91 30 40 92 30 40");
    let ignored = "F0 7F 06 0B 01 01 04 F7 F0 7F 07 0B 02 01 04 F7 F0 7F 7F 0B F7";
    assert_eq!(feed(&mut device, ignored), []);
    assert_eq!(feed(&mut device, "F0 7F 07 0B 01 01 04 F7"), [Answer::Done]);
    assert_eq!(state(&device, 0), State::Releasing);
    assert_eq!(state(&device, 1), State::Held);
    assert_eq!(state(&device, 2), State::Releasing);
}

#[test]
fn only_gm_system_on_resets() {
    let mut device = start(4, 7);
    feed(&mut device, "90 30 40");
    for hex in [
        "F0 7E 7F 09 02 F7",
        "F0 7E 7F 09 03 F7",
        "F0 7E 7F 09 01 00 F7",
        "F0 7E 06 09 01 F7",
        "F0 7E 7F 09 F7",
        "F0 F7",
    ] {
        assert_eq!(feed(&mut device, hex), [], "{hex}");
        assert_eq!(state(&device, 0), State::Held);
    }
    assert_eq!(feed(&mut device, "F0 7E 07 09 01 F7"), [Answer::Done]);
    assert_eq!(record(&device), record(&start(4, 7)));
}

#[test]
fn value_0_is_unmasked_with_no_share() {
    let mut device = start(4, 0);
    assert_eq!(feed(&mut device, &mip("00 00")), [Answer::Done]);
    assert_eq!((device.masked(1), device.share(1)), (Ok(false), Ok(0)));
    assert_eq!(feed(&mut device, "90 3C 40"), [note(1, 60, 0, Was::Idle)]);
}
