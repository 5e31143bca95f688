//! R8.1 to R8.14: each number with its example, what it leaves and its place in the order.

mod common;

use common::*;
use paper::{Answer, Device, Number, Progress, State, Was};

fn only(number: Number) -> Vec<Answer> {
    vec![Answer::Refused(number)]
}

#[test]
fn numbers_1_and_2_leave_a_working_device_of_one_generator() {
    let refusals = [
        (0, 0, Number::PolyphonyOutOfRange),
        (65, 5, Number::PolyphonyOutOfRange),
        (255, 127, Number::PolyphonyOutOfRange),
        (64, 127, Number::IdOutOfRange),
        (1, 255, Number::IdOutOfRange),
    ];
    for (polyphony, id, number) in refusals {
        let (mut device, answer) = Device::start(polyphony, id);
        assert_eq!(answer, Answer::Refused(number));
        assert_eq!(record(&device), record(&start(1, 0)));
        assert_eq!(
            feed(&mut device, "F0 7F 00 0B 01 00 01 F7 90 3C 40"),
            [Answer::Done, note(1, 60, 0, Was::Idle)]
        );
    }
}

#[test]
fn number_3_stray_data_changes_nothing() {
    let mut device = start(4, 0);
    assert_eq!(device.byte(0x3C), Answer::Refused(Number::StrayData));
    assert_eq!(record(&device), record(&start(4, 0)));
    for clearing in [
        "F4", "F5", "F6", "F7", "F1 00", "F2 00 00", "F3 00", "F0 00 F7",
    ] {
        feed(&mut device, "90 3C 40");
        feed(&mut device, clearing);
        assert_eq!(
            feed(&mut device, "3C"),
            only(Number::StrayData),
            "{clearing}"
        );
    }
}

#[test]
fn number_4_drops_the_sysex_and_takes_the_status() {
    let mut device = start(4, 0);
    assert_eq!(feed(&mut device, "F0 7E 90"), only(Number::SysExCut));
    assert_eq!(feed(&mut device, "3C 40"), [note(1, 60, 0, Was::Idle)]);
    assert_eq!(feed(&mut device, "F0 F0"), only(Number::SysExCut));
    assert_eq!(feed(&mut device, "7E 7F 09 01 F7"), [Answer::Done]);
    assert_eq!(feed(&mut device, "F0 F2"), only(Number::SysExCut));
    assert_eq!(feed(&mut device, "01 02"), []);
    assert_eq!(feed(&mut device, "03"), only(Number::StrayData));
}

/// A MIP message with these pairs must answer the number, end the SysEx and keep the table.
fn mip_refused(pairs: &str, number: Number) {
    let mut device = start(4, 0);
    feed(&mut device, &mip("00 01 05 03"));
    let before = record(&device);
    assert_eq!(feed(&mut device, &mip(pairs)), only(number), "{pairs}");
    assert_eq!(record(&device), before);
    assert_eq!(before.progress, Progress::NoStatus);
}

#[test]
fn numbers_5_to_9_keep_the_table() {
    mip_refused(&"00 ".repeat(33), Number::MipTooLong);
    mip_refused(&"10 ".repeat(100), Number::MipTooLong);
    mip_refused("", Number::MipOddOrEmpty);
    mip_refused("00 01 10", Number::MipOddOrEmpty);
    mip_refused("10 01", Number::MipChannelAbove15);
    mip_refused("00 01 00 02", Number::MipChannelTwice);
    mip_refused("00 04 01 03", Number::MipValueFalls);
}

#[test]
fn pairs_are_judged_one_by_one_and_7_then_8_then_9() {
    mip_refused("00 04 01 03 10 00", Number::MipValueFalls);
    mip_refused("00 04 00 03", Number::MipChannelTwice);
    mip_refused("00 04 10 03", Number::MipChannelAbove15);
    mip_refused("00 04 00 05 10 00", Number::MipChannelTwice);
}

#[test]
fn number_10_consumes_the_message_and_does_no_more() {
    let mut device = start(1, 0);
    feed(&mut device, "92 40 40");
    feed(&mut device, &mip("00 01 09 01"));
    let before = record(&device);
    let answer = [refused_note(Number::ChannelMasked, 3, 64)];
    assert_eq!(feed(&mut device, "92 40 40"), answer);
    assert_eq!(
        feed(&mut device, "40 40"),
        answer,
        "running status stays, 10 before 11"
    );
    let after = Record {
        progress: before.progress,
        ..record(&device)
    };
    assert_eq!(after, before);
    assert_eq!(
        feed(&mut device, "40 00"),
        [Answer::Done],
        "velocity 0 is a note-off"
    );
}

#[test]
fn number_11_when_the_loser_has_nothing_to_steal() {
    let mut device = start(2, 0);
    feed(&mut device, &mip("00 02 01 02 02 02"));
    feed(&mut device, "91 30 40 31 40");
    let answer = [refused_note(Number::NoneToSteal, 3, 50)];
    assert_eq!(feed(&mut device, "92 32 40"), answer);
    assert_eq!(state(&device, 0), State::Held);
    assert_eq!(state(&device, 1), State::Held);
}

#[test]
fn numbers_12_and_13_change_nothing() {
    let mut device = start(4, 0);
    let fresh = record(&device);
    for generator in [4, 64, 255] {
        assert_eq!(
            device.report(generator),
            Answer::Refused(Number::NoSuchGenerator)
        );
        assert_eq!(device.generator(generator), Err(Number::NoSuchGenerator));
    }
    assert_eq!(device.report(0), Answer::Refused(Number::GeneratorIdle));
    assert_eq!(record(&device), fresh);
}

#[test]
fn number_14_for_channels_that_are_none() {
    let device = start(4, 0);
    for channel in [0, 17, 255] {
        assert_eq!(device.masked(channel), Err(Number::NoSuchChannel));
        assert_eq!(device.share(channel), Err(Number::NoSuchChannel));
    }
    assert_eq!(
        (device.share(10), device.share(1), device.share(16)),
        (Ok(4), Ok(0), Ok(0))
    );
}
