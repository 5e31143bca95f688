//! The lines of the sample listing (R16.3, R16.4), and examples P1 to P9 of the rules.

mod common;

use common::*;
use paper::{Answer, Number, State, Was};

/// One line of the listing, for an answer at the byte with this offset.
fn line(at: usize, answer: Answer) -> Option<String> {
    match answer {
        Answer::None => None,
        Answer::Done => Some(format!("{at},done,-,-,-,-")),
        Answer::Note {
            channel,
            key,
            generator,
            was,
        } => {
            let was = match was {
                Was::Idle => "idle",
                Was::Release => "release",
                Was::Stolen => "stolen",
            };
            Some(format!("{at},note,{channel},{key},{generator},{was}"))
        }
        Answer::Refused(number) => Some(format!("{at},{},-,-,-,-", number as u8)),
        Answer::NoteRefused {
            number,
            channel,
            key,
        } => Some(format!("{at},{},{channel},{key},-,-", number as u8)),
    }
}

#[test]
fn the_listing() {
    let mut device = start(2, 0);
    let wire = bytes("F0 7F 7F 0B 01 00 01 01 02 F7 90 3C 40 3E 40 91 40 40 92 40 40");
    let lines: Vec<String> = wire
        .iter()
        .enumerate()
        .filter_map(|(at, &byte)| line(at, device.byte(byte)))
        .collect();
    assert_eq!(
        lines,
        [
            "9,done,-,-,-,-",
            "12,note,1,60,0,idle",
            "14,note,1,62,1,idle",
            "17,note,2,64,0,stolen",
            "20,10,3,64,-,-",
        ]
    );
}

/// P 10, values 3, 7, 10 for channels 1 to 3, busy 2, 6, 2: generators 0 to 1, 2 to 7, 8 to 9.
fn p1_device() -> paper::Device {
    let mut device = start(10, 0);
    feed(&mut device, &mip("00 03 01 07 02 0A"));
    feed(&mut device, "90 30 40 31 40");
    feed(&mut device, "91 30 40 31 40 32 40 33 40 34 40 35 40");
    feed(&mut device, "92 30 40 31 40");
    device
}

#[test]
fn p1_a_note_on_3_steals_from_2() {
    let mut device = p1_device();
    assert_eq!(
        feed(&mut device, "92 32 40"),
        [note(3, 0x32, 2, Was::Stolen)]
    );
}

#[test]
fn p2_a_further_note_on_3_steals_from_3() {
    let mut device = p1_device();
    feed(&mut device, "92 32 40");
    assert_eq!(
        feed(&mut device, "92 33 40"),
        [note(3, 0x33, 8, Was::Stolen)]
    );
}

#[test]
fn p3_and_p4_value_p_is_unmasked_and_p_plus_1_masked() {
    for polyphony in 1..=64 {
        let mut device = start(polyphony, 0);
        feed(&mut device, &mip(&format!("00 {polyphony:02X}")));
        assert_eq!(device.masked(1), Ok(false));
        assert_eq!(device.share(1), Ok(polyphony));
        feed(&mut device, &mip(&format!("00 {:02X}", polyphony + 1)));
        assert_eq!(device.masked(1), Ok(true));
        assert_eq!(device.share(1), Ok(0));
    }
}

#[test]
fn p5_equal_values_leave_the_second_no_share() {
    let mut device = start(10, 0);
    feed(&mut device, &mip("00 05 01 05"));
    assert_eq!((device.share(1), device.share(2)), (Ok(5), Ok(0)));
    assert_eq!((device.masked(1), device.masked(2)), (Ok(false), Ok(false)));
}

#[test]
fn p6_a_drum_steals_from_channel_1() {
    let mut device = start(1, 0);
    feed(&mut device, "90 3C 40");
    assert_eq!(
        feed(&mut device, "99 24 40"),
        [note(10, 36, 0, Was::Stolen)]
    );
}

#[test]
fn p7_the_other_way_round_is_number_11() {
    let mut device = start(1, 0);
    feed(&mut device, "99 24 40");
    assert_eq!(
        feed(&mut device, "90 3C 40"),
        [refused_note(Number::NoneToSteal, 1, 60)]
    );
}

#[test]
fn p8_an_open_hi_hat_gives_way_to_the_closed_one() {
    let mut device = start(4, 0);
    feed(&mut device, "99 2E 40");
    assert_eq!(feed(&mut device, "2A 40"), [note(10, 42, 0, Was::Idle)]);
    assert_eq!(state(&device, 1), State::Idle);
}

#[test]
fn p9_thirty_two_bytes_of_pairs_pass_and_33_do_not() {
    let pairs: String = (0..16).map(|mm| format!("{mm:02X} 04 ")).collect();
    let mut device = start(4, 0);
    assert_eq!(feed(&mut device, &mip(&pairs)), [Answer::Done]);
    assert_eq!(
        feed(&mut device, &mip(&format!("{pairs} 00"))),
        [Answer::Refused(Number::MipTooLong)]
    );
}
