//! The service page, rule by rule (R15.1 to R15.8). Whole pages are written here by hand; those of random devices are
//! taken apart again and held against the queries and the table, generator by generator.

mod common;

use common::*;
use paper::{Device, Number, State, PAGE_BYTES};
use random::Random;

/// What a byte of a buffer was before.
const BEFORE: u8 = 0xA5;

/// The page of a device, in a buffer that has just the room. The device is as before.
fn page(device: &Device) -> String {
    let before = record(device);
    let mut buffer = vec![BEFORE; 323];
    assert_eq!(device.page(&mut buffer), Ok(()));
    assert_eq!(record(device), before);
    String::from_utf8(buffer).expect("text")
}

/// The page of a device of this P behind these bytes.
fn page_behind(polyphony: u8, hex: &str) -> String {
    let mut device = start(polyphony, 0);
    feed(&mut device, hex);
    page(&device)
}

/// A page from its lines without their ends.
fn lines(lines: [&str; 17]) -> String {
    lines.map(|line| format!("{line}\n")).concat()
}

/// The page of a fresh device of P 24.
#[rustfmt::skip]
const FRESH_24: [&str; 17] = [
    "CH PR VAL SHR M NT",
    " 1  2  24   0 -  0",
    " 2  3  24   0 -  0",
    " 3  4  24   0 -  0",
    " 4  5  24   0 -  0",
    " 5  6  24   0 -  0",
    " 6  7  24   0 -  0",
    " 7  8  24   0 -  0",
    " 8  9  24   0 -  0",
    " 9 10  24   0 -  0",
    "10  1  24  24 -  0",
    "11 11  24   0 -  0",
    "12 12  24   0 -  0",
    "13 13  24   0 -  0",
    "14 14  24   0 -  0",
    "15 15  24   0 -  0",
    "16 16  24   0 -  0",
];

#[test]
fn a_fresh_device() {
    assert_eq!(page(&start(24, 0)), lines(FRESH_24));
    assert_eq!(page(&start(24, 126)), lines(FRESH_24));
}

/// The page of a fresh device of P 1, and so the one that a refused start leaves.
#[rustfmt::skip]
const FRESH_1: [&str; 17] = [
    "CH PR VAL SHR M NT",
    " 1  2   1   0 -  0",
    " 2  3   1   0 -  0",
    " 3  4   1   0 -  0",
    " 4  5   1   0 -  0",
    " 5  6   1   0 -  0",
    " 6  7   1   0 -  0",
    " 7  8   1   0 -  0",
    " 8  9   1   0 -  0",
    " 9 10   1   0 -  0",
    "10  1   1   1 -  0",
    "11 11   1   0 -  0",
    "12 12   1   0 -  0",
    "13 13   1   0 -  0",
    "14 14   1   0 -  0",
    "15 15   1   0 -  0",
    "16 16   1   0 -  0",
];

#[test]
fn after_a_refused_start() {
    for (polyphony, id) in [(0, 0), (65, 0), (255, 127), (4, 127), (64, 255)] {
        let (mut device, answer) = Device::start(polyphony, id);
        assert!(answer.number().is_some());
        assert_eq!(page(&device), lines(FRESH_1), "P {polyphony}, ID {id}");
        // It works on, and so does its page.
        feed(&mut device, "94 3C 40");
        let with_a_note = page(&device);
        assert_eq!(
            with_a_note,
            lines(FRESH_1).replace(" 5  6   1   0 -  0", " 5  6   1   0 -  1")
        );
    }
    assert_eq!(page(&start(1, 0)), lines(FRESH_1));
}

/// Listed from value 0 to P, listed above P and so masked, and unlisted.
#[test]
#[rustfmt::skip]
fn a_table_of_every_kind_of_channel() {
    let table = mip("09 00 01 03 0F 40 04 41 05 7F 02 7F");
    assert_eq!(page_behind(64, &table), lines([
        "CH PR VAL SHR M NT",
        " 1 -- --- --- M  0",
        " 2  2   3   3 -  0",
        " 3  6 127 --- M  0",
        " 4 -- --- --- M  0",
        " 5  4  65 --- M  0",
        " 6  5 127 --- M  0",
        " 7 -- --- --- M  0",
        " 8 -- --- --- M  0",
        " 9 -- --- --- M  0",
        "10  1   0   0 -  0",
        "11 -- --- --- M  0",
        "12 -- --- --- M  0",
        "13 -- --- --- M  0",
        "14 -- --- --- M  0",
        "15 -- --- --- M  0",
        "16  3  64  61 -  0",
    ]));
}

/// All listed, by falling channel; values of one, two and three digits, masked from the eleventh place on.
#[test]
#[rustfmt::skip]
fn places_and_values_of_masked_channels_are_shown() {
    let table = mip("0F 00 0E 00 0D 04 0C 09 0B 0A 0A 0B 09 14 08 1E 07 1F 06 20 05 21 04 62 03 63 02 64 01 7E 00 7F");
    assert_eq!(page_behind(32, &table), lines([
        "CH PR VAL SHR M NT",
        " 1 16 127 --- M  0",
        " 2 15 126 --- M  0",
        " 3 14 100 --- M  0",
        " 4 13  99 --- M  0",
        " 5 12  98 --- M  0",
        " 6 11  33 --- M  0",
        " 7 10  32   1 -  0",
        " 8  9  31   1 -  0",
        " 9  8  30  10 -  0",
        "10  7  20   9 -  0",
        "11  6  11   1 -  0",
        "12  5  10   1 -  0",
        "13  4   9   5 -  0",
        "14  3   4   4 -  0",
        "15  2   0   0 -  0",
        "16  1   0   0 -  0",
    ]));
}

/// Channel 1 has a key down and one on the pedal, channel 2 a key down and one that releases, channel 10 a drum that
/// its note-off does not end.
#[test]
#[rustfmt::skip]
fn held_and_sustained_are_busy_and_releasing_is_not() {
    let playing = mip("09 02 00 05 01 08")
        + " 90 3C 40 40 40 B0 40 7F 80 40 00 91 30 40 31 40 81 30 00 99 24 40 89 24 40";
    assert_eq!(page_behind(8, &playing), lines([
        "CH PR VAL SHR M NT",
        " 1  2   5   3 -  2",
        " 2  3   8   3 -  1",
        " 3 -- --- --- M  0",
        " 4 -- --- --- M  0",
        " 5 -- --- --- M  0",
        " 6 -- --- --- M  0",
        " 7 -- --- --- M  0",
        " 8 -- --- --- M  0",
        " 9 -- --- --- M  0",
        "10  1   2   2 -  1",
        "11 -- --- --- M  0",
        "12 -- --- --- M  0",
        "13 -- --- --- M  0",
        "14 -- --- --- M  0",
        "15 -- --- --- M  0",
        "16 -- --- --- M  0",
    ]));
}

/// The line of a channel.
fn row(page: &str, channel: usize) -> &str {
    page.lines().nth(channel).expect("17 lines")
}

/// Each state that a generator goes through, on the line of its channel.
#[test]
fn a_note_from_its_beginning_to_its_end() {
    let mut device = start(2, 0);
    let mut expect = |hex: &str, busy: &str| {
        feed(&mut device, hex);
        assert_eq!(row(&page(&device), 5), format!(" 5  6   2   0 - {busy}"));
    };
    expect("", " 0");
    expect("94 3C", " 0");
    expect("40", " 1");
    expect("B4 40 40", " 1");
    expect("84 3C 00", " 1");
    expect("B4 40 3F", " 0");
    expect("94 3C 40 3C 40", " 1");
    expect("3D 40", " 2");
    expect("B4 78 00", " 0");
}

#[test]
fn a_report_frees_and_a_theft_moves() {
    let mut device = start(2, 0);
    feed(&mut device, "90 3C 40 3D 40");
    assert_eq!(row(&page(&device), 1), " 1  2   2   0 -  2");
    // The drum steals from channel 1.
    feed(&mut device, "99 24 40");
    assert_eq!(row(&page(&device), 1), " 1  2   2   0 -  1");
    assert_eq!(row(&page(&device), 10), "10  1   2   2 -  1");
    device.report(0);
    assert_eq!(row(&page(&device), 10), "10  1   2   2 -  0");
    // Number 11 leaves the page as it was: two drums keep channel 1 out.
    feed(&mut device, "B0 78 00 99 24 40 26 40");
    let before = page(&device);
    feed(&mut device, "90 3C 40");
    assert_eq!(page(&device), before);
    assert_eq!(row(&before, 10), "10  1   2   2 -  2");
}

#[test]
fn a_channel_that_a_table_masks_has_nothing_busy() {
    let mut device = start(4, 0);
    feed(&mut device, "B2 40 7F 92 3C 40 3D 40 82 3D 00");
    assert_eq!(row(&page(&device), 3), " 3  4   4   0 -  2");
    feed(&mut device, &mip("00 04 02 05"));
    assert_eq!(state(&device, 0), State::Releasing);
    assert_eq!(row(&page(&device), 1), " 1  1   4   4 -  0");
    assert_eq!(row(&page(&device), 3), " 3  2   5 --- M  0");
    assert_eq!(row(&page(&device), 4), " 4 -- --- --- M  0");
}

/// A message that is refused, or under way, is no table.
#[test]
fn a_table_that_is_not_accepted_is_not_shown() {
    for message in [
        "F0 7F 7F 0B 01 00 04 01 03 F7",
        "F0 7F 7F 0B 01 00 04",
        "F0 7F 05 0B 01 00 04 F7",
        "F0 7F 7F 0B 01 F7",
    ] {
        assert_eq!(page_behind(24, message), lines(FRESH_24), "{message}");
    }
}

#[test]
fn after_system_on() {
    let mut device = start(24, 0);
    feed(&mut device, &mip("00 03 01 7F"));
    feed(&mut device, "90 3C 40 3D 40 B0 40 7F 80 3C 00");
    assert_eq!(row(&page(&device), 1), " 1  1   3   3 -  2");
    feed(&mut device, "F0 7E 7F 09 01 F7");
    assert_eq!(page(&device), lines(FRESH_24));
}

#[test]
fn two_digits_of_busy_generators() {
    let mut device = start(64, 0);
    feed(&mut device, "9F");
    for key in 0..64 {
        device.byte(key);
        device.byte(1);
        let expected = format!("16 16  64   0 - {:>2}", key + 1);
        assert_eq!(row(&page(&device), 16), expected);
    }
}

#[test]
fn seventeen_lines_of_18_characters_each_ended_by_0a() {
    assert_eq!(PAGE_BYTES, 323);
    for device in random_devices() {
        let page = page(&device);
        assert_eq!(page.len(), 323);
        assert!(page.bytes().all(|byte| byte == 0x0A || byte.is_ascii()));
        let lengths: Vec<usize> = page.split('\n').map(str::len).collect();
        assert_eq!(lengths[..17], [18; 17]);
        assert_eq!(lengths[17..], [0]);
        assert_eq!(row(&page, 0), "CH PR VAL SHR M NT");
    }
}

/// A number at the end of its field (R15.4), and none where dashes fill it (R15.6).
fn number(field: &str) -> Option<u8> {
    if field.bytes().all(|byte| byte == b'-') {
        return None;
    }
    let digits = field.trim_start_matches(' ');
    assert!(digits == "0" || !digits.starts_with('0'), "{field:?}");
    Some(digits.parse().unwrap_or_else(|_| panic!("{field:?}")))
}

#[test]
fn every_field_is_what_the_device_says_elsewhere() {
    for device in random_devices() {
        let page = page(&device);
        let busy = |channel: u8| {
            let all = (0..device.polyphony()).map(|g| device.generator(g).expect("a generator"));
            let is_busy = |state| state == State::Held || state == State::Sustained;
            all.filter(|view| view.channel == channel && is_busy(view.state))
                .count()
        };
        for channel in 1..=16 {
            let row = row(&page, channel.into());
            let mut entries = device.table().entries().iter();
            let at = entries.position(|entry| entry.channel + 1 == channel);
            let value = at.map(|at| device.table().entries()[at].value);
            let masked = device.masked(channel).expect("a channel");
            let share = device.share(channel).expect("a channel");
            assert_eq!(number(&row[0..2]), Some(channel));
            assert_eq!(number(&row[3..5]).map(usize::from), at.map(|at| at + 1));
            assert_eq!(number(&row[6..9]), value);
            assert_eq!(number(&row[10..13]), (!masked).then_some(share));
            assert_eq!(&row[14..15], if masked { "M" } else { "-" });
            assert_eq!(number(&row[16..18]).map(usize::from), Some(busy(channel)));
            let between = [2, 5, 9, 13, 15].map(|at| row.as_bytes()[at]);
            assert_eq!(between, [b' '; 5]);
        }
    }
}

#[test]
fn the_sixteen_counts_come_to_the_busy_generators() {
    for device in random_devices() {
        let page = page(&device);
        let counts = (1..=16).map(|channel| number(&row(&page, channel)[16..18]).expect("a count"));
        let busy = (0..device.polyphony())
            .map(|g| state(&device, g))
            .filter(|state| matches!(state, State::Held | State::Sustained));
        assert_eq!(counts.map(usize::from).sum::<usize>(), busy.count());
    }
}

/// The shares of the unmasked channels, with the values before them, come to the last value that is at most P.
#[test]
fn the_shares_come_to_the_last_value_of_the_unmasked() {
    for device in random_devices() {
        let page = page(&device);
        let shares = (1..=16).filter_map(|channel| number(&row(&page, channel)[10..13]));
        let entries = device.table().entries().iter();
        let unmasked = entries.map(|entry| entry.value);
        let last = unmasked.filter(|&value| value <= device.polyphony()).last();
        assert_eq!(shares.sum::<u8>(), last.unwrap_or(0));
    }
}

#[test]
fn number_18_exactly_where_the_buffer_is_under_323_bytes() {
    assert_eq!(Number::PageTooShort as u8, 18);
    let mut random = Random::new(3);
    for length in 0..=400 {
        let device = some_device(&mut random, length);
        let rubbish: Vec<u8> = (0..length).map(|_| random.byte()).collect();
        let mut buffer = rubbish.clone();
        let answer = device.page(&mut buffer);
        if length < 323 {
            assert_eq!(answer, Err(Number::PageTooShort), "{length} bytes");
            assert_eq!(buffer, rubbish, "{length} bytes");
        } else {
            assert_eq!(answer, Ok(()), "{length} bytes");
            assert_eq!(&buffer[..323], page(&device).as_bytes());
            assert_eq!(buffer[323..], rubbish[323..], "{length} bytes");
        }
    }
}

/// What stood in the buffer does not show, whatever it was: its first 323 bytes are all written.
#[test]
fn every_byte_of_the_page_is_written() {
    let device = some_device(&mut Random::new(4), 100);
    for before in 0..=255 {
        let mut buffer = [before; 330];
        assert_eq!(device.page(&mut buffer), Ok(()));
        assert_eq!(&buffer[..323], page(&device).as_bytes());
        assert_eq!(buffer[323..], [before; 7]);
    }
}

#[test]
fn a_large_buffer_is_written_at_its_front_alone() {
    let device = some_device(&mut Random::new(5), 100);
    let mut buffer = vec![BEFORE; 70_000];
    assert_eq!(device.page(&mut buffer), Ok(()));
    assert_eq!(&buffer[..323], page(&device).as_bytes());
    assert!(buffer[323..].iter().all(|&byte| byte == BEFORE));
}
