//! The MIP message from a song's log, rule by rule (R14.1 to R14.10). Counts are taken here once more, generator by
//! generator, after every line.

mod common;

use common::*;
use paper::{mip_from_log, Answer, Arranged, Device, Event, Log, Number, State};
use random::Random;

/// Another order than the starting one.
const BY_CHANNEL: [u8; 16] = [1, 2, 3, 4, 5, 6, 7, 8, 9, 10, 11, 12, 13, 14, 15, 16];

fn line(event: Event) -> String {
    match event {
        Event::Byte(byte) => format!("b,{byte}\n"),
        Event::Report(generator) => format!("e,{generator}\n"),
    }
}

/// A log from words: two hexadecimal digits are a byte, `e7` is the end of generator 7.
fn log(words: &str) -> String {
    let event = |word: &str| match word.strip_prefix('e') {
        Some(generator) => Event::Report(generator.parse().expect("a generator")),
        None => Event::Byte(u8::from_str_radix(word, 16).expect("a byte")),
    };
    words
        .split_whitespace()
        .map(|word| line(event(word)))
        .collect()
}

fn arranged(log: &str) -> Arranged {
    mip_from_log(&BY_CHANNEL, log.as_bytes())
}

/// The number of a log that yields no message, and its line.
fn refused(log: &str) -> (Number, u64) {
    let arranged = arranged(log);
    (arranged.message.expect_err("no message"), arranged.line)
}

/// The pairs of a message, channels from 1.
fn pairs(message: &[u8; 38]) -> ([u8; 16], [u8; 16]) {
    assert_eq!(
        (&message[..5], message[37]),
        (&[0xF0, 0x7F, 0x7F, 0x0B, 0x01][..], 0xF7)
    );
    let at = |place: usize| message[place];
    (
        std::array::from_fn(|i| at(5 + 2 * i) + 1),
        std::array::from_fn(|i| at(6 + 2 * i)),
    )
}

/// The values of a log that must yield a message, by rising channel.
fn values(words: &str) -> [u8; 16] {
    let arranged = arranged(&log(words));
    assert_eq!(arranged.line, words.split_whitespace().count() as u64);
    let (order, values) = pairs(&arranged.message.expect("a message"));
    assert_eq!(order, BY_CHANNEL);
    values
}

/// These values, and the last of them up to the sixteenth.
fn rising(first: &[u8]) -> [u8; 16] {
    std::array::from_fn(|i| *first.get(i).unwrap_or(&first[first.len() - 1]))
}

/// The 256 lines of bytes, then the 64 of reports.
fn right_lines() -> Vec<String> {
    let of_bytes = (0..=255).map(|byte| format!("b,{byte}"));
    let of_reports = (0..=63).map(|generator| format!("e,{generator}"));
    of_bytes.chain(of_reports).collect()
}

#[test]
fn the_lines_are_these_320_and_no_other() {
    for (at, line) in right_lines().iter().enumerate() {
        let event = match at {
            0..=255 => Event::Byte(at as u8),
            _ => Event::Report((at - 256) as u8),
        };
        assert_eq!(Event::read(line.as_bytes()), Some(event), "{line}");
    }
    let letters = b"be,0123456789BE \r+-\0";
    let (mut lines, mut found) = (vec![Vec::new()], 0);
    for _ in 0..=6 {
        let right = |line: &&Vec<u8>| Event::read(line).is_some();
        found += lines.iter().filter(right).count();
        // A line that does not begin right goes on but for one letter more.
        lines.retain(|line| line.len() < 2 || matches!(line[..2], [b'b' | b'e', b',']));
        let longer = |line: &Vec<u8>| letters.map(|letter| [&line[..], &[letter]].concat());
        lines = lines.iter().flat_map(longer).collect();
    }
    assert_eq!(found, 320);
}

#[test]
fn each_other_byte_in_a_line_is_number_15() {
    let right = right_lines();
    for line in ["b,144", "b,9", "e,63"] {
        for (at, byte) in (0..line.len()).flat_map(|at| (0..=255).map(move |byte| (at, byte))) {
            let mut other = line.as_bytes().to_vec();
            other[at] = byte;
            let is_right = right.iter().any(|line| line.as_bytes() == other);
            assert_eq!(Event::read(&other).is_some(), is_right, "{other:?}");
        }
    }
}

/// Lines that are none, without their ends.
#[rustfmt::skip]
const WRONG: [&str; 34] = [
    "", "b", "b,", "e,", ",", "144", "b144", "b,256", "b,300", "b,999", "b,1000", "e,64",
    "e,255", "b,00", "b,01", "b,-1", "b,+1", "b, 1", " b,1", "b,1 ", "b ,1", "B,1", "E,1", "b,1\r",
    "b;1", "b,1,", "b,1b,2", "c,1", "b,0x1", "b,1.0", "b,256256", "b,1440000000000000", "b,2550", "e,630",
];

#[test]
fn lines_of_another_form() {
    for wrong in WRONG {
        let first = format!("{wrong}\n");
        assert_eq!(refused(&first), (Number::LogOtherForm, 1), "{wrong}");
        let middle = format!("b,144\ne,3\n{wrong}\nb,1\n");
        assert_eq!(refused(&middle), (Number::LogOtherForm, 3), "{wrong}");
    }
}

#[test]
fn a_line_without_its_end_is_of_another_form() {
    assert_eq!(refused("b,144"), (Number::LogOtherForm, 1));
    assert_eq!(refused("b,144\nb"), (Number::LogOtherForm, 2));
    assert_eq!(refused("b,144\n\n"), (Number::LogOtherForm, 2));
}

#[test]
fn an_empty_log_has_sixteen_zeros() {
    let empty = arranged("");
    assert_eq!(
        (empty.line, pairs(&empty.message.expect("a message"))),
        (0, (BY_CHANNEL, [0; 16]))
    );
}

#[test]
fn a_message_by_hand() {
    // Two notes on channel 1, three on 3 of which one is off again, a drum on the pedal of none.
    let words = "90 3C 40 40 40 92 3C 40 40 40 40 00 43 40 99 24 40";
    assert_eq!(values(words), rising(&[2, 2, 4, 4, 4, 4, 4, 4, 4, 5]));
    let arranged = mip_from_log(&STARTING_ORDER, log(words).as_bytes());
    let expected = "F0 7F 7F 0B 01 09 01 00 03 01 03 02 05 03 05 04 05 05 05 06 05 07 05 08 05 \
                    0A 05 0B 05 0C 05 0D 05 0E 05 0F 05 F7";
    assert_eq!(
        arranged.message.expect("a message").to_vec(),
        bytes(expected)
    );
}

#[test]
fn a_value_is_a_joint_count_and_no_sum() {
    // Channel 1 has two notes, then none; then channel 2 has three.
    assert_eq!(
        values("90 3C 40 3E 40 3C 00 3E 00 91 3C 40 3D 40 3E 40"),
        rising(&[2, 3])
    );
    assert_eq!(
        values("90 3C 40 3E 40 91 3C 40 3D 40 3E 40"),
        rising(&[2, 5])
    );
}

#[test]
fn sustained_ones_count_and_releasing_ones_do_not() {
    assert_eq!(values("90 3C 40 80 3C 00 90 3E 40"), rising(&[1]));
    assert_eq!(values("B0 40 7F 90 3C 40 80 3C 00 90 3E 40"), rising(&[2]));
    assert_eq!(
        values("B0 40 7F 90 3C 40 80 3C 00 B0 40 00 90 3E 40"),
        rising(&[1])
    );
    // The same key again takes the place of its own note.
    assert_eq!(values("90 3C 40 3C 40 3C 40"), rising(&[1]));
}

#[test]
fn what_a_mode_message_ends_counts_no_more() {
    for number in ["7C", "7D", "7E", "7F"] {
        let chords = format!("90 3C 40 40 40 43 40 B0 {number} 01 90 48 40 4C 40");
        assert_eq!(values(&chords), rising(&[3]));
        // It is still there if it went on the pedal.
        assert_eq!(values(&format!("B0 40 7F {chords}")), rising(&[5]));
    }
}

#[test]
fn a_report_ends_a_note() {
    assert_eq!(
        values("99 24 40 e0 26 40 e0 24 40"),
        std::array::from_fn(|i| u8::from(i >= 9))
    );
    assert_eq!(
        values("99 24 40 26 40 e0 24 40"),
        std::array::from_fn(|i| if i < 9 { 0 } else { 2 })
    );
}

#[test]
fn a_system_on_resets_the_device_and_not_the_maxima() {
    let system_on = "F0 7E 7F 09 01 F7";
    assert_eq!(
        values(&format!("90 3C 40 3E 40 {system_on} 90 3C 40")),
        rising(&[2])
    );
    assert_eq!(
        values(&format!("90 3C 40 {system_on} 91 3C 40 3E 40")),
        rising(&[1, 2])
    );
    // Without running status the data bytes are stray, and the pedal is up.
    assert_eq!(values(&format!("90 3C 40 {system_on} 3C 40")), rising(&[1]));
    assert_eq!(
        values(&format!("B0 40 7F {system_on} 90 3C 40 3C 00 3D 40")),
        rising(&[1])
    );
}

#[test]
fn numbers_below_11_and_13_are_passed_over() {
    // 3, 4 and 13; the status that cuts a SysEx is taken.
    assert_eq!(values("3C 40 90 3C 40"), rising(&[1]));
    assert_eq!(values("F0 7E 90 3C 40"), rising(&[1]));
    assert_eq!(values("e0 e63 90 3C 40 e1 e0 e0 3E 40"), rising(&[1]));
}

/// 64 notes on channel 1.
fn full() -> String {
    (0..64).fold("90".to_string(), |words, key| {
        format!("{words} {key:02X} 40")
    })
}

#[test]
fn a_stolen_note_is_number_17_at_its_last_byte() {
    assert_eq!(values(&full()), [64; 16]);
    let stolen = log(&format!("{} 40 40 41 40", full()));
    assert_eq!(refused(&stolen), (Number::LogSpoilt, 131));
    // A key again, a releasing and an ended generator are no theft.
    for more in ["3F 40 3F 40", "3F 00 40 40", "e5 40 40"] {
        assert_eq!(values(&format!("{} {more}", full())), [64; 16]);
    }
    // Nor is what a mode message let go.
    let after = format!("{} B0 7E 01 90 40 40", full());
    assert_eq!(values(&after), [64; 16]);
}

#[test]
fn number_11_is_number_17() {
    // 64 drums: channel 1 comes after them and has nothing to give.
    let drums = full()
        .replacen("90", "99", 1)
        .replace("2A 40 ", "50 40 ")
        .replace("2C 40 ", "60 40 ")
        .replace("2E 40 ", "61 40 ");
    let drums = format!("{drums} 90 3C 40");
    assert_eq!(refused(&log(&drums)), (Number::LogSpoilt, 132));
}

#[test]
fn the_end_of_a_mip_message_is_number_17() {
    for (d, pairs) in ["7F", "00"]
        .into_iter()
        .flat_map(|d| PAIRS.map(move |pairs| (d, pairs)))
    {
        let message = format!("F0 7F {d} 0B 01 {pairs} F7 90 3C 40");
        let line = 6 + pairs.split_whitespace().count() as u64;
        assert_eq!(
            refused(&log(&message)),
            (Number::LogSpoilt, line),
            "{message}"
        );
        let clocked = message
            .replacen("0B", "F8 0B FE", 1)
            .replace(" F7", " FA F7");
        assert_eq!(
            refused(&log(&clocked)),
            (Number::LogSpoilt, line + 3),
            "{clocked}"
        );
    }
}

/// Accepted, without pairs, odd, above 15, twice, falling, of 32 bytes, too long.
const PAIRS: [&str; 8] = [
    "00 10",
    "",
    "00",
    "10 01",
    "00 01 00 02",
    "00 04 01 03",
    "00 01 01 01 02 01 03 01 04 01 05 01 06 01 07 01 08 01 09 01 0A 01 0B 01 0C 01 0D 01 0E 01 0F 01",
    "00 00 00 00 00 00 00 00 00 00 00 00 00 00 00 00 00 00 00 00 00 00 00 00 00 00 00 00 00 00 00 00 00",
];

#[test]
fn what_is_no_mip_message_for_us_is_played() {
    for words in [
        "F0 7F 01 0B 01 00 10 F7",
        "F0 7F 7E 0B 01 00 10 F7",
        "F0 7E 7F 0B 01 00 10 F7",
        "F0 7F 7F 0B 02 00 10 F7",
        "F0 7F 7F 0C 01 00 10 F7",
        "F0 7F 7F 0B F7",
        "F0 7F 7F F7",
        "F0 F7",
        "F7",
        "F0 01 7F 7F 0B 01 00 10 F7",
        // Cut by a status, then a stray F7.
        "F0 7F 7F 0B 01 00 10 90 F7",
        "F0 7F 7F 0B 01 00 10 F4 F7",
        "F0 7F 7F 0B 01 00 10 F0 F7",
        // Never ended.
        "F0 7F 7F 0B 01 00 10",
        "F0 7F 7F 0B 01 00 10 90",
    ] {
        assert_eq!(
            values(&format!("90 3C 40 {words}")),
            rising(&[1]),
            "{words}"
        );
    }
}

#[test]
fn of_15_and_17_the_earlier_line_decides() {
    let mip = log("F0 7F 7F 0B 01 F7");
    assert_eq!(refused(&format!("{mip}b,256\n")), (Number::LogSpoilt, 6));
    assert_eq!(refused(&format!("b,256\n{mip}")), (Number::LogOtherForm, 1));
    assert_eq!(refused(&format!("{mip}b,1")), (Number::LogSpoilt, 6));
    assert_eq!(
        refused(&format!("b,1\n\n{mip}\n")),
        (Number::LogOtherForm, 2)
    );
}

#[test]
fn an_order_that_is_not_all_sixteen_channels_once() {
    let refused = |order: &[u8]| {
        [
            "",
            "b,256\n",
            "b,1",
            &log("F0 7F 7F 0B 01 F7"),
            &log("90 3C 40"),
        ]
        .iter()
        .all(|log| {
            mip_from_log(order, log.as_bytes())
                == Arranged {
                    line: 0,
                    message: Err(Number::BadOrder),
                }
        })
    };
    let longer: Vec<u8> = (1..=20).collect();
    for length in (0..=20).filter(|&length| length != 16) {
        assert!(refused(&longer[..length]) && refused(&vec![1; length]));
        let doubled: Vec<u8> = BY_CHANNEL.into_iter().cycle().take(length).collect();
        assert!(refused(&doubled));
    }
    for (at, other) in (0..16).flat_map(|at| (0..=255).map(move |other| (at, other))) {
        let mut order = STARTING_ORDER;
        order[at] = other;
        assert_eq!(refused(&order), order != STARTING_ORDER, "{order:?}");
    }
}

/// Music, some of which loses a note: keys go up again seldom or often.
fn some_music(random: &mut Random, lines: usize) -> Vec<Event> {
    let channels = 1 + random.below(16);
    let keys = random.pick(&[12, 100]);
    let mut events = Vec::new();
    while events.len() < lines {
        let (channel, key) = (random.below(channels) as u8, random.below(keys) as u8);
        let bytes = match random.below(24) {
            0..=12 => vec![0x90 | channel, key, 64],
            13..=17 => vec![0x80 | channel, key, 64],
            18 => vec![0xB0 | channel, 64, random.pick(&[0, 127])],
            19 if random.one_in(4) => some_channel_mode(random, channel),
            20 if random.one_in(8) => vec![0xF0, 0x7E, 0x7F, 0x09, 0x01, 0xF7],
            21 => vec![random.byte() | 0xF8, random.data()],
            _ => {
                events.push(Event::Report(random.below(64) as u8));
                continue;
            }
        };
        events.extend(bytes.into_iter().map(Event::Byte));
    }
    events
}

/// The busy generators of the first channels of an order, for each place, by queries.
fn joint_counts(device: &Device, order: &[u8; 16]) -> [u8; 16] {
    let busy: Vec<u8> = (0..64)
        .map(|g| device.generator(g).expect("a generator"))
        .filter(|view| matches!(view.state, State::Held | State::Sustained))
        .map(|view| view.channel)
        .collect();
    let first = |place: usize| {
        busy.iter()
            .filter(|channel| order[..=place].contains(channel))
            .count()
    };
    std::array::from_fn(|place| first(place) as u8)
}

/// The joint counts after each line, up to the one at which a note is lost.
fn all_counts(events: &[Event], order: &[u8; 16]) -> (Vec<[u8; 16]>, bool) {
    let (mut device, mut counts) = (start(64, 0), Vec::new());
    for &event in events {
        let answer = match event {
            Event::Byte(byte) => device.byte(byte),
            Event::Report(generator) => device.report(generator),
        };
        if answer.is_theft() || matches!(answer, Answer::NoteRefused { .. }) {
            return (counts, true);
        }
        counts.push(joint_counts(&device, order));
    }
    (counts, false)
}

/// R14.8: no line exceeds a value, and none can be lower.
#[test]
fn values_are_as_low_as_they_can_be() {
    let mut random = Random::new(1);
    let (mut messages, mut lost) = (0, 0);
    for _ in 0..600 {
        let length = 1 + random.below(800);
        let events = some_music(&mut random, length);
        let mut order = BY_CHANNEL;
        random.shuffle(&mut order);
        let bytes: String = events.iter().map(|&event| line(event)).collect();
        let arranged = mip_from_log(&order, bytes.as_bytes());
        let (counts, spoilt) = all_counts(&events, &order);
        if spoilt {
            let number = Err(Number::LogSpoilt);
            assert_eq!(
                arranged,
                Arranged {
                    line: counts.len() as u64 + 1,
                    message: number
                }
            );
            lost += 1;
            continue;
        }
        let (listed, values) = pairs(&arranged.message.expect("a message"));
        assert_eq!(listed, order);
        for (place, &value) in values.iter().enumerate() {
            assert!(counts.iter().all(|count| count[place] <= value));
            assert!(value == 0 || counts.iter().any(|count| count[place] > value - 1));
        }
        messages += 1;
    }
    assert!(
        messages > 100 && lost > 50,
        "{messages} messages, {lost} spoilt"
    );
}

/// R14.7: the table then has the message's order and values.
#[test]
fn every_message_is_taken_from_any_record() {
    let mut random = Random::new(2);
    for _ in 0..400 {
        let events = some_music(&mut random, 150);
        let mut order = BY_CHANNEL;
        random.shuffle(&mut order);
        let bytes: String = events.iter().map(|&event| line(event)).collect();
        let Ok(message) = mip_from_log(&order, bytes.as_bytes()).message else {
            continue;
        };
        let (listed, values) = pairs(&message);
        for _ in 0..10 {
            let mut device = start(1 + random.below(64) as u8, random.below(127) as u8);
            for _ in 0..random.below(300) {
                device.byte(random.byte());
            }
            let answers = message.map(|byte| device.byte(byte));
            assert_eq!((answers[37], listed), (Answer::Done, order));
            let entries = device.table().entries().iter();
            assert!(entries
                .map(|entry| (entry.channel + 1, entry.value))
                .eq(order.into_iter().zip(values)));
        }
    }
}

/// What is under way does not depend on where the log was cut, and to ask for the end changes nothing.
#[test]
fn a_log_may_be_cut_anywhere() {
    let mut random = Random::new(3);
    for _ in 0..200 {
        let length = random.below(60);
        let events = some_music(&mut random, length);
        let mut bytes: Vec<u8> = events
            .iter()
            .flat_map(|&event| line(event).into_bytes())
            .collect();
        if random.one_in(2) && !bytes.is_empty() {
            bytes.truncate(random.below(bytes.len()));
        }
        let (mut whole, mut log) = (Log::begin(&STARTING_ORDER), Log::begin(&STARTING_ORDER));
        whole.part(&bytes);
        let mut left = &bytes[..];
        while !left.is_empty() {
            let (part, rest) = left.split_at(random.below(left.len() + 1));
            log.part(part);
            log.end();
            left = rest;
        }
        assert_eq!(log.end(), whole.end());
        assert_eq!(
            (log.lines(), log.most(), log.unended()),
            (whole.lines(), whole.most(), whole.unended())
        );
        assert_eq!(record(log.device()), record(whole.device()));
    }
}

/// With a number the device and the counts are those before its line.
#[test]
fn a_number_leaves_what_was_before_its_line() {
    let mut spoilt = Log::begin(&BY_CHANNEL);
    let mut before = spoilt;
    let words = format!("{} 91 3C", full());
    before.part(log(&words).as_bytes());
    assert_eq!(
        spoilt.part(log(&format!("{words} 40 e0 80")).as_bytes()),
        Some(Number::LogSpoilt)
    );
    spoilt.part(b"b,12345678");
    assert_eq!(record(spoilt.device()), record(before.device()));
    assert_eq!(
        (spoilt.most(), spoilt.lines()),
        (before.most(), before.lines() + 1)
    );
    assert_eq!(
        (spoilt.unended(), before.unended()),
        (&b"b,12345"[..], &b""[..])
    );
    assert_eq!(
        spoilt.end(),
        Arranged {
            line: 132,
            message: Err(Number::LogSpoilt)
        }
    );
}

#[test]
fn lines_are_told_up_to_the_largest_number() {
    let most = u64::MAX;
    let at = |lines: u64, bytes: &str| {
        let mut log = Log::begin(&STARTING_ORDER).behind(lines);
        log.part(bytes.as_bytes());
        log.end().line
    };
    assert_eq!(
        (at(most - 1, "b,248\n"), at(most, "b,248\n"), at(most, "")),
        (most, most, most)
    );
    assert_eq!(
        (at(most - 1, "b"), at(most, "b"), at(most, "x\n")),
        (most, most, most)
    );
    assert_eq!(
        (
            at(u64::from(u32::MAX), "b,248\nb,248\nx\n"),
            at(255, "b,248\nb")
        ),
        ((1 << 32) + 2, 257)
    );
}
