//! The device from Rust: the examples of docs/RULES.md through the linked library.
use muntinorris::{Answer, Device, Generator, Refused, State, Was};

fn play(device: &mut Device, bytes: &[u8]) -> Vec<Answer> {
    bytes.iter().map(|b| device.byte(*b)).filter(|a| *a != Answer::None).collect()
}

fn note(channel: u8, key: u8, generator: u8, was: Was) -> Answer {
    Answer::Note { channel, key, generator, was }
}

#[test]
fn the_sample_of_readme() {
    let (mut device, answer) = Device::start(2, 0);
    assert_eq!(answer, Answer::Done);
    let bytes = [
        0xF0, 0x7F, 0x7F, 0x0B, 0x01, 0x00, 0x01, 0x01, 0x02, 0xF7,
        0x90, 0x3C, 0x40, 0x3E, 0x40, 0x91, 0x40, 0x40, 0x92, 0x40, 0x40,
    ];
    let expected = [
        Answer::Done,
        note(1, 60, 0, Was::Idle),
        note(1, 62, 1, Was::Idle),
        note(2, 64, 0, Was::Stolen),
        Answer::NoNote { number: 10, channel: 3, key: 64 },
    ];
    assert_eq!(play(&mut device, &bytes), expected);
    assert_eq!(device.generator(0), Ok(Generator { state: State::Held, channel: 2, key: 64 }));
    assert_eq!((device.share(1), device.share(2), device.share(3)), (Ok(1), Ok(1), Ok(0)));
    assert_eq!((device.is_masked(2), device.is_masked(3)), (Ok(false), Ok(true)));
}

#[test]
fn refused_starts_leave_a_working_device() {
    for (polyphony, id, number) in [(0, 0, 1), (65, 127, 1), (4, 127, 2)] {
        let (mut device, answer) = Device::start(polyphony, id);
        assert_eq!(answer, Answer::Number(number));
        assert_eq!((device.instrument().polyphony, device.instrument().id), (1, 0));
        assert_eq!(
            play(&mut device, &[0x99, 0x24, 0x40, 0x90, 0x3C, 0x40]),
            [note(10, 36, 0, Was::Idle), Answer::NoNote { number: 11, channel: 1, key: 60 }]
        );
    }
}

#[test]
fn reports_and_releases() {
    let (mut device, _) = Device::start(1, 0);
    assert_eq!(device.report(0), Answer::Number(13));
    assert_eq!(device.report(1), Answer::Number(12));
    assert_eq!(
        play(&mut device, &[0x90, 60, 64, 60, 0, 61, 64]),
        [note(1, 60, 0, Was::Idle), Answer::Done, note(1, 61, 0, Was::Release)]
    );
    assert_eq!(device.report(0), Answer::Done);
    assert_eq!(device.generator(0), Ok(Generator { state: State::Idle, channel: 0, key: 0 }));
}

#[test]
fn refused_queries() {
    let (device, _) = Device::start(4, 0);
    assert_eq!(device.generator(4), Err(Refused(12)));
    assert_eq!(device.is_masked(0), Err(Refused(14)));
    assert_eq!(device.share(17), Err(Refused(14)));
}

#[test]
fn a_copy_is_a_device_of_its_own() {
    let (mut device, _) = Device::start(2, 0);
    play(&mut device, &[0x90, 60, 64]);
    let mut copy = device.clone();
    play(&mut copy, &[62, 64]);
    assert_ne!(device, copy);
    play(&mut device, &[62, 64]);
    assert_eq!(device, copy);
}

/// Each number that a byte can answer, under its condition (R8.3 to R8.11).
#[test]
fn numbers_of_bytes() {
    let mip = [0xF0, 0x7F, 0x7F, 0x0B, 0x01];
    let too_long = [0; 33];
    let cases: [(u8, &[u8]); 5] = [(5, &too_long), (6, &[0]), (7, &[16, 1]), (8, &[0, 1, 0, 1]), (9, &[0, 2, 1, 1])];
    for (number, pairs) in cases {
        let (mut device, _) = Device::start(4, 0);
        let answers = play(&mut device, &[&mip, pairs, &[0xF7]].concat());
        assert_eq!(answers, [Answer::Number(number)]);
    }
    let (mut device, _) = Device::start(4, 0);
    assert_eq!(play(&mut device, &[0x40, 0xF0, 0x7F, 0x90]), [Answer::Number(3), Answer::Number(4)]);
}

#[test]
fn states_of_a_generator() {
    let (mut device, _) = Device::start(1, 0);
    let state = |device: &Device| device.generator(0).map(|g| g.state);
    assert_eq!(state(&device), Ok(State::Idle));
    play(&mut device, &[0x90, 60, 64]);
    assert_eq!(state(&device), Ok(State::Held));
    play(&mut device, &[0xB0, 64, 127, 0x90, 60, 0]);
    assert_eq!(state(&device), Ok(State::Sustained));
    play(&mut device, &[0xB0, 64, 0]);
    assert_eq!(state(&device), Ok(State::Releasing));
}

/// A finger stays on 60, and the younger 62 is on the pedal: it goes, and 60 only when nothing is there (R5.9).
#[test]
fn pedal_notes_go_first() {
    let (mut device, _) = Device::start(2, 0);
    assert_eq!(
        play(&mut device, &[0xB0, 64, 127, 0x90, 60, 64, 62, 64, 62, 0, 64, 64]),
        [
            Answer::Done,
            note(1, 60, 0, Was::Idle),
            note(1, 62, 1, Was::Idle),
            Answer::Done,
            note(1, 64, 1, Was::Stolen),
        ]
    );
    assert_eq!(device.generator(0), Ok(Generator { state: State::Held, channel: 1, key: 60 }));
    assert_eq!(play(&mut device, &[65, 64]), [note(1, 65, 0, Was::Stolen)]);
}

/// A keyboard holds a chord and changes its mode: the chord ends, and the next one finds its generators (R6.12).
#[test]
fn a_mode_message_ends_notes() {
    for (number, value) in (124..128).flat_map(|number| [(number, 0), (number, 1), (number, 127)]) {
        let (mut device, _) = Device::start(2, 0);
        play(&mut device, &[0x90, 60, 64, 64, 64]);
        assert_eq!(play(&mut device, &[0xB0, number, value]), [Answer::Done]);
        assert!((0..2).all(|g| device.generator(g).map(|g| g.state) == Ok(State::Releasing)), "{number} {value}");
        let next = play(&mut device, &[0x90, 62, 64, 65, 64]);
        assert_eq!(next, [note(1, 62, 0, Was::Release), note(1, 65, 1, Was::Release)], "{number} {value}");
    }
}

/// Channel 11 is made a rhythm channel and one of melody again (R6.15): its notes end at each real change, its drums by
/// their reports, and its hi-hats exclude each other and not those of channel 10.
#[test]
fn drums_on_channel_11() {
    let (mut device, _) = Device::start(4, 0);
    let rhythm = |device: &Device| (0..=255).filter(|c| device.is_rhythm(*c)).collect::<Vec<u8>>();
    let states = |device: &Device| (0..4).map(|g| device.generator(g).unwrap().state).collect::<Vec<_>>();
    assert_eq!(rhythm(&device), [10]);
    play(&mut device, &[0x9A, 60, 64, 0xBA, 0, 120]);
    assert_eq!((rhythm(&device), states(&device)[0]), (vec![10], State::Held));
    play(&mut device, &[0xCA, 25]);
    assert_eq!((rhythm(&device), states(&device)[0]), (vec![10, 11], State::Releasing));
    assert_eq!(play(&mut device, &[0x99, 46, 64, 0x9A, 46, 64, 46, 0]).len(), 3);
    assert_eq!(play(&mut device, &[42, 64]), [note(11, 42, 2, Was::Idle)]);
    assert_eq!(states(&device), [State::Releasing, State::Held, State::Held, State::Idle]);
    play(&mut device, &[0xBA, 0, 5, 0xCA, 25]);
    assert_eq!((rhythm(&device), states(&device)[2]), (vec![10, 11], State::Held));
    play(&mut device, &[0xBA, 0, 121, 0xCA, 25]);
    assert_eq!((rhythm(&device), states(&device)[1], states(&device)[2]), (vec![10], State::Held, State::Releasing));
}

/// The record that a caller may read, after calls that put a different number in each place that is looked at.
#[test]
fn the_record_is_readable() {
    let (mut device, _) = Device::start(3, 5);
    let bytes = [
        0xC1, 50, 0xB1, 1, 31, 7, 32, 10, 33, 11, 34, 64, 35, 101, 0, 100, 0, 6, 7, 0, 36, 32, 37, 0xE1, 9, 70,
        0x91, 60, 64, 61, 64, 0x92, 62,
    ];
    play(&mut device, &bytes);
    let (parser, instrument) = (device.parser(), device.instrument());
    assert_eq!((parser.status, parser.count, parser.bytes[0]), (0x92, 1, 62));
    assert_eq!((instrument.polyphony, instrument.id, instrument.table.count), (3, 5, 16));
    assert_eq!((instrument.table.entries[0].channel, instrument.table.entries[0].value), (10, 3));
    let channel = instrument.channels[1];
    assert_eq!(
        (channel.program, channel.modulation, channel.volume, channel.pan, channel.expression, channel.hold),
        (50, 31, 32, 33, 34, 35)
    );
    assert_eq!(
        (channel.rpn_msb, channel.rpn_lsb, channel.bend_msb, channel.bend_lsb, channel.sensitivity),
        (0, 0, 70, 9, 7)
    );
    assert_eq!((channel.bank_msb, channel.bank_lsb, instrument.kind), (36, 37, 0));
    play(&mut device, &[0xBA, 0, 120, 0xCA, 8]);
    let instrument = device.instrument();
    assert_eq!((instrument.channels[10].bank_msb, instrument.channels[10].program, instrument.kind), (120, 8, 1));
    let generators = &instrument.generators;
    assert_eq!((generators.state[1], generators.channel[1], generators.key[1]), (1, 2, 61));
    assert_eq!((generators.ages.count, generators.ages.generator[1]), (2, 1));
}
