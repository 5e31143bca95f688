//! Which generator of the channel that loses is stolen (R5.9): its oldest sustained one, or its oldest held one where
//! none is sustained. Which channel loses is asked as without a pedal (R5.7, R5.8, R5.10).

mod common;

use common::*;
use paper::{Answer, Device, GeneratorView, Number, Progress, State, Was};
use random::Random;
use State::{Held, Releasing, Sustained};

/// A device of this P behind these bytes.
fn behind(polyphony: u8, hex: &str) -> Device {
    let mut device = start(polyphony, 0);
    feed(&mut device, hex);
    device
}

/// Generators that new notes of a channel, from 1, steal one after another. Their keys are from 112 on.
fn stolen<const N: usize>(device: &mut Device, channel: u8) -> [u8; N] {
    std::array::from_fn(|at| {
        let key = 112 + at as u8;
        let answer = [0x90 | (channel - 1), key, 64].map(|byte| device.byte(byte))[2];
        match answer {
            Answer::Note {
                generator,
                was: Was::Stolen,
                ..
            } => generator,
            _ => panic!("note {at}: {answer:?}"),
        }
    })
}

/// The states of the first generators.
fn states<const N: usize>(device: &Device) -> [State; N] {
    std::array::from_fn(|generator| state(device, generator as u8))
}

/// The pedal of channel 1 goes down; notes 48, 49, .. of it are on generators 0, 1, ..
fn chord(notes: u8) -> String {
    let keys: String = (0..notes).map(|n| format!("{:02X} 40 ", 48 + n)).collect();
    format!("B0 40 7F 90 {keys}")
}

#[test]
fn a_younger_one_on_the_pedal_goes_before_an_older_one_held() {
    let mut device = behind(2, "B0 40 7F 90 3C 40 40 40 80 40 00");
    assert_eq!(states(&device), [Held, Sustained]);
    assert_eq!(
        feed(&mut device, "90 43 40"),
        [note(1, 0x43, 1, Was::Stolen)]
    );
    assert_eq!(states(&device), [Held, Held]);
}

#[test]
fn an_older_one_on_the_pedal_goes_too() {
    let mut device = behind(2, "B0 40 7F 90 3C 40 40 40 80 3C 00");
    assert_eq!(stolen(&mut device, 1), [0]);
}

/// Three of four notes are let go, in every order: the first assigned goes first, whenever its key came up.
#[test]
fn the_oldest_on_the_pedal_is_so_by_assignment() {
    for ups in [
        [1, 2, 3],
        [1, 3, 2],
        [2, 1, 3],
        [2, 3, 1],
        [3, 1, 2],
        [3, 2, 1],
    ] {
        let mut device = behind(4, &chord(4));
        for n in ups {
            feed(&mut device, &format!("80 {:02X} 00", 48 + n));
        }
        assert_eq!(states(&device), [Held, Sustained, Sustained, Sustained]);
        assert_eq!(
            stolen(&mut device, 1),
            [1, 2, 3],
            "keys up in order {ups:?}"
        );
    }
}

#[test]
fn by_assignment_and_not_by_generator_number() {
    // Generator 0 falls silent and has then the youngest note.
    let mut device = behind(3, &chord(3));
    device.report(0);
    feed(&mut device, "90 3C 40 80 3C 00 32 00");
    assert_eq!(states(&device), [Sustained, Held, Sustained]);
    assert_eq!(stolen(&mut device, 1), [2, 0, 1]);
}

#[test]
fn without_a_pedal_note_the_oldest_held_one_goes() {
    for pedal in ["B0 40 00", "B0 40 7F"] {
        let mut device = behind(3, &format!("{pedal} 90 3C 40 3E 40 40 40"));
        assert_eq!(stolen(&mut device, 1), [0, 1, 2, 0], "{pedal}");
    }
}

/// 48 to 55, of which 53, 50 and 52 are let go in this order.
#[test]
fn pedal_notes_in_the_midst_of_several() {
    let mut device = behind(8, &chord(8));
    feed(&mut device, "80 35 00 32 00 34 00");
    assert_eq!(stolen(&mut device, 1), [2, 4, 5, 0, 1, 3, 6, 7, 2]);
}

#[test]
fn nothing_else_changes_by_the_theft() {
    let mut device = behind(4, &chord(4));
    feed(&mut device, "80 32 00 90 64");
    let mut expected = record(&device);
    assert_eq!(device.byte(0x40), note(1, 0x64, 2, Was::Stolen));
    expected.generators[2].state = Held;
    expected.generators[2].key = 0x64;
    expected.oldest_first = vec![0, 1, 3, 2];
    expected.progress = Progress::Status(0x90);
    assert_eq!(record(&device), expected);
}

/// Its key and its pedal are the new note's from then on.
#[test]
fn a_stolen_pedal_note_is_gone() {
    let mut device = behind(2, "B1 40 7F 91 3C 40 40 40 81 40 00");
    assert_eq!(
        feed(&mut device, "90 43 40"),
        [note(1, 0x43, 1, Was::Stolen)]
    );
    feed(&mut device, "81 40 00 B1 40 00");
    assert_eq!(states(&device), [Held, Held]);
    feed(&mut device, "80 43 00");
    assert_eq!(states(&device), [Held, Releasing]);
}

/// Channels 1 and 2 with shares 2 and 2.
const TWO_EACH: &str = "00 02 01 04";

#[test]
fn a_pedal_note_of_another_channel_stays_though_it_is_older() {
    let mut device = behind(4, &mip(TWO_EACH));
    // Channel 1 has generator 0 on the pedal, channel 2 holds the other three.
    feed(
        &mut device,
        "B0 40 7F 90 3C 40 80 3C 00 91 40 40 41 40 42 40",
    );
    assert_eq!(states(&device), [Sustained, Held, Held, Held]);
    assert_eq!(stolen(&mut device, 1), [1]);
    assert_eq!(states(&device), [Sustained, Held, Held, Held]);
}

#[test]
fn of_two_channels_pedal_notes_that_of_the_losing_channel_goes() {
    let mut device = behind(4, &mip(TWO_EACH));
    feed(
        &mut device,
        "B0 40 7F 90 3C 40 80 3C 00 91 40 40 41 40 42 40",
    );
    feed(&mut device, "B1 40 7F 81 42 00");
    assert_eq!(states(&device), [Sustained, Held, Held, Sustained]);
    assert_eq!(stolen(&mut device, 1), [3]);
    assert_eq!(states(&device), [Sustained, Held, Held, Held]);
}

#[test]
fn the_new_notes_own_channel_gives_up_its_pedal_note() {
    let mut device = behind(4, &mip(TWO_EACH));
    // Both have two; channel 2 is above its share by its new note alone.
    feed(
        &mut device,
        "B0 40 7F B1 40 7F 90 3C 40 3E 40 91 40 40 41 40",
    );
    feed(&mut device, "80 3C 00 81 41 00");
    assert_eq!(states(&device), [Sustained, Held, Held, Sustained]);
    assert_eq!(stolen(&mut device, 2), [3, 2, 3]);
    assert_eq!(states(&device), [Sustained, Held, Held, Held]);
}

/// P1 and P2 of the rules, with pedals: the same channels lose.
#[test]
fn the_channels_of_p1_and_p2_lose_their_pedal_notes() {
    let mut device = behind(10, &mip("00 03 01 07 02 0A"));
    feed(&mut device, "90 30 40 31 40");
    feed(&mut device, "91 30 40 31 40 32 40 33 40 34 40 35 40");
    feed(&mut device, "92 30 40 31 40");
    feed(&mut device, "B0 40 7F B1 40 7F B2 40 7F");
    feed(&mut device, "80 30 00 81 35 00 82 31 00");
    assert_eq!(stolen(&mut device, 3), [7, 9]);
}

/// Sustained ones are busy: they make their channel lose.
#[test]
fn a_channel_above_its_share_by_pedal_notes_alone_loses() {
    let mut device = behind(4, &mip("00 01 01 04"));
    feed(
        &mut device,
        "B0 40 7F 90 3C 40 3E 40 80 3E 00 3C 00 91 40 40 41 40",
    );
    assert_eq!(states(&device), [Sustained, Sustained, Held, Held]);
    // Channel 2 has three then, which is its share; channel 1 has two, and its share is 1.
    assert_eq!(stolen(&mut device, 2), [0]);
}

/// Both are above their share of 1: channel 2 has the lower priority, whoever has the pedal down.
#[test]
fn the_lowest_priority_loses_and_not_the_channel_with_the_pedal_notes() {
    for (pedals, expected) in [
        ("B0 40 7F 80 3C 00 3E 00", 2),
        ("B1 40 7F 81 41 00", 3),
        ("B0 40 7F 80 3C 00 B1 40 7F 81 41 00", 3),
        ("", 2),
    ] {
        for channel in [1, 2] {
            let mut device = behind(4, &mip("00 01 01 02"));
            feed(&mut device, "90 3C 40 3E 40 91 40 40 41 40");
            feed(&mut device, pedals);
            assert_eq!(stolen(&mut device, channel), [expected], "{pedals}");
        }
    }
}

/// Channel 1 has its share of two on the pedal, the oldest of all. Channel 2 steals from itself for ever.
#[test]
fn a_channel_within_its_share_never_loses_its_pedal_notes() {
    let mut device = behind(4, &mip(TWO_EACH));
    feed(&mut device, "B0 40 7F 90 3C 40 3E 40 80 3C 00 3E 00");
    feed(&mut device, "91 40 40 41 40");
    for turn in 0..20 {
        assert_eq!(stolen(&mut device, 2), [2, 3], "turn {turn}");
        assert_eq!(states(&device), [Sustained, Sustained, Held, Held]);
        // The next turn has these keys again.
        feed(&mut device, "81 70 00 71 00 91 30 40 31 40");
    }
}

#[test]
fn number_11_falls_as_before() {
    // Channel 3 is the lowest above its share, by its new note, and has no other.
    let mut device = behind(2, &mip("00 02 01 02 02 02"));
    feed(&mut device, "B1 40 7F 91 3C 40 3E 40 81 3C 00 3E 00 92 40");
    let mut expected = record(&device);
    assert_eq!(
        device.byte(0x40),
        refused_note(Number::NoneToSteal, 3, 0x40)
    );
    expected.progress = Progress::Status(0x92);
    assert_eq!(record(&device), expected);
    // P7, with the pedal of channel 1 down.
    let mut device = behind(1, "B0 40 7F 99 24 40");
    assert_eq!(
        feed(&mut device, "90 3C 40"),
        [refused_note(Number::NoneToSteal, 1, 0x3C)]
    );
}

#[test]
fn a_releasing_one_is_taken_before_any_pedal_note() {
    let pedal_note = "B0 40 7F 90 3C 40 80 3C 00";
    let releasing = "91 40 40 81 40 00";
    for (first, second, expected) in [(pedal_note, releasing, 1), (releasing, pedal_note, 0)] {
        let mut device = behind(2, &format!("{first} {second}"));
        assert_eq!(
            feed(&mut device, "90 43 40"),
            [note(1, 0x43, expected, Was::Release)]
        );
        assert_eq!(state(&device, 1 - expected), Sustained);
    }
}

#[test]
fn the_same_key_again_releases_its_pedal_note_and_steals_none() {
    let mut device = behind(3, &chord(3));
    feed(&mut device, "80 31 00 32 00");
    assert_eq!(
        feed(&mut device, "90 32 40"),
        [note(1, 0x32, 2, Was::Release)]
    );
    assert_eq!(states(&device), [Held, Sustained, Held]);
}

#[test]
fn behind_a_pedal_that_came_up_there_is_no_theft() {
    for up in ["B0 40 00", "B0 40 3F", "B0 79 00"] {
        let mut device = behind(3, &chord(3));
        feed(&mut device, "80 31 00 32 00");
        feed(&mut device, up);
        assert_eq!(states(&device), [Held, Releasing, Releasing]);
        assert_eq!(
            feed(&mut device, "90 3C 40 3E 40"),
            [
                note(1, 0x3C, 1, Was::Release),
                note(1, 0x3E, 2, Was::Release)
            ],
            "{up}"
        );
        assert_eq!(stolen(&mut device, 1), [0], "{up}");
    }
}

/// From 64 on the key that comes up is on the pedal and is stolen; below, it releases and is taken.
#[test]
fn every_value_of_the_pedal() {
    for hold in 0..128 {
        let mut device = behind(2, &format!("B0 40 {hold:02X} 90 3C 40 40 40 80 40 00"));
        let was = if hold >= 64 {
            Was::Stolen
        } else {
            Was::Release
        };
        assert_eq!(
            feed(&mut device, "90 43 40"),
            [note(1, 0x43, 1, was)],
            "{hold}"
        );
    }
}

/// 49 is let go by its key, and then 48 and 50 by the message: all are on the pedal, and 48 was assigned first.
#[test]
fn what_a_mode_message_leaves_on_the_pedal_goes_by_assignment() {
    for number in 123..=127 {
        let mut device = behind(4, &chord(3));
        feed(
            &mut device,
            &format!("80 31 00 B0 {number:02X} 00 90 3C 40"),
        );
        assert_eq!(states(&device), [Sustained, Sustained, Sustained, Held]);
        assert_eq!(stolen(&mut device, 1), [0, 1, 2, 3], "{number}");
    }
}

/// A drum is held until its report, whatever the pedal of channel 10; its All Notes Off releases it.
#[test]
fn on_channel_10_the_oldest_held_one_goes() {
    let drums = "B9 40 7F 99 24 40 25 40 26 40 89 26 00 99 25 00";
    let mut device = behind(3, drums);
    assert_eq!(states(&device), [Held; 3]);
    assert_eq!(stolen(&mut device, 10), [0, 1, 2]);
    let mut device = behind(3, drums);
    feed(&mut device, "B9 7B 00");
    assert_eq!(
        feed(&mut device, "99 28 40"),
        [note(10, 0x28, 0, Was::Release)]
    );
}

#[test]
fn a_drum_steals_a_pedal_note() {
    let mut device = behind(3, &chord(3));
    feed(&mut device, "80 32 00");
    assert_eq!(stolen(&mut device, 10), [2, 0, 1]);
}

#[test]
fn one_generator() {
    for key_up in ["", "80 30 00"] {
        let mut device = behind(1, &chord(1));
        feed(&mut device, key_up);
        assert_eq!(stolen(&mut device, 1), [0, 0], "{key_up}");
    }
}

/// The one on the pedal goes wherever it stands, and then the oldest held one.
#[test]
fn sixty_four_generators() {
    for on_pedal in 0..64 {
        let mut device = behind(64, &chord(64));
        feed(&mut device, &format!("80 {:02X} 00", 48 + on_pedal));
        let oldest_held = u8::from(on_pedal == 0);
        assert_eq!(stolen(&mut device, 1), [on_pedal, oldest_held]);
    }
}

/// The generator that the rules have a new note of a channel, from 1, steal, worked out on the queries; none for 11.
fn by_the_rules(device: &Device, channel: u8) -> Option<u8> {
    let view = |g: u8| device.generator(g).expect("a generator");
    let of_channel = |c: u8| device.oldest_first().filter(move |&g| view(g).channel == c);
    let listed = device.table().entries().iter().rev();
    let mut unmasked = listed
        .map(|e| e.channel + 1)
        .filter(|&c| device.masked(c) == Ok(false));
    let loser = unmasked.find(|&c| {
        let count = of_channel(c).count() + usize::from(c == channel);
        count > usize::from(device.share(c).expect("a channel"))
    })?;
    let sustained = of_channel(loser).find(|&g| view(g).state == Sustained);
    sustained.or(of_channel(loser).next())
}

/// A device that four channels have played on, mostly until it was full, their pedals mostly down.
fn played_on(random: &mut Random) -> Device {
    let polyphony = 1 + random.below(64) as u8;
    let mut device = start(polyphony, 0);
    let mut shares = [(); 4].map(|_| random.below(usize::from(polyphony) + 1));
    shares.sort_unstable();
    let pairs: Vec<String> = (0..4)
        .map(|c| format!("{c:02X} {:02X}", shares[c]))
        .collect();
    feed(&mut device, &mip(&pairs.join(" ")));
    for _ in 0..4 * u16::from(polyphony) {
        let (channel, key) = (random.below(4) as u8, random.below(90) as u8);
        let message = match random.below(8) {
            0 => [0xB0 | channel, 64, if random.one_in(20) { 0 } else { 127 }],
            1 | 2 => [0x80 | channel, key, 0],
            _ => [0x90 | channel, key, 64],
        };
        for byte in message {
            device.byte(byte);
        }
    }
    device
}

/// On random devices, a new note of each channel: it steals only where all are busy, and then what the rules say.
#[test]
fn thefts_on_random_devices() {
    let (mut of_pedal_notes, mut past_older) = (0, 0);
    let mut random = Random::new(3);
    for device in (0..2000).map(|_| played_on(&mut random)) {
        let before = record(&device);
        let busy = |view: &GeneratorView| matches!(view.state, Held | Sustained);
        for channel in (1..=16).filter(|&c| device.masked(c) == Ok(false)) {
            let mut after = device;
            // No key of these devices, and none of a group.
            let answer = [0x90 | (channel - 1), 100, 64].map(|byte| after.byte(byte))[2];
            if !before.generators.iter().all(busy) {
                assert!(!answer.is_theft() && answer.number().is_none());
                continue;
            }
            let Some(g) = by_the_rules(&device, channel) else {
                assert_eq!(answer, refused_note(Number::NoneToSteal, channel, 100));
                continue;
            };
            assert_eq!(answer, note(channel, 100, g, Was::Stolen));
            let stolen = before.generators[usize::from(g)];
            of_pedal_notes += usize::from(stolen.state == Sustained);
            let oldest_first = before.oldest_first.iter();
            let mut oldest_first = oldest_first.map(|&g| before.generators[usize::from(g)]);
            let oldest = oldest_first.find(|view| view.channel == stolen.channel);
            past_older += usize::from(oldest != Some(stolen));
        }
    }
    assert!(of_pedal_notes > 200, "only {of_pedal_notes} of pedal notes");
    assert!(past_older > 150, "only {past_older} with an older one held");
}
