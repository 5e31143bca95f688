//! The starting table (R2.6): the order that is worked out is the one written out, in the table and in what it does.

mod common;

use common::*;
use paper::{Entry, Was};

#[test]
fn each_of_the_sixteen_places_has_its_channel_and_p() {
    for polyphony in 1..=64 {
        let written_out = STARTING_ORDER.map(|channel| Entry {
            channel: channel - 1,
            value: polyphony,
        });
        assert_eq!(start(polyphony, 0).table().entries(), written_out);
    }
}

/// All of P is the share of channel 10, so its notes take those of the others, the lowest priority first.
#[test]
fn notes_are_lost_from_the_last_place_up() {
    let mut device = start(16, 0);
    for channel in 1..=16 {
        let played = feed(&mut device, &format!("{:02X} 24 40", 0x8F + channel));
        assert_eq!(played, [note(channel, 36, channel - 1, Was::Idle)]);
    }
    for (key, &loser) in (82..).zip(STARTING_ORDER[1..].iter().rev()) {
        let played = feed(&mut device, &format!("99 {key:02X} 40"));
        assert_eq!(played, [note(10, key, loser - 1, Was::Stolen)]);
    }
}
