//! Shows that the comparison of gains can fail: wrong variants, wrong weights and calls that take the wrong numbers of
//! a channel must be found; and that it does not ask for more than R12.7 does.

use crate::channel_gains::{EXPRESSION, NAMES, NUMBERS, PAN, THREE, VOLUME};
use crate::self_test::{variants, Variant};
use crate::wrong_gains::{right, with_another_weight, with_millionths, SLIPS, WEIGHTS};
use crate::{channel_gains, gains, library, reference};
use proved::{Channel, GainsAnswer};
use random::Random;

/// Runs all of it and says what was not as it should be; nothing if all is well.
pub fn run(seed: u64) -> Vec<String> {
    let mut complaints = Vec::new();
    for Variant { name, fault, slip } in variants(wrong::GAINS, SLIPS) {
        let slip = slip.unwrap_or(|_, answer| answer);
        let found = wrong::making(fault, || difference(|call| slip(call, right(call))));
        complaints.extend(expect(name, found, "gains: "));
    }
    complaints.extend(distances());
    complaints.extend(wrong_weights());
    complaints.extend(wrong_places(seed));
    complaints.extend(others_that_count(seed));
    complaints
}

/// What the comparison finds of wrong gains, over all calls.
fn difference(wrong: impl Fn(gains::Call) -> GainsAnswer) -> Option<String> {
    let wrong = |call| library::gains_of(wrong(call));
    gains::compare(gains::all(), reference::gains, wrong).err()
}

/// Prints what was found of a wrong variant; a complaint if it was nothing or something else.
fn expect(name: &str, found: Option<String>, start: &str) -> Option<String> {
    match found {
        Some(found) if found.starts_with(start) => {
            println!("{name}: found, {found}");
            None
        }
        found => Some(format!("{name}: expected {start:?}, found {found:?}")),
    }
}

/// Right gains, and such that are wrong by less than a millionth, are no difference; a millionth and a half is one.
fn distances() -> Vec<String> {
    let cases = [(0.0, 0.0), (0.9, -0.9), (-0.9, 0.9)].map(|more| (more, false));
    let wrong = [(1.5, 0.0), (-1.5, 0.0), (0.0, 1.5), (0.0, -1.5)].map(|more| (more, true));
    let case = |((left, right), is_wrong): ((f64, f64), bool)| {
        let name = format!("{left} millionths more left, {right} right");
        let found = difference(|call| with_millionths(call, left, right));
        match is_wrong {
            true => expect(&name, found, "gains: "),
            false => found.map(|found| format!("{name}: {found}")),
        }
    };
    cases.into_iter().chain(wrong).filter_map(case).collect()
}

/// Each weight of each side, one higher and one lower.
fn wrong_weights() -> Vec<String> {
    let moved = (0..WEIGHTS).flat_map(|at| [(at, 1.0), (at, -1.0)]);
    let sides = moved.flat_map(|(at, more)| [(true, at, more), (false, at, more)]);
    let missed: Vec<String> = sides
        .filter(|&(is_left, at, more)| {
            difference(|call| with_another_weight(call, (is_left, at, more))).is_none()
        })
        .map(|(is_left, at, more)| {
            format!("weight {at} with {more} added, left: {is_left}: not found")
        })
        .collect();
    if missed.is_empty() {
        println!("each weight one higher, each one lower, of each side: found");
    }
    missed
}

/// What the comparison finds of a call over a channel's numbers.
fn channel_difference(seed: u64, wrong: impl Fn(Channel) -> GainsAnswer) -> Option<String> {
    let mut random = Random::new(seed);
    let wrong = |channel| library::gains_of(wrong(channel));
    channel_gains::compare(&mut random, reference::channel_gains, wrong).err()
}

/// A call that takes expression, volume and pan from these places.
fn taken_from([expression, volume, pan]: [usize; 3]) -> impl Fn(Channel) -> GainsAnswer {
    move |channel| right((channel[expression], channel[volume], channel[pan]))
}

/// Each of the three numbers taken from each other place, and two of them exchanged. Expression and volume count alike,
/// so that to exchange them is no difference.
fn wrong_places(seed: u64) -> Vec<String> {
    let find = |places| channel_difference(seed, taken_from(places));
    let mut complaints: Vec<String> = [THREE, [VOLUME, EXPRESSION, PAN]]
        .into_iter()
        .filter_map(|places| find(places).map(|found| format!("places {places:?}: {found}")))
        .collect();
    let exchanged = [[PAN, VOLUME, EXPRESSION], [EXPRESSION, PAN, VOLUME]];
    let taken = (0..3).flat_map(|which| (0..NUMBERS).map(move |place| (which, place)));
    let taken = taken.map(|(which, place)| {
        let mut places = THREE;
        places[which] = place;
        places
    });
    let wrong = taken.filter(|&places| places != THREE).chain(exchanged);
    complaints.extend(wrong.filter_map(|places| {
        let [expression, volume, pan] = places.map(|place| NAMES[place]);
        let name = format!("{expression} for expression, {volume} for volume, {pan} for pan");
        expect(&name, find(places), "channel gains: ")
    }));
    complaints
}

/// Each of the other ten numbers, as one that is refused above 127, and as one that makes a difference below the
/// bound.
fn others_that_count(seed: u64) -> Vec<String> {
    let unchanged = taken_from(THREE);
    let soft = |channel: Channel| {
        let [expression, volume, pan] = THREE.map(|place| channel[place]);
        with_millionths((expression, volume, pan), -0.5, -0.5)
    };
    let others = (0..NUMBERS).filter(|place| !THREE.contains(place));
    others
        .flat_map(|place| {
            let refused = channel_difference(seed, |channel| match channel[place] {
                128.. => right((255, 255, 255)),
                _ => unchanged(channel),
            });
            let odd = channel_difference(seed, |channel| match channel[place] % 2 {
                1 => soft(channel),
                _ => unchanged(channel),
            });
            let name = NAMES[place];
            [
                expect(
                    &format!("{name} above 127 refused"),
                    refused,
                    "channel gains: ",
                ),
                expect(&format!("odd {name} softer"), odd, "channel gains: "),
            ]
        })
        .flatten()
        .collect()
}
