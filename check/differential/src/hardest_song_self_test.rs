//! Shows that the comparison of songs can fail: wrong variants must be found, without a look at the documented bytes
//! (R13.5); other songs, which R13.3 leaves free, must pass so, and be found by those bytes. Wrong bounds must be found
//! as well.

use crate::hardest_song::{calls, compare, few_calls, short, Call, HeldAgainst};
use crate::most_thefts;
use crate::self_test::{variants, Variant};
use crate::wrong_song::{write, Count, Slip, FREE_SLIPS, SLIPS};

/// Runs all of it and says what was not as it should be; nothing if all is well.
pub fn run(seed: u64) -> Vec<String> {
    let mut complaints = Vec::new();
    let (wrong, free) = (
        variants(wrong::SONG, SLIPS),
        variants(wrong::FREE_SONG, FREE_SLIPS),
    );
    for count in [Count::ByPlaying, Count::ByTheFormula] {
        complaints.extend(must_pass(RIGHT, count, HeldAgainst::DocumentedBytes));
        for &variant in &wrong {
            complaints.extend(must_be_found(variant, count, HeldAgainst::Ticket));
        }
        for &variant in &free {
            complaints.extend(must_be_found(variant, count, HeldAgainst::DocumentedBytes));
        }
    }
    for variant in free {
        complaints.extend(must_pass(variant, Count::ByPlaying, HeldAgainst::Ticket));
    }
    complaints.extend(wrong_bounds(seed));
    complaints
}

const RIGHT: Variant<Slip> = Variant {
    name: "no mistake",
    fault: None,
    slip: None,
};

/// What these calls find of a variant.
fn difference(
    calls: impl Iterator<Item = Call>,
    (variant, count): (Variant<Slip>, Count),
    against: HeldAgainst,
) -> Option<String> {
    let wrong = |call, memory: &mut _| write(variant.slip, count, call, memory);
    wrong::making(variant.fault, || compare(calls, against, wrong).err())
}

/// A complaint where something is found, by calls that are not all, since nothing ends them early.
fn must_pass(variant: Variant<Slip>, count: Count, against: HeldAgainst) -> Option<String> {
    let calls = few_calls().chain([1, 64].into_iter().flat_map(short));
    let found = difference(calls, (variant, count), against)?;
    let name = variant.name;
    Some(format!("{name} must pass, counted {count:?}: {found}"))
}

/// Prints what was found of a wrong variant; a complaint if it was nothing or something else.
fn must_be_found(variant: Variant<Slip>, count: Count, against: HeldAgainst) -> Option<String> {
    let (name, part) = match against {
        HeldAgainst::Ticket => (variant.name, ""),
        HeldAgainst::DocumentedBytes => (variant.name, "in the documented song"),
    };
    match difference(calls(), (variant, count), against) {
        Some(found) if found.starts_with("song: ") && found.contains(part) => {
            println!("{name}, counted {count:?}: found, {found}");
            None
        }
        found => Some(format!(
            "{name}, counted {count:?}: expected \"song: .. {part}\", found {found:?}"
        )),
    }
}

/// Bounds that are too low somewhere: some list does worse.
fn wrong_bounds(seed: u64) -> Vec<String> {
    let bounds: [(&str, most_thefts::Bound); 4] = [
        ("one theft less", |p, n| {
            paper::most_thefts(p, n).saturating_sub(1)
        }),
        ("one byte less", |p, n| paper::most_thefts(p, n - 1)),
        ("three bytes a note", |p, n| {
            (n / 3).saturating_sub(p.into())
        }),
        ("one theft less of P 64 alone", |p, n| {
            paper::most_thefts(p, n).saturating_sub(usize::from(p == 64))
        }),
    ];
    let missed = |&(name, bound): &(&str, most_thefts::Bound)| {
        let found = most_thefts::hold(seed, bound).err();
        match found {
            Some(found) if found.starts_with("most thefts: ") => {
                let words = found.split(": [").next().unwrap_or_default();
                println!("bound with {name}: found, {words}");
                None
            }
            found => Some(format!("bound with {name}: found {found:?}")),
        }
    };
    bounds.iter().filter_map(missed).collect()
}
