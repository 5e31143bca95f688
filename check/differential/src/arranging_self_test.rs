//! Shows that the comparison of logs can fail: wrong variants must be found, and messages that a device does not take.

use crate::arranging::{Comparison, Readers};
use crate::arranging_sides::{Arranger, Reference};
use crate::self_test::{variants, Variant};
use crate::wrong_log::{Slip, WrongLog, WrongWhole, RECORD_SLIPS, SLIPS};

/// Every wrong variant must be found within so many logs, as many as a run has.
const WITHIN: u64 = 60_000;
/// And a right one must pass so many: all that are always the same, and some thousands of others.
const RIGHT: u64 = 40_000;

/// Runs all of it and says what was not as it should be; nothing if all is well.
pub fn run(seed: u64) -> Vec<String> {
    let readers = Readers::new(seed);
    let mut complaints = Vec::new();
    let mut right = Comparison::new(WrongLog::new(None), &readers);
    if let Err(found) = right.run(seed, RIGHT) {
        complaints.push(format!("no mistake about logs at all: {found}"));
    }
    let logs = variants(wrong::LOG, SLIPS);
    let record_alone = variants(wrong::LOG_RECORD, RECORD_SLIPS);
    for variant in logs.iter().chain(&record_alone) {
        let wrong = |slip| Comparison::new(WrongLog::new(slip), &readers);
        complaints.extend(must_be_found(variant.name, variant, wrong, seed));
    }
    for variant in &logs {
        let name = format!("{} in whole logs alone", variant.name);
        let wrong = |slip| {
            let (right, wrong) = (Reference::new(), WrongLog::new(slip));
            Comparison::new(WrongWhole { right, wrong }, &readers)
        };
        complaints.extend(must_be_found(&name, variant, wrong, seed));
    }
    complaints.extend(wrong_messages(&readers, seed));
    if complaints.is_empty() {
        println!(
            "{} mistakes about logs: each found, and {} of them in whole logs alone",
            logs.len() + record_alone.len(),
            logs.len()
        );
    }
    complaints
}

/// Prints what was found of a wrong variant; a complaint if it was nothing or something else.
fn must_be_found<'a, Side: Arranger>(
    name: &str,
    variant: &Variant<Slip>,
    wrong: impl Fn(Option<Slip>) -> Comparison<'a, Side>,
    seed: u64,
) -> Option<String> {
    match wrong::making(variant.fault, || wrong(variant.slip).run(seed, WITHIN)) {
        Err(found) if found.starts_with("log: ") => {
            println!("{name}: found, {found}");
            None
        }
        found => Some(format!("{name}: expected \"log: \", found {found:?}")),
    }
}

/// Messages that no device may take for a right one.
fn wrong_messages(readers: &Readers, seed: u64) -> Vec<String> {
    let mut right = vec![0xF0, 0x7F, 0x7F, 0x0B, 0x01];
    right.extend((0..16).flat_map(|channel| [channel, channel + 1]));
    right.push(0xF7);
    let changed = |at: usize, byte: u8| {
        let mut message = right.clone();
        message[at] = byte;
        message
    };
    let wrong = [
        ("a channel twice", changed(7, 0)),
        ("a channel above 15", changed(5, 16)),
        ("a falling value", changed(36, 3)),
        ("no end", changed(37, 0)),
        ("another sub-ID", changed(3, 0x0A)),
    ];
    let mut random = random::Random::new(seed);
    let mut missed: Vec<String> = wrong
        .iter()
        .filter(|(_, message)| readers.take(message, &mut random).is_ok())
        .map(|(name, _)| format!("a message with {name}: taken"))
        .collect();
    missed.extend(readers.take(&right, &mut random).err());
    missed
}
