//! Shows that the comparison of pages can fail: wrong variants must be found, on one side, and on both sides alike,
//! where only the limit of R15.7, the memory, the queries and the book can find them.

use crate::compare::{Comparison, Failure};
use crate::self_test::{variants, Variant};
use crate::wrong_page::{Slip, SLIPS};
use crate::{reference, wrong_device};
use paper::PAGE_BYTES;

/// Every wrong variant must be found within so many events.
const WITHIN: u64 = 1_000_000;

/// What finds a mistake that both sides make.
const FINDERS: [(&str, &str); 7] = [
    ("both sides answer", "by the limit"),
    ("was written", "by memory that must not be written"),
    ("is no count", "by the form of a count"),
    ("generators are busy", "by the sum of the counts"),
    ("by the queries", "by the queries"),
    ("by the book", "by the book"),
    ("\" against \"", "by rubbish that was left"),
];

/// Runs all of it and says what was not as it should be; nothing if all is well.
pub fn run(seed: u64) -> Vec<String> {
    let mut complaints = Vec::new();
    let mut finders = [0; FINDERS.len()];
    let variants = variants(wrong::PAGE, SLIPS);
    for &variant in &variants {
        let name = variant.name;
        complaints.extend(must_be_found(name, one_side(variant, seed)));
        let found = both_sides(variant, seed);
        let finder = found.as_ref().and_then(|failure| finder(&failure.what));
        finder.into_iter().for_each(|finder| finders[finder] += 1);
        complaints.extend(must_be_found(&format!("{name} on both sides"), found));
    }
    complaints.extend(wrong_bytes(seed));
    let idle = FINDERS.iter().zip(finders).filter(|row| row.1 == 0);
    complaints.extend(idle.map(|((_, name), _)| format!("no page on both sides was found {name}")));
    if complaints.is_empty() {
        let rows = FINDERS.iter().zip(finders);
        let rows: Vec<String> = rows.map(|((_, name), n)| format!("{n} {name}")).collect();
        println!(
            "{} mistakes about pages: each found; on both sides {}",
            variants.len(),
            rows.join(", ")
        );
    }
    complaints
}

/// Which of `FINDERS` found it. Where neither side writes a byte, they hold different rubbish.
fn finder(what: &str) -> Option<usize> {
    FINDERS.iter().position(|(words, _)| what.contains(words))
}

/// Each byte of the page one higher.
fn wrong_bytes(seed: u64) -> Vec<String> {
    let missed = |at: &usize| {
        let wrong = Variant {
            name: "one byte",
            fault: None,
            slip: Some(Slip::Byte(*at)),
        };
        let found = [one_side(wrong, seed), both_sides(wrong, seed)];
        !found.iter().all(|found| is_of_a_page(found.as_ref()))
    };
    let missed: Vec<String> = (0..PAGE_BYTES)
        .filter(missed)
        .map(|at| format!("byte {at} of a page one higher: not found"))
        .collect();
    if missed.is_empty() {
        println!("each byte of a page one higher, on one side and on both: found");
    }
    missed
}

fn one_side(variant: Variant<Slip>, seed: u64) -> Option<Failure> {
    let comparison = Comparison {
        start_a: reference::start,
        start_b: |polyphony, id| wrong_device::start_with_page(variant.slip, polyphony, id),
        slip: None,
        pages: true,
    };
    wrong::making(variant.fault, || comparison.run(seed, WITHIN).1)
}

fn both_sides(variant: Variant<Slip>, seed: u64) -> Option<Failure> {
    let comparison = Comparison {
        start_a: |polyphony, id| wrong_device::start_with_page(variant.slip, polyphony, id),
        start_b: |polyphony, id| wrong_device::start_with_page(variant.slip, polyphony, id),
        slip: None,
        pages: true,
    };
    wrong::making(variant.fault, || comparison.run(seed, WITHIN).1)
}

fn is_of_a_page(found: Option<&Failure>) -> bool {
    found.is_some_and(|failure| failure.what.starts_with("page: "))
}

/// Prints what was found of a wrong variant; a complaint if it was nothing or something else.
fn must_be_found(name: &str, found: Option<Failure>) -> Option<String> {
    match found {
        Some(failure) if is_of_a_page(Some(&failure)) => {
            println!("{name}: found at event {}, {}", failure.event, failure.what);
            None
        }
        Some(failure) => Some(format!("{name}: expected \"page: \", found {failure}")),
        None => Some(format!("{name}: not found within {WITHIN} events")),
    }
}
