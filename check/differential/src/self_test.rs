//! Shows that the comparison can fail: deliberately wrong implementations and books must be found.

use crate::book::{Slip, SLIPS, SLIPS_OF_KINDS, WRONG_BOUNDS, WRONG_THEFTS};
use crate::compare::{Comparison, Failure};
use crate::record::Given;
use crate::{
    arranging_self_test, gains_self_test, hardest_song_self_test, pages_self_test, pitches,
    reference, wrong_device, wrong_pitch,
};
use paper::{Number, Pitch};
use random::Random;
use wrong::Fault;

/// Every wrong variant must be found within so many events, without a look at pages: those have a self-test of their
/// own.
const WITHIN: u64 = 1_000_000;

/// Mistakes that both sides make alike: the comparison cannot see them, the claims must. Here they must without those
/// of what a theft takes.
const SHARED: [(&str, &str); 23] = [
    ("StartingOrderByChannel", "channel 10 never had more"),
    ("StartingOrderBeginsWithOne", "yet its note-on"),
    ("StartingOrderHasTenTwice", "demand 3"),
    ("StartingOrderLacksEleven", "although a generator was free"),
    ("ReportIgnored", "the book has"),
    ("DrumNoteOffHeard", "the book has"),
    ("MaskedGeneratorsGoOn", "the book has"),
    ("SameKeyGoesOn", "demand 3"),
    ("CumulativeValueAsShare", "yet its note-on"),
    ("OldestOfAllStolen", "leaves as stolen"),
    ("ReleasingNeverTaken", "demand 3"),
    ("ReleaseRenewsAge", "its last note came later"),
    ("SilentKeepsAge", "order of age: it has"),
    ("SustainingRenewsAge", "its last note came later"),
    ("StolenStaysSustained", "the book has"),
    ("OldestSustainedOfAllStolen", "leaves as stolen"),
    ("ChannelAtItsShareLosesPedalNote", "leaves as stolen"),
    ("SustainedTakenWithReleasing", "demand 3"),
    ("ReleasingTakenForSustained", "demand 3"),
    ("PedalNoteBeforeReleasing", "although a generator was free"),
    ("SustainedNotCounted", "yet its note-on"),
    ("OnlyHeldStolen", "yet its note-on"),
    ("OnlySustainedStolen", "yet its note-on"),
];

/// Such mistakes about what a theft takes, each with the claim that finds it.
const SHARED_THEFTS: [(&str, &str); 24] = [
    ("NewNoteNotCounted", NOTE_TO_STEAL),
    ("HighestPriorityLoses", OTHER_CHANNEL),
    ("AnotherLoserSought", OTHER_CHANNEL),
    ("ChannelWithPedalNoteLoses", OTHER_CHANNEL),
    ("OldestSustainedOverShareStolen", OTHER_CHANNEL),
    ("OldestBusyStolen", PEDAL_NOTE_SPARED),
    ("HeldStolenFirst", PEDAL_NOTE_SPARED),
    ("OnePedalNoteSpared", PEDAL_NOTE_SPARED),
    ("PedalFirstOnOwnChannelAlone", PEDAL_NOTE_SPARED),
    ("PedalFirstOnOtherChannelsAlone", PEDAL_NOTE_SPARED),
    ("PedalFirstOnChannel1Alone", PEDAL_NOTE_SPARED),
    ("PedalFirstByPedalOfNewNote", PEDAL_NOTE_SPARED),
    ("PedalFirstButForDrums", PEDAL_NOTE_SPARED),
    ("NewestStolen", OLDER_SPARED),
    ("NewestSustainedStolen", OLDER_SPARED),
    ("NewestHeldStolen", OLDER_SPARED),
    ("LowestNumberedSustainedStolen", OLDER_SPARED),
    ("LowestNumberedHeldStolen", OLDER_SPARED),
    ("FirstKeyUpStolen", OLDER_SPARED),
    ("LastKeyUpStolen", OLDER_SPARED),
    ("OnlyHeldStolen", PEDAL_NOTE_SPARED),
    ("OnlySustainedStolen", NOTE_TO_STEAL),
    ("DrumsOfElevenNotCounted", OTHER_CHANNEL),
    ("DrumsOfElevenNeverStolen", NOTE_TO_STEAL),
];
const OTHER_CHANNEL: &str = "R5.8: ";
const PEDAL_NOTE_SPARED: &str = "down, is stolen although its channel had a note on the pedal";
const OLDER_SPARED: &str = "is stolen, and the oldest one is on generator";
const NOTE_TO_STEAL: &str = "R5.10: number 11 although channel";

/// Such mistakes about what controllers 120 to 127 end: each is found by the notes that the book has.
const SHARED_MODE: [&str; 27] = [
    "ValueZeroNotNeeded",
    "AllNotesOffWithAnyValue",
    "AllNotesOffIgnoresPedal",
    "DrumHoldHonoured",
    "LocalControlEndsNotes",
    "ModeMessagesIgnored",
    "OmniOffIgnored",
    "OmniOnIgnored",
    "MonoIgnored",
    "PolyIgnored",
    "AllButMonoIgnored",
    "ModeMessagesWithZeroAlone",
    "AllButMonoWithZeroAlone",
    "MonoWithZeroAlone",
    "MonoOfMoreThanSixteenChannelsIgnored",
    "ModeMessagesSilence",
    "ModeMessagesIgnorePedal",
    "ModeMessagesHonourDrumHold",
    "ModeMessagesLiftPedal",
    "ModeMessagesEndSustained",
    "ModeMessagesWithPedalUpAlone",
    "ModeMessagesSpareDrums",
    "ModeMessagesOnChannel1Alone",
    "ModeMessagesOnAllChannels",
    "OmniOnForAllChannels",
    "MonoForAsManyChannels",
    "MonoKeepsNewest",
];

/// Such mistakes about the bank and the kind of channel 11, found by demand 3 alone: without a look at rhythm queries,
/// or at what a theft takes.
const SHARED_KINDS: [&str; 92] = [
    "ElevenStartsInRhythmBank",
    "EveryChannelStartsInRhythmBank",
    "ElevenStartsAsRhythm",
    "SystemOnKeepsKind",
    "SystemOnKeepsBanks",
    "BankMsbNotStored",
    "BankBytesSwapped",
    "OtherBanksDropped",
    "ResetControllersResetsBank",
    "ResetControllersResetsBankMsb",
    "KindByBankAlone",
    "NotesReleasedByBank",
    "AnyChannelsBankTakenForElevens",
    "MaskedBanksDropped",
    "RhythmWithoutEleven",
    "ElevenAlwaysRhythm",
    "ElevenRhythmByItsBank",
    "TenMelodyWhileElevenIsRhythm",
    "TenMelodyInMelodyBank",
    "TenMadeMelody",
    "AnyChannelMadeRhythm",
    "TwelveMadeRhythmToo",
    "MaskedProgramsDropped",
    "EveryProgramOfElevenReleases",
    "EveryProgramOfTenReleases",
    "EveryProgramReleases",
    "KindByProgramOfAnyChannel",
    "KindByProgramOfTen",
    "KindByAnyChannelsBankAndProgram",
    "KindByBankOfTen",
    "KindByBankOfOne",
    "KindByBankOfTwelve",
    "KindByBankLsb",
    "KindByProgram",
    "BanksSwapped",
    "OtherBanksMakeMelody",
    "OtherBanksMakeRhythm",
    "Bank0MakesMelody",
    "Bank127MakesRhythm",
    "BanksBelowMakeRhythmAboveMelody",
    "KindNeedsLsb0",
    "KindNeedsProgram0",
    "TwelveTakenForEleven",
    "MaskedElevenKeepsKind",
    "BusyElevenKeepsKind",
    "RhythmForGood",
    "BankUsedUpByProgram",
    "RhythmTurnsToMelody",
    "MelodyBankIgnored",
    "NotesReleasedWithoutChangeOfKind",
    "ChangeOfKindLiftsPedal",
    "ChangeOfKindResetsControllers",
    "ChangeOfKindResetsChannel",
    "NotesKeptAtChangeOfKind",
    "PedalNotesKeptAtChangeOfKind",
    "KeysDownKeptAtChangeOfKind",
    "KeysUpAtChangeOfKind",
    "NotesKeptWhenMadeRhythm",
    "NotesKeptWhenMadeMelody",
    "ChangeOfKindReleasesTenToo",
    "ChangeOfKindReleasesAll",
    "ChangeOfKindReleasesTenInstead",
    "GroupGoesOnOnEleven",
    "GroupOnMelodyEleven",
    "GroupByRhythmBank",
    "GroupOnEveryChannel",
    "GroupsAcrossChannels",
    "GroupsOfTenReachEleven",
    "GroupsOfElevenReachTen",
    "GroupsReachMelodyEleven",
    "GroupsOfTenAlone",
    "SameDrumOfElevenGoesOn",
    "NoteOffEndsDrumsOfEleven",
    "NoteOffIgnoredOnMelodyEleven",
    "NoteOffIgnoredInRhythmBank",
    "PedalSustainsDrumsOfEleven",
    "VelocityZeroEndsDrumsOfEleven",
    "HoldOfElevenHonoured",
    "HoldOfMelodyElevenIgnored",
    "HoldIgnoredInRhythmBank",
    "AllNotesOffHonoursHoldOfEleven",
    "ModeMessagesHonourHoldOfEleven",
    "AllNotesOffSparesDrumsOfEleven",
    "ModeMessagesSpareDrumsOfEleven",
    "AllNotesOffOnTenEndsElevensToo",
    "ResetControllersMakesMelody",
    "ResetControllersChangesKind",
    "NewTableMakesMelody",
    "NewTableChangesKind",
    "NewTableResetsBanks",
    "MaskedDrumsOfElevenGoOn",
    "DrumsOfElevenCountedForTen",
];

/// Such mistakes of the rhythm query, found by the book's kind.
const SHARED_QUERIES: [(&str, &str); 7] = [
    ("RhythmQueryOnTheWire", BOOK_KNOWS),
    ("RhythmQueryOfAnyNumber", BOOK_KNOWS),
    ("RhythmQueryWithoutEleven", BOOK_KNOWS),
    ("RhythmQueryOfElevenAlone", BOOK_KNOWS),
    ("RhythmQueryByBank", BOOK_KNOWS),
    ("RhythmQueryOfUnmaskedAlone", BOOK_KNOWS),
    ("RhythmQueryOfNoneIsRhythm", BOOK_KNOWS),
];
const BOOK_KNOWS: &str = "rhythm query: ";

/// A wrong variant: by a fault of paper's rules, by a slip beside them, or by both.
#[derive(Clone, Copy)]
pub struct Variant<Slip> {
    pub name: &'static str,
    pub fault: Option<Fault>,
    pub slip: Option<Slip>,
}

/// The variants of these faults and slips; those of one name are one.
pub fn variants<Slip: Copy>(
    faults: &[Fault],
    slips: &[(&'static str, Slip)],
) -> Vec<Variant<Slip>> {
    let slip = |name| slips.iter().find(|row| row.0 == name).map(|row| row.1);
    let variant = |name, fault| Variant {
        name,
        fault,
        slip: slip(name),
    };
    let by_fault = faults.iter().map(|&fault| variant(fault.name, Some(fault)));
    let alone = slips.iter().map(|row| row.0);
    let alone = alone.filter(|&name| faults.iter().all(|fault| fault.name != name));
    by_fault
        .chain(alone.map(|name| variant(name, None)))
        .collect()
}

/// Runs all of it and says what was not found; nothing if all is well.
pub fn run(seed: u64) -> Vec<String> {
    let mut complaints = wrong_devices(seed);
    complaints.extend(wrong_books(seed));
    complaints.extend(pages_self_test::run(seed));
    complaints.extend(wrong_pitches(seed));
    complaints.extend(wrong_entries(seed));
    complaints.extend(gains_self_test::run(seed));
    complaints.extend(hardest_song_self_test::run(seed));
    complaints.extend(arranging_self_test::run(seed));
    complaints
}

/// Every wrong device on one side, and those on both that the claims must find.
fn wrong_devices(seed: u64) -> Vec<String> {
    let mut complaints = Vec::new();
    let right = Comparison {
        start_a: reference::start,
        start_b: wrong_device::start,
        slip: None,
        pages: true,
    };
    if let (_, Some(failure)) = right.run(seed, WITHIN) {
        complaints.push(format!("no mistake at all: {failure}"));
    }
    let faults = [wrong::DEVICE, wrong::SECOND_DRUMS].concat();
    let devices = variants(&faults, &wrong_device::GAINS_SLIPS);
    for variant in &devices {
        complaints.extend(expect(variant.name, "", one_side(variant, seed)));
    }
    let shared_mode = SHARED_MODE.map(|name| (name, "the book has"));
    let shared_kinds = SHARED_KINDS.map(|name| (name, "demand 3"));
    let shared = SHARED.into_iter().chain(shared_mode).chain(shared_kinds);
    let shared = shared.map(|row| (row, Some(Slip::Thefts)));
    let without_slip = SHARED_THEFTS.into_iter().chain(SHARED_QUERIES);
    let without_slip = without_slip.map(|row| (row, None));
    for ((name, claim), slip) in shared.chain(without_slip) {
        let variant = devices.iter().find(|variant| variant.name == name);
        let found = variant.and_then(|variant| both_sides(variant, slip, seed));
        complaints.extend(expect(&format!("{name} on both sides"), claim, found));
    }
    complaints
}

/// Books that forget a rule, and claims in a wrong form, beside right devices.
fn wrong_books(seed: u64) -> Vec<String> {
    let books = SLIPS.into_iter().chain(SLIPS_OF_KINDS);
    let books = books.map(|slip| (slip, "demand 3"));
    let bounds = WRONG_BOUNDS.map(|slip| (slip, "R13.2"));
    let wrong = books.chain(bounds).chain(WRONG_THEFTS);
    let expected = |(slip, claim)| {
        let name = format!("book with {slip:?} wrong");
        expect(&name, claim, wrong_book(slip, seed))
    };
    wrong.filter_map(expected).collect()
}

/// Every wrong variant of a pitch, on one side.
fn wrong_pitches(seed: u64) -> Vec<String> {
    let mut complaints = Vec::new();
    let right = |call| wrong_pitch::pitch(call, |_, answer| answer);
    if let Some(found) = pitch_difference(right, seed) {
        complaints.push(format!("no mistake at all: {found}"));
    }
    for Variant { name, fault, slip } in variants(wrong::PITCH, wrong_pitch::SLIPS) {
        let slip = slip.unwrap_or(|_, answer| answer);
        let wrong = |call| wrong_pitch::pitch(call, slip);
        match wrong::making(fault, || pitch_difference(wrong, seed)) {
            Some(found) if found.starts_with("pitch: ") => println!("{name}: found, {found}"),
            found => complaints.push(format!("{name}: expected \"pitch: \", found {found:?}")),
        }
    }
    complaints
}

/// Each entry of the table, one higher and one lower.
fn wrong_entries(seed: u64) -> Vec<String> {
    let places = (0..wrong_pitch::ENTRIES).flat_map(|at| [(at, 1), (at, -1)]);
    let missed: Vec<String> = places
        .filter(|&(at, more)| {
            let slip = |_, answer| wrong_pitch::with_another_entry(answer, at, more);
            pitch_difference(|call| wrong_pitch::pitch(call, slip), seed).is_none()
        })
        .map(|(at, more)| format!("entry {at} with {more} added: not found"))
        .collect();
    if missed.is_empty() {
        println!("each entry one higher, each one lower: found");
    }
    missed
}

/// What the sample finds of a wrong pitch.
fn pitch_difference(
    wrong: impl Fn(pitches::Call) -> Given<Result<Pitch, Number>>,
    seed: u64,
) -> Option<String> {
    let mut random = Random::new(seed);
    pitches::compare(pitches::sample(&mut random), reference::pitch, wrong).err()
}

type WrongDevice = Variant<wrong_device::GainsSlip>;

fn one_side(variant: &WrongDevice, seed: u64) -> Option<Failure> {
    let comparison = Comparison {
        start_a: reference::start,
        start_b: |polyphony, id| wrong_device::start_with_gains(variant.slip, polyphony, id),
        slip: None,
        pages: false,
    };
    wrong::making(variant.fault, || comparison.run(seed, WITHIN).1)
}

fn both_sides(variant: &WrongDevice, slip: Option<Slip>, seed: u64) -> Option<Failure> {
    let comparison = Comparison {
        start_a: wrong_device::start,
        start_b: wrong_device::start,
        slip,
        pages: false,
    };
    wrong::making(variant.fault, || comparison.run(seed, WITHIN).1)
}

fn wrong_book(slip: Slip, seed: u64) -> Option<Failure> {
    let comparison = Comparison {
        start_a: reference::start,
        start_b: reference::start,
        slip: Some(slip),
        pages: false,
    };
    comparison.run(seed, WITHIN).1
}

/// Prints what was found of a wrong variant; a complaint if it was nothing or something else.
fn expect(name: &str, part: &str, failure: Option<Failure>) -> Option<String> {
    match failure {
        Some(failure) if failure.what.contains(part) => {
            println!("{name}: found at event {}", failure.event);
            None
        }
        Some(failure) => Some(format!("{name}: expected \"{part}\", found {failure}")),
        None => Some(format!("{name}: not found within {WITHIN} events")),
    }
}

#[test]
fn every_wrong_variant_is_found() {
    assert_eq!(run(1), Vec::<String>::new());
}
