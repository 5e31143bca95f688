//! What can be wrong about a pitch beside its rules (that is in `wrong`): what a refused call answers, single entries.

use crate::library;
use crate::pitches::Call;
use crate::record::Given;
use paper::{Number, Pitch};
use proved::PitchAnswer;

pub const ENTRIES: usize = 192;

/// The answer in the header's form, so that one that has no meaning can be given too.
type Slip = fn(Call, PitchAnswer) -> PitchAnswer;

#[rustfmt::skip]
pub const SLIPS: &[(&str, Slip)] = &[
    ("RefusedYetComputed", |call, answer| refused(answer, PitchAnswer { number: 21, ..computed(call) })),
    ("RefusedWithZeros", |_, answer| refused(answer, PitchAnswer { entry: 0, ..answer })),
    ("RefusedInOctave1", |_, answer| refused(answer, PitchAnswer { octave: 1, ..answer })),
    ("RefusedWithoutNumber", |_, answer| refused(answer, PitchAnswer { number: 0, ..answer })),
    ("RefusalNumbered20", |_, answer| refused(answer, PitchAnswer { number: 20, ..answer })),
    ("RefusalNumbered14", |_, answer| refused(answer, PitchAnswer { number: 14, ..answer })),
    ("OctaveOfTheKeyAlone", |(key, ..), answer| accepted(answer, PitchAnswer { octave: (key / 12) as i8, ..answer })),
    ("FirstEntryOneHigher", |_, answer| with_another_entry(answer, 0, 1)),
    ("MiddleEntryOneHigher", |_, answer| with_another_entry(answer, ENTRIES / 2, 1)),
    ("LastEntryOneHigher", |_, answer| with_another_entry(answer, ENTRIES - 1, 1)),
    ("FirstEntryOneLower", |_, answer| with_another_entry(answer, 0, -1)),
    ("MiddleEntryOneLower", |_, answer| with_another_entry(answer, ENTRIES / 2, -1)),
    ("LastEntryOneLower", |_, answer| with_another_entry(answer, ENTRIES - 1, -1)),
];

fn refused(answer: PitchAnswer, other: PitchAnswer) -> PitchAnswer {
    if answer.number == 0 {
        answer
    } else {
        other
    }
}

fn accepted(answer: PitchAnswer, other: PitchAnswer) -> PitchAnswer {
    if answer.number == 0 {
        other
    } else {
        answer
    }
}

/// What a refused call would give.
fn computed((key, sensitivity, bend): Call) -> PitchAnswer {
    let bent = 16 * i32::from(sensitivity) * (i32::from(bend) - 8192);
    let Pitch { octave, entry } = Pitch::at(16 * i32::from(key) + bent.div_euclid(8192));
    PitchAnswer {
        entry,
        octave,
        number: 0,
    }
}

/// The answer of a table with one entry so much higher.
pub fn with_another_entry(answer: PitchAnswer, at: usize, more: i32) -> PitchAnswer {
    let entry = answer.entry.wrapping_add_signed(more);
    match answer.entry == Pitch::at(at as i32).entry {
        true => accepted(answer, PitchAnswer { entry, ..answer }),
        false => answer,
    }
}

/// The pitch by the fault that is being made, and this slip.
pub fn pitch(
    call: Call,
    slip: impl Fn(Call, PitchAnswer) -> PitchAnswer,
) -> Given<Result<Pitch, Number>> {
    let (key, sensitivity, bend) = call;
    let answer = match wrong::pitch(key, sensitivity, bend) {
        Ok(wrong::Pitch { octave, entry }) => PitchAnswer {
            entry,
            octave,
            number: 0,
        },
        Err(number) => PitchAnswer {
            entry: 65536,
            octave: 0,
            number: number as u8,
        },
    };
    library::pitch_of(slip(call, answer))
}
