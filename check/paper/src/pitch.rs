//! The pitch of a note (R11.1 to R11.5), an octave and an entry of a table that covers one octave.

use crate::answer::Number;

/// Steps of a semitone: positions count its sixteenths (R11.1).
const SEMITONE: i32 = 16;
const OCTAVE: i32 = 12 * SEMITONE;
/// The bend at rest, and how far it goes from there.
const CENTRE: i32 = 8192;

/// R11.2, a semitone in two rows each. tests/pitch.rs holds every entry against the rule.
#[rustfmt::skip]
const ENTRIES: [u32; OCTAVE as usize] = [
    65536, 65773, 66010, 66249, 66489, 66729, 66971, 67213,
    67456, 67700, 67945, 68190, 68437, 68685, 68933, 69182,
    69432, 69684, 69936, 70189, 70442, 70697, 70953, 71209,
    71467, 71725, 71985, 72245, 72507, 72769, 73032, 73296,
    73561, 73827, 74094, 74362, 74631, 74901, 75172, 75444,
    75717, 75991, 76265, 76541, 76818, 77096, 77375, 77655,
    77935, 78217, 78500, 78784, 79069, 79355, 79642, 79930,
    80219, 80509, 80800, 81093, 81386, 81680, 81976, 82272,
    82570, 82868, 83168, 83469, 83771, 84074, 84378, 84683,
    84989, 85297, 85605, 85915, 86225, 86537, 86850, 87164,
    87480, 87796, 88113, 88432, 88752, 89073, 89395, 89718,
    90043, 90369, 90695, 91023, 91353, 91683, 92015, 92347,
    92681, 93017, 93353, 93691, 94029, 94370, 94711, 95053,
    95397, 95742, 96088, 96436, 96785, 97135, 97486, 97839,
    98193, 98548, 98904, 99262, 99621, 99981, 100343, 100706,
    101070, 101435, 101802, 102170, 102540, 102911, 103283, 103657,
    104031, 104408, 104785, 105164, 105545, 105926, 106309, 106694,
    107080, 107467, 107856, 108246, 108637, 109030, 109425, 109820,
    110217, 110616, 111016, 111418, 111821, 112225, 112631, 113038,
    113447, 113857, 114269, 114682, 115097, 115514, 115931, 116351,
    116771, 117194, 117618, 118043, 118470, 118898, 119328, 119760,
    120193, 120628, 121064, 121502, 121941, 122382, 122825, 123269,
    123715, 124162, 124611, 125062, 125514, 125968, 126424, 126881,
    127340, 127801, 128263, 128727, 129192, 129660, 130129, 130599,
];

/// A pitch: the entry times 2 to the power of the octave.
#[derive(Clone, Copy, Debug, PartialEq, Eq)]
pub struct Pitch {
    /// From -2 to 12.
    pub octave: i8,
    /// From 65536 on, below its double.
    pub entry: u32,
}

impl Pitch {
    /// R11.5: what stands beside number 21.
    pub const REFUSED: Pitch = Pitch {
        octave: 0,
        entry: 65536,
    };

    /// The pitch at a position, counted from that of key 0 at rest. Octaves are those of an `i8`.
    pub fn at(position: i32) -> Pitch {
        Pitch {
            octave: position.div_euclid(OCTAVE) as i8,
            entry: ENTRIES[position.rem_euclid(OCTAVE) as usize],
        }
    }
}

/// The pitch of a key, with its channel's bend sensitivity in semitones and its bend, 0 to 16383.
pub fn pitch(key: u8, sensitivity: u8, bend: u16) -> Result<Pitch, Number> {
    if key > 127 || sensitivity > 24 || bend > 16383 {
        return Err(Number::PitchOutOfRange);
    }
    let bent = SEMITONE * i32::from(sensitivity) * (i32::from(bend) - CENTRE);
    // The floor: a bend down is never rounded up, as `/` would do.
    Ok(Pitch::at(
        SEMITONE * i32::from(key) + bent.div_euclid(CENTRE),
    ))
}
