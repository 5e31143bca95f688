//! The structs of include/muntinorris.h, field by field. A record can be read and copied; only a start, or the begin of
//! a log, makes one, and only the calls change it.

/// Between two bytes: the status byte in force, 0 for none, the number of data bytes since, and these bytes.
#[repr(C)]
#[derive(Clone, Debug, PartialEq, Eq)]
pub struct Parser {
    pub status: u8,
    pub count: u8,
    pub bytes: [u8; 37],
}

/// A channel of the MIP table, and the polyphony needed by it and all before it.
#[repr(C)]
#[derive(Clone, Copy, Debug, PartialEq, Eq)]
pub struct Entry {
    pub channel: u8,
    pub value: u8,
}

/// The MIP table: its first `count` entries, by falling priority.
#[repr(C)]
#[derive(Clone, Debug, PartialEq, Eq)]
pub struct Table {
    pub count: u8,
    pub entries: [Entry; 16],
}

/// The thirteen numbers of a channel.
#[repr(C)]
#[derive(Clone, Copy, Debug, PartialEq, Eq)]
pub struct Channel {
    pub program: u8,
    pub modulation: u8,
    pub volume: u8,
    pub pan: u8,
    pub expression: u8,
    pub hold: u8,
    pub rpn_msb: u8,
    pub rpn_lsb: u8,
    pub bend_msb: u8,
    pub bend_lsb: u8,
    pub sensitivity: u8,
    pub bank_msb: u8,
    pub bank_lsb: u8,
}

/// The order of assignment: the first `count` numbers are the sounding generators, the oldest first.
#[repr(C)]
#[derive(Clone, Debug, PartialEq, Eq)]
pub struct Ages {
    pub count: u8,
    pub generator: [u8; 64],
}

/// The generators, by their number. A state is 0 idle, 1 held, 2 sustained, 3 releasing.
#[repr(C)]
#[derive(Clone, Debug, PartialEq, Eq)]
pub struct Generators {
    pub state: [u8; 64],
    pub channel: [u8; 64],
    pub key: [u8; 64],
    pub ages: Ages,
}

/// All but the parser; `channels` is indexed by the channel minus 1.
#[repr(C)]
#[derive(Clone, Debug, PartialEq, Eq)]
pub struct Instrument {
    pub polyphony: u8,
    pub id: u8,
    pub table: Table,
    pub channels: [Channel; 16],
    /// Of channel 11: 0 melody, 1 rhythm.
    pub kind: u8,
    pub generators: Generators,
}

/// The device record.
#[repr(C)]
#[derive(Clone, Debug, PartialEq, Eq)]
pub struct Device {
    parser: Parser,
    instrument: Instrument,
}

impl Device {
    pub fn parser(&self) -> &Parser {
        &self.parser
    }

    pub fn instrument(&self) -> &Instrument {
        &self.instrument
    }
}

/// The line of a log that is not ended: its first seven bytes, and how many of these there are.
#[repr(C)]
#[derive(Clone, Debug, PartialEq, Eq)]
pub struct LogLine {
    pub count: u8,
    pub bytes: [u8; 7],
}

/// A log up to its last 0AH; where a number has fallen, as it was before the line that it fell at, which is counted.
#[repr(C)]
#[derive(Clone, Debug, PartialEq, Eq)]
pub struct Logged {
    /// After the lines so far.
    pub device: Device,
    pub order: [u8; 16],
    /// For each place of the order: the largest number of busy generators, after a line so far, on the channels up to
    /// it.
    pub most: [u8; 16],
    /// Lines looked at so far.
    pub lines: u64,
    /// 0, or the number that fell.
    pub number: u8,
}

/// A log as far as it was given.
#[repr(C)]
#[derive(Clone, Debug, PartialEq, Eq)]
pub struct Log {
    song: Logged,
    line: LogLine,
}

impl Log {
    pub fn song(&self) -> &Logged {
        &self.song
    }

    pub fn line(&self) -> &LogLine {
        &self.line
    }
}

/// An answer in plain numbers.
#[repr(C)]
#[derive(Clone, Copy, Debug, PartialEq, Eq)]
pub struct AnswerNumbers {
    pub what: u8,
    pub number: u8,
    pub channel: u8,
    pub key: u8,
    pub generator: u8,
    pub was: u8,
}

#[repr(C)]
#[derive(Clone, Copy, Debug, PartialEq, Eq)]
pub struct GeneratorNumbers {
    pub number: u8,
    pub state: u8,
    pub channel: u8,
    pub key: u8,
}

#[repr(C)]
#[derive(Clone, Copy, Debug, PartialEq, Eq)]
pub struct MaskNumbers {
    pub number: u8,
    pub masked: u8,
}

#[repr(C)]
#[derive(Clone, Copy, Debug, PartialEq, Eq)]
pub struct ShareNumbers {
    pub number: u8,
    pub share: u8,
}

#[repr(C)]
#[derive(Clone, Copy, Debug, PartialEq, Eq)]
pub struct PitchNumbers {
    pub entry: u32,
    pub octave: i8,
    pub number: u8,
}

#[repr(C)]
#[derive(Clone, Copy, Debug, PartialEq)]
pub struct GainNumbers {
    pub left: f32,
    pub right: f32,
    pub number: u8,
}

#[repr(C)]
#[derive(Clone, Copy, Debug, PartialEq, Eq)]
pub struct SongNumbers {
    pub thefts: u32,
    pub number: u8,
}

#[repr(C)]
#[derive(Clone, Copy, Debug, PartialEq, Eq)]
pub struct MipNumbers {
    pub line: u64,
    pub number: u8,
    pub bytes: [u8; 38],
}

/// Each struct's size, and each field's place and size, in the names of the header: what the C test prints with the
/// word `print`.
pub fn layout() -> String {
    let mut lines = String::new();
    macro_rules! lay {
        ($name:literal, $type:ident { $($field:ident: $of:ty),* }) => {
            lines.push_str(&format!("{} {}\n", $name, size_of::<$type>()));
            $(
                let (place, size) = (std::mem::offset_of!($type, $field), size_of::<$of>());
                lines.push_str(&format!("{}.{} {place} {size}\n", $name, stringify!($field)));
            )*
        };
    }
    lay!("device", Device { parser: Parser, instrument: Instrument });
    lay!("parser", Parser { status: u8, count: u8, bytes: [u8; 37] });
    lay!("instrument", Instrument {
        polyphony: u8, id: u8, table: Table, channels: [Channel; 16], kind: u8, generators: Generators
    });
    lay!("table", Table { count: u8, entries: [Entry; 16] });
    lay!("entry", Entry { channel: u8, value: u8 });
    lay!("channel", Channel {
        program: u8, modulation: u8, volume: u8, pan: u8, expression: u8, hold: u8, rpn_msb: u8, rpn_lsb: u8,
        bend_msb: u8, bend_lsb: u8, sensitivity: u8, bank_msb: u8, bank_lsb: u8
    });
    lay!("generators", Generators { state: [u8; 64], channel: [u8; 64], key: [u8; 64], ages: Ages });
    lay!("ages", Ages { count: u8, generator: [u8; 64] });
    lay!("answer", AnswerNumbers { what: u8, number: u8, channel: u8, key: u8, generator: u8, was: u8 });
    lay!("generator_answer", GeneratorNumbers { number: u8, state: u8, channel: u8, key: u8 });
    lay!("mask_answer", MaskNumbers { number: u8, masked: u8 });
    lay!("share_answer", ShareNumbers { number: u8, share: u8 });
    lay!("pitch_answer", PitchNumbers { entry: u32, octave: i8, number: u8 });
    lay!("gains_answer", GainNumbers { left: f32, right: f32, number: u8 });
    lay!("song_answer", SongNumbers { thefts: u32, number: u8 });
    lay!("mip_answer", MipNumbers { line: u64, number: u8, bytes: [u8; 38] });
    lay!("log", Log { song: Logged, line: LogLine });
    lay!("logged", Logged { device: Device, order: [u8; 16], most: [u8; 16], lines: u64, number: u8 });
    lay!("log_line", LogLine { count: u8, bytes: [u8; 7] });
    lines
}
