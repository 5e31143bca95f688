//! What a call answers: *note*, *done*, *none*, or a number.

/// What a generator was before a note took it (R4.11).
#[derive(Clone, Copy, Debug, PartialEq, Eq)]
pub enum Was {
    Idle,
    Release,
    Stolen,
}

/// The numbers: R8.n is number n.
#[derive(Clone, Copy, Debug, PartialEq, Eq)]
#[repr(u8)]
pub enum Number {
    PolyphonyOutOfRange = 1,
    IdOutOfRange = 2,
    StrayData = 3,
    SysExCut = 4,
    MipTooLong = 5,
    MipOddOrEmpty = 6,
    MipChannelAbove15 = 7,
    MipChannelTwice = 8,
    MipValueFalls = 9,
    ChannelMasked = 10,
    NoneToSteal = 11,
    NoSuchGenerator = 12,
    GeneratorIdle = 13,
    NoSuchChannel = 14,
    LogOtherForm = 15,
    BadOrder = 16,
    LogSpoilt = 17,
    PageTooShort = 18,
    PitchOutOfRange = 21,
    LevelOutOfRange = 24,
    SongTooLong = 25,
}

/// R4.11 to R4.13: *note*, *done*, *none*, or a number. Channels count from 1 to 16 here.
#[derive(Clone, Copy, Debug, PartialEq, Eq)]
pub enum Answer {
    None,
    Done,
    Note {
        channel: u8,
        key: u8,
        generator: u8,
        was: Was,
    },
    Refused(Number),
    /// Numbers 10 and 11 have channel and key (R16.4).
    NoteRefused {
        number: Number,
        channel: u8,
        key: u8,
    },
}

impl Answer {
    /// The number, or `None` for an answer that is no refusal.
    pub fn number(self) -> Option<Number> {
        match self {
            Answer::Refused(number) | Answer::NoteRefused { number, .. } => Some(number),
            _ => None,
        }
    }

    /// Did this note take the generator of a busy one? To take a releasing one is no theft, nor is number 11.
    pub fn is_theft(self) -> bool {
        matches!(
            self,
            Answer::Note {
                was: Was::Stolen,
                ..
            }
        )
    }
}
