//! What each byte of the wire means, running status and System Exclusive included (R4.1 to R4.10).

/// Bytes of a SysEx that its head takes: 7F *d* 0B 01 or 7E *d* 09 01.
pub const HEAD_BYTES: usize = 4;
/// The most bytes of pairs that a MIP message may have.
pub const PAIR_BYTES: usize = 32;
/// What is kept of a SysEx: nothing behind these bytes matters except that there was more.
const KEPT_BYTES: usize = HEAD_BYTES + PAIR_BYTES;

/// How far the message under way has come.
#[derive(Clone, Copy, Debug, PartialEq, Eq)]
pub enum Progress {
    /// No status: the next data byte is number 3.
    NoStatus,
    /// A channel message by this (running) status, waiting for its first data byte.
    Status(u8),
    /// The same with the first of two data bytes.
    StatusAndData(u8, u8),
    /// A System Common message that swallows so many more data bytes.
    Swallow(u8),
    /// Inside SysEx.
    SysEx,
}

/// What a byte completed.
#[derive(Clone, Copy, Debug)]
pub(crate) enum Completed {
    Nothing,
    /// A data byte that belongs to nothing.
    StrayData,
    /// A SysEx was cut by a status below F7.
    SysExCut,
    /// A SysEx came to its F7; its bytes are in the parser.
    SysEx,
    /// A channel message; one with a single data byte has 0 as the second.
    Message {
        status: u8,
        first: u8,
        second: u8,
    },
}

/// The bytes of a SysEx after F0: the first 36, and how many there were up to 37.
#[derive(Clone, Copy, Debug)]
pub struct SysEx {
    bytes: [u8; KEPT_BYTES],
    length: u8,
}

impl SysEx {
    const EMPTY: SysEx = SysEx {
        bytes: [0; KEPT_BYTES],
        length: 0,
    };

    fn push(&mut self, byte: u8) {
        let at = usize::from(self.length);
        if at < KEPT_BYTES {
            self.bytes[at] = byte;
            self.length += 1;
        } else {
            self.length = KEPT_BYTES as u8 + 1;
        }
    }

    /// The bytes that were kept.
    pub fn kept(&self) -> &[u8] {
        &self.bytes[..usize::from(self.length).min(KEPT_BYTES)]
    }

    /// Did more bytes come than were kept?
    pub fn overflowed(&self) -> bool {
        usize::from(self.length) > KEPT_BYTES
    }
}

#[derive(Clone, Copy, Debug)]
pub struct Parser {
    progress: Progress,
    sysex: SysEx,
}

impl Parser {
    pub(crate) const FRESH: Parser = Parser {
        progress: Progress::NoStatus,
        sysex: SysEx::EMPTY,
    };

    pub fn progress(&self) -> Progress {
        self.progress
    }

    /// The SysEx under way, or the last one.
    pub fn sysex(&self) -> &SysEx {
        &self.sysex
    }

    #[inline]
    pub(crate) fn byte(&mut self, byte: u8) -> Completed {
        match byte {
            0x00..=0x7F => self.data(byte),
            0x80..=0xF7 => self.status(byte),
            // R4.1: they do nothing, wherever they come.
            0xF8..=0xFF => Completed::Nothing,
        }
    }

    #[inline]
    fn data(&mut self, byte: u8) -> Completed {
        match self.progress {
            Progress::Status(status) if takes_two(status) => {
                self.progress = Progress::StatusAndData(status, byte);
                Completed::Nothing
            }
            Progress::Status(status) => Completed::Message {
                status,
                first: byte,
                second: 0,
            },
            Progress::StatusAndData(status, first) => {
                self.progress = Progress::Status(status);
                Completed::Message {
                    status,
                    first,
                    second: byte,
                }
            }
            Progress::SysEx => {
                self.sysex.push(byte);
                Completed::Nothing
            }
            Progress::Swallow(left) => {
                self.progress = swallow(left - 1);
                Completed::Nothing
            }
            Progress::NoStatus => Completed::StrayData,
        }
    }

    /// A status below F8 drops what is not complete (R4.4); a SysEx that it cuts has number 4 (R4.9).
    fn status(&mut self, byte: u8) -> Completed {
        let in_sysex = self.progress == Progress::SysEx;
        self.progress = match byte {
            0xF0 => {
                self.sysex.length = 0;
                Progress::SysEx
            }
            0xF1 | 0xF3 => Progress::Swallow(1),
            0xF2 => Progress::Swallow(2),
            0xF4..=0xFF => Progress::NoStatus,
            _ => Progress::Status(byte),
        };
        match (in_sysex, byte) {
            (false, _) => Completed::Nothing,
            (true, 0xF7) => Completed::SysEx,
            (true, _) => Completed::SysExCut,
        }
    }
}

/// R4.3: does a channel message take two data bytes, or one?
fn takes_two(status: u8) -> bool {
    !matches!(status & 0xF0, 0xC0 | 0xD0)
}

fn swallow(left: u8) -> Progress {
    match left {
        0 => Progress::NoStatus,
        _ => Progress::Swallow(left),
    }
}
