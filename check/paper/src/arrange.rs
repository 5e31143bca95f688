//! The MIP message of a song, worked out from the log that its arranger has (R14.1 to R14.10).
//!
//! The log is read as it comes and nothing of it is kept but the line that has not ended, so that a line costs the same
//! wherever it stands.

use crate::answer::{Answer, Number};
use crate::device::Device;
use crate::parser::Progress;

/// R14.2: the fresh device that plays the log.
const POLYPHONY: u8 = 64;
const ID: u8 = 0;

/// R14.4: the message's length.
pub const MESSAGE_BYTES: usize = 38;
/// R14.1: what ends a line.
const LINE_END: u8 = 0x0A;
/// So many bytes of a line are kept. A right line has five at most, so that what is cut off cannot make one right.
pub const LINE_BYTES: usize = 7;

/// What a line says (R14.1).
#[derive(Clone, Copy, Debug, PartialEq, Eq)]
pub enum Event {
    Byte(u8),
    /// The end of a generator.
    Report(u8),
}

impl Event {
    /// R14.1: a line without its 0A, `b,` and a byte or `e,` and a generator.
    pub fn read(line: &[u8]) -> Option<Event> {
        match line {
            [b'b', b',', digits @ ..] => decimal(digits, 255).map(Event::Byte),
            [b'e', b',', digits @ ..] => decimal(digits, 63).map(Event::Report),
            _ => None,
        }
    }
}

/// R14.1: a decimal number without leading zeros, at most this.
fn decimal(digits: &[u8], most: u16) -> Option<u8> {
    let (first, rest) = digits.split_first()?;
    let leading_zero = *first == b'0' && !rest.is_empty();
    if leading_zero || rest.len() > 2 || !digits.iter().all(u8::is_ascii_digit) {
        return None;
    }
    let number = digits
        .iter()
        .fold(0, |number, digit| 10 * number + u16::from(digit - b'0'));
    (number <= most).then_some(number as u8)
}

/// The line that has not ended: its first bytes.
#[derive(Clone, Copy, Debug, PartialEq, Eq)]
struct Line {
    bytes: [u8; LINE_BYTES],
    count: u8,
}

impl Line {
    const EMPTY: Line = Line {
        bytes: [0; LINE_BYTES],
        count: 0,
    };

    fn push(&mut self, byte: u8) {
        if let Some(place) = self.bytes.get_mut(usize::from(self.count)) {
            *place = byte;
            self.count += 1;
        }
    }

    fn kept(&self) -> &[u8] {
        &self.bytes[..usize::from(self.count)]
    }
}

/// What a log yields.
#[derive(Clone, Copy, Debug, PartialEq, Eq)]
pub struct Arranged {
    /// The last line that was looked at, from 1: that of the number, or how many there are; 0 where the order is wrong.
    pub line: u64,
    pub message: Result<[u8; MESSAGE_BYTES], Number>,
}

/// A log as far as it was read.
#[derive(Clone, Copy, Debug)]
pub struct Log {
    device: Device,
    /// Channels 1 to 16; zeros where the order is wrong.
    order: [u8; 16],
    /// For each place of the order the largest joint count so far.
    most: [u8; 16],
    lines: u64,
    number: Option<Number>,
    line: Line,
}

impl Log {
    /// A log for this order, which is judged before the log (R8.16).
    pub fn begin(order: &[u8]) -> Log {
        let right = order_of_all(order);
        Log {
            device: Device::start(POLYPHONY, ID).0,
            order: right.unwrap_or([0; 16]),
            most: [0; 16],
            lines: 0,
            number: right.is_none().then_some(Number::BadOrder),
            line: Line::EMPTY,
        }
    }

    /// Reads on: a part of the log, cut anywhere.
    pub fn part(&mut self, part: &[u8]) -> Option<Number> {
        for &byte in part {
            match byte {
                LINE_END => self.line_ends(),
                _ => self.line.push(byte),
            }
        }
        self.number
    }

    /// R14.6: the first number decides. Behind it lines end, and that is all.
    #[inline]
    fn line_ends(&mut self) {
        let line = std::mem::replace(&mut self.line, Line::EMPTY);
        if self.number.is_some() {
            return;
        }
        self.lines = self.lines.saturating_add(1);
        self.number = match Event::read(line.kept()) {
            Some(event) => self.play(event).err(),
            None => Some(Number::LogOtherForm),
        };
    }

    /// Plays an event, but for one that is number 17.
    fn play(&mut self, event: Event) -> Result<(), Number> {
        if self.ends_mip(event) || self.loses_note(event) {
            return Err(Number::LogSpoilt);
        }
        let answer = take(&mut self.device, event);
        // Nothing but a note makes a generator busy, so that no count grows by anything else.
        if matches!(answer, Answer::Note { .. }) {
            self.count();
        }
        Ok(())
    }

    /// R14.6: does a MIP message for 7F or 0 end here, accepted or not?
    fn ends_mip(&self, event: Event) -> bool {
        let parser = self.device.parser();
        event == Event::Byte(0xF7)
            && parser.progress() == Progress::SysEx
            && matches!(parser.sysex().kept(), [0x7F, 0x7F | ID, 0x0B, 0x01, ..])
    }

    /// R14.6: a theft or number 11. Only where every generator is busy; there the event is tried on a copy.
    fn loses_note(&self, event: Event) -> bool {
        if !self.device.is_full() {
            return false;
        }
        let mut copy = self.device;
        let answer = take(&mut copy, event);
        answer.is_theft() || answer.number() == Some(Number::NoneToSteal)
    }

    /// R14.5: the most busy generators so far, on each channel and those before it together.
    fn count(&mut self) {
        let mut busy = 0;
        for (most, channel) in self.most.iter_mut().zip(self.order) {
            busy += self.device.busy_count(channel - 1);
            *most = busy.max(*most);
        }
    }

    /// What the log yields if it ends here. A line without its 0A is of another form (R14.1).
    pub fn end(&self) -> Arranged {
        match (self.number, self.line.count) {
            (Some(number), _) => Arranged {
                line: self.lines,
                message: Err(number),
            },
            (None, 0) => Arranged {
                line: self.lines,
                message: Ok(self.message()),
            },
            (None, _) => Arranged {
                line: self.lines.saturating_add(1),
                message: Err(Number::LogOtherForm),
            },
        }
    }

    fn message(&self) -> [u8; MESSAGE_BYTES] {
        let mut message = [0; MESSAGE_BYTES];
        message[..5].copy_from_slice(&[0xF0, 0x7F, 0x7F, 0x0B, 0x01]);
        let pairs = message[5..].chunks_exact_mut(2);
        for (pair, (channel, value)) in pairs.zip(self.order.into_iter().zip(self.most)) {
            pair.copy_from_slice(&[channel - 1, value]);
        }
        message[MESSAGE_BYTES - 1] = 0xF7;
        message
    }
}

fn take(device: &mut Device, event: Event) -> Answer {
    match event {
        Event::Byte(byte) => device.byte(byte),
        Event::Report(generator) => device.report(generator),
    }
}

/// The order, if it has each of the sixteen channels once (R14.3).
fn order_of_all(order: &[u8]) -> Option<[u8; 16]> {
    let order: [u8; 16] = order.try_into().ok()?;
    let all = (1..=16).all(|channel| order.contains(&channel));
    all.then_some(order)
}

/// The order and the whole log at once.
pub fn mip_from_log(order: &[u8], bytes: &[u8]) -> Arranged {
    let mut log = Log::begin(order);
    log.part(bytes);
    log.end()
}

/// The record, field by field, for a comparison with another implementation.
impl Log {
    pub fn device(&self) -> &Device {
        &self.device
    }

    pub fn order(&self) -> [u8; 16] {
        self.order
    }

    pub fn most(&self) -> [u8; 16] {
        self.most
    }

    pub fn lines(&self) -> u64 {
        self.lines
    }

    pub fn number(&self) -> Option<Number> {
        self.number
    }

    /// The line that has not ended: its first seven bytes.
    pub fn unended(&self) -> &[u8] {
        self.line.kept()
    }

    /// The same behind so many lines that changed nothing, such as `b,248`: nobody can give as many as there may be.
    pub fn behind(self, lines: u64) -> Log {
        Log { lines, ..self }
    }
}
