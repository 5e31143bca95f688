//! What can be wrong about a log beside its rules (that is in `wrong`): the parts as they are taken, the record,
//! what is answered, and the call for a whole log.

use crate::arranging_sides::{arranged_of, kept, number_of, Arranger, Heard, LogRecord};
use crate::book::STARTING_ORDER;
use crate::record::Given;
use crate::wrong_device;
use paper::{Arranged, Event, Number, LINE_BYTES};
use proved::MipAnswer;

type Log = wrong::Log;
/// How many bytes of a line are kept, and these.
type Kept = (u8, [u8; LINE_BYTES]);

#[derive(Clone, Copy)]
pub enum Slip {
    /// A log that has begun, and the one before in its record.
    Begun(fn(&mut Log, &Log)),
    /// The part as it is taken.
    Part(fn(&[u8]) -> &[u8]),
    /// Behind a part.
    Parted(fn(&mut Log, &[u8])),
    /// Where a number has fallen, and as it was before that line ended.
    Fallen(fn(&mut Log, &Log)),
    /// What a part answers, by whether a number was told before.
    Told(fn(bool, Option<Number>) -> Option<Number>),
    /// The message.
    Message(fn(&mut [u8; 38], &Log)),
    /// What the end answers.
    Answer(fn(&mut MipAnswer, &Log)),
    /// What the end leaves.
    Left(fn(&mut Log, &MipAnswer)),
    /// The line in the record, by itself and the one before.
    Line(fn(&[u8], &[u8]) -> Kept),
    /// The call for a whole log: the log as it is taken, the one that has begun, and the answer.
    Whole(fn(&[u8]) -> &[u8]),
    WholeBegun(fn(&mut Log, &Log)),
    WholeParted(fn(&mut Log)),
    WholeAnswer(fn(&mut MipAnswer, &[u8])),
}

#[rustfmt::skip]
pub const SLIPS: &[(&str, Slip)] = &[
    // The order, and what number 16 answers.
    ("LogBeforeOrder", Slip::WholeAnswer(log_before_order)),
    ("WrongOrderTellsLine1", Slip::Answer(|answer, _| if answer.number == 16 { answer.line = 1 })),
    // Lines counted.
    ("LinesFromZero", Slip::Answer(|answer, _| answer.line = answer.line.saturating_sub(1))),
    ("LineOfTheNumberNotCounted", Slip::Fallen(|log, _| log.lines -= 1)),
    ("LineOf15NotCounted", Slip::Fallen(|log, _| log.lines -= u64::from(log.number == Some(Number::LogOtherForm)))),
    ("LineOf17NotCounted", Slip::Fallen(|log, _| log.lines -= u64::from(log.number == Some(Number::LogSpoilt)))),
    ("NumberTellsLine0", Slip::Answer(|answer, _| if answer.number != 0 { answer.line = 0 })),
    ("MessageTellsLine0", Slip::Answer(|answer, _| if answer.number == 0 { answer.line = 0 })),
    // Of 15 and 17.
    ("UnendedLineBeforeANumber", Slip::Answer(|answer, log| if answer.number == 17 && log.line.count > 0 {
        (answer.number, answer.line) = (15, answer.line + 1)
    })),
    ("NumbersSwapped", Slip::Fallen(|log, _| log.number = log.number.map(swapped))),
    // Counts.
    ("CountsOnceAtTheEndOfAPart", Slip::Parted(|log, _| if log.number.is_none() { log.count() })),
    // The message.
    ("ChannelNotLowered", Slip::Message(|message, _| pairs(message, |[channel, value]| [channel + 1, value]))),
    ("ChannelsFromTwo", Slip::Message(|message, _| pairs(message, |[wire, value]| [wire.wrapping_sub(1), value]))),
    ("DeviceByte0", Slip::Message(|message, _| message[2] = 0)),
    ("DeviceByte7E", Slip::Message(|message, _| message[2] = 0x7E)),
    ("FirstByte7E", Slip::Message(|message, _| message[1] = 0x7E)),
    ("SubIdsSwapped", Slip::Message(|message, _| message.swap(3, 4))),
    ("SubId02", Slip::Message(|message, _| message[4] = 2)),
    ("NoF0", Slip::Message(|message, _| message[0] = 0)),
    ("NoF7", Slip::Message(|message, _| message[37] = 0)),
    ("PairsSwapped", Slip::Message(|message, _| pairs(message, |[channel, value]| [value, channel]))),
    ("MessageByNumber", Slip::Message(|message, _| all_pairs(message, |pairs| pairs.sort_unstable()))),
    ("MessageBackward", Slip::Message(|message, _| all_pairs(message, |pairs| pairs.reverse()))),
    ("ChannelsThenValues", Slip::Message(|message, log| {
        let wires = log.order.map(|channel| channel.wrapping_sub(1));
        message[5..37].copy_from_slice(&[wires, log.most].concat())
    })),
    ("MessageOneByteEarly", Slip::Message(|message, _| message.rotate_left(1))),
    ("ValuesInMessageOneLess", Slip::Message(|message, _| pairs(message, |[wire, n]| [wire, n.saturating_sub(1)]))),
    ("EmptyLogAllZeros", Slip::Message(|message, log| if log.lines == 0 { message.fill(0) })),
    // Beside a number.
    ("MessageBesideANumber", Slip::Answer(|answer, log| if answer.number != 0 { answer.bytes = log.message() })),
    ("MessageBeside15", Slip::Answer(|answer, log| if answer.number == 15 { answer.bytes = log.message() })),
    ("MessageBeside16", Slip::Answer(|answer, log| if answer.number == 16 { answer.bytes = log.message() })),
    ("MessageBeside17", Slip::Answer(|answer, log| if answer.number == 17 { answer.bytes = log.message() })),
    ("HeadBesideANumber", Slip::Answer(|answer, _| if answer.number != 0 { answer.bytes[0] = 0xF0 })),
    ("F7BesideANumber", Slip::Answer(|answer, _| if answer.number != 0 { answer.bytes[37] = 0xF7 })),
    ("AllBitsBesideANumber", Slip::Answer(|answer, _| if answer.number != 0 { answer.bytes = [0xFF; 38] })),
    ("NumberWithAMessage", Slip::Answer(|answer, _| if answer.number == 0 { answer.number = 15 })),
    ("NoNumberInTheAnswer", Slip::Answer(|answer, _| answer.number = 0)),
    // Parts.
    ("CutEndsALine", Slip::Parted(|log, _| if log.line.count > 0 { log.part(b"\n"); })),
    ("CutLosesTheLine", Slip::Parted(|log, _| log.line.count = 0)),
    ("CutInsideALineIsOfAnotherForm", Slip::Parted(|log, _| if log.line.count > 0 && log.number.is_none() {
        log.number = Some(Number::LogOtherForm)
    })),
    ("EmptyPartEndsALine", Slip::Parted(|log, part| if part.is_empty() { log.part(b"\n"); })),
    ("EmptyPartCountsALine", Slip::Parted(|log, part| log.lines = log.lines.saturating_add(part.is_empty().into()))),
    ("PartsInEightBits", Slip::Part(|part| &part[..usize::from(part.len() as u8)])),
    ("PartsInSixteenBits", Slip::Part(|part| &part[..usize::from(part.len() as u16)])),
    // The call for a whole log.
    ("WholeWithoutOrder", Slip::WholeBegun(|log, _| if log.number.is_some() { *log = Log::begin(&STARTING_ORDER) })),
    ("WholePassesOverItsLastLine", Slip::WholeParted(|log| log.line.count = 0)),
    ("WholeWithoutItsLastByte", Slip::Whole(|log| &log[..log.len().saturating_sub(1)])),
    ("WholeInSixteenBits", Slip::Whole(|log| &log[..usize::from(log.len() as u16)])),
    ("WholeTellsNoLine", Slip::WholeAnswer(|answer, _| answer.line = 0)),
];

/// What shows in the record, in the answers to parts or beside another log, and not in what a whole log yields.
#[rustfmt::skip]
pub const RECORD_SLIPS: &[(&str, Slip)] = &[
    ("WrongOrderAnsweredOnce", Slip::Told(|_, number| number.filter(|&number| number != Number::BadOrder))),
    ("PartsAnswer0", Slip::Told(|_, _| None)),
    ("PartsAnswerOnce", Slip::Told(|told, number| number.filter(|_| !told))),
    ("LineNotEmptiedByANumber", Slip::Fallen(|log, before| log.line = before.line)),
    ("OldBytesBehindTheCount", Slip::Line(|line, old| {
        (kept(line).0, std::array::from_fn(|at| *line.get(at).or(old.get(at)).unwrap_or(&0)))
    })),
    ("LineKeepsItsLastBytes", Slip::Line(|line, _| kept(&line[line.len().saturating_sub(7)..]))),
    ("LineCountGoesOn", Slip::Line(|line, _| (line.len().min(255) as u8, kept(line).1))),
    ("LineKeepsFiveBytes", Slip::Line(|line, _| kept(&line[..line.len().min(5)]))),
    ("EndEmptiesTheLine", Slip::Left(|log, _| log.line.count = 0)),
    ("EndLeavesItsNumber", Slip::Left(|log, answer| log.number = number_of(answer.number).unwrap_or(None))),
    ("EndCountsItsLine", Slip::Left(|log, answer| log.lines = answer.line)),
    ("EndBeginsAnew", Slip::Left(|log, _| *log = Log::begin(&log.order))),
    ("BeginKeepsTheDevice", Slip::Begun(|log, before| log.device = before.device)),
    ("BeginKeepsMost", Slip::Begun(|log, before| log.most = before.most)),
    ("BeginKeepsLines", Slip::Begun(|log, before| log.lines = before.lines)),
    ("BeginKeepsTheNumber", Slip::Begun(|log, before| log.number = log.number.or(before.number))),
    ("BeginKeepsTheLine", Slip::Begun(|log, before| log.line = before.line)),
    ("BeginKeepsTheOrderOfAWrongOne", Slip::Begun(|log, before| if log.number.is_some() { log.order = before.order })),
    ("DeviceBehindANumberFresh", Slip::Fallen(|log, _| log.device = wrong::Device::start(64, 0).0)),
    ("OrderZeroedByANumber", Slip::Fallen(|log, _| log.order = [0; 16])),
    ("MostZeroedByANumber", Slip::Fallen(|log, _| log.most = [0; 16])),
    ("WholeOnTheDeviceOfTheLog", Slip::WholeBegun(|log, lent| log.device = lent.device)),
];

/// Where the order is wrong, a number of the log decides, if there is one.
fn log_before_order(answer: &mut MipAnswer, log: &[u8]) {
    let other = paper::mip_from_log(&STARTING_ORDER, log);
    if let (16, Err(number)) = (answer.number, other.message) {
        (answer.number, answer.line) = (number as u8, other.line);
    }
}

fn swapped(number: Number) -> Number {
    match number {
        Number::LogOtherForm => Number::LogSpoilt,
        Number::LogSpoilt => Number::LogOtherForm,
        other => other,
    }
}

/// Changes each pair of a message.
fn pairs(message: &mut [u8; 38], change: fn([u8; 2]) -> [u8; 2]) {
    for pair in message[5..37].chunks_exact_mut(2) {
        pair.copy_from_slice(&change([pair[0], pair[1]]));
    }
}

/// Changes the pairs of a message together.
fn all_pairs(message: &mut [u8; 38], change: fn(&mut [[u8; 2]])) {
    let mut pairs: Vec<[u8; 2]> = message[5..37]
        .chunks_exact(2)
        .map(|pair| [pair[0], pair[1]])
        .collect();
    change(&mut pairs);
    message[5..37].copy_from_slice(&pairs.concat());
}

/// Logs by the fault that is being made, and this slip.
#[derive(Clone)]
pub struct WrongLog {
    slip: Option<Slip>,
    log: Log,
    heard: Heard,
    /// The line that ended last, and whether a number was told.
    old: Vec<u8>,
    told: bool,
}

impl WrongLog {
    pub fn new(slip: Option<Slip>) -> WrongLog {
        WrongLog {
            slip,
            log: Log::begin(&STARTING_ORDER),
            heard: Heard::default(),
            old: Vec::new(),
            told: false,
        }
    }

    fn line_ends(&mut self) {
        let before = self.log;
        self.old = before.unended().to_vec();
        self.log.part(b"\n");
        match (self.slip, before.number, self.log.number) {
            (Some(Slip::Fallen(change)), None, Some(_)) => change(&mut self.log, &before),
            // A line with a number is not played.
            (_, _, None) => match wrong::Event::read(&self.old) {
                Some(wrong::Event::Byte(byte)) => self.heard.event(Event::Byte(byte)),
                Some(wrong::Event::Report(generator)) => self.heard.event(Event::Report(generator)),
                None => {}
            },
            _ => {}
        }
    }

    /// The answer in the header's form, so that one that has no meaning can be given too.
    fn answer(&self) -> MipAnswer {
        let wrong::Arranged { line, message } = self.log.end();
        let number = message.err().map_or(0, |number| number as u8);
        let mut bytes = message.unwrap_or([0; 38]);
        if let (Some(Slip::Message(change)), Ok(_)) = (self.slip, message) {
            change(&mut bytes, &self.log);
        }
        let mut answer = MipAnswer {
            line,
            number,
            bytes,
        };
        if let Some(Slip::Answer(change)) = self.slip {
            change(&mut answer, &self.log);
        }
        answer
    }
}

impl Arranger for WrongLog {
    fn begin(&mut self, order: &[u8]) -> Given<Option<Number>> {
        let before = std::mem::replace(self, WrongLog::new(self.slip));
        self.log = Log::begin(order);
        if let Some(Slip::Begun(change)) = self.slip {
            change(&mut self.log, &before.log);
        }
        Ok(self.log.number)
    }

    fn part(&mut self, part: &[u8]) -> Given<Option<Number>> {
        let part = match self.slip {
            Some(Slip::Part(taken)) => taken(part),
            _ => part,
        };
        for piece in part.split_inclusive(|&byte| byte == b'\n') {
            self.log.part(piece.strip_suffix(b"\n").unwrap_or(piece));
            if piece.ends_with(b"\n") {
                self.line_ends();
            }
        }
        if let Some(Slip::Parted(change)) = self.slip {
            change(&mut self.log, part);
        }
        let told = std::mem::replace(&mut self.told, self.log.number.is_some());
        Ok(match self.slip {
            Some(Slip::Told(answer)) => answer(told, self.log.number),
            _ => self.log.number,
        })
    }

    fn end(&mut self) -> Given<Arranged> {
        let answer = self.answer();
        if let Some(Slip::Left(change)) = self.slip {
            change(&mut self.log, &answer);
        }
        arranged_of(answer)
    }

    fn record(&self) -> Given<LogRecord> {
        let device = wrong_device::record_of(&self.log.device);
        Ok(LogRecord {
            swallowing: self.heard.swallowing(device.progress),
            device,
            order: self.log.order,
            most: self.log.most,
            lines: self.log.lines,
            number: self.log.number,
            line: match self.slip {
                Some(Slip::Line(line)) => line(self.log.unended(), &self.old),
                _ => kept(self.log.unended()),
            },
        })
    }

    fn put_behind(&mut self, lines: u64) {
        self.log = self.log.behind(lines);
    }

    fn whole(&self, order: &[u8], log: &[u8]) -> Given<Arranged> {
        let mut whole = WrongLog::new(self.slip);
        whole.begin(order)?;
        match self.slip {
            Some(Slip::WholeBegun(change)) => change(&mut whole.log, &self.log),
            Some(Slip::Whole(taken)) => return WrongLog::new(None).whole(order, taken(log)),
            _ => {}
        }
        whole.part(log)?;
        if let Some(Slip::WholeParted(change)) = self.slip {
            change(&mut whole.log);
        }
        let mut answer = whole.answer();
        if let Some(Slip::WholeAnswer(change)) = self.slip {
            change(&mut answer, log);
        }
        arranged_of(answer)
    }
}

/// A log that is right in its parts, and wrong where it is given whole.
pub struct WrongWhole {
    pub right: crate::arranging_sides::Reference,
    pub wrong: WrongLog,
}

impl Arranger for WrongWhole {
    fn begin(&mut self, order: &[u8]) -> Given<Option<Number>> {
        self.right.begin(order)
    }

    fn part(&mut self, part: &[u8]) -> Given<Option<Number>> {
        self.right.part(part)
    }

    fn end(&mut self) -> Given<Arranged> {
        self.right.end()
    }

    fn record(&self) -> Given<LogRecord> {
        self.right.record()
    }

    fn put_behind(&mut self, lines: u64) {
        self.right.put_behind(lines);
    }

    fn whole(&self, order: &[u8], log: &[u8]) -> Given<Arranged> {
        self.wrong.whole(order, log)
    }
}
