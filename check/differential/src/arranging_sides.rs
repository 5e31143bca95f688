//! What reads logs in their comparison: the second implementation and the proved library, and the record of a log in a
//! form that two of them can be compared by.

use crate::library::{self, GUARD, RUBBISH};
use crate::record::{difference, Given, Implementation, Malformed, Record, IDLE};
use paper::{Arranged, Device, Event, Number, Progress, LINE_BYTES};
use proved::{LogMemory, MipAnswer, LOG_BYTES};

/// Everything that the record of a log holds.
#[derive(Clone, Debug, PartialEq, Eq)]
pub struct LogRecord {
    pub device: Record,
    /// What a parser that swallows holds: its status and, after F2, a data byte.
    pub swallowing: Option<(u8, Option<u8>)>,
    pub order: [u8; 16],
    pub most: [u8; 16],
    pub lines: u64,
    pub number: Option<Number>,
    /// The line that has not ended: how many bytes are kept, and these; the other places are 0.
    pub line: (u8, [u8; LINE_BYTES]),
}

/// Names the first field in which two records of logs differ, with both values.
pub fn log_difference(a: &LogRecord, b: &LogRecord) -> Option<String> {
    fn field<T: PartialEq + std::fmt::Debug>(name: &str, a: &T, b: &T) -> Option<String> {
        (a != b).then(|| format!("{name}: {a:?} against {b:?}"))
    }
    if a == b {
        return None;
    }
    field("number", &a.number, &b.number)
        .or_else(|| field("lines", &a.lines, &b.lines))
        .or_else(|| field("order", &a.order, &b.order))
        .or_else(|| field("most", &a.most, &b.most))
        .or_else(|| field("unended line", &a.line, &b.line))
        .or_else(|| field("swallowing", &a.swallowing, &b.swallowing))
        .or_else(|| difference(&a.device, &b.device).map(|what| format!("device: {what}")))
}

/// Something that reads logs, one at a time; a log may begin in the record of the one before.
pub trait Arranger {
    fn begin(&mut self, order: &[u8]) -> Given<Option<Number>>;
    fn part(&mut self, part: &[u8]) -> Given<Option<Number>>;
    fn end(&mut self) -> Given<Arranged>;
    fn record(&self) -> Given<LogRecord>;
    /// As if so many lines had come before, none of which changed anything.
    fn put_behind(&mut self, lines: u64);
    /// The order and the whole log at once.
    fn whole(&self, order: &[u8], log: &[u8]) -> Given<Arranged>;
}

/// The last status byte but for real-time ones, and the last data byte, of the lines that were played.
#[derive(Clone, Copy, Debug, Default)]
pub struct Heard {
    status: u8,
    data: u8,
}

impl Heard {
    pub fn event(&mut self, event: Event) {
        match event {
            Event::Byte(byte @ 0..=0x7F) => self.data = byte,
            Event::Byte(byte @ 0x80..=0xF7) => self.status = byte,
            _ => {}
        }
    }

    pub fn swallowing(&self, progress: Progress) -> Option<(u8, Option<u8>)> {
        match (progress, self.status) {
            (Progress::Swallow(1), 0xF2) => Some((self.status, Some(self.data))),
            (Progress::Swallow(_), status) => Some((status, None)),
            _ => None,
        }
    }
}

/// The second implementation, with what it does not keep of the bytes.
#[derive(Clone)]
pub struct Reference {
    pub log: paper::Log,
    line: Vec<u8>,
    heard: Heard,
    /// Lines of all logs that were passed over, by numbers 3, 4 and 13.
    pub passed_over: [u64; 3],
}

impl Reference {
    pub fn new() -> Reference {
        Reference {
            log: paper::Log::begin(&[]),
            line: Vec::new(),
            heard: Heard::default(),
            passed_over: [0; 3],
        }
    }

    /// The end of a line, whose bytes are all here.
    fn line_ends(&mut self) {
        let event = Event::read(&self.line);
        self.line.clear();
        let device = *self.log.device();
        self.log.part(b"\n");
        // A line with a number is not played.
        let (Some(event), None) = (event, self.log.number()) else {
            return;
        };
        self.heard.event(event);
        if let Some(place) = passed_over(&device, event) {
            self.passed_over[place] += 1;
        }
    }
}

/// Which of the numbers 3, 4 and 13 a device answers an event with, if one of them.
fn passed_over(device: &Device, event: Event) -> Option<usize> {
    match (event, device.parser().progress()) {
        (Event::Byte(0..=0x7F), Progress::NoStatus) => Some(0),
        (Event::Byte(0x80..=0xF6), Progress::SysEx) => Some(1),
        (Event::Report(generator), _) => {
            let idle = device.generator(generator).is_ok_and(|view| view == IDLE);
            idle.then_some(2)
        }
        _ => None,
    }
}

impl Arranger for Reference {
    fn begin(&mut self, order: &[u8]) -> Given<Option<Number>> {
        self.log = paper::Log::begin(order);
        self.line.clear();
        self.heard = Heard::default();
        Ok(self.log.number())
    }

    fn part(&mut self, part: &[u8]) -> Given<Option<Number>> {
        for piece in part.split_inclusive(|&byte| byte == b'\n') {
            let (bytes, ends) = match piece.strip_suffix(b"\n") {
                Some(bytes) => (bytes, true),
                None => (piece, false),
            };
            self.log.part(bytes);
            self.line.extend(bytes);
            if ends {
                self.line_ends();
            }
        }
        Ok(self.log.number())
    }

    fn end(&mut self) -> Given<Arranged> {
        Ok(self.log.end())
    }

    fn record(&self) -> Given<LogRecord> {
        let log = &self.log;
        Ok(LogRecord {
            device: Implementation::record(log.device())?,
            swallowing: self.heard.swallowing(log.device().parser().progress()),
            order: log.order(),
            most: log.most(),
            lines: log.lines(),
            number: log.number(),
            line: kept(log.unended()),
        })
    }

    fn put_behind(&mut self, lines: u64) {
        self.log = self.log.behind(lines);
    }

    fn whole(&self, order: &[u8], log: &[u8]) -> Given<Arranged> {
        Ok(paper::mip_from_log(order, log))
    }
}

/// The first bytes of a line in their places.
pub fn kept(line: &[u8]) -> (u8, [u8; LINE_BYTES]) {
    let mut bytes = [0; LINE_BYTES];
    let count = line.len().min(LINE_BYTES);
    bytes[..count].copy_from_slice(&line[..count]);
    (count as u8, bytes)
}

/// The library's record of a log with some memory on both sides.
#[repr(C)]
#[derive(Clone)]
pub struct LentLog {
    before: [u8; GUARD],
    memory: LogMemory,
    after: [u8; GUARD],
}

impl LentLog {
    /// Memory in which no log has begun yet.
    pub fn new(bytes: [u8; LOG_BYTES]) -> LentLog {
        LentLog {
            before: [RUBBISH; GUARD],
            memory: LogMemory(bytes),
            after: [RUBBISH; GUARD],
        }
    }

    pub fn neighbours_untouched(&self) -> Given<()> {
        if self.before == [RUBBISH; GUARD] && self.after == [RUBBISH; GUARD] {
            return Ok(());
        }
        Err(Malformed("memory beside the log's record".to_string()))
    }
}

impl Arranger for LentLog {
    fn begin(&mut self, order: &[u8]) -> Given<Option<Number>> {
        let mut lent = order.to_vec();
        let number = self.memory.begin(&mut lent);
        unwritten("the order", order, &lent)?;
        number_of(number)
    }

    fn part(&mut self, part: &[u8]) -> Given<Option<Number>> {
        let mut lent = part.to_vec();
        let number = self.memory.part(&mut lent);
        unwritten("the part", part, &lent)?;
        number_of(number)
    }

    /// "The record is read and not changed", nor what pads it.
    fn end(&mut self) -> Given<Arranged> {
        let before = self.memory;
        let answer = self.memory.end();
        unwritten("the record at the end", &before.0, &self.memory.0)?;
        arranged_of(answer)
    }

    fn record(&self) -> Given<LogRecord> {
        self.neighbours_untouched()?;
        let log = self.memory.log();
        let parser = &log.song.device.parser;
        let swallowing = match (parser.status, parser.count) {
            (0xF1..=0xF3, 0) => Some((parser.status, None)),
            (0xF1..=0xF3, _) => Some((parser.status, Some(parser.bytes[0]))),
            _ => None,
        };
        Ok(LogRecord {
            device: library::record_of(&log.song.device, parser.status, parser.bytes[0])?,
            swallowing,
            order: log.song.order,
            most: log.song.most,
            lines: log.song.lines,
            number: number_of(log.song.number)?,
            line: (log.line.count, log.line.bytes),
        })
    }

    fn put_behind(&mut self, lines: u64) {
        self.memory.log_mut().song.lines = lines;
    }

    fn whole(&self, order: &[u8], log: &[u8]) -> Given<Arranged> {
        let (mut lent_order, mut lent) = (order.to_vec(), log.to_vec());
        let answer = proved::mip_from_log(&mut lent_order, &mut lent);
        unwritten("the order", order, &lent_order)?;
        unwritten("the log", log, &lent)?;
        arranged_of(answer)
    }
}

/// What is only lent for reading must be as before.
fn unwritten(what: &str, before: &[u8], after: &[u8]) -> Given<()> {
    match before == after {
        true => Ok(()),
        false => Err(Malformed(format!("{what}, changed"))),
    }
}

/// No number, or one of the three that a log can have.
pub fn number_of(number: u8) -> Given<Option<Number>> {
    match number {
        0 => Ok(None),
        15 => Ok(Some(Number::LogOtherForm)),
        16 => Ok(Some(Number::BadOrder)),
        17 => Ok(Some(Number::LogSpoilt)),
        _ => Err(Malformed(format!("number {number}"))),
    }
}

/// A message, or a number with 38 zeros (R14.9).
pub fn arranged_of(raw: MipAnswer) -> Given<Arranged> {
    let message = match number_of(raw.number)? {
        None => Ok(raw.bytes),
        Some(number) if raw.bytes == [0; 38] => Err(number),
        Some(_) => return Err(Malformed(format!("{raw:?}"))),
    };
    Ok(Arranged {
        line: raw.line,
        message,
    })
}

/// Calls on memory in which no log began: each still returns, and touches nothing but the record.
pub fn survive_rubbish(random: &mut random::Random, records: usize) -> Given<()> {
    for _ in 0..records {
        let mut lent = LentLog::new(std::array::from_fn(|_| random.byte()));
        for _ in 0..5 {
            let lines: Vec<u8> = (0..4)
                .flat_map(|_| format!("b,{}\ne,{}\n", random.byte(), random.below(64)).into_bytes())
                .collect();
            let _ = lent.memory.part(&mut lines.clone());
            let _ = lent.memory.end();
            lent.memory.log_mut().song.number = 0;
        }
        lent.neighbours_untouched()?;
    }
    Ok(())
}
