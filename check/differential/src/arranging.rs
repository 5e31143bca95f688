//! Gives both implementations the same logs (R14.1 to R14.10) and compares what they yield: the message or the number,
//! and the whole record after every part. Each message is then played into devices of both sides, which must take it.

use crate::arranging_sides::{log_difference, Arranger, Reference};
use crate::compare::same;
use crate::library::{self, Lent};
use crate::lists::{Event, List};
use crate::logs::{self, Log};
use crate::record::{difference, Given, Implementation, Malformed};
use crate::reference;
use paper::{Answer, Arranged, Device, Entry, Number};
use random::Random;

/// What a run reached.
#[derive(Clone, Debug, Default)]
pub struct Reached {
    pub logs: u64,
    /// Lines that were looked at.
    pub lines: u64,
    pub parts: u64,
    /// Ends that were asked for in the middle of a log.
    pub ends: u64,
    /// Messages written, each of which a device of both sides took.
    pub messages: u64,
    /// Values above 0 in them.
    pub values: u64,
    /// How often each of `NUMBERS` fell.
    pub numbers: [u64; 3],
    /// What the device says to the line of a number 17, one place for each of `SPOILT_BY`.
    pub spoilt_by: [u64; 8],
    /// Lines that the device answers with a number and that are passed over, one place for each of `PASSED_OVER`.
    pub passed_over: [u64; 3],
}

/// The numbers of a log.
pub const NUMBERS: [Number; 3] = [Number::LogOtherForm, Number::BadOrder, Number::LogSpoilt];
const SPOILT_BY: [&str; 8] = [
    "accepted MIP message",
    "MIP message of number 5",
    "of number 6",
    "of number 7",
    "of number 8",
    "of number 9",
    "stolen note",
    "number 11",
];
/// No other can fall: a fresh device of P 64 masks nobody, and a MIP message ends the log.
pub const PASSED_OVER: [u8; 3] = [3, 4, 13];

impl Reached {
    /// What never came.
    pub fn missing(&self) -> Vec<String> {
        let spoilt = SPOILT_BY.iter().zip(self.spoilt_by);
        let spoilt = spoilt.map(|(by, count)| (format!("a log spoilt by: {by}"), count));
        let passed = PASSED_OVER.iter().zip(self.passed_over);
        let passed = passed.map(|(number, count)| (format!("number {number} in a log"), count));
        let message = ("the message of a log".to_string(), self.messages);
        let all = spoilt.chain(passed).chain([message]);
        all.filter(|row| row.1 == 0).map(|row| row.0).collect()
    }

    /// How often each thing spoilt a log, in words.
    pub fn spoilers(&self) -> String {
        let rows = SPOILT_BY.iter().zip(self.spoilt_by);
        let rows: Vec<String> = rows.map(|(by, count)| format!("{by} {count}")).collect();
        rows.join(", ")
    }

    /// What the device of the second implementation would say to the line at which 17 fell.
    fn spoilt(&mut self, log: &Log, line: u64, before: &Device) {
        let mut lines = log.bytes.split(|&byte| byte == b'\n');
        let spoilt = lines.nth((line - 1) as usize).and_then(paper::Event::read);
        let Some(paper::Event::Byte(byte)) = spoilt else {
            return;
        };
        let mut copy = *before;
        let place = match copy.byte(byte) {
            Answer::Done => 0,
            Answer::Refused(number) => number as usize - 4,
            Answer::Note { .. } => 6,
            _ => 7,
        };
        self.spoilt_by[place] += 1;
    }
}

/// The second implementation and another one side by side, and the devices that must take what they write.
pub struct Comparison<'a, B> {
    reference: Reference,
    other: B,
    readers: &'a Readers,
    pub reached: Reached,
}

/// So many random logs come before those that are always the same, since they find most of what can be wrong.
const FIRST: u64 = 600;

impl<B: Arranger> Comparison<'_, B> {
    pub fn new(other: B, readers: &Readers) -> Comparison<'_, B> {
        Comparison {
            reference: Reference::new(),
            other,
            readers,
            reached: Reached::default(),
        }
    }

    /// Gives both so many logs, up to the first difference.
    pub fn run(&mut self, seed: u64, logs: u64) -> Result<(), String> {
        let mut random = Random::new(seed);
        for number in 1..=logs.min(FIRST) {
            let log = Log::random(&mut random, number);
            self.log(&log, &mut random)?;
        }
        let rest = logs.saturating_sub(FIRST);
        for log in logs::fixed().take(rest as usize) {
            self.log(&log, &mut random)?;
        }
        for number in self.reached.logs + 1..=logs {
            let log = Log::random(&mut random, number);
            self.log(&log, &mut random)?;
        }
        self.reached.passed_over = self.reference.passed_over;
        Ok(())
    }

    fn log(&mut self, log: &Log, random: &mut Random) -> Result<(), String> {
        self.reached.logs += 1;
        let found = self.compare(log, random);
        found.map_err(|what| words(self.reached.logs, log, &what))
    }

    fn compare(&mut self, log: &Log, random: &mut Random) -> Result<(), String> {
        let (a, b) = (&self.reference, &self.other);
        let whole = same(
            "the whole log",
            a.whole(&log.order, &log.bytes),
            b.whole(&log.order, &log.bytes),
        )?;
        let aged = self.begin(log)?;
        let mut given = 0;
        for &length in &log.parts {
            self.part(given, &log.bytes[given..given + length], random)?;
            given += length;
        }
        let arranged = same("the end", self.reference.end(), self.other.end())?;
        self.same_record("the end")?;
        if !aged && arranged != whole {
            return Err(format!("in parts {arranged:?}, whole {whole:?}"));
        }
        self.count(log, whole);
        match whole.message {
            Ok(message) => self.readers.take(&message, random),
            Err(_) => Ok(()),
        }
    }

    /// Begins a log on both sides; is it behind others?
    fn begin(&mut self, log: &Log) -> Result<bool, String> {
        let (a, b) = (&mut self.reference, &mut self.other);
        let number = same("begin", a.begin(&log.order), b.begin(&log.order))?;
        let aged = log.behind > 0 && number.is_none();
        if aged {
            a.put_behind(log.behind);
            b.put_behind(log.behind);
        }
        self.same_record("begin")?;
        Ok(aged)
    }

    /// A part; at times the end is asked for behind it, and the log goes on.
    fn part(&mut self, from: usize, part: &[u8], random: &mut Random) -> Result<(), String> {
        let at = format!("part from byte {from} on");
        let (a, b) = (&mut self.reference, &mut self.other);
        same(&at, a.part(part), b.part(part))?;
        self.reached.parts += 1;
        if random.one_in(4) {
            same(&at, a.end(), b.end())?;
            self.reached.ends += 1;
        }
        self.same_record(&at)
    }

    fn same_record(&self, at: &str) -> Result<(), String> {
        match (self.reference.record(), self.other.record()) {
            (Ok(a), Ok(b)) => match log_difference(&a, &b) {
                Some(what) => Err(format!("{at}: {what}")),
                None => Ok(()),
            },
            (Err(Malformed(found)), _) | (_, Err(Malformed(found))) => {
                Err(format!("{at}: nobody may give {found}"))
            }
        }
    }

    /// Counts what both yielded.
    fn count(&mut self, log: &Log, arranged: Arranged) {
        let reached = &mut self.reached;
        reached.lines += arranged.line;
        match arranged.message {
            Ok(message) => {
                reached.messages += 1;
                let values = message[6..].iter().step_by(2).filter(|&&value| value > 0);
                reached.values += values.count() as u64;
            }
            Err(number) => {
                reached.numbers[number as usize - NUMBERS[0] as usize] += 1;
                if number == Number::LogSpoilt {
                    reached.spoilt(log, arranged.line, self.reference.log.device());
                }
            }
        }
    }
}

/// What differed, with the log's end up to there.
fn words(number: u64, log: &Log, what: &str) -> String {
    const SHOWN: usize = 120;
    let Log {
        kind,
        order,
        bytes,
        parts,
        behind,
    } = log;
    let shown = &bytes[..bytes.len().min(SHOWN)];
    let text = String::from_utf8_lossy(shown).escape_debug().to_string();
    format!(
        "log: number {number}, {kind:?}, {} bytes in {} parts behind {behind} lines, order {:?}: {what}; \
         it begins {text}",
        bytes.len(),
        parts.len(),
        &order[..order.len().min(20)]
    )
}

/// Devices of both sides with random records, the same on both: each must take every message (R14.7).
pub struct Readers(Vec<(Device, Lent)>);

const READERS: u64 = 100;

impl Readers {
    pub fn new(seed: u64) -> Readers {
        let mut random = Random::new(seed);
        let reader = |number| {
            let list = List::new(&mut random, number);
            let (mut a, _) = reference::start(list.polyphony, list.id);
            let (mut b, _) = library::start(list.polyphony, list.id);
            let most = random.below(list.events.len());
            for &event in list.events.iter().take(most.min(3000)) {
                let _ = (happen(&mut a, event), happen(&mut b, event));
            }
            (a, b)
        };
        Readers((1..=READERS).map(reader).collect())
    }

    /// Plays a message into a device of both sides.
    pub fn take(&self, message: &[u8], random: &mut Random) -> Result<(), String> {
        let (mut a, mut b) = self.0[random.below(self.0.len())].clone();
        let mut last = Answer::None;
        for &byte in message {
            last = same("taken", Implementation::byte(&mut a, byte), b.byte(byte))?;
        }
        if last != Answer::Done {
            return Err(format!("the message is answered {last:?}"));
        }
        let (a, b) = match (Implementation::record(&a), b.record()) {
            (Ok(a), Ok(b)) => (a, b),
            found => return Err(format!("behind the message: {found:?}")),
        };
        if let Some(what) = difference(&a, &b) {
            return Err(format!("behind the message: {what}"));
        }
        let pairs = message[5..].chunks_exact(2);
        let written = pairs.map(|pair| Entry {
            channel: pair[0],
            value: pair[1],
        });
        match written.eq(a.entries.as_slice().iter().copied()) {
            true => Ok(()),
            false => Err(format!("the table behind it is {:?}", a.entries.as_slice())),
        }
    }
}

fn happen(device: &mut impl Implementation, event: Event) -> Given<Answer> {
    match event {
        Event::Byte(byte) => device.byte(byte),
        Event::Report(generator) => device.report(generator),
    }
}
