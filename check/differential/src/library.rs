//! The proved library as one side of the comparison: its C structures read as the header says.
//!
//! "A field without meaning is 0", entries and ages behind the count "are 0", generators from the polyphony on "stay
//! idle": what breaks such a sentence is a difference as well.

use crate::gains::{self, Answered, Levels};
use crate::hardest_song;
use crate::pages::{self, Memory, Rubbish};
use crate::pitches::Call;
use crate::record::{Given, Implementation, Items, Malformed, Record, SysExBytes, IDLE};
use paper::{Answer, Entry, GeneratorView, Number, Pitch, Progress, State, Was};
use proved::{Channel, Device, SongAnswer, RECORD_BYTES};
use random::Random;

const NUMBERS: [Number; 21] = [
    Number::PolyphonyOutOfRange,
    Number::IdOutOfRange,
    Number::StrayData,
    Number::SysExCut,
    Number::MipTooLong,
    Number::MipOddOrEmpty,
    Number::MipChannelAbove15,
    Number::MipChannelTwice,
    Number::MipValueFalls,
    Number::ChannelMasked,
    Number::NoneToSteal,
    Number::NoSuchGenerator,
    Number::GeneratorIdle,
    Number::NoSuchChannel,
    Number::LogOtherForm,
    Number::BadOrder,
    Number::LogSpoilt,
    Number::PageTooShort,
    Number::PitchOutOfRange,
    Number::LevelOutOfRange,
    Number::SongTooLong,
];

/// What the memory holds before a start, which makes the record "whatever the memory held before", and beside it.
pub const RUBBISH: u8 = 0xA5;

/// As much memory on each side as a byte, taken for the number of any element of the record, could reach.
pub const GUARD: usize = 4096;

/// A record with some memory on both sides: the library writes nothing but what it is lent.
#[repr(C)]
#[derive(Clone)]
pub struct Lent {
    before: [u8; GUARD],
    device: Device,
    after: [u8; GUARD],
    /// The last status byte but for real-time ones, and the last data byte: what a parser that swallows must hold.
    status: u8,
    data: u8,
}

impl Lent {
    fn new(bytes: [u8; RECORD_BYTES]) -> Lent {
        Lent {
            before: [RUBBISH; GUARD],
            device: Device::memory(bytes),
            after: [RUBBISH; GUARD],
            status: 0,
            data: 0,
        }
    }

    fn neighbours_untouched(&self) -> Given<()> {
        if self.before == [RUBBISH; GUARD] && self.after == [RUBBISH; GUARD] {
            return Ok(());
        }
        Err(Malformed("memory beside the record".to_string()))
    }

    /// "The record is read and not changed", nor what is beside it.
    fn is_as(&self, before: [u8; RECORD_BYTES]) -> Given<()> {
        self.neighbours_untouched()?;
        match self.device.bytes() == before {
            true => Ok(()),
            false => Err(Malformed("the record behind a page, changed".to_string())),
        }
    }

    /// A page without a buffer.
    pub fn page_nowhere(&mut self, address: usize) -> Given<Result<(), Number>> {
        let before = self.device.bytes();
        let number = self.device.page_nowhere(address);
        self.is_as(before)?;
        page_of(number)
    }
}

pub fn start(polyphony: u8, id: u8) -> (Lent, Given<Answer>) {
    let mut lent = Lent::new([RUBBISH; RECORD_BYTES]);
    let answer = lent.device.start(polyphony, id);
    (lent, answer_of(answer))
}

/// Calls on records that no start made: each "still returns, and writes no memory but what it is lent to write".
pub fn survive_rubbish(random: &mut Random, records: usize) -> Given<()> {
    for _ in 0..records {
        let mut lent = Lent::new(std::array::from_fn(|_| random.byte()));
        for _ in 0..20 {
            lent.device.byte(random.byte());
            lent.device.report(random.byte());
            lent.device.generator(random.byte());
            lent.device.mask(random.byte());
            lent.device.share(random.byte());
            lent.device.rhythm(random.byte());
            lent.device.gains(random.below(16));
        }
        lent.neighbours_untouched()?;
    }
    Ok(())
}

/// Pages of such records: each is 17 lines in a buffer that has room for them, and nothing else is written, nor is the
/// record.
pub fn survive_pages(random: &mut Random, records: usize) -> Result<(), String> {
    let rubbish = Rubbish::new(random);
    for _ in 0..records {
        let mut lent = Lent::new(std::array::from_fn(|_| random.byte()));
        let before = lent.device.bytes();
        let length = pages::some_length(random);
        let mut memory = rubbish.memory(random, length);
        let mut other = rubbish.memory(random, length);
        let number = lent.device.page(memory.buffer());
        lent.device.page(other.buffer());
        lent.is_as(before).map_err(|Malformed(found)| found)?;
        pages::judge_rubbish(length, number, [&memory, &other])?;
    }
    Ok(())
}

/// Rhythm queries of such records: channel 10 is a rhythm channel, channel 11 where its kind is 1 and no other number
/// (R1.14), and nothing else is, whatever there is beside.
pub fn rhythm_of_rubbish(random: &mut Random, records: usize) -> Result<(), String> {
    for _ in 0..records {
        let mut lent = Lent::new(std::array::from_fn(|_| random.byte()));
        let kind = match random.below(2) {
            0 => random.byte(),
            _ => random.pick(&[0, 1, 1, 2, 255]),
        };
        lent.device.instrument.kind = kind;
        let found: Vec<u8> = (0..=255)
            .map(|channel| lent.device.rhythm(channel))
            .collect();
        let expected = |channel: u8| u8::from(channel == 10 || channel == 11 && kind == 1);
        if let Some(channel) = (0..=255).find(|&c| found[usize::from(c)] != expected(c)) {
            let raw = found[usize::from(channel)];
            return Err(format!("{raw} for channel {channel}, kind {kind}"));
        }
    }
    Ok(())
}

fn number_of(number: u8) -> Option<Number> {
    NUMBERS.into_iter().find(|&known| known as u8 == number)
}

fn answer_of(raw: proved::Answer) -> Given<Answer> {
    let proved::Answer {
        what,
        number,
        channel,
        key,
        generator,
        was,
    } = raw;
    let was = [Was::Idle, Was::Release, Was::Stolen]
        .get(usize::from(was))
        .copied();
    let answer = match (what, number_of(number), was) {
        (proved::NONE, None, _) => Some(Answer::None),
        (proved::DONE, None, _) => Some(Answer::Done),
        (proved::NOTE, None, Some(was)) => Some(Answer::Note {
            channel,
            key,
            generator,
            was,
        }),
        (proved::NUMBER, Some(number @ (Number::ChannelMasked | Number::NoneToSteal)), _) => {
            Some(Answer::NoteRefused {
                number,
                channel,
                key,
            })
        }
        (proved::NUMBER, Some(number), _) => Some(Answer::Refused(number)),
        _ => None,
    };
    match answer {
        Some(answer) if raw_of(answer) == raw => Ok(answer),
        _ => Err(Malformed(format!("{raw:?}"))),
    }
}

/// The bytes that the header demands for an answer, "a field without meaning is 0" included.
fn raw_of(answer: Answer) -> proved::Answer {
    let [what, number, channel, key, generator, was] = match answer {
        Answer::None => [proved::NONE, 0, 0, 0, 0, 0],
        Answer::Done => [proved::DONE, 0, 0, 0, 0, 0],
        Answer::Note {
            channel,
            key,
            generator,
            was,
        } => [proved::NOTE, 0, channel, key, generator, was as u8],
        Answer::Refused(number) => [proved::NUMBER, number as u8, 0, 0, 0, 0],
        Answer::NoteRefused {
            number,
            channel,
            key,
        } => [proved::NUMBER, number as u8, channel, key, 0, 0],
    };
    proved::Answer {
        what,
        number,
        channel,
        key,
        generator,
        was,
    }
}

fn state_of(state: u8) -> Option<State> {
    let states = [State::Idle, State::Held, State::Sustained, State::Releasing];
    states.get(usize::from(state)).copied()
}

fn view_of(state: u8, channel: u8, key: u8) -> Option<GeneratorView> {
    let view = GeneratorView {
        state: state_of(state)?,
        channel,
        key,
    };
    (view.state != State::Idle || view == IDLE).then_some(view)
}

/// The parser's message under way. A System Common that swallows keeps here what the other side does not: the status
/// and, after F2, a data byte. Bytes behind the count are 0, as the definitions have it.
fn progress_of(parser: &proved::Parser, status: u8, data: u8) -> Given<Progress> {
    let (_, unused) = split(&parser.bytes, parser.count);
    let swallows = matches!(parser.status, 0xF1..=0xF3);
    let swallowed = parser.status == status && (parser.count == 0 || parser.bytes[0] == data);
    if unused.iter().any(|&byte| byte != 0) || swallows && !swallowed {
        return Err(Malformed(format!("{parser:?}")));
    }
    match (parser.status, parser.count) {
        (0, 0) => Ok(Progress::NoStatus),
        (status @ 0x80..=0xEF, 0) => Ok(Progress::Status(status)),
        (status @ 0x80..=0xEF, 1) => Ok(Progress::StatusAndData(status, parser.bytes[0])),
        (0xF0, 0..=37) => Ok(Progress::SysEx),
        (0xF1 | 0xF3, 0) | (0xF2, 1) => Ok(Progress::Swallow(1)),
        (0xF2, 0) => Ok(Progress::Swallow(2)),
        _ => Err(Malformed(format!("{parser:?}"))),
    }
}

fn sysex_of(parser: &proved::Parser) -> SysExBytes {
    match parser.status {
        0xF0 => SysExBytes::new(&parser.bytes[..usize::from(parser.count).min(37)]),
        _ => SysExBytes::new(&[]),
    }
}

fn entries_of(table: &proved::Table) -> Given<Items<Entry, 16>> {
    let (used, unused) = split(&table.entries, table.count);
    let zeros = |entry: &proved::Entry| entry.channel == 0 && entry.value == 0;
    let in_range = |entry: &proved::Entry| (1..=16).contains(&entry.channel);
    let wire = |entry: &proved::Entry| Entry {
        channel: entry.channel.wrapping_sub(1),
        value: entry.value,
    };
    if table.count > 16 || !used.iter().all(in_range) || !unused.iter().all(zeros) {
        return Err(Malformed(format!("{table:?}")));
    }
    Ok(Items::new(Entry::default(), used.iter().map(wire)))
}

fn ages_of(ages: &proved::Ages) -> Given<Items<u8, 64>> {
    let (used, unused) = split(&ages.generator, ages.count);
    if ages.count > 64 || used.iter().any(|&g| g >= 64) || unused.iter().any(|&g| g != 0) {
        return Err(Malformed(format!("{ages:?}")));
    }
    Ok(Items::new(0, used.iter().copied()))
}

/// The places that a count says are used, and the others.
fn split<T>(places: &[T], count: u8) -> (&[T], &[T]) {
    places.split_at(usize::from(count).min(places.len()))
}

fn generators_of(raw: &proved::Generators) -> Given<[GeneratorView; 64]> {
    let mut generators = [IDLE; 64];
    for (g, view) in generators.iter_mut().enumerate() {
        let (state, channel, key) = (raw.state[g], raw.channel[g], raw.key[g]);
        *view = view_of(state, channel, key).ok_or_else(|| {
            Malformed(format!(
                "generator {g} with state {state}, channel {channel}, key {key}"
            ))
        })?;
    }
    Ok(generators)
}

/// A kind, or what a rhythm query gives: 1 for rhythm, 0 for anything else (R1.14, R18.6).
fn rhythm_of(raw: u8) -> Given<bool> {
    match raw {
        0 => Ok(false),
        1 => Ok(true),
        _ => Err(Malformed(format!("{raw} for rhythm"))),
    }
}

/// A query's answer: its number, "and then the other fields are 0", or what it asks for.
fn query_of<T>(number: u8, rest: &[u8], value: Option<T>) -> Given<Result<T, Number>> {
    let refused = number_of(number).filter(|_| rest.iter().all(|&field| field == 0));
    match (number, refused, value) {
        (0, _, Some(value)) => Ok(Ok(value)),
        (_, Some(number), _) => Ok(Err(number)),
        _ => Err(Malformed(format!("number {number}, then {rest:?}"))),
    }
}

pub fn pitch((key, sensitivity, bend): Call) -> Given<Result<Pitch, Number>> {
    pitch_of(proved::pitch(key, sensitivity, bend))
}

/// A pitch, or a number with octave 0 and 65536 (R11.5).
pub fn pitch_of(raw: proved::PitchAnswer) -> Given<Result<Pitch, Number>> {
    let pitch = Pitch {
        octave: raw.octave,
        entry: raw.entry,
    };
    match number_of(raw.number) {
        None if raw.number == 0 => Ok(Ok(pitch)),
        Some(number) if pitch == Pitch::REFUSED => Ok(Err(number)),
        _ => Err(Malformed(format!("{raw:?}"))),
    }
}

pub fn gains((expression, volume, pan): gains::Call) -> Answered {
    gains_of(proved::gains(expression, volume, pan))
}

/// Gains, or a number with 0 and 0 (R12.9), which -0 is not.
pub fn gains_of(raw: proved::GainsAnswer) -> Answered {
    let silent = raw.left.to_bits() == 0 && raw.right.to_bits() == 0;
    match number_of(raw.number) {
        None if raw.number == 0 => Ok(Ok(Levels::Floats(raw.left, raw.right))),
        Some(number) if silent => Ok(Err(number)),
        _ => Err(Malformed(format!("{raw:?}"))),
    }
}

/// As much memory on each side of a channel's numbers as a byte, taken for the place of one, could reach.
const CHANNEL_GUARD: usize = 256;

/// A channel's numbers with some memory on both sides.
#[repr(C)]
struct LentChannel {
    before: [u8; CHANNEL_GUARD],
    channel: Channel,
    after: [u8; CHANNEL_GUARD],
}

/// The gains of a channel's numbers outside of a record. They are "read and not written".
pub fn channel_gains(channel: Channel) -> Answered {
    let mut lent = LentChannel {
        before: [RUBBISH; CHANNEL_GUARD],
        channel,
        after: [RUBBISH; CHANNEL_GUARD],
    };
    let raw = proved::channel_gains(&mut lent.channel);
    if lent.before != [RUBBISH; CHANNEL_GUARD] || lent.after != [RUBBISH; CHANNEL_GUARD] {
        return Err(Malformed("memory beside the numbers".to_string()));
    }
    if lent.channel != channel {
        return Err(Malformed(format!("other numbers, {:?}", lent.channel)));
    }
    gains_of(raw)
}

/// The hardest song, written to the memory's buffer.
pub fn write_song(call: hardest_song::Call, memory: &mut hardest_song::Memory) -> SongAnswer {
    proved::write_song(call.polyphony, call.n, memory.buffer())
}

/// The thefts of a song, or a number with 0 thefts (R13.6).
pub fn song_of(raw: SongAnswer) -> Given<Result<u32, Number>> {
    match number_of(raw.number) {
        None if raw.number == 0 => Ok(Ok(raw.thefts)),
        Some(number) if raw.thefts == 0 => Ok(Err(number)),
        _ => Err(Malformed(format!("{raw:?}"))),
    }
}

/// A page, or the number of a buffer without room for one.
pub fn page_of(number: u8) -> Given<Result<(), Number>> {
    match number_of(number) {
        None if number == 0 => Ok(Ok(())),
        Some(number) => Ok(Err(number)),
        None => Err(Malformed(format!("number {number}"))),
    }
}

/// The thefts of these bytes on a fresh device.
pub fn thefts(polyphony: u8, bytes: &[u8]) -> u32 {
    thefts_up_to_each(polyphony, bytes).last().unwrap_or(0)
}

/// The thefts up to each of these bytes on a fresh device.
pub fn thefts_up_to_each(polyphony: u8, bytes: &[u8]) -> impl Iterator<Item = u32> + '_ {
    let mut device = Device::memory([RUBBISH; RECORD_BYTES]);
    device.start(polyphony, 0);
    bytes.iter().scan(0, move |thefts, &byte| {
        *thefts += u32::from(is_theft(device.byte(byte)));
        Some(*thefts)
    })
}

/// A note whose generator was busy.
pub fn is_theft(answer: proved::Answer) -> bool {
    answer.what == proved::NOTE && answer.was == proved::WAS_STOLEN
}

impl Implementation for Lent {
    fn byte(&mut self, byte: u8) -> Given<Answer> {
        match byte {
            0..=0x7F => self.data = byte,
            0x80..=0xF7 => self.status = byte,
            0xF8..=0xFF => {}
        }
        answer_of(self.device.byte(byte))
    }

    fn report(&mut self, generator: u8) -> Given<Answer> {
        answer_of(self.device.report(generator))
    }

    fn generator(&self, generator: u8) -> Given<Result<GeneratorView, Number>> {
        let raw = self.device.generator(generator);
        let rest = [raw.state, raw.channel, raw.key];
        query_of(raw.number, &rest, view_of(raw.state, raw.channel, raw.key))
    }

    fn masked(&self, channel: u8) -> Given<Result<bool, Number>> {
        let raw = self.device.mask(channel);
        let masked = match raw.masked {
            0 => Some(false),
            1 => Some(true),
            _ => None,
        };
        query_of(raw.number, &[raw.masked], masked)
    }

    fn share(&self, channel: u8) -> Given<Result<u8, Number>> {
        let raw = self.device.share(channel);
        query_of(raw.number, &[raw.share], Some(raw.share))
    }

    fn rhythm(&self, channel: u8) -> Given<bool> {
        rhythm_of(self.device.rhythm(channel))
    }

    fn page(&mut self, memory: &mut Memory) -> Given<Result<(), Number>> {
        let before = self.device.bytes();
        let number = self.device.page(memory.buffer());
        self.is_as(before)?;
        page_of(number)
    }

    fn gains(&self, channel: usize) -> Answered {
        gains_of(self.device.gains(channel))
    }

    fn record(&self) -> Given<Record> {
        self.neighbours_untouched()?;
        record_of(&self.device, self.status, self.data)
    }
}

/// The record of a device whose last status byte and last data byte were these.
pub fn record_of(device: &Device, status: u8, data: u8) -> Given<Record> {
    let instrument = &device.instrument;
    Ok(Record {
        polyphony: instrument.polyphony,
        id: instrument.id,
        entries: entries_of(&instrument.table)?,
        channels: instrument.channels,
        second_drums: rhythm_of(instrument.kind)?,
        generators: generators_of(&instrument.generators)?,
        oldest_first: ages_of(&instrument.generators.ages)?,
        progress: progress_of(&device.parser, status, data)?,
        sysex: sysex_of(&device.parser),
    })
}
