//! Counts what was reached: every kind of answer and every number must be, and what reports, mode messages, thefts and
//! channel 11 can find.

use crate::drums::DRUM_CHANNEL;
use crate::eleven_tally::ElevenTally;
use crate::record::Record;
use paper::{Answer, GeneratorView, Number, State, Was};
use std::fmt;

const KINDS: [&str; 5] = [
    "none",
    "done",
    "note, idle",
    "note, release",
    "note, stolen",
];

const REPORTS: [&str; 3] = [
    "report of a held one",
    "report of a sustained one",
    "report of a releasing one",
];

const MODE_MESSAGES: [&str; 4] = [
    "124 to 127, pedal up",
    "124 to 127, pedal down",
    "124 to 127 on 10, pedal up",
    "124 to 127 on 10, pedal down",
];

/// By the channel that loses, the new note's own or another.
const THEFTS: [&str; 4] = [
    "pedal note stolen, own",
    "pedal note stolen, other's",
    "held one stolen, own",
    "held one stolen, other's",
];

/// Numbers 1 to 14, each one place before its own, and those of pitches, gains, songs, logs and pages behind them.
const NUMBERS: [(Number, &str); 21] = [
    (Number::PolyphonyOutOfRange, "P not 1 to 64"),
    (Number::IdOutOfRange, "ID above 126"),
    (Number::StrayData, "stray data byte"),
    (Number::SysExCut, "SysEx cut"),
    (Number::MipTooLong, "MIP too long"),
    (Number::MipOddOrEmpty, "MIP odd or empty"),
    (Number::MipChannelAbove15, "MIP channel above 15"),
    (Number::MipChannelTwice, "MIP channel twice"),
    (Number::MipValueFalls, "MIP value falls"),
    (Number::ChannelMasked, "channel masked"),
    (Number::NoneToSteal, "none to steal"),
    (Number::NoSuchGenerator, "no such generator"),
    (Number::GeneratorIdle, "generator idle"),
    (Number::NoSuchChannel, "no such channel"),
    (Number::PitchOutOfRange, "pitch out of range"),
    (Number::LevelOutOfRange, "level above 127"),
    (Number::SongTooLong, "song too long"),
    (Number::LogOtherForm, "log line of another form"),
    (Number::BadOrder, "order not of all channels"),
    (Number::LogSpoilt, "log spoilt"),
    (Number::PageTooShort, "no room for a page"),
];

/// A place for each number, the highest included; those that nobody has stay 0.
const PLACES: usize = 1 + Number::SongTooLong as usize;

#[derive(Clone, Debug, Default)]
pub struct Tally {
    kinds: [u64; 5],
    /// Accepted reports, by what the generator was.
    reports: [u64; 3],
    /// Mode messages that found a held generator on their channel, those to channel 10 apart.
    mode_messages: [u64; 4],
    /// Thefts of a pedal note whose channel had an older one held, and those of a held one while another channel had
    /// pedal notes: without R5.9, or with pedal notes sought everywhere, another would have gone.
    thefts: [u64; 4],
    pub eleven: ElevenTally,
    /// Numbers that starts, bytes and reports answered.
    numbers: [u64; PLACES],
    /// Numbers that queries, pitches, gains, songs, logs and pages gave, apart: 1 and 12 have both.
    queries: [u64; PLACES],
}

impl Tally {
    pub fn answer(&mut self, answer: Answer) {
        let kind = match answer {
            Answer::None => 0,
            Answer::Done => 1,
            Answer::Note { was, .. } => match was {
                Was::Idle => 2,
                Was::Release => 3,
                Was::Stolen => 4,
            },
            Answer::Refused(number) | Answer::NoteRefused { number, .. } => {
                self.numbers[number as usize] += 1;
                return;
            }
        };
        self.kinds[kind] += 1;
    }

    /// An accepted report of a generator in this state.
    pub fn report(&mut self, state: State) {
        match state {
            State::Idle => {}
            State::Held => self.reports[0] += 1,
            State::Sustained => self.reports[1] += 1,
            State::Releasing => self.reports[2] += 1,
        }
    }

    /// A mode message to a channel on the wire, and the record before it.
    pub fn mode_message(&mut self, channel: u8, before: &Record) {
        const HOLD: usize = 5;
        let mut generators = before.generators.iter();
        if generators.any(|view| view.state == State::Held && view.channel == channel + 1) {
            let pedal_down = before.channels[usize::from(channel)][HOLD] >= 64;
            let drums = channel == DRUM_CHANNEL;
            self.mode_messages[2 * usize::from(drums) + usize::from(pedal_down)] += 1;
        }
    }

    /// A theft of a generator for a note of a channel, from 1, and the record before it.
    pub fn theft(&mut self, channel: u8, generator: u8, before: &Record) {
        let view = |g: u8| before.generators[usize::from(g)];
        let stolen = view(generator);
        let oldest_first = || before.oldest_first.as_slice().iter().map(|&g| view(g));
        let of_loser = |other: &GeneratorView| other.channel == stolen.channel;
        let (row, told) = match stolen.state {
            State::Sustained => {
                let oldest = oldest_first().find(of_loser);
                (0, oldest.is_some_and(|view| view.state == State::Held))
            }
            _ => {
                let mut others = oldest_first().filter(|other| !of_loser(other));
                (2, others.any(|view| view.state == State::Sustained))
            }
        };
        self.thefts[row + usize::from(stolen.channel != channel)] += u64::from(told);
    }

    pub fn query(&mut self, number: Number) {
        self.queries[number as usize] += 1;
    }

    /// So many pitches, gains, songs, logs or pages were refused, by this number.
    pub fn refused(&mut self, number: Number, count: u64) {
        self.queries[number as usize] += count;
    }

    /// The kinds and numbers that never came.
    pub fn missing(&self) -> Vec<String> {
        self.rows()
            .filter(|row| row.1 == 0)
            .map(|row| row.0)
            .collect()
    }

    /// Each kind and number with its count. Number 14 comes of queries alone, 21 of pitches, 24 of gains, 25 of songs,
    /// 15 to 17 of logs, 18 of pages, 12 of queries as well, 1 of songs as well.
    fn rows(&self) -> impl Iterator<Item = (String, u64)> + '_ {
        let row = |(number, words): (Number, &str), counts: &[u64; PLACES]| {
            let count = counts[number as usize];
            (format!("{:2} {words}", number as u8), count)
        };
        let kinds = KINDS.iter().zip(self.kinds);
        let kinds = kinds.chain(REPORTS.iter().zip(self.reports));
        let kinds = kinds.chain(MODE_MESSAGES.iter().zip(self.mode_messages));
        let kinds = kinds.chain(THEFTS.iter().zip(self.thefts));
        let kinds = kinds.map(|(&name, count)| (name, count));
        let kinds = kinds.chain(self.eleven.rows());
        let kinds = kinds.map(|(name, count)| (name.to_string(), count));
        let numbers = NUMBERS[..13].iter();
        let numbers = numbers.map(move |&named| row(named, &self.numbers));
        let query = |(name, count)| (format!("{name}, query"), count);
        let queries = [12, 14].map(|number| query(row(NUMBERS[number - 1], &self.queries)));
        let song = |(name, count)| (format!("{name}, song"), count);
        let songs = [song(row(NUMBERS[0], &self.queries))];
        let others = [14, 15, 16, 17, 18, 19, 20].map(|at| row(NUMBERS[at], &self.queries));
        kinds
            .chain(numbers)
            .chain(queries)
            .chain(songs)
            .chain(others)
    }
}

impl fmt::Display for Tally {
    fn fmt(&self, f: &mut fmt::Formatter<'_>) -> fmt::Result {
        self.rows()
            .try_for_each(|(name, count)| writeln!(f, "{name:30} {count:>9}"))
    }
}
