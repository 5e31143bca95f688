//! Demand 3's claims (R10.1 to R10.10), that of the most thefts (R13.2) and what a theft takes (R5.7 to R5.9), held
//! against what ran.
//!
//! The book is kept beside the devices; nothing here looks into a device except to compare.

use crate::book::{Book, Note, Seen, Slip};
use crate::drums::SECOND_DRUM_CHANNEL;
use crate::lists::Event;
use crate::record::Record;
use crate::split::{Message, Splitter};
use crate::thefts::{self, Theft};
use paper::{Answer, GeneratorView, Number, State, Was, MOST_GENERATORS};

/// How often the claims had something to say.
#[derive(Clone, Debug, Default)]
pub struct Exercised {
    /// Note-ons of a channel that kept within its share.
    pub within_share: u64,
    /// Of these, the ones that found a note on every generator.
    pub within_share_and_full: u64,
    /// Of those, the ones of a rhythm channel 11.
    pub drums_within_share_and_full: u64,
    /// Of those, the ones that only fit because they end another of their group.
    pub drums_within_share_by_group: u64,
    /// Thefts and refusals on unmasked channels.
    pub thefts_and_refusals: u64,
    /// Bytes behind a fresh device and no report.
    pub since_fresh: u64,
    /// Of these, the ones up to which there were thefts, and as many as there can be.
    pub at_most_thefts: u64,
}

/// What came since the device was fresh, without a report.
#[derive(Clone, Copy, Default)]
struct SinceFresh {
    bytes: usize,
    thefts: usize,
}

/// The book and what the claims need beside it, for one list of events.
pub struct Claims {
    splitter: Splitter,
    book: Book,
    /// Which channels have kept within their share in some run that reaches up to now.
    within_share: [bool; 16],
    /// When each generator's last *note* answer came: 0 for never.
    last_note: [u64; MOST_GENERATORS],
    clock: u64,
    /// None behind a report, until a reset.
    since_fresh: Option<SinceFresh>,
}

impl Claims {
    /// The list begins with a start (R10.1): P and ID as the book has them (R9.3).
    pub fn new(polyphony: u8, id: u8, answer: Answer, slip: Option<Slip>) -> Claims {
        let book = match answer {
            Answer::Done => Book::fresh(polyphony, id, slip),
            _ => Book::fresh(1, 0, slip),
        };
        Claims {
            splitter: Splitter::default(),
            book,
            within_share: [false; 16],
            last_note: [0; MOST_GENERATORS],
            clock: 0,
            since_fresh: Some(SinceFresh::default()),
        }
    }

    /// The book as it is now.
    pub fn book(&self) -> &Book {
        &self.book
    }

    /// Takes an event with its answer, and checks what is claimed of thefts and refusals.
    pub fn event(
        &mut self,
        event: Event,
        answer: Answer,
        exercised: &mut Exercised,
    ) -> Result<(), String> {
        self.clock += 1;
        match event {
            Event::Report(generator) => {
                self.since_fresh = None;
                self.book.report(generator, answer);
            }
            Event::Byte(byte) => {
                self.most_thefts(answer, exercised)?;
                if let Some(message) = self.splitter.byte(byte) {
                    self.message(&message, answer, exercised)?;
                }
            }
        }
        // Behind the message: what was stolen is judged by the note that it was.
        if let Answer::Note { generator, .. } = answer {
            self.last_note[usize::from(generator)] = self.clock;
        }
        Ok(())
    }

    /// R13.2: no more thefts than there can be, for every n up to this byte.
    fn most_thefts(&mut self, answer: Answer, exercised: &mut Exercised) -> Result<(), String> {
        let Some(since) = &mut self.since_fresh else {
            return Ok(());
        };
        since.bytes += 1;
        since.thefts += usize::from(answer.is_theft());
        let most = self.book.most_thefts(since.bytes);
        exercised.since_fresh += 1;
        exercised.at_most_thefts += u64::from(since.thefts == most && most > 0);
        if since.thefts <= most {
            return Ok(());
        }
        Err(format!(
            "R13.2: {} thefts in {} bytes from a fresh device, which can make {most} at most",
            since.thefts, since.bytes
        ))
    }

    fn message(
        &mut self,
        message: &Message,
        answer: Answer,
        exercised: &mut Exercised,
    ) -> Result<(), String> {
        self.begin_runs();
        let note_on = match message {
            Message::Channel {
                kind: 0x9,
                channel,
                data: [key, 1..=127],
            } => Some((*channel, *key)),
            _ => None,
        };
        if let Some((channel, key)) = note_on {
            self.count_note_on(channel, key, answer, exercised)?;
        }
        let had = note_on.map(|_| self.book.clone());
        let seen = self.book.message(message, answer);
        match (seen, note_on) {
            (Seen::Boundary, _) => self.boundary(message),
            (Seen::Stolen(stolen), _) => self.not_within_share(stolen)?,
            _ => {}
        }
        let (Some(note_on), Some(had)) = (note_on, had) else {
            return Ok(());
        };
        justified(&had, note_on, answer, seen, exercised)?;
        self.theft(&had, note_on.0, answer, seen)
    }

    /// R5.7 to R5.10: a note that left as stolen is the one that had to, and there was none where 11 is answered.
    fn theft(&self, had: &Book, new_note: u8, answer: Answer, seen: Seen) -> Result<(), String> {
        if answer.number() == Some(Number::NoneToSteal) {
            return thefts::none_to_steal(had, new_note);
        }
        let (Seen::Stolen(stolen), Answer::Note { generator, .. }) = (seen, answer) else {
            return Ok(());
        };
        let theft = Theft {
            had,
            last_note: &self.last_note,
            generator,
            stolen,
            new_note,
        };
        theft.judge()
    }

    /// A run ends (R10.5); behind a reset the record is fresh (R3.6).
    fn boundary(&mut self, message: &Message) {
        self.within_share = [false; 16];
        if matches!(message, Message::SysEx(bytes) if bytes.first() == Some(&0x7E)) {
            self.since_fresh = Some(SinceFresh::default());
        }
    }

    /// Runs begin anywhere (R10.5): a channel whose notes are now at most its share may begin one here (R10.6).
    fn begin_runs(&mut self) {
        for channel in 0..16 {
            let notes = self.book.notes_of(channel).count();
            let fits = self.book.share(channel).is_some_and(|share| notes <= share);
            self.within_share[usize::from(channel)] |= fits;
        }
    }

    /// Counts a note-on against the share (R10.4, R10.6); within it the answer is *note* (R10.7).
    fn count_note_on(
        &mut self,
        channel: u8,
        key: u8,
        answer: Answer,
        exercised: &mut Exercised,
    ) -> Result<(), String> {
        let within = &mut self.within_share[usize::from(channel)];
        let count = self.book.count_at(channel, key);
        *within &= self.book.share(channel).is_some_and(|share| count <= share);
        if !*within {
            return Ok(());
        }
        exercised.within_share += 1;
        let full = self.book.notes().iter().all(Option::is_some);
        exercised.within_share_and_full += u64::from(full);
        if full && channel == SECOND_DRUM_CHANNEL && self.book.is_rhythm(channel) {
            exercised.drums_within_share_and_full += 1;
            let with_group = self.book.count_at_but_for_group(channel, key);
            let by_group = self
                .book
                .share(channel)
                .is_some_and(|share| with_group > share);
            exercised.drums_within_share_by_group += u64::from(by_group);
        }
        match answer {
            Answer::Note { .. } => Ok(()),
            _ => Err(format!(
                "demand 3: channel {} never had more than its share, yet its note-on of key {key} answers {answer:?}",
                channel + 1
            )),
        }
    }

    /// R10.8: it is of a channel that did not keep within its share.
    fn not_within_share(&self, stolen: Note) -> Result<(), String> {
        if self.within_share[usize::from(stolen.channel)] {
            return Err(format!(
                "demand 3: channel {} never had more than its share, yet its key {} leaves as stolen",
                stolen.channel + 1,
                stolen.key
            ));
        }
        Ok(())
    }

    /// R10.2: busy is who has a note in the book; R10.10: the older of two sounding generators is the one whose last
    /// *note* answer came earlier.
    pub fn record(&self, record: &Record) -> Result<(), String> {
        for (g, view) in record.generators.iter().enumerate() {
            let note = self.book.notes().get(g).copied().flatten();
            if busy(*view) != note.map(as_generator) {
                return Err(format!(
                    "demand 3: generator {g} is {view:?}, the book has {note:?}"
                ));
            }
        }
        let order = record.oldest_first.as_slice();
        let moment = |g: u8| self.last_note[usize::from(g)];
        match order.windows(2).find(|pair| moment(pair[0]) >= moment(pair[1])) {
            Some(pair) => Err(format!(
                "order of age: generator {} is older than {} in the record, but its last note came later",
                pair[0], pair[1]
            )),
            None => sounding_are_ordered(record),
        }
    }
}

/// The order of age must hold the sounding generators, each once.
fn sounding_are_ordered(record: &Record) -> Result<(), String> {
    let order = record.oldest_first.as_slice();
    let ordered = order.iter().fold(0u64, |set, &g| set | 1 << g);
    let sounding = record
        .generators
        .iter()
        .enumerate()
        .filter(|(_, view)| view.state != State::Idle)
        .fold(0u64, |set, (g, _)| set | 1 << g);
    if ordered != sounding || order.len() != sounding.count_ones() as usize {
        return Err(format!(
            "order of age: it has {order:?}, sounding are {sounding:#b}"
        ));
    }
    Ok(())
}

/// R10.9: a theft, or a refusal on an unmasked channel, needs a note on every generator, none of them one that the new
/// note ends.
fn justified(
    had: &Book,
    (channel, key): (u8, u8),
    answer: Answer,
    seen: Seen,
    exercised: &mut Exercised,
) -> Result<(), String> {
    let stolen = matches!(
        answer,
        Answer::Note {
            was: Was::Stolen,
            ..
        }
    ) || matches!(seen, Seen::Stolen(_));
    let refused = answer.number().is_some() && had.share(channel).is_some();
    if !stolen && !refused {
        return Ok(());
    }
    exercised.thefts_and_refusals += 1;
    let needed = had
        .notes()
        .iter()
        .all(|note| note.is_some_and(|note| !had.ended_by(channel, key, note)));
    if needed {
        return Ok(());
    }
    Err(format!(
        "demand 3: the note-on of channel {} key {key} answers {answer:?} although a generator was free for it",
        channel + 1
    ))
}

fn busy(view: GeneratorView) -> Option<GeneratorView> {
    matches!(view.state, State::Held | State::Sustained).then_some(view)
}

fn as_generator(note: Note) -> GeneratorView {
    GeneratorView {
        state: if note.down {
            State::Held
        } else {
            State::Sustained
        },
        channel: note.channel + 1,
        key: note.key,
    }
}
