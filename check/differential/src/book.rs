//! The note book (R9.1 to R9.19): which notes the device owes, kept from messages, reports and answers alone.
//!
//! A book can be told to forget one of its rules or to have one wrong (a `Slip`), to show that the checks would notice.

use crate::drums::{excludes, DRUM_CHANNEL, SECOND_DRUM_CHANNEL};
use crate::eleven::Eleven;
use crate::split::Message;
use paper::{most_thefts, Answer, MOST_GENERATORS};

/// The starting order, channels from 1 (R2.6). It is written out: what works it out is held against it.
pub const STARTING_ORDER: [u8; 16] = [10, 1, 2, 3, 4, 5, 6, 7, 8, 9, 11, 12, 13, 14, 15, 16];

#[derive(Clone, Copy, Debug, PartialEq, Eq)]
pub struct Note {
    /// The channel minus 1.
    pub channel: u8,
    pub key: u8,
    /// Down, or on the pedal.
    pub down: bool,
}

/// A rule that a wrong book forgets, the bound of R13.1 or what R5.8 and R5.9 say of a theft in a wrong form.
#[derive(Clone, Copy, Debug, PartialEq, Eq)]
pub enum Slip {
    NoteOff,
    SameKey,
    Group,
    PedalUp,
    ResetControllers,
    AllSoundOff,
    AllNotesOff,
    ModeMessages,
    Report,
    NewTable,
    Reset,
    OneTheftLess,
    OneByteLess,
    ThreeBytesANote,
    /// What a theft takes is not looked at.
    Thefts,
    PedalNotesNotCounted,
    KeysDownFirst,
    OldestOfBothKinds,
    /// Channel 11 is melody whatever comes.
    KindOfEleven,
    GroupOfEleven,
    GroupsAcrossChannels,
    NoteOffOfEleven,
    AllNotesOffOfEleven,
    ChangeOfKind,
    PedalNotesAtChangeOfKind,
    KeysDownAtChangeOfKind,
    EveryProgramEndsNotes,
    BankOfAnyChannel,
    ProgramOfAnyChannel,
    BankLsb,
    BanksSwapped,
    OtherBanksMakeMelody,
    KindByBankAlone,
    KindWhileMasked,
    BankReset,
    KindReset,
    KindAtSystemOn,
}

pub const SLIPS: [Slip; 11] = [
    Slip::NoteOff,
    Slip::SameKey,
    Slip::Group,
    Slip::PedalUp,
    Slip::ResetControllers,
    Slip::AllSoundOff,
    Slip::AllNotesOff,
    Slip::ModeMessages,
    Slip::Report,
    Slip::NewTable,
    Slip::Reset,
];

/// What can be wrong about channel 11.
pub const SLIPS_OF_KINDS: [Slip; 19] = [
    Slip::KindOfEleven,
    Slip::GroupOfEleven,
    Slip::GroupsAcrossChannels,
    Slip::NoteOffOfEleven,
    Slip::AllNotesOffOfEleven,
    Slip::ChangeOfKind,
    Slip::PedalNotesAtChangeOfKind,
    Slip::KeysDownAtChangeOfKind,
    Slip::EveryProgramEndsNotes,
    Slip::BankOfAnyChannel,
    Slip::ProgramOfAnyChannel,
    Slip::BankLsb,
    Slip::BanksSwapped,
    Slip::OtherBanksMakeMelody,
    Slip::KindByBankAlone,
    Slip::KindWhileMasked,
    Slip::BankReset,
    Slip::KindReset,
    Slip::KindAtSystemOn,
];

pub const WRONG_BOUNDS: [Slip; 3] = [Slip::OneTheftLess, Slip::OneByteLess, Slip::ThreeBytesANote];

/// Each with the rule that it has wrong.
pub const WRONG_THEFTS: [(Slip, &str); 3] = [
    (Slip::PedalNotesNotCounted, "R5.8"),
    (Slip::KeysDownFirst, "R5.9"),
    (Slip::OldestOfBothKinds, "R5.9"),
];

#[derive(Clone, Debug)]
pub struct Book {
    polyphony: u8,
    id: u8,
    notes: [Option<Note>; MOST_GENERATORS],
    hold: [u8; 16],
    /// Channel minus 1 and value, by falling priority.
    table: Vec<(u8, u8)>,
    eleven: Eleven,
    slip: Option<Slip>,
}

/// What the book saw in a message, beyond the change of its notes.
#[derive(Clone, Copy, Debug, PartialEq, Eq)]
pub enum Seen {
    Ordinary,
    /// A note left as stolen.
    Stolen(Note),
    /// An accepted MIP message or reset: the end of a run.
    Boundary,
}

impl Book {
    /// The fresh book (R9.4).
    pub fn fresh(polyphony: u8, id: u8, slip: Option<Slip>) -> Book {
        Book {
            polyphony,
            id,
            notes: [None; MOST_GENERATORS],
            hold: [0; 16],
            table: STARTING_ORDER
                .map(|channel| (channel - 1, polyphony))
                .to_vec(),
            eleven: Eleven::FRESH,
            slip,
        }
    }

    /// The notes of generators 0 to P − 1.
    pub fn notes(&self) -> &[Option<Note>] {
        &self.notes[..usize::from(self.polyphony)]
    }

    /// Channel minus 1 and value, by falling priority.
    pub fn table(&self) -> &[(u8, u8)] {
        &self.table
    }

    pub fn notes_of(&self, channel: u8) -> impl Iterator<Item = Note> + '_ {
        self.notes()
            .iter()
            .flatten()
            .copied()
            .filter(move |note| note.channel == channel)
    }

    /// The share of a channel, from the table and P; none if it is masked.
    pub fn share(&self, channel: u8) -> Option<usize> {
        let at = self.table.iter().position(|entry| entry.0 == channel)?;
        let value = self.table[at].1;
        let before = if at == 0 { 0 } else { self.table[at - 1].1 };
        (value <= self.polyphony).then(|| usize::from(value.saturating_sub(before)))
    }

    /// Is a channel on the wire a rhythm channel (R5.12)?
    pub fn is_rhythm(&self, channel: u8) -> bool {
        channel == DRUM_CHANNEL
            || channel == SECOND_DRUM_CHANNEL
                && self.eleven.is_rhythm()
                && !self.has(Slip::KindOfEleven)
    }

    /// Is it one, but for a rule that a wrong book does not have on channel 11?
    fn is_rhythm_but_for(&self, channel: u8, slip: Slip) -> bool {
        self.is_rhythm(channel) && !(channel == SECOND_DRUM_CHANNEL && self.has(slip))
    }

    /// Does a note-on of this channel and key end the note, before it looks for a generator?
    pub fn ended_by(&self, channel: u8, key: u8, note: Note) -> bool {
        let rhythm = self.is_rhythm_but_for(channel, Slip::GroupOfEleven);
        let across = self.has(Slip::GroupsAcrossChannels) && self.is_rhythm(note.channel);
        let own = note.channel == channel;
        own && note.key == key || rhythm && (own || across) && excludes(key, note.key)
    }

    /// R10.4: a channel's count at a note-on.
    pub fn count_at(&self, channel: u8, key: u8) -> usize {
        let kept = |note: &Note| !self.ended_by(channel, key, *note);
        self.notes_of(channel).filter(kept).count() + 1
    }

    /// The same if it ended none but its own key: on a rhythm channel it can be more.
    pub fn count_at_but_for_group(&self, channel: u8, key: u8) -> usize {
        self.notes_of(channel)
            .filter(|note| note.key != key)
            .count()
            + 1
    }

    /// R13.1: the most thefts of so many bytes from a fresh device.
    pub fn most_thefts(&self, bytes: usize) -> usize {
        match self.slip {
            Some(Slip::OneTheftLess) => most_thefts(self.polyphony, bytes).saturating_sub(1),
            Some(Slip::OneByteLess) => most_thefts(self.polyphony, bytes.saturating_sub(1)),
            Some(Slip::ThreeBytesANote) => (bytes / 3).saturating_sub(self.polyphony.into()),
            _ => most_thefts(self.polyphony, bytes),
        }
    }

    /// A complete message and the answer to its last byte.
    pub fn message(&mut self, message: &Message, answer: Answer) -> Seen {
        match message {
            Message::Channel {
                kind,
                channel,
                data,
            } => self.channel_message(*kind, *channel, *data, answer),
            Message::SysEx(bytes) => self.sysex(bytes, answer),
        }
    }

    /// A report and its answer (R9.14).
    pub fn report(&mut self, generator: u8, answer: Answer) {
        if answer == Answer::Done && !self.has(Slip::Report) {
            self.notes[usize::from(generator)] = None;
        }
    }

    fn channel_message(&mut self, kind: u8, channel: u8, data: [u8; 2], answer: Answer) -> Seen {
        self.second_drums(kind, channel, data);
        match (kind, data) {
            (0x9, [key, 1..=127]) => return self.note_on(channel, key, answer),
            (0x8 | 0x9, [key, _]) if !self.has(Slip::NoteOff) => self.note_off(channel, key),
            (0xB, [64, value]) => {
                self.hold[usize::from(channel)] = value;
                if value < 64 && !self.has(Slip::PedalUp) {
                    self.drop_notes(|note| note.channel == channel && !note.down);
                }
            }
            (0xB, [120, 0]) if !self.has(Slip::AllSoundOff) => {
                self.drop_notes(|note| note.channel == channel);
            }
            (0xB, [121, 0]) => {
                self.hold[usize::from(channel)] = 0;
                if !self.has(Slip::ResetControllers) {
                    self.drop_notes(|note| note.channel == channel && !note.down);
                }
            }
            (0xB, [123, 0]) if !self.has(Slip::AllNotesOff) => self.all_notes_off(channel),
            (0xB, [124..=127, _]) if !self.has(Slip::ModeMessages) => {
                self.all_notes_off(channel);
            }
            _ => {}
        }
        Seen::Ordinary
    }

    /// R9.18, R9.19: the notes of channel 11 leave where its kind changes.
    fn second_drums(&mut self, kind: u8, channel: u8, data: [u8; 2]) {
        if self.has(Slip::KindWhileMasked) && self.share(SECOND_DRUM_CHANNEL).is_none() {
            return;
        }
        let slip = self.slip;
        let has = |wrong| slip == Some(wrong);
        let changed = self.eleven.message(kind, channel, data, has);
        let program = kind == 0xC && channel == SECOND_DRUM_CHANNEL;
        if changed || program && has(Slip::EveryProgramEndsNotes) {
            let stays = |note: Note| match note.down {
                true => has(Slip::ChangeOfKind) || has(Slip::KeysDownAtChangeOfKind),
                false => has(Slip::ChangeOfKind) || has(Slip::PedalNotesAtChangeOfKind),
            };
            self.drop_notes(|note| note.channel == SECOND_DRUM_CHANNEL && !stays(note));
        }
    }

    fn note_on(&mut self, channel: u8, key: u8, answer: Answer) -> Seen {
        let Answer::Note { generator, .. } = answer else {
            return Seen::Ordinary;
        };
        let (same_key, group) = (!self.has(Slip::SameKey), !self.has(Slip::Group));
        let ended = self.notes.map(|note| {
            note.filter(|&note| self.ended_by(channel, key, note))
                .is_some_and(|note| if note.key == key { same_key } else { group })
        });
        for (place, _) in self.notes.iter_mut().zip(ended).filter(|place| place.1) {
            *place = None;
        }
        let note = Note {
            channel,
            key,
            down: true,
        };
        match self.notes[usize::from(generator)].replace(note) {
            Some(stolen) => Seen::Stolen(stolen),
            None => Seen::Ordinary,
        }
    }

    fn note_off(&mut self, channel: u8, key: u8) {
        if !self.is_rhythm_but_for(channel, Slip::NoteOffOfEleven) {
            self.keys_up(channel, |note| note.key == key);
        }
    }

    /// R9.13: on a rhythm channel they leave, whatever the hold.
    fn all_notes_off(&mut self, channel: u8) {
        if self.is_rhythm_but_for(channel, Slip::AllNotesOffOfEleven) {
            self.drop_notes(|note| note.channel == channel && note.down);
        } else {
            self.keys_up(channel, |_| true);
        }
    }

    /// R9.10, R9.13: down notes go on the pedal, or leave.
    fn keys_up(&mut self, channel: u8, which: impl Fn(Note) -> bool) {
        let concerned = |note: Note| note.channel == channel && note.down && which(note);
        if self.hold[usize::from(channel)] < 64 {
            self.drop_notes(concerned);
            return;
        }
        for note in self.notes.iter_mut().flatten() {
            if concerned(*note) {
                note.down = false;
            }
        }
    }

    fn sysex(&mut self, bytes: &[u8], answer: Answer) -> Seen {
        let accepted = |d: u8| (d == 0x7F || d == self.id) && answer == Answer::Done;
        match bytes {
            [0x7F, d, 0x0B, 0x01, pairs @ ..] if accepted(*d) => {
                self.table = pairs
                    .chunks_exact(2)
                    .map(|pair| (pair[0], pair[1]))
                    .collect();
                self.drop_masked();
                Seen::Boundary
            }
            [0x7E, d, 0x09, 0x01] if accepted(*d) => {
                let eleven = self.eleven;
                if !self.has(Slip::Reset) {
                    *self = Book::fresh(self.polyphony, self.id, self.slip);
                }
                if self.has(Slip::KindAtSystemOn) {
                    self.eleven = eleven;
                }
                Seen::Boundary
            }
            _ => Seen::Ordinary,
        }
    }

    fn drop_masked(&mut self) {
        if self.has(Slip::NewTable) {
            return;
        }
        for channel in 0..16 {
            if self.share(channel).is_none() {
                self.drop_notes(|note| note.channel == channel);
            }
        }
    }

    fn drop_notes(&mut self, leaves: impl Fn(Note) -> bool) {
        for place in &mut self.notes {
            if place.is_some_and(&leaves) {
                *place = None;
            }
        }
    }

    /// Has it no rule wrong?
    pub fn is_right(&self) -> bool {
        self.slip.is_none()
    }

    /// Is this rule forgotten, or wrong?
    pub fn has(&self, slip: Slip) -> bool {
        self.slip == Some(slip)
    }
}
