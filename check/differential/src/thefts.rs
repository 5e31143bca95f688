//! What a theft takes, and where nothing is to be stolen (R5.7 to R5.10, R10.11, R10.12), told by the book as it was
//! just before the note-on.

use crate::book::{Book, Note, Slip};
use paper::MOST_GENERATORS;

/// A note that left as stolen.
pub struct Theft<'a> {
    pub had: &'a Book,
    /// When each generator's last *note* answer came, the new one's not counted.
    pub last_note: &'a [u64; MOST_GENERATORS],
    pub generator: u8,
    pub stolen: Note,
    /// The new note's channel minus 1.
    pub new_note: u8,
}

impl Theft<'_> {
    pub fn judge(&self) -> Result<(), String> {
        if self.had.has(Slip::Thefts) {
            return Ok(());
        }
        self.of_the_channel_that_loses()?;
        self.pedal_notes_first()?;
        self.oldest_of_its_kind()
    }

    /// R5.8: it is of the channel that loses.
    fn of_the_channel_that_loses(&self) -> Result<(), String> {
        match loser(self.had, self.new_note) {
            Some(loser) if loser == self.stolen.channel => Ok(()),
            loser => Err(format!(
                "R5.8: {} is stolen, and the channel that loses is {:?}",
                self.words(),
                loser.map(|channel| channel + 1)
            )),
        }
    }

    /// R5.9: one that is down goes only if its channel has none on the pedal.
    fn pedal_notes_first(&self) -> Result<(), String> {
        let spared = match self.had.has(Slip::KeysDownFirst) {
            false => self.stolen.down,
            true => !self.stolen.down,
        };
        let mut notes = self.had.notes_of(self.stolen.channel);
        if spared && notes.any(|note| note.down != self.stolen.down) {
            return Err(format!(
                "R5.9: {} is stolen although its channel had a note {}",
                self.words(),
                kind(!self.stolen.down)
            ));
        }
        Ok(())
    }

    /// R5.9: of the notes of its channel that are on the pedal, or down, as it was, its own *note* answer came first.
    fn oldest_of_its_kind(&self) -> Result<(), String> {
        let both = self.had.has(Slip::OldestOfBothKinds);
        let alike = |note: Note| {
            note.channel == self.stolen.channel && (both || note.down == self.stolen.down)
        };
        let notes = self.had.notes();
        let alike = (0..notes.len()).filter(|&g| notes[g].is_some_and(alike));
        let oldest = alike.min_by_key(|&g| self.last_note[g]);
        match oldest {
            Some(g) if g == usize::from(self.generator) => Ok(()),
            oldest => Err(format!(
                "R5.9: {} is stolen, and the oldest one is on generator {oldest:?}",
                self.words()
            )),
        }
    }

    fn words(&self) -> String {
        let Note { channel, key, down } = self.stolen;
        format!(
            "the note of channel {} key {key} on generator {}, {},",
            channel + 1,
            self.generator,
            kind(down)
        )
    }
}

/// R5.10: number 11 is answered only where the channel that loses has no note.
pub fn none_to_steal(had: &Book, new_note: u8) -> Result<(), String> {
    match loser(had, new_note) {
        Some(channel) if !had.has(Slip::Thefts) && had.notes_of(channel).next().is_some() => {
            Err(format!(
                "R5.10: number 11 although channel {}, which loses, has a note",
                channel + 1
            ))
        }
        _ => Ok(()),
    }
}

/// R5.7, R5.8: of the channels over their share, pedal notes and the new note counted, the last listed.
fn loser(had: &Book, new_note: u8) -> Option<u8> {
    let counts = |note: &Note| note.down || !had.has(Slip::PedalNotesNotCounted);
    let over = |channel: u8| {
        let notes = had.notes_of(channel).filter(counts).count();
        let count = notes + usize::from(channel == new_note);
        had.share(channel).is_some_and(|share| count > share)
    };
    let mut listed = had.table().iter().map(|entry| entry.0).rev();
    listed.find(|&channel| over(channel))
}

fn kind(down: bool) -> &'static str {
    match down {
        true => "down",
        false => "on the pedal",
    }
}
