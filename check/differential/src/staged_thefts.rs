//! Thefts in turn, each on a device that is filled for it: of a pedal note whose channel has an older key down, and of
//! a held one while another channel has pedal notes (R5.9); from the new note's own channel, and from another one.

use crate::drums::DRUM_CHANNEL;
use crate::lists::Event;
use crate::writer::Writer;
use random::Random;

/// What a new note is to steal.
#[derive(Clone, Copy)]
struct Theft {
    /// A pedal note, or a held one.
    pedal: bool,
    /// From its own channel, or from another.
    own: bool,
}

const THEFTS: [Theft; 4] = [
    theft(true, true),
    theft(true, false),
    theft(false, true),
    theft(false, false),
];

const fn theft(pedal: bool, own: bool) -> Theft {
    Theft { pedal, own }
}

/// At least one of each, with play behind it.
pub fn events(random: &mut Random, length: usize, start: (u8, u8)) -> Vec<Event> {
    let mut stage = Stage {
        writer: Writer::new(random, start),
        keys: Vec::new(),
    };
    for turn in 0.. {
        if turn >= THEFTS.len() && stage.writer.events.len() >= length {
            break;
        }
        stage.set(THEFTS[turn % THEFTS.len()]);
    }
    stage.writer.events
}

/// A note that is played: channel minus 1, and key.
type Played = (u8, u8);

struct Stage<'a> {
    writer: Writer<'a>,
    /// Keys that nobody has, in no exclusive group: a drum ends no other.
    keys: Vec<u8>,
}

impl Stage<'_> {
    /// Fills a fresh device with notes of two channels, the second of which then loses one, and plays on.
    fn set(&mut self, theft: Theft) {
        let (other, loser) = self.channels(theft);
        self.keys = (0..42).chain(82..128).collect();
        self.writer.random.shuffle(&mut self.keys);
        let of_loser = self.notes_of_loser(theft);
        self.writer.reset();
        self.table(theft, (other, loser), of_loser);
        for channel in [other, loser] {
            let down = self.writer.random.pick(&[64, 64, 100, 127]);
            self.writer.message(0xB0 | channel, &[64, down]);
        }
        let (others, losers) = self.fill((other, loser), of_loser);
        let mut up = self.some_of(&others, !theft.pedal);
        if theft.pedal {
            // Not the oldest, if there is another one.
            up.extend(self.some_of(&losers[usize::from(losers.len() > 1)..], true));
        }
        self.writer.random.shuffle(&mut up);
        for (channel, key) in up {
            self.writer.message(0x80 | channel, &[key, 64]);
        }
        let new_note = self.note_on(if theft.own { loser } else { other });
        self.play_on([others, losers, vec![new_note]].concat());
    }

    /// One that keeps its notes and one that loses one. Drums may be where no pedal note is needed.
    fn channels(&mut self, theft: Theft) -> (u8, u8) {
        let mut channels: Vec<u8> = (0..16).filter(|&c| c != DRUM_CHANNEL).collect();
        self.writer.random.shuffle(&mut channels);
        match (self.writer.random.one_in(4), theft.pedal) {
            (false, _) => (channels[0], channels[1]),
            (true, true) => (DRUM_CHANNEL, channels[1]),
            (true, false) => (channels[0], DRUM_CHANNEL),
        }
    }

    /// How many notes the losing channel has: two at least for a pedal note with an older one, if P allows; not all
    /// where the other channel needs a pedal note.
    fn notes_of_loser(&mut self, theft: Theft) -> u8 {
        let polyphony = self.writer.polyphony;
        let (fewest, most) = match theft.pedal {
            true => (polyphony.min(2), polyphony),
            false => (1, (polyphony - 1).max(1)),
        };
        fewest + self.writer.random.below(usize::from(most - fewest) + 1) as u8
    }

    /// Shares by which the second channel loses: its count with the new note is above its own. The first is within its
    /// share, or at times above it too.
    fn table(&mut self, theft: Theft, (other, loser): (u8, u8), of_loser: u8) {
        let counts = match theft.own {
            true => [self.writer.polyphony - of_loser, of_loser + 1],
            false => [self.writer.polyphony - of_loser + 1, of_loser],
        };
        let [most_of_other, most] = [counts[0], counts[1] - 1];
        let random = &mut self.writer.random;
        let mut at_most = |most: u8| match random.one_in(2) {
            true => most,
            false => random.below(usize::from(most) + 1) as u8,
        };
        let share = at_most(most_of_other);
        let pairs = [other, share, loser, share + at_most(most)];
        self.writer.send_mip(0x7F, &pairs);
    }

    /// A note on every generator, the channels mixed. The notes of each, the oldest first.
    fn fill(&mut self, (other, loser): (u8, u8), of_loser: u8) -> (Vec<Played>, Vec<Played>) {
        let mut channels = vec![other; usize::from(self.writer.polyphony - of_loser)];
        channels.extend(vec![loser; usize::from(of_loser)]);
        self.writer.random.shuffle(&mut channels);
        let played: Vec<Played> = channels.into_iter().map(|c| self.note_on(c)).collect();
        played.into_iter().partition(|note| note.0 == other)
    }

    fn note_on(&mut self, channel: u8) -> Played {
        let key = self.keys.pop().unwrap_or(0);
        self.writer.message(0x90 | channel, &[key, 64]);
        (channel, key)
    }

    /// About a third of the notes, and at will one at least.
    fn some_of(&mut self, notes: &[Played], one_at_least: bool) -> Vec<Played> {
        let random = &mut self.writer.random;
        let sure = (one_at_least && !notes.is_empty()).then(|| random.pick(notes));
        let mut chosen = |note: &Played| sure == Some(*note) || random.one_in(3);
        notes.iter().copied().filter(|note| chosen(note)).collect()
    }

    /// More notes, of which most steal, and keys and pedals that come up.
    fn play_on(&mut self, mut played: Vec<Played>) {
        for _ in 0..4 + self.writer.random.below(20) {
            let random = &mut self.writer.random;
            let (channel, key) = random.pick(&played);
            let (pedal, mode) = (
                random.pick(&[64, 127, 63, 0]),
                random.pick(&[123, 124, 126]),
            );
            match random.below(10) {
                0 => self.writer.message(0xB0 | channel, &[64, pedal]),
                1 => self.writer.message(0xB0 | channel, &[mode, 0]),
                2..=4 => self.writer.message(0x80 | channel, &[key, 64]),
                _ => played.push(self.note_on(channel)),
            }
        }
    }
}
