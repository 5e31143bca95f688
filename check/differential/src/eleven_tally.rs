//! Counts what channel 11 meets on its way between melody and rhythm: a run must meet each of these.

use crate::drums::{excludes, DRUM_CHANNEL, SECOND_DRUM_CHANNEL};
use crate::lists::Event;
use crate::record::Record;
use paper::{Answer, GeneratorView, Number, Progress, State, Was};

/// Each with its words.
macro_rules! met {
    ($($name:ident: $words:literal,)*) => {
        #[derive(Clone, Copy)]
        enum Met { $($name,)* }
        const WORDS: &[&str] = &[$($words,)*];
        const ROWS: usize = WORDS.len();
        const _: [Met; ROWS] = [$(Met::$name,)*];
    };
}

met! {
    RhythmEndsHeld: "11 to rhythm, held ones end",
    RhythmEndsPedalNotes: "11 to rhythm, pedal notes end",
    MelodyEndsDrums: "11 to melody, drums end",
    MaskedToRhythm: "11 to rhythm, masked",
    MaskedToMelody: "11 to melody, masked",
    MelodyAgain: "melody again, notes stay",
    RhythmAgain: "rhythm again, drums stay",
    OtherBankInMelody: "other bank, notes of 11 stay",
    OtherBankInRhythm: "other bank, drums of 11 stay",
    RhythmInLsbAlone: "120 as LSB alone, 11 melody",
    ProgramElsewhere: "program elsewhere, 11 waits",
    RhythmBankElsewhere: "bank 120 and program elsewhere",
    MelodyBankOnTen: "bank 121 and program on 10",
    NoteOffPedalUp: "note-off on rhythm 11, up",
    NoteOffPedalDown: "note-off on rhythm 11, pedal",
    NoteOffInRhythmBank: "note-off, melody 11, bank 120",
    NoteOffInMelodyBank: "note-off, rhythm 11, bank 121",
    AllNotesOffPedalUp: "123 on rhythm 11, pedal up",
    AllNotesOffPedalDown: "123 on rhythm 11, pedal down",
    ModePedalUp: "124 to 127, rhythm 11, up",
    ModePedalDown: "124 to 127, rhythm 11, pedal",
    GroupEndsBusy: "group on 11, busy one",
    GroupEndsReleasing: "group on 11, releasing one",
    GroupEndsMelody: "group on 11, melody's one",
    GroupSparesTen: "group on 11, one on 10 stays",
    GroupSparesEleven: "group on 10, one on 11 stays",
    GroupSparesMelody: "group on 10, melody 11 stays",
    NoGroupInMelody: "group on melody 11, none ends",
    ResetInRhythm: "121 on rhythm 11",
    ResetInRhythmBank: "121 on melody 11, bank 120",
    SystemOnInRhythm: "System On, 11 rhythm",
    MaskEndsDrums: "rhythm 11 masked with drums",
    DrumStolen: "drum of 11 stolen",
    DrumSteals: "drum of 11 steals",
    DrumRefused: "drum of 11, number 11",
}

/// Places among a channel's numbers.
const HOLD: usize = 5;
const BANK_MSB: usize = 11;
const BANK_LSB: usize = 12;

#[derive(Clone, Debug)]
pub struct ElevenTally {
    counts: [u64; ROWS],
    /// Generators that sounded on channel 11 when it became rhythm, and have had no other note since.
    melody: u64,
}

impl Default for ElevenTally {
    fn default() -> ElevenTally {
        ElevenTally {
            counts: [0; ROWS],
            melody: 0,
        }
    }
}

/// The numbers of channel 11.
fn eleven(record: &Record) -> &[u8; 13] {
    &record.channels[usize::from(SECOND_DRUM_CHANNEL)]
}

/// The sounding generators of a channel on the wire, with their numbers.
fn sounding(record: &Record, channel: u8) -> impl Iterator<Item = (usize, GeneratorView)> + '_ {
    let views = record.generators.iter().copied().enumerate();
    views.filter(move |(_, view)| view.channel == channel + 1)
}

fn has(record: &Record, channel: u8, which: impl Fn(GeneratorView) -> bool) -> bool {
    sounding(record, channel).any(|(_, view)| which(view))
}

fn is_busy(view: GeneratorView) -> bool {
    matches!(view.state, State::Held | State::Sustained)
}

fn is_held(view: GeneratorView) -> bool {
    view.state == State::Held
}

/// The channel message that a byte completes.
fn completed(event: Event, before: &Record) -> Option<(u8, u8, u8)> {
    match (event, before.progress) {
        (Event::Byte(byte @ 0..=0x7F), Progress::StatusAndData(status, first)) => {
            Some((status, first, byte))
        }
        (Event::Byte(byte @ 0..=0x7F), Progress::Status(status @ 0xC0..=0xDF)) => {
            Some((status, byte, 0))
        }
        _ => None,
    }
}

impl ElevenTally {
    pub fn rows(&self) -> impl Iterator<Item = (&'static str, u64)> + '_ {
        WORDS.iter().copied().zip(self.counts)
    }

    fn meet(&mut self, met: Met, is_met: bool) {
        self.counts[met as usize] += u64::from(is_met);
    }

    /// An event, its answer, and the record before it and behind.
    pub fn event(&mut self, event: Event, answer: Answer, before: &Record, after: &Record) {
        if before.second_drums {
            self.losses(answer, before);
        }
        match (event, completed(event, before)) {
            (_, Some((status @ 0xC0..=0xCF, ..))) => self.program(status & 0x0F, before, after),
            (_, Some((0x8A, key, _) | (0x9A, key, 0))) => self.note_off(key, before),
            (_, Some((status @ (0x99 | 0x9A), key, _))) if is_note(answer) => {
                self.group(status & 0x0F, key, before);
            }
            (_, Some((0xBA, number, value))) => self.controller(number, value, before),
            (Event::Byte(0xF7), _) => self.sysex(before, after),
            _ => {}
        }
        if let Answer::Note { generator, .. } = answer {
            self.melody &= !(1 << generator);
        }
    }

    /// Thefts and number 11 while channel 11 is rhythm.
    fn losses(&mut self, answer: Answer, before: &Record) {
        match answer {
            Answer::Note {
                channel,
                generator,
                was: Was::Stolen,
                ..
            } => {
                let loser = before.generators[usize::from(generator)].channel;
                self.meet(Met::DrumStolen, loser == 11);
                self.meet(Met::DrumSteals, channel == 11);
            }
            Answer::NoteRefused {
                number: Number::NoneToSteal,
                channel,
                ..
            } => self.meet(Met::DrumRefused, channel == 11),
            _ => {}
        }
    }

    fn program(&mut self, channel: u8, before: &Record, after: &Record) {
        let busy = has(before, channel, is_busy);
        let bank = before.channels[usize::from(channel)][BANK_MSB];
        if channel != SECOND_DRUM_CHANNEL {
            let own = eleven(before)[BANK_MSB];
            let waits = own == if before.second_drums { 121 } else { 120 };
            let notes = has(before, SECOND_DRUM_CHANNEL, is_busy);
            self.meet(Met::ProgramElsewhere, waits && notes);
            let ten = channel == DRUM_CHANNEL;
            self.meet(Met::RhythmBankElsewhere, !ten && bank == 120 && busy);
            self.meet(Met::MelodyBankOnTen, ten && bank == 121 && busy);
            return;
        }
        let (was, is) = (before.second_drums, after.second_drums);
        if was != is {
            self.change(before, is);
        }
        let stays = was == is && busy;
        self.meet(Met::MelodyAgain, stays && !is && bank == 121);
        self.meet(Met::RhythmAgain, stays && is && bank == 120);
        let other = !matches!(bank, 120 | 121);
        self.meet(Met::OtherBankInMelody, stays && !is && other);
        self.meet(Met::OtherBankInRhythm, stays && is && other);
        let lsb = eleven(before)[BANK_LSB];
        self.meet(
            Met::RhythmInLsbAlone,
            stays && !is && bank == 121 && lsb == 120,
        );
    }

    fn change(&mut self, before: &Record, rhythm: bool) {
        let notes = |which: fn(GeneratorView) -> bool| has(before, SECOND_DRUM_CHANNEL, which);
        let mut listed = before.entries.as_slice().iter();
        let entry = listed.find(|entry| entry.channel == SECOND_DRUM_CHANNEL);
        let masked = entry.is_none_or(|entry| entry.value > before.polyphony);
        self.meet(Met::RhythmEndsHeld, rhythm && notes(is_held));
        let sustained = notes(|view| view.state == State::Sustained);
        self.meet(Met::RhythmEndsPedalNotes, rhythm && sustained);
        self.meet(Met::MelodyEndsDrums, !rhythm && notes(is_held));
        self.meet(Met::MaskedToRhythm, rhythm && masked);
        self.meet(Met::MaskedToMelody, !rhythm && masked);
        self.melody = match rhythm {
            true => sounding(before, SECOND_DRUM_CHANNEL).fold(0, |set, (g, _)| set | 1 << g),
            false => 0,
        };
    }

    fn note_off(&mut self, key: u8, before: &Record) {
        let (rhythm, bank) = (before.second_drums, eleven(before)[BANK_MSB]);
        let down = eleven(before)[HOLD] >= 64;
        let held = has(before, SECOND_DRUM_CHANNEL, |view| {
            is_held(view) && view.key == key
        });
        self.meet(Met::NoteOffPedalUp, held && rhythm && !down);
        self.meet(Met::NoteOffPedalDown, held && rhythm && down);
        self.meet(Met::NoteOffInRhythmBank, held && !rhythm && bank == 120);
        self.meet(Met::NoteOffInMelodyBank, held && rhythm && bank == 121);
    }

    /// A note of channel 10 or 11 that was not refused.
    fn group(&mut self, channel: u8, key: u8, before: &Record) {
        let of_group = |view: GeneratorView| excludes(key, view.key);
        let rhythm = before.second_drums;
        let on_ten = has(before, DRUM_CHANNEL, of_group);
        let on_eleven = has(before, SECOND_DRUM_CHANNEL, of_group);
        if channel == DRUM_CHANNEL {
            self.meet(Met::GroupSparesEleven, rhythm && on_eleven);
            self.meet(Met::GroupSparesMelody, !rhythm && on_eleven);
            return;
        }
        let busy = has(before, channel, |view| of_group(view) && is_busy(view));
        let releases = |view: GeneratorView| view.state == State::Releasing;
        let releasing = has(before, channel, |view| of_group(view) && releases(view));
        let mut ended = sounding(before, channel).filter(|(_, view)| of_group(*view));
        let melody = ended.any(|(g, _)| self.melody >> g & 1 == 1);
        self.meet(Met::GroupEndsBusy, rhythm && busy);
        self.meet(Met::GroupEndsReleasing, rhythm && releasing);
        self.meet(Met::GroupEndsMelody, rhythm && melody);
        self.meet(Met::GroupSparesTen, rhythm && on_ten);
        self.meet(Met::NoGroupInMelody, !rhythm && busy);
    }

    fn controller(&mut self, number: u8, value: u8, before: &Record) {
        let rhythm = before.second_drums;
        let down = eleven(before)[HOLD] >= 64;
        let drums = rhythm && has(before, SECOND_DRUM_CHANNEL, is_held);
        match (number, value) {
            (121, 0) => {
                self.meet(Met::ResetInRhythm, rhythm);
                let bank = eleven(before)[BANK_MSB];
                self.meet(Met::ResetInRhythmBank, !rhythm && bank == 120);
            }
            (123, 0) => {
                self.meet(Met::AllNotesOffPedalUp, drums && !down);
                self.meet(Met::AllNotesOffPedalDown, drums && down);
            }
            (124..=127, _) => {
                self.meet(Met::ModePedalUp, drums && !down);
                self.meet(Met::ModePedalDown, drums && down);
            }
            _ => {}
        }
    }

    /// The end of a SysEx: a System On where the kind is gone, a table where drums are.
    fn sysex(&mut self, before: &Record, after: &Record) {
        let (was, is) = (before.second_drums, after.second_drums);
        self.meet(Met::SystemOnInRhythm, was && !is);
        let drums = |record| has(record, SECOND_DRUM_CHANNEL, is_held);
        self.meet(
            Met::MaskEndsDrums,
            was && is && drums(before) && !drums(after),
        );
    }
}

fn is_note(answer: Answer) -> bool {
    matches!(answer, Answer::Note { .. })
}
