//! The device: start, bytes, reports and queries.

use crate::answer::{Answer, Number, Was};
use crate::channel::{controller, Channel, MELODY_BANK, RHYTHM_BANK};
use crate::generators::{GeneratorView, Generators};
use crate::parser::{Completed, Parser, HEAD_BYTES};
use crate::table::Table;

/// Channel 10 on the wire, always a rhythm channel (R5.12).
const DRUM_CHANNEL: u8 = 9;
/// Channel 11 on the wire, which can be one.
const SECOND_DRUM_CHANNEL: u8 = 10;
/// The *d* that speaks to every device.
const EVERY_DEVICE: u8 = 0x7F;

/// R1.9: how the sixteen channels start.
const FRESH_CHANNELS: [Channel; 16] = {
    let mut channels = [Channel::FRESH; 16];
    channels[DRUM_CHANNEL as usize] = Channel::FRESH_DRUMS;
    channels
};

/// The device record.
#[derive(Clone, Copy, Debug)]
pub struct Device {
    polyphony: u8,
    id: u8,
    parser: Parser,
    table: Table,
    channels: [Channel; 16],
    /// The kind of channel 11 (R1.14): rhythm, or melody.
    second_drums: bool,
    generators: Generators,
}

impl Device {
    /// Starts a device. A refused start leaves a fresh record with P 1 and own ID 0 (R8.1, R8.2).
    pub fn start(polyphony: u8, id: u8) -> (Device, Answer) {
        let refused = |number| (Device::fresh(1, 0), Answer::Refused(number));
        if !(1..=64).contains(&polyphony) {
            return refused(Number::PolyphonyOutOfRange);
        }
        if id > 126 {
            return refused(Number::IdOutOfRange);
        }
        (Device::fresh(polyphony, id), Answer::Done)
    }

    fn fresh(polyphony: u8, id: u8) -> Device {
        Device {
            polyphony,
            id,
            parser: Parser::FRESH,
            table: Table::starting(polyphony),
            channels: FRESH_CHANNELS,
            second_drums: false,
            generators: Generators::idle(polyphony),
        }
    }

    /// Takes one byte of the wire.
    pub fn byte(&mut self, byte: u8) -> Answer {
        match self.parser.byte(byte) {
            Completed::Nothing => Answer::None,
            Completed::Message {
                status,
                first,
                second,
            } => self.message(status, first, second),
            Completed::StrayData => Answer::Refused(Number::StrayData),
            Completed::SysExCut => Answer::Refused(Number::SysExCut),
            Completed::SysEx => self.sysex(),
        }
    }

    /// The tone generator reports the end of a generator.
    pub fn report(&mut self, generator: u8) -> Answer {
        if generator >= self.polyphony {
            return Answer::Refused(Number::NoSuchGenerator);
        }
        if !self.generators.is_sounding(generator) {
            return Answer::Refused(Number::GeneratorIdle);
        }
        self.generators.silence(generator);
        Answer::Done
    }

    /// A complete channel message. Out of line, as is `sysex`, so that a byte that completes nothing stays cheap.
    #[inline(never)]
    fn message(&mut self, status: u8, first: u8, second: u8) -> Answer {
        let channel = status & 0x0F;
        let numbers = &mut self.channels[usize::from(channel)];
        match status & 0xF0 {
            0x90 if second > 0 => return self.note_on(channel, first),
            0x80 | 0x90 => self.note_off(channel, first),
            0xB0 => self.controller(channel, first, second),
            0xC0 => self.program(channel, first),
            0xE0 => {
                numbers.bend_lsb = first;
                numbers.bend_msb = second;
            }
            // Pressure changes nothing.
            _ => {}
        }
        Answer::Done
    }

    /// A note-on with a velocity above 0, steps 1 to 5 (R5.1 to R5.11).
    fn note_on(&mut self, channel: u8, key: u8) -> Answer {
        let refused = |number| Answer::NoteRefused {
            number,
            channel: channel + 1,
            key,
        };
        if self.table.share(channel).is_none() {
            return refused(Number::ChannelMasked);
        }
        self.generators.release_key(channel, key);
        if self.is_rhythm(channel) {
            self.generators.silence_group(channel, key);
        }
        let (generator, was) = if let Some(generator) = self.generators.lowest_idle() {
            (generator, Was::Idle)
        } else if let Some(generator) = self.generators.oldest_releasing() {
            (generator, Was::Release)
        } else if let Some(generator) = self.victim(channel) {
            (generator, Was::Stolen)
        } else {
            return refused(Number::NoneToSteal);
        };
        self.generators.assign(generator, channel, key);
        Answer::Note {
            channel: channel + 1,
            key,
            generator,
            was,
        }
    }

    /// Step 5 (R5.7 to R5.10): of the channels above their share, sustained ones and the new note counted, the one of
    /// lowest priority loses a generator, if it has one.
    fn victim(&self, new_note: u8) -> Option<u8> {
        let over = |&(channel, share): &(u8, u8)| {
            self.generators.busy_count(channel) + u8::from(channel == new_note) > share
        };
        let (loser, _) = self.table.lowest_priority_first().find(over)?;
        self.generators.to_steal(loser)
    }

    /// Is a channel on the wire a rhythm channel (R5.12)?
    #[inline]
    fn is_rhythm(&self, channel: u8) -> bool {
        channel == DRUM_CHANNEL || channel == SECOND_DRUM_CHANNEL && self.second_drums
    }

    /// R6.2; R6.4: on a rhythm channel it does nothing.
    fn note_off(&mut self, channel: u8, key: u8) {
        if !self.is_rhythm(channel) {
            let pedal_down = self.channels[usize::from(channel)].pedal_down();
            self.generators.key_up(channel, key, pedal_down);
        }
    }

    /// R6.12: on a rhythm channel the pedal holds nothing.
    fn all_notes_off(&mut self, channel: u8) {
        let pedal_down = self.channels[usize::from(channel)].pedal_down();
        self.generators
            .all_keys_up(channel, pedal_down && !self.is_rhythm(channel));
    }

    /// A program change stores the program (R6.5). On channel 11 its bank then tells the kind (R6.15).
    fn program(&mut self, channel: u8, program: u8) {
        let numbers = &mut self.channels[usize::from(channel)];
        numbers.program = program;
        match (channel, numbers.bank_msb) {
            (SECOND_DRUM_CHANNEL, RHYTHM_BANK) => self.set_second_drums(true),
            (SECOND_DRUM_CHANNEL, MELODY_BANK) => self.set_second_drums(false),
            _ => {}
        }
    }

    /// R6.16: where the kind is another one then, who is busy on channel 11 releases.
    fn set_second_drums(&mut self, rhythm: bool) {
        if rhythm != self.second_drums {
            self.second_drums = rhythm;
            self.generators.release_channel(SECOND_DRUM_CHANNEL);
        }
    }

    fn controller(&mut self, channel: u8, number: u8, value: u8) {
        let numbers = &mut self.channels[usize::from(channel)];
        match (number, value) {
            (controller::ALL_SOUND_OFF, 0) => self.generators.silence_channel(channel),
            (controller::RESET_ALL_CONTROLLERS, 0) => {
                numbers.reset_controllers();
                self.generators.pedal_up(channel);
            }
            // R6.12: a mode message ends notes whatever its value, 126 whatever its count. The module keeps its mode.
            (controller::ALL_NOTES_OFF, 0) | (controller::OMNI_OFF..=controller::POLY_ON, _) => {
                self.all_notes_off(channel);
            }
            _ => {
                numbers.store(number, value);
                if number == controller::HOLD && !numbers.pedal_down() {
                    self.generators.pedal_up(channel);
                }
            }
        }
    }

    /// The F7 of a SysEx: a MIP message or GM System On for this device, or nothing of ours.
    #[inline(never)]
    fn sysex(&mut self) -> Answer {
        let sysex = *self.parser.sysex();
        let [kind, d, sub_id_1, sub_id_2, rest @ ..] = sysex.kept() else {
            return Answer::None;
        };
        debug_assert_eq!(sysex.kept().len() - rest.len(), HEAD_BYTES);
        if *d != EVERY_DEVICE && *d != self.id {
            return Answer::None;
        }
        match (kind, sub_id_1, sub_id_2) {
            (0x7F, 0x0B, 0x01) if sysex.overflowed() => Answer::Refused(Number::MipTooLong),
            (0x7F, 0x0B, 0x01) => match Table::read(rest, self.polyphony) {
                Ok(table) => self.replace_table(table),
                Err(number) => Answer::Refused(number),
            },
            (0x7E, 0x09, 0x01) if rest.is_empty() => {
                *self = Device::fresh(self.polyphony, self.id);
                Answer::Done
            }
            _ => Answer::None,
        }
    }

    /// An accepted message is the table from now on (R2.7); who is busy on a channel that it masks releases (R2.8).
    fn replace_table(&mut self, table: Table) -> Answer {
        self.table = table;
        for channel in 0..16 {
            if self.table.share(channel).is_none() {
                self.generators.release_channel(channel);
            }
        }
        Answer::Done
    }
}

/// The queries (R7.3 to R7.7).
impl Device {
    /// A generator's state, channel (from 1) and key.
    pub fn generator(&self, generator: u8) -> Result<GeneratorView, Number> {
        if generator >= self.polyphony {
            return Err(Number::NoSuchGenerator);
        }
        Ok(self.generators.view(generator))
    }

    /// Whether a channel, 1 to 16, is masked.
    pub fn masked(&self, channel: u8) -> Result<bool, Number> {
        Ok(self.table.share(wire(channel)?).is_none())
    }

    /// The share of a channel, 1 to 16, 0 for a masked one (R7.6).
    pub fn share(&self, channel: u8) -> Result<u8, Number> {
        Ok(self.table.share(wire(channel)?).unwrap_or(0))
    }

    /// Whether a channel is a rhythm channel; what is not 1 to 16 is none (R7.7).
    pub fn rhythm(&self, channel: u8) -> bool {
        wire(channel).is_ok_and(|channel| self.is_rhythm(channel))
    }
}

fn wire(channel: u8) -> Result<u8, Number> {
    match channel {
        1..=16 => Ok(channel - 1),
        _ => Err(Number::NoSuchChannel),
    }
}

/// What a log and a page count (R14.5, R15.3).
impl Device {
    /// How many generators of a channel on the wire are held or sustained.
    pub(crate) fn busy_count(&self, channel: u8) -> u8 {
        self.generators.busy_count(channel)
    }

    /// Is every generator busy?
    pub(crate) fn is_full(&self) -> bool {
        self.generators.all_busy()
    }
}

/// The record, field by field, for a comparison with another implementation.
impl Device {
    pub fn polyphony(&self) -> u8 {
        self.polyphony
    }

    pub fn id(&self) -> u8 {
        self.id
    }

    pub fn parser(&self) -> &Parser {
        &self.parser
    }

    pub fn table(&self) -> &Table {
        &self.table
    }

    pub fn channels(&self) -> &[Channel; 16] {
        &self.channels
    }

    /// Is channel 11 of the kind rhythm?
    pub fn second_drums(&self) -> bool {
        self.second_drums
    }

    /// The sounding generators, the oldest first.
    pub fn oldest_first(&self) -> impl Iterator<Item = u8> + '_ {
        self.generators.oldest_first()
    }
}
