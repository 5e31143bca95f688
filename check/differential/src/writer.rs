//! Writes dense streams of messages: notes, pedals, controllers, MIP messages, resets, reports, and
//! whatever may go wrong on a wire.

use crate::drums::{DRUM_CHANNEL, SECOND_DRUM_CHANNEL};
use crate::lists::{pick_weighted, some_generator, Event};
use random::Random;

/// One thing to write.
#[derive(Clone, Copy, Debug)]
pub enum Phrase {
    NoteOn,
    NoteOff,
    Pedal,
    Controller,
    ChannelMode,
    ProgramOrPressureOrBend,
    BendSensitivity,
    Bank,
    Program,
    SecondDrums,
    EndOnEleven,
    Report,
    Mip,
    WrongMip,
    OthersMip,
    Reset,
    OtherSysEx,
    CutSysEx,
    SystemCommon,
    Fragment,
    StrayData,
}

/// Phrases with their weights.
pub type Mix = &'static [(usize, Phrase)];

pub const PLAYING: Mix = &[
    (600, Phrase::NoteOn),
    (220, Phrase::NoteOff),
    (30, Phrase::Pedal),
    (10, Phrase::Controller),
    (10, Phrase::ChannelMode),
    (8, Phrase::ProgramOrPressureOrBend),
    (5, Phrase::SecondDrums),
    (60, Phrase::Report),
    (4, Phrase::Mip),
    (1, Phrase::WrongMip),
    (1, Phrase::CutSysEx),
    (2, Phrase::SystemCommon),
];

pub const PEDALS: Mix = &[
    (300, Phrase::NoteOn),
    (250, Phrase::NoteOff),
    (150, Phrase::Pedal),
    (100, Phrase::Controller),
    (80, Phrase::ChannelMode),
    (40, Phrase::ProgramOrPressureOrBend),
    (40, Phrase::BendSensitivity),
    (10, Phrase::Bank),
    (10, Phrase::Program),
    (10, Phrase::SecondDrums),
    (60, Phrase::Report),
    (3, Phrase::Mip),
    (1, Phrase::Reset),
    (5, Phrase::SystemCommon),
];

pub const TABLES: Mix = &[
    (600, Phrase::NoteOn),
    (80, Phrase::NoteOff),
    (40, Phrase::Pedal),
    (20, Phrase::Controller),
    (10, Phrase::ChannelMode),
    (10, Phrase::SecondDrums),
    (40, Phrase::Report),
    (60, Phrase::Mip),
    (30, Phrase::WrongMip),
    (10, Phrase::OthersMip),
    (10, Phrase::Reset),
    (10, Phrase::OtherSysEx),
];

pub const FAULTS: Mix = &[
    (200, Phrase::NoteOn),
    (50, Phrase::NoteOff),
    (20, Phrase::Pedal),
    (20, Phrase::Controller),
    (5, Phrase::SecondDrums),
    (60, Phrase::Report),
    (20, Phrase::Mip),
    (80, Phrase::WrongMip),
    (20, Phrase::OthersMip),
    (5, Phrase::Reset),
    (20, Phrase::OtherSysEx),
    (50, Phrase::CutSysEx),
    (60, Phrase::SystemCommon),
    (60, Phrase::Fragment),
    (50, Phrase::StrayData),
];

/// Channels 10 and 11 with few others, and often what tells the kind of 11.
pub const SECOND_DRUMS: Mix = &[
    (400, Phrase::NoteOn),
    (100, Phrase::NoteOff),
    (60, Phrase::Pedal),
    (20, Phrase::Controller),
    (40, Phrase::ChannelMode),
    (40, Phrase::Bank),
    (40, Phrase::Program),
    (80, Phrase::SecondDrums),
    (100, Phrase::EndOnEleven),
    (60, Phrase::Report),
    (10, Phrase::Mip),
    (5, Phrase::Reset),
];

/// Keys on channels 10 and 11: those of the exclusive groups and a few others.
const DRUM_KEYS: [u8; 14] = [36, 38, 40, 42, 44, 46, 71, 72, 73, 74, 78, 79, 80, 81];

pub struct Writer<'a> {
    pub events: Vec<Event>,
    pub random: &'a mut Random,
    pub polyphony: u8,
    id: u8,
    /// The channels that play in this list, and how many keys they use.
    channels: Vec<u8>,
    keys: usize,
    /// The status that a receiver has, if it has one.
    running: Option<u8>,
}

impl Writer<'_> {
    pub fn new(random: &mut Random, start: (u8, u8)) -> Writer<'_> {
        let (polyphony, id) = match start {
            (1..=64, 0..=126) => start,
            // What a refused start leaves.
            _ => (1, 0),
        };
        let mut channels: Vec<u8> = (0..16).collect();
        random.shuffle(&mut channels);
        channels.truncate(1 + random.below(16));
        if random.one_in(2) {
            channels.push(DRUM_CHANNEL);
        }
        let keys = random.pick(&[2, 5, 12, 40, 128]);
        Writer {
            events: Vec::new(),
            random,
            polyphony,
            id,
            channels,
            keys,
            running: None,
        }
    }

    /// One with channels 10 and 11 and two others.
    pub fn of_drums(random: &mut Random, start: (u8, u8)) -> Writer<'_> {
        let others = [random.below(9) as u8, random.pick(&[11, 11, 12, 15])];
        let channels = [DRUM_CHANNEL, SECOND_DRUM_CHANNEL, SECOND_DRUM_CHANNEL].into_iter();
        let mut writer = Writer::new(random, start);
        writer.channels = channels.chain(others).collect();
        writer
    }

    pub fn phrase(&mut self, mix: Mix) {
        match pick_weighted(self.random, mix) {
            Phrase::NoteOn => self.note_on(),
            Phrase::NoteOff => self.note_off(),
            Phrase::Pedal => self.pedal(),
            Phrase::Controller => self.controller(),
            Phrase::ChannelMode => self.channel_mode(),
            Phrase::ProgramOrPressureOrBend => self.program_or_pressure_or_bend(),
            Phrase::BendSensitivity => self.bend_sensitivity(),
            Phrase::Bank => self.bank(),
            Phrase::Program => self.program(),
            Phrase::SecondDrums => self.second_drums(),
            Phrase::EndOnEleven => self.end_on_eleven(),
            Phrase::Report => self.report(),
            Phrase::Mip => self.mip(),
            Phrase::WrongMip => self.wrong_mip(),
            Phrase::OthersMip => self.others_mip(),
            Phrase::Reset => self.reset(),
            Phrase::OtherSysEx => self.other_sysex(),
            Phrase::CutSysEx => self.cut_sysex(),
            Phrase::SystemCommon => self.system_common(),
            Phrase::Fragment => self.fragment(),
            Phrase::StrayData => self.stray_data(),
        }
    }

    /// A byte, at times with a real-time byte before it.
    fn byte(&mut self, byte: u8) {
        if self.random.one_in(40) {
            let real_time = 0xF8 + self.random.below(8) as u8;
            self.events.push(Event::Byte(real_time));
        }
        self.events.push(Event::Byte(byte));
    }

    /// A channel message, by running status where that may be and chance has it so.
    pub fn message(&mut self, status: u8, data: &[u8]) {
        if self.running != Some(status) || self.random.one_in(3) {
            self.byte(status);
            self.running = Some(status);
        }
        for &byte in data {
            self.byte(byte);
        }
    }

    fn sysex(&mut self, bytes: &[u8]) {
        self.byte(0xF0);
        for &byte in bytes {
            self.byte(byte);
        }
        self.byte(0xF7);
        self.running = None;
    }

    fn channel(&mut self) -> u8 {
        match self.random.below(50) {
            0 => self.random.below(16) as u8,
            _ => self.random.pick(&self.channels),
        }
    }

    fn key(&mut self, channel: u8) -> u8 {
        let drums = [DRUM_CHANNEL, SECOND_DRUM_CHANNEL].contains(&channel);
        if drums && !self.random.one_in(8) {
            return self.random.pick(&DRUM_KEYS);
        }
        self.random.below(self.keys) as u8
    }

    /// A value of a pedal or a controller, the border at 64 more often than others.
    fn value(&mut self) -> u8 {
        match self.random.below(4) {
            0 => self.random.data(),
            _ => self.random.pick(&[0, 63, 64, 127]),
        }
    }

    fn note_on(&mut self) {
        let channel = self.channel();
        let key = self.key(channel);
        let velocity = 1 + self.random.below(127) as u8;
        self.message(0x90 | channel, &[key, velocity]);
    }

    fn note_off(&mut self) {
        let channel = self.channel();
        let key = self.key(channel);
        if self.random.one_in(2) {
            self.message(0x90 | channel, &[key, 0]);
        } else {
            let velocity = self.random.data();
            self.message(0x80 | channel, &[key, velocity]);
        }
    }

    fn pedal(&mut self) {
        let (channel, value) = (self.channel(), self.value());
        self.message(0xB0 | channel, &[64, value]);
    }

    fn controller(&mut self) {
        let channel = self.channel();
        let stored = [0, 1, 6, 7, 10, 11, 32, 38, 64, 65, 98, 99, 100, 101, 122];
        let number = match self.random.below(4) {
            0 => self.random.data(),
            _ => self.random.pick(&stored),
        };
        let value = self.value();
        self.message(0xB0 | channel, &[number, value]);
    }

    /// 120 to 127: up to 123 mostly with 0, the only value that 120, 121 and 123 heed; the others with any, also as a
    /// count.
    fn channel_mode(&mut self) {
        let channel = self.channel();
        let number = 120 + self.random.below(8) as u8;
        let value = match (number, self.random.below(4)) {
            (_, 0) => self.random.data(),
            (120..=123, _) => 0,
            _ => self.random.pick(&[0, 1, 16, 64, 127]),
        };
        self.message(0xB0 | channel, &[number, value]);
    }

    fn program_or_pressure_or_bend(&mut self) {
        let channel = self.channel();
        let data = [self.random.data(), self.random.data()];
        match self.random.below(4) {
            0 => self.message(0xC0 | channel, &data[..1]),
            1 => self.message(0xD0 | channel, &data[..1]),
            2 => self.message(0xA0 | channel, &data),
            _ => self.message(0xE0 | channel, &data),
        }
    }

    fn bend_sensitivity(&mut self) {
        let status = 0xB0 | self.channel();
        let lsb = self.random.pick(&[0, 0, 0, 1]);
        let value = self.random.pick(&[0, 2, 12, 23, 24, 25, 127]);
        self.message(status, &[101, 0]);
        self.message(status, &[100, lsb]);
        self.message(status, &[6, value]);
    }

    /// Mostly 11, else a channel that plays.
    fn mostly_eleven(&mut self) -> u8 {
        match self.random.one_in(4) {
            true => self.channel(),
            false => SECOND_DRUM_CHANNEL,
        }
    }

    /// A byte of a bank, mostly one that tells a kind as an MSB.
    fn bank(&mut self) {
        let (channel, number) = (self.mostly_eleven(), self.random.pick(&[0, 0, 0, 32]));
        let value = match self.random.below(8) {
            0 => self.random.data(),
            1 => self.random.pick(&[0, 119, 122, 127]),
            _ => self.random.pick(&[120, 121]),
        };
        self.message(0xB0 | channel, &[number, value]);
    }

    fn program(&mut self) {
        let channel = self.mostly_eleven();
        self.program_of(channel);
    }

    /// At times one that would be a bank.
    fn program_of(&mut self, channel: u8) {
        let program = match self.random.one_in(4) {
            true => self.random.pick(&[0, 120, 121]),
            false => self.random.data(),
        };
        self.message(0xC0 | channel, &[program]);
    }

    /// A bank and then a program of channel 11, seldom of another, with a note or a pedal of it between; at times the
    /// bank waits for a program.
    fn second_drums(&mut self) {
        let key = self.random.pick(&DRUM_KEYS);
        let channel = match self.random.one_in(6) {
            true => self.channel(),
            false => SECOND_DRUM_CHANNEL,
        };
        let msb = self.random.pick(&[120, 120, 120, 121, 121, 0]);
        self.message(0xB0 | channel, &[0, msb]);
        match self.random.below(8) {
            0 => self.message(0x90 | channel, &[key, 64]),
            1 => self.message(0x80 | channel, &[key, 64]),
            2 => self.message(0xB0 | channel, &[64, 127]),
            3 | 4 => return,
            _ => {}
        }
        self.program_of(channel);
    }

    /// What ends notes on channel 11, or leaves its drums alone.
    fn end_on_eleven(&mut self) {
        let (channel, key) = (SECOND_DRUM_CHANNEL, self.random.pick(&DRUM_KEYS));
        let (mode, value) = (124 + self.random.below(4) as u8, self.value());
        match self.random.below(10) {
            0 => self.message(0xB0 | channel, &[121, 0]),
            1 | 2 => self.message(0xB0 | channel, &[123, 0]),
            3 => self.message(0xB0 | channel, &[mode, value]),
            4 => self.message(0xB0 | channel, &[64, value]),
            5 => self.message(0x90 | channel, &[key, 0]),
            _ => self.message(0x80 | channel, &[key, 64]),
        }
    }

    fn report(&mut self) {
        let generator = some_generator(self.random, self.polyphony);
        self.events.push(Event::Report(generator));
    }

    /// The *d* of a message for us.
    fn our_id(&mut self) -> u8 {
        match self.random.below(3) {
            0 => self.id,
            _ => 0x7F,
        }
    }

    pub fn send_mip(&mut self, d: u8, pairs: &[u8]) {
        let mut bytes = vec![0x7F, d, 0x0B, 0x01];
        bytes.extend(pairs);
        self.sysex(&bytes);
    }

    /// Pairs that are right: the playing channels first, values that rise to about P.
    fn pairs(&mut self) -> Vec<u8> {
        let mut order = self.channels.clone();
        order.extend(0..16);
        let mut listed = [false; 16];
        order.retain(|&c| !std::mem::replace(&mut listed[usize::from(c)], true));
        let length = match self.random.below(4) {
            0 => 16,
            1 => 1 + self.random.below(16),
            _ => self.channels.len().min(16),
        };
        order.truncate(length);
        self.random.shuffle(&mut order);
        let step = 2 * usize::from(self.polyphony) / length + 2;
        let mut value = 0;
        let mut pairs = Vec::new();
        for channel in order {
            value = (value + self.random.below(step)).min(127);
            pairs.extend([channel, value as u8]);
        }
        pairs
    }

    fn mip(&mut self) {
        let d = self.our_id();
        let pairs = self.pairs();
        self.send_mip(d, &pairs);
    }

    /// Pairs with one thing wrong, or random ones.
    fn wrong_mip(&mut self) {
        let d = self.our_id();
        let mut pairs = self.pairs();
        let at = 2 * self.random.below(pairs.len() / 2);
        match self.random.below(8) {
            0 => pairs.clear(),
            1 => pairs.push(self.random.data()),
            2 => pairs[at] = 16 + self.random.below(112) as u8,
            3 => pairs.extend_from_within(at..at + 2),
            4 => pairs[at + 1] = pairs[at + 1].saturating_sub(1 + self.random.below(4) as u8),
            5 => pairs.extend([15; 32]),
            6 => pairs.resize(32 + self.random.below(3), 0),
            _ => pairs.fill_with(|| self.random.below(20) as u8),
        }
        self.send_mip(d, &pairs);
    }

    /// A MIP message to a device that may be another, or not quite a MIP message.
    fn others_mip(&mut self) {
        let pairs = self.pairs();
        let d = self.random.pick(&[0, 1, 2, 126, 127]);
        let mut bytes = vec![0x7F, d, 0x0B, 0x01];
        bytes.extend(pairs);
        match self.random.below(4) {
            0 => bytes.truncate(self.random.below(5)),
            1 => bytes[0] = 0x7E,
            2 => bytes[2 + self.random.below(2)] ^= 1,
            _ => {}
        }
        self.sysex(&bytes);
    }

    pub fn reset(&mut self) {
        let d = self.our_id();
        self.sysex(&[0x7E, d, 0x09, 0x01]);
    }

    fn other_sysex(&mut self) {
        let d = self.random.pick(&[0, 1, 126, 127]);
        let mut bytes = vec![0x7E, d, 0x09, 0x01];
        match self.random.below(4) {
            0 => bytes[3] = 2 + self.random.below(2) as u8,
            1 => bytes.push(self.random.data()),
            2 => bytes.truncate(self.random.below(5)),
            _ => bytes = (0..self.random.below(60)).map(|i| i as u8).collect(),
        }
        self.sysex(&bytes);
    }

    /// A SysEx of some bytes, cut by a status below F7.
    fn cut_sysex(&mut self) {
        let mut bytes = vec![0xF0, 0x7F, 0x7F, 0x0B, 0x01];
        bytes.extend(self.pairs());
        bytes.truncate(1 + self.random.below(40));
        for byte in bytes {
            self.byte(byte);
        }
        let status = 0x80 + self.random.below(0x77) as u8;
        self.byte(status);
        self.running = (status < 0xF0).then_some(status);
    }

    fn system_common(&mut self) {
        let status = 0xF1 + self.random.below(7) as u8;
        self.byte(status);
        let data = match status {
            0xF1 | 0xF3 => self.random.below(2),
            0xF2 => self.random.below(3),
            _ => 0,
        };
        for _ in 0..data {
            let byte = self.random.data();
            self.byte(byte);
        }
        self.running = None;
    }

    /// A message that is broken off.
    fn fragment(&mut self) {
        let status = 0x80 + self.random.below(0x70) as u8;
        self.byte(status);
        self.running = Some(status);
        if self.random.one_in(2) {
            let byte = self.random.data();
            self.byte(byte);
            self.running = None;
        }
    }

    fn stray_data(&mut self) {
        let byte = self.random.data();
        self.byte(byte);
        self.running = None;
    }
}
