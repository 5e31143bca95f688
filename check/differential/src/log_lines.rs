//! The lines of logs: music that stays within the 64 generators, what spoils it, and lines of other forms.
//!
//! A device plays along, so that the musician knows which keys to let go and which generators to report. What a log
//! must yield is not known here; both sides of the comparison say that.

use crate::drums::{excludes, DRUM_CHANNEL, SECOND_DRUM_CHANNEL};
use crate::lists::{self, pick_weighted};
use paper::{Device, Event, GeneratorView, State};
use random::Random;

/// One thing to write.
#[derive(Clone, Copy, Debug)]
enum Phrase {
    Chord,
    KeyAgain,
    KeyUp,
    Pedal,
    Controller,
    ProgramOrBend,
    SecondDrums,
    ReportOfBusy,
    ReportOfAny,
    SystemOn,
    NearlySystemOn,
    RealTime,
    StrayData,
    OthersMip,
    CutMip,
    SystemCommon,
    Fragment,
}

const MUSIC: &[(usize, Phrase)] = &[
    (40, Phrase::Chord),
    (3, Phrase::KeyAgain),
    (30, Phrase::KeyUp),
    (9, Phrase::Pedal),
    (4, Phrase::Controller),
    (3, Phrase::ProgramOrBend),
    (2, Phrase::SecondDrums),
    (4, Phrase::ReportOfBusy),
    (8, Phrase::ReportOfAny),
    (1, Phrase::SystemOn),
    (1, Phrase::NearlySystemOn),
    (2, Phrase::RealTime),
    (2, Phrase::StrayData),
    (2, Phrase::OthersMip),
    (2, Phrase::CutMip),
    (2, Phrase::SystemCommon),
    (1, Phrase::Fragment),
];

pub struct Musician<'a> {
    /// The lines so far.
    pub log: Vec<u8>,
    pub lines: usize,
    random: &'a mut Random,
    device: Device,
    /// The channels that play, how many keys they have, and how many notes they hold together at most.
    channels: Vec<u8>,
    keys: usize,
    most: usize,
    running: Option<u8>,
}

/// The line of an event.
pub fn line(event: lists::Event) -> String {
    match event {
        lists::Event::Byte(byte) => format!("b,{byte}\n"),
        lists::Event::Report(generator) => format!("e,{generator}\n"),
    }
}

impl Musician<'_> {
    pub fn new(random: &mut Random) -> Musician<'_> {
        let mut channels: Vec<u8> = (0..16).collect();
        random.shuffle(&mut channels);
        channels.truncate(1 + random.below(16));
        Musician {
            log: Vec::new(),
            lines: 0,
            device: Device::start(64, 0).0,
            channels,
            keys: random.pick(&[5, 24, 128]),
            most: random.pick(&[3, 12, 30, 60, 63, 64]),
            running: None,
            random,
        }
    }

    /// Music of at least so many lines. Where these are many, it begins full at times.
    pub fn phrases(&mut self, lines: usize) {
        let up_to = self.lines + lines;
        if lines >= 100 && self.most >= 60 && self.random.one_in(3) {
            self.fill(self.most);
        }
        while self.lines < up_to {
            match pick_weighted(self.random, MUSIC) {
                Phrase::Chord => self.chord(),
                Phrase::KeyAgain => self.key_again(),
                Phrase::KeyUp => self.key_up(),
                Phrase::Pedal => self.pedal(),
                Phrase::Controller => self.controller(),
                Phrase::ProgramOrBend => self.program_or_bend(),
                Phrase::SecondDrums => self.second_drums(),
                Phrase::ReportOfBusy => self.report_of_busy(),
                Phrase::ReportOfAny => self.report_of_any(),
                Phrase::SystemOn => self.system_on(),
                Phrase::NearlySystemOn => self.nearly_system_on(),
                Phrase::RealTime => self.byte(0xF8),
                Phrase::StrayData => self.stray_data(),
                Phrase::OthersMip => self.others_mip(),
                Phrase::CutMip => self.cut_mip(),
                Phrase::SystemCommon => self.system_common(),
                Phrase::Fragment => self.fragment(),
            }
        }
    }

    fn event(&mut self, event: Event) {
        let event = match event {
            Event::Byte(byte) => {
                self.device.byte(byte);
                lists::Event::Byte(byte)
            }
            Event::Report(generator) => {
                self.device.report(generator);
                lists::Event::Report(generator)
            }
        };
        self.log.extend(line(event).bytes());
        self.lines += 1;
    }

    /// A byte, at times with a real-time byte before it.
    fn byte(&mut self, byte: u8) {
        if self.random.one_in(40) {
            let real_time = 0xF8 + self.random.below(8) as u8;
            self.event(Event::Byte(real_time));
        }
        self.event(Event::Byte(byte));
    }

    fn message(&mut self, status: u8, data: &[u8]) {
        if self.running != Some(status) || self.random.one_in(4) {
            self.byte(status);
            self.running = Some(status);
        }
        data.iter().for_each(|&byte| self.byte(byte));
    }

    fn sysex(&mut self, bytes: &[u8]) {
        self.byte(0xF0);
        bytes.iter().for_each(|&byte| self.byte(byte));
        self.byte(0xF7);
        self.running = None;
    }

    fn channel(&mut self) -> u8 {
        self.random.pick(&self.channels)
    }

    /// The busy generators with what they play.
    fn busy(&self) -> Vec<(u8, GeneratorView)> {
        let views = (0..64).filter_map(|g| Some((g, self.device.generator(g).ok()?)));
        views
            .filter(|(_, view)| matches!(view.state, State::Held | State::Sustained))
            .collect()
    }

    /// Ends notes until there is room for one more.
    fn make_room(&mut self) {
        loop {
            let busy = self.busy();
            if busy.len() < self.most {
                return;
            }
            let (generator, view) = self.random.pick(&busy);
            self.end_note(generator, view);
        }
    }

    /// A drum ends by its report, and so does what the pedal holds.
    fn end_note(&mut self, generator: u8, view: GeneratorView) {
        let channel = view.channel - 1;
        let pedal = self.device.channels()[usize::from(channel)].pedal_down();
        if pedal || self.device.rhythm(view.channel) || self.random.one_in(4) {
            self.event(Event::Report(generator));
        } else if self.random.one_in(2) {
            self.message(0x80 | channel, &[view.key, 64]);
        } else {
            self.message(0x90 | channel, &[view.key, 0]);
        }
    }

    fn note(&mut self, channel: u8) {
        self.make_room();
        let key = self.random.below(self.keys) as u8;
        let velocity = 1 + self.random.below(127) as u8;
        self.message(0x90 | channel, &[key, velocity]);
    }

    fn chord(&mut self) {
        let channel = self.channel();
        for _ in 0..1 + self.random.below(5) {
            self.note(channel);
        }
    }

    /// A key that is down or on the pedal once more, or on a rhythm channel another one of its group: there is room for
    /// it always.
    fn key_again(&mut self) {
        let busy = self.busy();
        let Some(&(_, view)) = busy.get(self.random.below(busy.len().max(1))) else {
            return;
        };
        let channel = view.channel - 1;
        let drums = self.device.rhythm(view.channel);
        let others = (0..128).find(|&key| drums && excludes(key, view.key));
        let key = others.filter(|_| self.random.one_in(2)).unwrap_or(view.key);
        self.message(0x90 | channel, &[key, 64]);
    }

    fn key_up(&mut self) {
        let busy = self.busy();
        if let Some(&(_, view)) = busy.get(self.random.below(busy.len().max(1))) {
            self.message(0x80 | (view.channel - 1), &[view.key, 64]);
        }
    }

    fn pedal(&mut self) {
        let (channel, value) = (self.channel(), self.random.pick(&[0, 63, 64, 127, 127]));
        self.message(0xB0 | channel, &[64, value]);
    }

    fn controller(&mut self) {
        let channel = self.channel();
        let number = match self.random.below(2) {
            0 => self.random.pick(&[1, 7, 10, 11]),
            _ => 120 + self.random.below(8) as u8,
        };
        let value = self.random.pick(&[0, 0, 1, 64]);
        self.message(0xB0 | channel, &[number, value]);
    }

    fn program_or_bend(&mut self) {
        let (channel, data) = (self.channel(), self.random.data());
        match self.random.below(3) {
            0 => self.message(0xC0 | channel, &[data]),
            1 => self.message(0xD0 | channel, &[data]),
            _ => self.message(0xE0 | channel, &[data, 64]),
        }
    }

    /// A bank, and mostly a program, of channel 11, and a chord there: its kind may be another one then.
    fn second_drums(&mut self) {
        let channel = SECOND_DRUM_CHANNEL;
        let (msb, program) = (self.random.pick(&[120, 120, 121, 0]), self.random.data());
        self.message(0xB0 | channel, &[0, msb]);
        if !self.random.one_in(4) {
            self.message(0xC0 | channel, &[program]);
        }
        for _ in 0..self.random.below(4) {
            self.note(channel);
        }
    }

    fn report_of_busy(&mut self) {
        let busy = self.busy();
        if let Some(&(generator, _)) = busy.get(self.random.below(busy.len().max(1))) {
            self.event(Event::Report(generator));
        }
    }

    /// Mostly of a low number, which is more often a sounding one.
    fn report_of_any(&mut self) {
        let up_to = self.random.pick(&[4, 16, 64]);
        let generator = self.random.below(up_to) as u8;
        self.event(Event::Report(generator));
    }

    fn system_on(&mut self) {
        let d = self.random.pick(&[0x7F, 0]);
        self.sysex(&[0x7E, d, 0x09, 0x01]);
    }

    /// System Off, for another ID, or with a byte more or less.
    fn nearly_system_on(&mut self) {
        let mut bytes = vec![0x7E, self.random.pick(&[0x7F, 0]), 0x09, 0x01];
        match self.random.below(4) {
            0 => bytes[3] = 0x02,
            1 => bytes[1] = self.random.pick(&[1, 64, 126]),
            2 => bytes.push(0),
            _ => bytes.truncate(self.random.below(4)),
        }
        self.sysex(&bytes);
    }

    fn stray_data(&mut self) {
        let (common, byte) = (0xF4 + self.random.below(4) as u8, self.random.data());
        self.byte(common);
        self.byte(byte);
        self.running = None;
    }

    /// Something that is nearly a MIP message for us.
    fn others_mip(&mut self) {
        let d = self.random.pick(&[0x7F, 0]);
        let mut bytes = vec![0x7F, d, 0x0B, 0x01];
        match self.random.below(8) {
            0..=2 => bytes[1] = self.random.pick(&[1, 2, 64, 126]),
            3 => bytes[0] = 0x7E,
            4 => bytes[2] ^= 1 << self.random.below(7),
            5 => bytes[3] ^= 1 << self.random.below(7),
            6 => bytes.truncate(self.random.below(4)),
            _ => bytes.insert(0, self.random.data() & 0x3F),
        }
        if bytes.len() >= 4 {
            bytes.extend(self.pairs());
        }
        self.sysex(&bytes);
    }

    /// A MIP message that a status cuts; at times an F7 comes when it is too late.
    fn cut_mip(&mut self) {
        let d = self.random.pick(&[0x7F, 0]);
        let mut bytes = vec![0xF0, 0x7F, d, 0x0B, 0x01];
        bytes.extend(self.pairs());
        bytes.push(0x80 + self.random.below(0x77) as u8);
        if self.random.one_in(2) {
            bytes.push(0xF7);
        }
        bytes.into_iter().for_each(|byte| self.byte(byte));
        self.running = None;
    }

    fn system_common(&mut self) {
        let status = 0xF1 + self.random.below(6) as u8;
        self.byte(status);
        for _ in 0..self.random.below(3) {
            let byte = self.random.data();
            self.byte(byte);
        }
        self.running = None;
    }

    /// A message that is broken off.
    fn fragment(&mut self) {
        let status = 0x80 + self.random.below(0x70) as u8;
        self.byte(status);
        if self.random.one_in(2) {
            let byte = self.random.data();
            self.byte(byte);
        }
        self.running = None;
    }
}

/// What a log can be spoilt by.
#[derive(Clone, Copy, Debug, PartialEq, Eq)]
enum Spoiler {
    RightMip,
    WrongMip,
    /// One note more than there are generators: stolen, or number 11 where the drums have them all.
    OneNoteMore,
    OneMelodyNoteMoreThanDrums,
}

const SPOILERS: &[(usize, Spoiler)] = &[
    (3, Spoiler::RightMip),
    (6, Spoiler::WrongMip),
    (3, Spoiler::OneNoteMore),
    (2, Spoiler::OneMelodyNoteMoreThanDrums),
];

impl Musician<'_> {
    pub fn spoil(&mut self) {
        let d = self.random.pick(&[0x7F, 0x7F, 0]);
        let mut bytes = vec![0x7F, d, 0x0B, 0x01];
        match pick_weighted(self.random, SPOILERS) {
            Spoiler::RightMip => {
                bytes.extend(self.pairs());
                self.sysex(&bytes);
            }
            Spoiler::WrongMip => {
                bytes.extend(self.wrong_pairs());
                self.sysex(&bytes);
            }
            Spoiler::OneNoteMore => self.one_note_more(),
            Spoiler::OneMelodyNoteMoreThanDrums => {
                self.system_on();
                self.channels = vec![DRUM_CHANNEL];
                self.one_note_more();
            }
        }
    }

    /// Right pairs of some channels.
    fn pairs(&mut self) -> Vec<u8> {
        let mut channels: Vec<u8> = (0..16).collect();
        self.random.shuffle(&mut channels);
        channels.truncate(1 + self.random.below(16));
        let mut value = 0;
        let mut pair = |channel| {
            value = (value + self.random.below(9) as u8).min(127);
            [channel, value]
        };
        channels.into_iter().flat_map(&mut pair).collect()
    }

    /// Pairs with one thing wrong, for each of the numbers 5 to 9.
    fn wrong_pairs(&mut self) -> Vec<u8> {
        let mut pairs = self.pairs();
        let at = 2 * self.random.below(pairs.len() / 2);
        match self.random.below(7) {
            0 => pairs.clear(),
            1 => pairs.truncate(at + 1),
            2 => pairs[at] = 16 + self.random.below(112) as u8,
            3 => {
                pairs.truncate(30);
                pairs.extend([pairs[0], 127]);
            }
            4 => pairs = vec![0, 5, 1, 4],
            5 => pairs.resize(33 + self.random.below(3), 0),
            _ => pairs.resize(33 + self.random.below(60), 1),
        }
        pairs
    }

    /// Plays notes until so many are held.
    fn fill(&mut self, most: usize) {
        // No key of an exclusive group, which would end another drum.
        for key in (0..42).chain(82..128) {
            if self.busy().len() >= most {
                break;
            }
            let channel = self.channel();
            self.message(0x90 | channel, &[key, 64]);
        }
    }

    /// Takes every generator, and then one more.
    fn one_note_more(&mut self) {
        self.fill(64);
        let channel = self.random.below(16) as u8;
        self.message(0x90 | channel, &[60, 64]);
    }
}

/// Lines that are none, without their ends.
#[rustfmt::skip]
const WRONG_LINES: [&[u8]; 48] = [
    b"", b"b", b"e", b",", b"b,", b"e,", b"144", b"b144", b"e5", b"b,256", b"b,257", b"b,260",
    b"b,299", b"b,300", b"b,400", b"b,511", b"b,512", b"b,999", b"b,1000", b"b,1440",
    b"e,64", b"e,65", b"e,99", b"e,127", b"e,128", b"e,255", b"e,256",
    b"b,00", b"b,01", b"b,090", b"b,0144", b"e,00", b"e,07", b"e,063", b"b,-1", b"b,+1",
    b"b,-0", b"b, 1", b" b,1", b"b,1 ", b"b ,1", b"B,144", b"E,5", b"b,144\r", b"b;144", b"c,144", b"b,0x90", b"b,144,",
];

/// A line of another form, mostly; with its end.
pub fn wrong_line(random: &mut Random) -> Vec<u8> {
    let mut line = match random.below(12) {
        0..=5 => random.pick(&WRONG_LINES).to_vec(),
        6 => Vec::new(),
        7 => {
            let length = random.pick(&[6, 7, 8, 9, 14, 255, 256, 257, 261, 300]);
            let mut long = b"b,144".to_vec();
            long.resize(length, random.pick(b"0 ,\r\0b1"));
            long
        }
        8 => vec![random.pick(b"b1,\0"); random.pick(&[1, 7, 8, 100, 256])],
        _ => mutated(random),
    };
    line.retain(|&byte| byte != b'\n');
    line.push(b'\n');
    line
}

/// A right line with a byte more, less or another.
fn mutated(random: &mut Random) -> Vec<u8> {
    let mut line = match random.below(3) {
        0 => format!("e,{}", random.below(64)).into_bytes(),
        _ => format!("b,{}", random.byte()).into_bytes(),
    };
    let at = random.below(line.len());
    let byte = match random.below(3) {
        0 => random.byte(),
        _ => random.pick(b"0123456789be,BE \r\t+-.;\0"),
    };
    match random.below(3) {
        0 => line[at] = byte,
        1 => line.insert(at, byte),
        _ => {
            line.remove(at);
        }
    }
    line
}
