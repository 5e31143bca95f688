//! The second implementation with a fault, the crate `wrong`, as one side of the comparison; its page and its gains can
//! be wrong by a slip beside it as well.

use crate::gains::{Answered, Levels};
use crate::pages::Memory;
use crate::record::{Given, Implementation, Items, Record, SysExBytes, IDLE};
use crate::wrong_page::Slip;
use paper::{Answer, Entry, GeneratorView, Number, Progress, State, MOST_GENERATORS};

/// What expression, volume and pan of a channel are taken to be, by its place among all.
pub type GainsSlip = fn(usize, &[wrong::Channel; 16]) -> [u8; 3];

/// What can be wrong about the gains of a channel: they are those of other numbers.
pub const GAINS_SLIPS: [(&str, GainsSlip); 3] = [
    ("GainsOfTheNextChannel", |at, all| {
        three(&all[(at + 1) % 16])
    }),
    ("GainsOfAFreshChannel", |_, _| three(&wrong::Channel::FRESH)),
    ("GainsWithModulationForExpression", |at, all| {
        [all[at].modulation, all[at].volume, all[at].pan]
    }),
];

fn three(channel: &wrong::Channel) -> [u8; 3] {
    [channel.expression, channel.volume, channel.pan]
}

#[derive(Clone)]
pub struct WrongDevice {
    device: wrong::Device,
    page: Option<Slip>,
    gains: Option<GainsSlip>,
}

/// A device that makes the fault under way, and no slip.
pub fn start(polyphony: u8, id: u8) -> (WrongDevice, Given<Answer>) {
    start_with(None, None, polyphony, id)
}

pub fn start_with_gains(
    gains: Option<GainsSlip>,
    polyphony: u8,
    id: u8,
) -> (WrongDevice, Given<Answer>) {
    start_with(None, gains, polyphony, id)
}

pub fn start_with_page(page: Option<Slip>, polyphony: u8, id: u8) -> (WrongDevice, Given<Answer>) {
    start_with(page, None, polyphony, id)
}

fn start_with(
    page: Option<Slip>,
    gains: Option<GainsSlip>,
    polyphony: u8,
    id: u8,
) -> (WrongDevice, Given<Answer>) {
    let (device, answer) = wrong::Device::start(polyphony, id);
    let device = WrongDevice {
        device,
        page,
        gains,
    };
    (device, Ok(answer))
}

/// The types of `wrong` are others, if the same: they are made of copies of paper's sources.
fn view_of(view: wrong::GeneratorView) -> GeneratorView {
    let state = match view.state {
        wrong::State::Idle => State::Idle,
        wrong::State::Held => State::Held,
        wrong::State::Sustained => State::Sustained,
        wrong::State::Releasing => State::Releasing,
    };
    let (channel, key) = (view.channel, view.key);
    GeneratorView {
        state,
        channel,
        key,
    }
}

pub fn progress_of(progress: wrong::Progress) -> Progress {
    match progress {
        wrong::Progress::NoStatus => Progress::NoStatus,
        wrong::Progress::Status(status) => Progress::Status(status),
        wrong::Progress::StatusAndData(status, first) => Progress::StatusAndData(status, first),
        wrong::Progress::Swallow(left) => Progress::Swallow(left),
        wrong::Progress::SysEx => Progress::SysEx,
    }
}

pub fn record_of(device: &wrong::Device) -> Record {
    let view = |g: usize| device.generator(g as u8).map_or(IDLE, view_of);
    let entry = |&wrong::Entry { channel, value }: &_| Entry { channel, value };
    let progress = progress_of(device.parser().progress());
    let sysex = device.parser().sysex();
    // The bytes of a SysEx that overflowed count one more than were kept.
    let mut bytes = sysex.kept().to_vec();
    bytes.extend(sysex.overflowed().then_some(0));
    let sysex: &[u8] = if progress == Progress::SysEx {
        &bytes
    } else {
        &[]
    };
    Record {
        polyphony: device.polyphony(),
        id: device.id(),
        entries: Items::new(Entry::default(), device.table().entries().iter().map(entry)),
        channels: device.channels().map(|channel| channel.numbers()),
        second_drums: device.second_drums(),
        generators: std::array::from_fn::<_, MOST_GENERATORS, _>(view),
        oldest_first: Items::new(0, device.oldest_first()),
        progress,
        sysex: SysExBytes::new(sysex),
    }
}

impl Implementation for WrongDevice {
    fn byte(&mut self, byte: u8) -> Given<Answer> {
        Ok(self.device.byte(byte))
    }

    fn report(&mut self, generator: u8) -> Given<Answer> {
        Ok(self.device.report(generator))
    }

    fn generator(&self, generator: u8) -> Given<Result<GeneratorView, Number>> {
        Ok(self.device.generator(generator).map(view_of))
    }

    fn masked(&self, channel: u8) -> Given<Result<bool, Number>> {
        Ok(self.device.masked(channel))
    }

    fn share(&self, channel: u8) -> Given<Result<u8, Number>> {
        Ok(self.device.share(channel))
    }

    fn rhythm(&self, channel: u8) -> Given<bool> {
        Ok(self.device.rhythm(channel))
    }

    fn page(&mut self, memory: &mut Memory) -> Given<Result<(), Number>> {
        match self.page {
            None => Ok(self.device.page(memory.buffer())),
            Some(slip) => slip.write(&self.device, memory),
        }
    }

    fn gains(&self, channel: usize) -> Answered {
        let channels = self.device.channels();
        let [expression, volume, pan] = match self.gains {
            None => three(&channels[channel]),
            Some(slip) => slip(channel, channels),
        };
        Ok(paper::gains(expression, volume, pan).map(Levels::Exact))
    }

    fn record(&self) -> Given<Record> {
        Ok(record_of(&self.device))
    }
}
