//! The second implementation, the crate `paper`, as one side of the comparison.

use crate::channel_gains::{EXPRESSION, PAN, VOLUME};
use crate::gains::{self, Answered, Levels};
use crate::hardest_song;
use crate::pages::Memory;
use crate::pitches::Call;
use crate::record::{Given, Implementation, Items, Record, SysExBytes, IDLE};
use paper::{
    Answer, Device, Entry, GeneratorView, Number, Pitch, Progress, SysEx, MOST_GENERATORS,
};

pub fn start(polyphony: u8, id: u8) -> (Device, Given<Answer>) {
    let (device, answer) = Device::start(polyphony, id);
    (device, Ok(answer))
}

pub fn pitch((key, sensitivity, bend): Call) -> Given<Result<Pitch, Number>> {
    Ok(paper::pitch(key, sensitivity, bend))
}

pub fn gains((expression, volume, pan): gains::Call) -> Answered {
    Ok(paper::gains(expression, volume, pan).map(Levels::Exact))
}

/// The gains of a channel's numbers.
pub fn channel_gains(channel: proved::Channel) -> Answered {
    gains((channel[EXPRESSION], channel[VOLUME], channel[PAN]))
}

/// The thefts of the hardest song, or the number of a refused call. The song itself is another than the library's.
pub fn song(call: hardest_song::Call) -> Given<Result<u32, Number>> {
    let mut buffer = vec![0; call.length];
    Ok(paper::write_song(call.polyphony, call.n, &mut buffer))
}

/// The thefts of these bytes on a fresh device.
pub fn thefts(polyphony: u8, bytes: &[u8]) -> u32 {
    let (mut device, _) = Device::start(polyphony, 0);
    let stolen = |&&byte: &&u8| device.byte(byte).is_theft();
    bytes.iter().filter(stolen).count() as u32
}

/// The bytes of a SysEx that overflowed count one more than were kept.
fn sysex_bytes(sysex: &SysEx) -> SysExBytes {
    let mut bytes = [0; 37];
    let kept = sysex.kept().len();
    bytes[..kept].copy_from_slice(sysex.kept());
    SysExBytes::new(&bytes[..kept + usize::from(sysex.overflowed())])
}

impl Implementation for Device {
    fn byte(&mut self, byte: u8) -> Given<Answer> {
        Ok(Device::byte(self, byte))
    }

    fn report(&mut self, generator: u8) -> Given<Answer> {
        Ok(Device::report(self, generator))
    }

    fn generator(&self, generator: u8) -> Given<Result<GeneratorView, Number>> {
        Ok(Device::generator(self, generator))
    }

    fn masked(&self, channel: u8) -> Given<Result<bool, Number>> {
        Ok(Device::masked(self, channel))
    }

    fn share(&self, channel: u8) -> Given<Result<u8, Number>> {
        Ok(Device::share(self, channel))
    }

    fn rhythm(&self, channel: u8) -> Given<bool> {
        Ok(Device::rhythm(self, channel))
    }

    fn page(&mut self, memory: &mut Memory) -> Given<Result<(), Number>> {
        Ok(Device::page(self, memory.buffer()))
    }

    fn gains(&self, channel: usize) -> Answered {
        let channel = &self.channels()[channel];
        gains((channel.expression, channel.volume, channel.pan))
    }

    fn record(&self) -> Given<Record> {
        let mut generators = [IDLE; MOST_GENERATORS];
        for (g, view) in generators.iter_mut().enumerate() {
            *view = Device::generator(self, g as u8).unwrap_or(IDLE);
        }
        let progress = self.parser().progress();
        let sysex = match progress {
            Progress::SysEx => sysex_bytes(self.parser().sysex()),
            _ => SysExBytes::new(&[]),
        };
        Ok(Record {
            polyphony: self.polyphony(),
            id: self.id(),
            entries: Items::new(Entry::default(), self.table().entries().iter().copied()),
            channels: self.channels().map(|channel| channel.numbers()),
            second_drums: self.second_drums(),
            generators,
            oldest_first: Items::new(0, self.oldest_first()),
            progress,
            sysex,
        })
    }
}
