//! What is measured: an implementation that takes bytes and reports, gives pages, pitches and gains, writes songs and
//! reads logs through calls that are not inlined, so that both sides pay for a call.

/// An implementation with its answers reduced to what the measurement needs.
pub trait Subject: Clone {
    fn start(polyphony: u8) -> Self;
    /// Takes a byte; true if it completed a message that was not refused.
    fn byte(&mut self, byte: u8) -> bool;
    fn report(&mut self, generator: u8) -> bool;
    /// Writes the service page; true if the buffer had room for it.
    fn page(&mut self, buffer: &mut [u8]) -> bool;
    /// The octave and the entry of a pitch, also of a refused one.
    fn pitch(key: u8, sensitivity: u8, bend: u16) -> (i8, u32);
    /// The gains left and right, also of a refused call.
    fn gains(expression: u8, volume: u8, pan: u8) -> (f32, f32);
    /// The gains of a channel on the wire, 0 to 15.
    fn channel_gains(&self, channel: usize) -> (f32, f32);
    /// Writes the hardest song of n bytes; its thefts, 0 if it is refused.
    fn write_song(polyphony: u8, n: usize, buffer: &mut [u8]) -> u32;
    /// A log under way.
    type Log: Clone;
    fn log_begin(order: &mut [u8]) -> Self::Log;
    /// Takes a part; true if no number has fallen. It is lent as the other calls lend it, and not written.
    fn log_part(log: &mut Self::Log, part: &mut [u8]) -> bool;
    /// The message of a log, zeros if a number has fallen.
    fn log_end(log: &mut Self::Log) -> [u8; 38];
}

#[derive(Clone)]
pub struct Proved(proved::Device);

impl Subject for Proved {
    fn start(polyphony: u8) -> Proved {
        let mut device = proved::Device::memory([0; proved::RECORD_BYTES]);
        device.start(polyphony, 0);
        Proved(device)
    }

    #[inline]
    fn byte(&mut self, byte: u8) -> bool {
        matches!(self.0.byte(byte).what, proved::DONE | proved::NOTE)
    }

    #[inline]
    fn report(&mut self, generator: u8) -> bool {
        self.0.report(generator).what == proved::DONE
    }

    #[inline]
    fn page(&mut self, buffer: &mut [u8]) -> bool {
        self.0.page(buffer) == 0
    }

    #[inline]
    fn pitch(key: u8, sensitivity: u8, bend: u16) -> (i8, u32) {
        let answer = proved::pitch(key, sensitivity, bend);
        (answer.octave, answer.entry)
    }

    #[inline]
    fn gains(expression: u8, volume: u8, pan: u8) -> (f32, f32) {
        let answer = proved::gains(expression, volume, pan);
        (answer.left, answer.right)
    }

    #[inline]
    fn channel_gains(&self, channel: usize) -> (f32, f32) {
        let answer = self.0.gains(channel);
        (answer.left, answer.right)
    }

    #[inline]
    fn write_song(polyphony: u8, n: usize, buffer: &mut [u8]) -> u32 {
        proved::write_song(polyphony, n, buffer).thefts
    }

    type Log = proved::LogMemory;

    #[inline]
    fn log_begin(order: &mut [u8]) -> proved::LogMemory {
        let mut log = proved::LogMemory([0; proved::LOG_BYTES]);
        log.begin(order);
        log
    }

    #[inline]
    fn log_part(log: &mut proved::LogMemory, part: &mut [u8]) -> bool {
        log.part(part) == 0
    }

    #[inline]
    fn log_end(log: &mut proved::LogMemory) -> [u8; 38] {
        log.end().bytes
    }
}

#[derive(Clone)]
pub struct Paper(paper::Device);

/// The second implementation's start, and below its other calls, with names that callgrind can find.
#[no_mangle]
#[inline(never)]
fn paper_start(polyphony: u8) -> paper::Device {
    paper::Device::start(polyphony, 0).0
}

#[no_mangle]
#[inline(never)]
fn paper_byte(device: &mut paper::Device, byte: u8) -> paper::Answer {
    device.byte(byte)
}

#[no_mangle]
#[inline(never)]
fn paper_report(device: &mut paper::Device, generator: u8) -> paper::Answer {
    device.report(generator)
}

#[no_mangle]
#[inline(never)]
fn paper_page(device: &paper::Device, buffer: &mut [u8]) -> Result<(), paper::Number> {
    device.page(buffer)
}

#[no_mangle]
#[inline(never)]
fn paper_pitch(key: u8, sensitivity: u8, bend: u16) -> Result<paper::Pitch, paper::Number> {
    paper::pitch(key, sensitivity, bend)
}

#[no_mangle]
#[inline(never)]
fn paper_gains(expression: u8, volume: u8, pan: u8) -> Result<(f32, f32), paper::Number> {
    paper::float_gains(expression, volume, pan)
}

#[no_mangle]
#[inline(never)]
fn paper_channel_gains(channel: &paper::Channel) -> Result<(f32, f32), paper::Number> {
    paper::float_gains(channel.expression, channel.volume, channel.pan)
}

#[no_mangle]
#[inline(never)]
fn paper_write_song(polyphony: u8, n: usize, buffer: &mut [u8]) -> Result<u32, paper::Number> {
    paper::write_song(polyphony, n, buffer)
}

#[no_mangle]
#[inline(never)]
fn paper_log_begin(order: &[u8]) -> paper::Log {
    paper::Log::begin(order)
}

#[no_mangle]
#[inline(never)]
fn paper_log_part(log: &mut paper::Log, part: &[u8]) -> Option<paper::Number> {
    log.part(part)
}

#[no_mangle]
#[inline(never)]
fn paper_log_end(log: &paper::Log) -> paper::Arranged {
    log.end()
}

impl Subject for Paper {
    fn start(polyphony: u8) -> Paper {
        Paper(paper_start(polyphony))
    }

    #[inline]
    fn byte(&mut self, byte: u8) -> bool {
        matches!(
            paper_byte(&mut self.0, byte),
            paper::Answer::Done | paper::Answer::Note { .. }
        )
    }

    #[inline]
    fn report(&mut self, generator: u8) -> bool {
        paper_report(&mut self.0, generator) == paper::Answer::Done
    }

    #[inline]
    fn page(&mut self, buffer: &mut [u8]) -> bool {
        paper_page(&self.0, buffer).is_ok()
    }

    #[inline]
    fn pitch(key: u8, sensitivity: u8, bend: u16) -> (i8, u32) {
        let pitch = paper_pitch(key, sensitivity, bend).unwrap_or(paper::Pitch::REFUSED);
        (pitch.octave, pitch.entry)
    }

    #[inline]
    fn gains(expression: u8, volume: u8, pan: u8) -> (f32, f32) {
        paper_gains(expression, volume, pan).unwrap_or((0.0, 0.0))
    }

    #[inline]
    fn channel_gains(&self, channel: usize) -> (f32, f32) {
        paper_channel_gains(&self.0.channels()[channel]).unwrap_or((0.0, 0.0))
    }

    #[inline]
    fn write_song(polyphony: u8, n: usize, buffer: &mut [u8]) -> u32 {
        paper_write_song(polyphony, n, buffer).unwrap_or(0)
    }
    type Log = paper::Log;

    #[inline]
    fn log_begin(order: &mut [u8]) -> paper::Log {
        paper_log_begin(order)
    }

    #[inline]
    fn log_part(log: &mut paper::Log, part: &mut [u8]) -> bool {
        paper_log_part(log, part).is_none()
    }

    #[inline]
    fn log_end(log: &mut paper::Log) -> [u8; 38] {
        paper_log_end(log).message.unwrap_or([0; 38])
    }
}
