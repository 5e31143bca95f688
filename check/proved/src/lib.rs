//! The proved library through its C header, `include/muntinorris.h`: the same structures, the same sixteen calls.
//!
//! The only unsafe code is here. The header wants a record that a start made; on any other bytes a call "still returns,
//! and writes no memory but what it is lent to write", so that nothing here can go wrong for Rust.

/// `struct muntinorris_answer`.
#[repr(C)]
#[derive(Clone, Copy, Debug, PartialEq, Eq)]
pub struct Answer {
    pub what: u8,
    pub number: u8,
    pub channel: u8,
    pub key: u8,
    pub generator: u8,
    pub was: u8,
}

/// `MUNTINORRIS_NONE` and its like: what an answer is.
pub const NONE: u8 = 0;
pub const DONE: u8 = 1;
pub const NOTE: u8 = 2;
pub const NUMBER: u8 = 3;

/// `MUNTINORRIS_WAS_STOLEN`: the generator of a note was busy.
pub const WAS_STOLEN: u8 = 2;

/// `struct muntinorris_generator_answer`.
#[repr(C)]
#[derive(Clone, Copy, Debug, PartialEq, Eq)]
pub struct GeneratorAnswer {
    pub number: u8,
    pub state: u8,
    pub channel: u8,
    pub key: u8,
}

/// `struct muntinorris_mask_answer`.
#[repr(C)]
#[derive(Clone, Copy, Debug, PartialEq, Eq)]
pub struct MaskAnswer {
    pub number: u8,
    pub masked: u8,
}

/// `struct muntinorris_share_answer`.
#[repr(C)]
#[derive(Clone, Copy, Debug, PartialEq, Eq)]
pub struct ShareAnswer {
    pub number: u8,
    pub share: u8,
}

/// `struct muntinorris_pitch_answer`.
#[repr(C)]
#[derive(Clone, Copy, Debug, PartialEq, Eq)]
pub struct PitchAnswer {
    pub entry: u32,
    pub octave: i8,
    pub number: u8,
}

/// `struct muntinorris_gains_answer`. Two of them are compared by the bits of their floats, so `==` is not offered.
#[repr(C)]
#[derive(Clone, Copy, Debug)]
pub struct GainsAnswer {
    pub left: f32,
    pub right: f32,
    pub number: u8,
}

/// `struct muntinorris_song_answer`.
#[repr(C)]
#[derive(Clone, Copy, Debug, PartialEq, Eq)]
pub struct SongAnswer {
    pub thefts: u32,
    pub number: u8,
}

/// `struct muntinorris_mip_answer`.
#[repr(C)]
#[derive(Clone, Copy, Debug, PartialEq, Eq)]
pub struct MipAnswer {
    pub line: u64,
    pub number: u8,
    pub bytes: [u8; 38],
}

/// `struct muntinorris_parser`.
#[repr(C)]
#[derive(Clone, Copy, Debug)]
pub struct Parser {
    pub status: u8,
    pub count: u8,
    pub bytes: [u8; 37],
}

/// `struct muntinorris_entry`.
#[repr(C)]
#[derive(Clone, Copy, Debug, PartialEq, Eq)]
pub struct Entry {
    pub channel: u8,
    pub value: u8,
}

/// `struct muntinorris_table`.
#[repr(C)]
#[derive(Clone, Copy, Debug)]
pub struct Table {
    pub count: u8,
    pub entries: [Entry; 16],
}

/// `struct muntinorris_channel`: thirteen bytes in the header's order.
pub type Channel = [u8; 13];

/// `struct muntinorris_ages`.
#[repr(C)]
#[derive(Clone, Copy, Debug)]
pub struct Ages {
    pub count: u8,
    pub generator: [u8; 64],
}

/// `struct muntinorris_generators`.
#[repr(C)]
#[derive(Clone, Copy, Debug)]
pub struct Generators {
    pub state: [u8; 64],
    pub channel: [u8; 64],
    pub key: [u8; 64],
    pub ages: Ages,
}

/// `struct muntinorris_instrument`.
#[repr(C)]
#[derive(Clone, Copy, Debug)]
pub struct Instrument {
    pub polyphony: u8,
    pub id: u8,
    pub table: Table,
    pub channels: [Channel; 16],
    /// Of channel 11: 1 for rhythm, 0 for melody.
    pub kind: u8,
    pub generators: Generators,
}

/// "The device record, 540 bytes without padding."
pub const RECORD_BYTES: usize = 540;

/// `struct muntinorris_device`.
#[repr(C)]
#[derive(Clone, Copy, Debug)]
pub struct Device {
    pub parser: Parser,
    pub instrument: Instrument,
}

/// `struct muntinorris_logged`.
#[repr(C)]
#[derive(Clone, Copy, Debug)]
pub struct Logged {
    pub device: Device,
    pub order: [u8; 16],
    pub most: [u8; 16],
    pub lines: u64,
    pub number: u8,
}

/// `struct muntinorris_log_line`.
#[repr(C)]
#[derive(Clone, Copy, Debug, PartialEq, Eq)]
pub struct LogLine {
    pub count: u8,
    pub bytes: [u8; 7],
}

/// `struct muntinorris_log`.
#[repr(C)]
#[derive(Clone, Copy, Debug)]
pub struct Log {
    pub song: Logged,
    pub line: LogLine,
}

/// The record of a log, its padding included.
pub const LOG_BYTES: usize = 600;

/// The memory of a log: all its bytes, so that padding can be looked at too.
#[repr(C, align(8))]
#[derive(Clone, Copy, Debug, PartialEq, Eq)]
pub struct LogMemory(pub [u8; LOG_BYTES]);

const _: () = assert!(
    std::mem::size_of::<GainsAnswer>() == 12 && std::mem::offset_of!(GainsAnswer, number) == 8
);

const _: () = assert!(
    std::mem::size_of::<SongAnswer>() == 8 && std::mem::offset_of!(SongAnswer, number) == 4
);

const _: () = assert!(
    std::mem::size_of::<Device>() == RECORD_BYTES
        && std::mem::align_of::<Device>() == 1
        && std::mem::offset_of!(Device, instrument) == 39
        && std::mem::offset_of!(Instrument, channels) == 35
        && std::mem::offset_of!(Instrument, kind) == 243
);

const _: () = assert!(
    std::mem::size_of::<MipAnswer>() == 48
        && std::mem::offset_of!(MipAnswer, number) == 8
        && std::mem::offset_of!(MipAnswer, bytes) == 9
);

const _: () = assert!(
    std::mem::size_of::<Log>() == LOG_BYTES
        && std::mem::align_of::<Log>() == std::mem::align_of::<LogMemory>()
        && std::mem::offset_of!(Logged, order) == RECORD_BYTES
        && std::mem::offset_of!(Logged, most) == 556
        && std::mem::offset_of!(Logged, lines) == 576
        && std::mem::offset_of!(Logged, number) == 584
        && std::mem::offset_of!(Log, line) == 592
);

extern "C" {
    fn muntinorris_start(device: *mut Device, polyphony: u8, id: u8) -> Answer;
    fn muntinorris_byte(device: *mut Device, byte: u8) -> Answer;
    fn muntinorris_report(device: *mut Device, generator: u8) -> Answer;
    fn muntinorris_generator(device: *const Device, generator: u8) -> GeneratorAnswer;
    fn muntinorris_mask(device: *const Device, channel: u8) -> MaskAnswer;
    fn muntinorris_share(device: *const Device, channel: u8) -> ShareAnswer;
    fn muntinorris_rhythm(device: *const Device, channel: u8) -> u8;
    fn muntinorris_page(device: *const Device, page: *mut u8, length: usize) -> u8;
    fn muntinorris_pitch(key: u8, sensitivity: u8, bend: u16) -> PitchAnswer;
    fn muntinorris_gains(expression: u8, volume: u8, pan: u8) -> GainsAnswer;
    fn muntinorris_channel_gains(channel: *const Channel) -> GainsAnswer;
    fn muntinorris_write_song(polyphony: u8, n: usize, song: *mut u8, length: usize) -> SongAnswer;
    fn muntinorris_log_begin(log: *mut Log, order: *const u8, n: usize) -> u8;
    fn muntinorris_log_part(log: *mut Log, part: *const u8, n: usize) -> u8;
    fn muntinorris_log_end(log: *const Log) -> MipAnswer;
    fn muntinorris_mip_from_log(
        order: *const u8,
        n: usize,
        log: *const u8,
        length: usize,
    ) -> MipAnswer;
}

/// A call that wants no record.
#[inline]
pub fn pitch(key: u8, sensitivity: u8, bend: u16) -> PitchAnswer {
    // SAFETY: numbers go in and come out; no memory is lent.
    unsafe { muntinorris_pitch(key, sensitivity, bend) }
}

/// The gains by their three numbers, which want no record either.
#[inline]
pub fn gains(expression: u8, volume: u8, pan: u8) -> GainsAnswer {
    // SAFETY: as for `pitch`.
    unsafe { muntinorris_gains(expression, volume, pan) }
}

/// The gains of a channel's numbers, outside of a record. They are lent for writing, which the call does not do, so
/// that a caller can look whether it did.
#[inline]
pub fn channel_gains(channel: &mut Channel) -> GainsAnswer {
    // SAFETY: the pointer is to all the numbers of a channel, and this borrow is the only one.
    unsafe { muntinorris_channel_gains(channel) }
}

/// The hardest song of n bytes, written to the front of the buffer.
#[inline]
pub fn write_song(polyphony: u8, n: usize, buffer: &mut [u8]) -> SongAnswer {
    // SAFETY: the pointer is to as many bytes as the length says, and this borrow is the only one.
    unsafe { muntinorris_write_song(polyphony, n, buffer.as_mut_ptr(), buffer.len()) }
}

/// The same with no buffer: "with length 0 the pointer is not looked at", this address neither.
pub fn write_song_nowhere(polyphony: u8, n: usize, address: usize) -> SongAnswer {
    let nowhere = std::ptr::without_provenance_mut(address);
    // SAFETY: of length 0 nothing is read or written.
    unsafe { muntinorris_write_song(polyphony, n, nowhere, 0) }
}

/// The message of a whole log. What is lent is lent for writing, which the call does not do, so that a caller can look
/// whether it did; in `LogMemory` too.
#[inline]
pub fn mip_from_log(order: &mut [u8], log: &mut [u8]) -> MipAnswer {
    // SAFETY: the pointers are to as many bytes as the lengths say, and these borrows are the only ones.
    unsafe {
        muntinorris_mip_from_log(order.as_mut_ptr(), order.len(), log.as_mut_ptr(), log.len())
    }
}

impl LogMemory {
    /// Makes this memory the record of a log that begins.
    #[inline]
    pub fn begin(&mut self, order: &mut [u8]) -> u8 {
        // SAFETY: the pointers are to a whole record and to as many bytes as the length says, and these borrows are the
        // only ones.
        unsafe { muntinorris_log_begin(self.pointer(), order.as_mut_ptr(), order.len()) }
    }

    #[inline]
    pub fn part(&mut self, part: &mut [u8]) -> u8 {
        // SAFETY: as for `begin`.
        unsafe { muntinorris_log_part(self.pointer(), part.as_mut_ptr(), part.len()) }
    }

    #[inline]
    pub fn end(&mut self) -> MipAnswer {
        // SAFETY: the pointer is to a whole record, and this borrow is the only one.
        unsafe { muntinorris_log_end(self.pointer()) }
    }

    fn pointer(&mut self) -> *mut Log {
        self.0.as_mut_ptr().cast()
    }

    /// The record.
    pub fn log(&self) -> &Log {
        // SAFETY: the memory is aligned and large enough for a record, which is made of whole numbers alone, so that
        // any bytes are one.
        unsafe { &*self.0.as_ptr().cast() }
    }

    /// The record, to be changed by hand.
    pub fn log_mut(&mut self) -> &mut Log {
        // SAFETY: as for `log`, and this borrow is the only one.
        unsafe { &mut *self.pointer() }
    }
}

impl Device {
    /// Memory with these bytes: no record yet, a start must make it one.
    pub fn memory(bytes: [u8; RECORD_BYTES]) -> Device {
        // SAFETY: the record is made of bytes alone, so that any bytes are one.
        unsafe { std::mem::transmute(bytes) }
    }

    /// The record's bytes.
    pub fn bytes(&self) -> [u8; RECORD_BYTES] {
        // SAFETY: the record is made of bytes alone, without padding.
        unsafe { std::mem::transmute(*self) }
    }

    /// Makes this memory the record of a fresh device.
    pub fn start(&mut self, polyphony: u8, id: u8) -> Answer {
        // SAFETY: the pointer is to a whole record, and this borrow is the only one.
        unsafe { muntinorris_start(self, polyphony, id) }
    }

    #[inline]
    pub fn byte(&mut self, byte: u8) -> Answer {
        // SAFETY: the pointer is to a whole record, and this borrow is the only one.
        unsafe { muntinorris_byte(self, byte) }
    }

    #[inline]
    pub fn report(&mut self, generator: u8) -> Answer {
        // SAFETY: as for `start`.
        unsafe { muntinorris_report(self, generator) }
    }

    pub fn generator(&self, generator: u8) -> GeneratorAnswer {
        // SAFETY: the pointer is to a whole record; a query only reads it.
        unsafe { muntinorris_generator(self, generator) }
    }

    pub fn mask(&self, channel: u8) -> MaskAnswer {
        // SAFETY: as for `generator`.
        unsafe { muntinorris_mask(self, channel) }
    }

    pub fn share(&self, channel: u8) -> ShareAnswer {
        // SAFETY: as for `generator`.
        unsafe { muntinorris_share(self, channel) }
    }

    /// 1 for a rhythm channel, 0 for any other.
    pub fn rhythm(&self, channel: u8) -> u8 {
        // SAFETY: as for `generator`.
        unsafe { muntinorris_rhythm(self, channel) }
    }

    /// The service page, written to the front of the buffer; its number. The record is lent for writing, which the call
    /// does not do, so that a caller can look whether it did.
    #[inline]
    pub fn page(&mut self, buffer: &mut [u8]) -> u8 {
        // SAFETY: the pointers are to a whole record and to as many bytes as the length says, and these borrows are the
        // only ones.
        unsafe { muntinorris_page(self, buffer.as_mut_ptr(), buffer.len()) }
    }

    /// The same with no buffer: "with length 0 the pointer to bytes is not looked at", whatever it is.
    pub fn page_nowhere(&mut self, address: usize) -> u8 {
        let nowhere = std::ptr::without_provenance_mut(address);
        // SAFETY: as for `page`; of length 0 nothing is read or written.
        unsafe { muntinorris_page(self, nowhere, 0) }
    }

    /// The gains of a channel on the wire, 0 to 15.
    #[inline]
    pub fn gains(&self, channel: usize) -> GainsAnswer {
        // SAFETY: the pointer is to all the numbers of a channel; the call only reads them.
        unsafe { muntinorris_channel_gains(&self.instrument.channels[channel]) }
    }
}
