//! Safe Rust over Muntinorris, a note allocator for sound modules of scalable polyphony. Each call is proved, in
//! the library, to give exactly the answer and the record of its definition in the repository's specs/, for every value
//! of the record, gains to within a millionth; what is trusted here is that the structs below are those of
//! include/muntinorris.h, which the repository's tests hold against the library.
//!
//! ```
//! use muntinorris::{Answer, Device, Was};
//!
//! let (mut device, answer) = Device::start(1, 0);
//! assert_eq!(answer, Answer::Done);
//! let answers: Vec<Answer> = [0x90, 60, 64, 0x99, 36, 64].iter().map(|b| device.byte(*b)).collect();
//! assert_eq!(answers[2], Answer::Note { channel: 1, key: 60, generator: 0, was: Was::Idle });
//! assert_eq!(answers[5], Answer::Note { channel: 10, key: 36, generator: 0, was: Was::Stolen });
//! ```
//!
//! # What a driver does with an answer
//!
//! Generators change with [`Answer::Done`] and [`Answer::Note`] and with no other answer. A note names its own
//! generator; which others are to be released or muted is seen by comparing the states with those of the last look. The
//! generator of a note is cut off and begun anew, whatever it was: one that was idle may be a drum that the note has
//! just shut off. The velocity is the byte that was just passed.
//!
//! ```
//! use muntinorris::{Answer, Device, State};
//!
//! let (mut device, _) = Device::start(4, 0);
//! let mut seen = [State::Idle; 4];
//! let (mut to_release, mut to_mute) = (vec![], vec![]);
//! // Two keys, the first of them struck again and let go; a crash cymbal, and channel 10 silenced.
//! for byte in [0x90, 60, 64, 64, 64, 60, 64, 60, 0, 0x99, 49, 64, 0xB9, 120, 0] {
//!     if !matches!(device.byte(byte), Answer::Done | Answer::Note { .. }) {
//!         continue;
//!     }
//!     for g in 0..4 {
//!         let now = device.generator(g).unwrap().state;
//!         match (seen[g as usize] == now, now) {
//!             (false, State::Releasing) => to_release.push(g),
//!             (false, State::Idle) => to_mute.push(g),
//!             _ => {}
//!         }
//!         seen[g as usize] = now;
//!     }
//! }
//! assert_eq!((to_release, to_mute), (vec![0, 2], vec![3]));
//! ```
//!
//! Drums stay busy until [`Device::report`] says that they have ended, they or their group are struck again, they are
//! stolen, or one of the controllers 120 and 123 to 127, a mask, a reset or, on channel 11, a change of kind ends them:
//! their note-offs change nothing. A report names a generator and not a note: see there for one that comes late.
//!
//! Controllers 124 to 127 end the notes of their channel as 123 does, whatever their value; the device has one mode.
//!
//! Channel 10 is a rhythm channel. Channel 11 becomes one by a program change with bank MSB (controller 0) 120, and one
//! of melody with 121; any other MSB leaves it what it is, and a start or GM System On makes it melody. A change of its
//! kind releases what it plays. [`Device::is_rhythm`] tells: ask when a note begins.
use std::mem::MaybeUninit;

pub mod record;

pub use record::{Channel, Device, Log};

/// What the generator of a note was.
#[derive(Clone, Copy, Debug, PartialEq, Eq)]
pub enum Was {
    Idle,
    /// It was releasing: its note had ended.
    Release,
    /// It was busy: its note is lost. Of the channel that loses it was the oldest sustained one or, where that had
    /// none, the oldest held one.
    Stolen,
}

/// The answer to a start, a byte or a report.
#[derive(Clone, Copy, Debug, PartialEq, Eq)]
pub enum Answer {
    /// The byte completed nothing that counts.
    None,
    /// Any other complete channel message, an accepted MIP message or reset, an accepted report, a good start.
    Done,
    /// A note sounds.
    Note { channel: u8, key: u8, generator: u8, was: Was },
    /// Number 10 or 11: a note-on without a generator.
    NoNote { number: u8, channel: u8, key: u8 },
    /// Any other number: number n is rule R8.n of docs/RULES.md.
    Number(u8),
}

/// The state of a generator.
#[derive(Clone, Copy, Debug, PartialEq, Eq)]
pub enum State {
    Idle,
    /// Its note is on: its key is down, or it is a drum.
    Held,
    /// Its key is up and the pedal down.
    Sustained,
    Releasing,
}

/// A generator; channel and key are 0 while it is idle.
#[derive(Clone, Copy, Debug, PartialEq, Eq)]
pub struct Generator {
    pub state: State,
    pub channel: u8,
    pub key: u8,
}

/// The pitch of a note: its entry, 65536 to 130599, times 2 to the power of its octave, -2 to 12.
#[derive(Clone, Copy, Debug, PartialEq, Eq)]
pub struct Pitch {
    pub octave: i8,
    pub entry: u32,
}

/// The gains of a channel: what the mixer multiplies its samples by. Each is a number from 0 to 1, within one millionth
/// of the exact fraction, and 0 where that is 0.
#[derive(Clone, Copy, Debug, PartialEq)]
pub struct Gains {
    pub left: f32,
    pub right: f32,
}

/// The MIP message of a log: its bytes, for a driver to send, and how many lines the log has.
#[derive(Clone, Copy, Debug, PartialEq, Eq)]
pub struct MipMessage {
    pub bytes: [u8; 38],
    pub lines: u64,
}

/// The number of a refused query, 12 or 14, of a refused order, 16, of a log so far, 15 or 17, of a page without room,
/// 18, of a refused pitch, 21, of refused gains, 24, or of a refused song, 1 or 25.
#[derive(Clone, Copy, Debug, PartialEq, Eq)]
pub struct Refused(pub u8);

/// A log that gives no message. The number: 15, a line is of another form; 16, the order has not every channel once;
/// 17, a line ends a MIP message for device 7F or 0, or a note is lost at it. The line that it fell at, from 1; 0 with
/// 16.
#[derive(Clone, Copy, Debug, PartialEq, Eq)]
pub struct RefusedLog {
    pub number: u8,
    pub line: u64,
}

/// The bytes of a service page: 17 lines, each of 18 characters and a line end, 0AH.
pub const PAGE_BYTES: usize = 323;

extern "C" {
    fn muntinorris_start(d: *mut Device, polyphony: u8, id: u8) -> record::AnswerNumbers;
    fn muntinorris_byte(d: *mut Device, byte: u8) -> record::AnswerNumbers;
    fn muntinorris_report(d: *mut Device, generator: u8) -> record::AnswerNumbers;
    fn muntinorris_generator(d: *const Device, generator: u8) -> record::GeneratorNumbers;
    fn muntinorris_mask(d: *const Device, channel: u8) -> record::MaskNumbers;
    fn muntinorris_share(d: *const Device, channel: u8) -> record::ShareNumbers;
    fn muntinorris_rhythm(d: *const Device, channel: u8) -> u8;
    fn muntinorris_page(d: *const Device, page: *mut u8, length: usize) -> u8;
    fn muntinorris_pitch(key: u8, sensitivity: u8, bend: u16) -> record::PitchNumbers;
    fn muntinorris_gains(expression: u8, volume: u8, pan: u8) -> record::GainNumbers;
    fn muntinorris_channel_gains(c: *const Channel) -> record::GainNumbers;
    fn muntinorris_write_song(polyphony: u8, n: usize, song: *mut u8, length: usize) -> record::SongNumbers;
    fn muntinorris_log_begin(log: *mut Log, order: *const u8, n: usize) -> u8;
    fn muntinorris_log_part(log: *mut Log, part: *const u8, n: usize) -> u8;
    fn muntinorris_log_end(log: *const Log) -> record::MipNumbers;
    fn muntinorris_mip_from_log(order: *const u8, n: usize, log: *const u8, length: usize) -> record::MipNumbers;
}

impl From<record::AnswerNumbers> for Answer {
    fn from(n: record::AnswerNumbers) -> Answer {
        match (n.what, n.number) {
            (0, _) => Answer::None,
            (1, _) => Answer::Done,
            (2, _) => Answer::Note {
                channel: n.channel,
                key: n.key,
                generator: n.generator,
                was: match n.was {
                    0 => Was::Idle,
                    1 => Was::Release,
                    _ => Was::Stolen,
                },
            },
            (_, number @ (10 | 11)) => Answer::NoNote { number, channel: n.channel, key: n.key },
            (_, number) => Answer::Number(number),
        }
    }
}

fn answered<T>(number: u8, value: T) -> Result<T, Refused> {
    if number == 0 {
        Ok(value)
    } else {
        Err(Refused(number))
    }
}

impl From<record::GainNumbers> for Result<Gains, Refused> {
    fn from(n: record::GainNumbers) -> Result<Gains, Refused> {
        answered(n.number, Gains { left: n.left, right: n.right })
    }
}

impl From<record::MipNumbers> for Result<MipMessage, RefusedLog> {
    fn from(n: record::MipNumbers) -> Result<MipMessage, RefusedLog> {
        if n.number == 0 {
            Ok(MipMessage { bytes: n.bytes, lines: n.line })
        } else {
            Err(RefusedLog { number: n.number, line: n.line })
        }
    }
}

impl Device {
    /// A fresh device: `Done`; or number 1 or 2, and a working device of polyphony 1 and own ID 0.
    pub fn start(polyphony: u8, id: u8) -> (Device, Answer) {
        let mut device = MaybeUninit::uninit();
        // SAFETY: the pointer is to memory for a device, and a start writes the whole of it without reading it.
        let answer = unsafe { muntinorris_start(device.as_mut_ptr(), polyphony, id) };
        (unsafe { device.assume_init() }, answer.into())
    }

    /// A MIDI byte. On a note it is the velocity.
    pub fn byte(&mut self, byte: u8) -> Answer {
        // SAFETY: the pointer is to a device that nobody else has for the call; every value of it is a record. So
        // below.
        unsafe { muntinorris_byte(self, byte) }.into()
    }

    /// The tone generator reports that a generator's sound has ended: `Done`, or number 12 or 13. Whatever note the
    /// generator has by then is ended. So a driver counts the notes that it begins on each generator, gets that count
    /// back with the end, and drops a report whose count is not the last one:
    ///
    /// ```
    /// use muntinorris::{Answer, Device, State};
    ///
    /// let (mut device, _) = Device::start(1, 0);
    /// for byte in [0x90, 60, 64, 60, 0, 62, 64] {
    ///     device.byte(byte);
    /// }
    /// // The end of key 60, told when key 62 has the generator already.
    /// assert_eq!(device.report(0), Answer::Done);
    /// assert_eq!(device.generator(0).unwrap().state, State::Idle);
    /// ```
    pub fn report(&mut self, generator: u8) -> Answer {
        unsafe { muntinorris_report(self, generator) }.into()
    }

    /// A generator; number 12 if there is none of that number.
    pub fn generator(&self, generator: u8) -> Result<Generator, Refused> {
        let n = unsafe { muntinorris_generator(self, generator) };
        let state = match n.state {
            0 => State::Idle,
            1 => State::Held,
            2 => State::Sustained,
            _ => State::Releasing,
        };
        answered(n.number, Generator { state, channel: n.channel, key: n.key })
    }

    /// Whether a channel, 1 to 16, is masked; number 14 for any other.
    pub fn is_masked(&self, channel: u8) -> Result<bool, Refused> {
        let n = unsafe { muntinorris_mask(self, channel) };
        answered(n.number, n.masked != 0)
    }

    /// The share of a channel, 1 to 16, 0 if it is masked; number 14 for any other.
    pub fn share(&self, channel: u8) -> Result<u8, Refused> {
        let n = unsafe { muntinorris_share(self, channel) };
        answered(n.number, n.share)
    }

    /// Whether it is a rhythm channel: channel 10, and channel 11 where its kind is rhythm. What is no channel is none.
    ///
    /// ```
    /// use muntinorris::Device;
    ///
    /// let (mut device, _) = Device::start(4, 0);
    /// assert!(device.is_rhythm(10) && !device.is_rhythm(11));
    /// for byte in [0xBA, 0, 120, 0xCA, 0] {
    ///     device.byte(byte);
    /// }
    /// assert!(device.is_rhythm(11));
    /// ```
    pub fn is_rhythm(&self, channel: u8) -> bool {
        unsafe { muntinorris_rhythm(self, channel) != 0 }
    }

    /// The service page, the state of the device as text, in the first [`PAGE_BYTES`] of a buffer; its other bytes
    /// stay. Number 18 for a shorter one, which is then untouched. Under a head stand channels 1 to 16, a line each:
    /// channel, place in the order of the MIP table (from 1), value, share, `M` if masked else `-`, and busy
    /// generators, held or sustained. What a channel has not, because it is not listed or masked, is shown by `-`.
    ///
    /// ```
    /// use muntinorris::{Device, PAGE_BYTES};
    ///
    /// let (mut device, _) = Device::start(2, 0);
    /// for byte in [0xF0, 0x7F, 0x7F, 0x0B, 0x01, 0x00, 0x01, 0x01, 0x02, 0xF7, 0x90, 60, 64] {
    ///     device.byte(byte);
    /// }
    /// let mut page = [0; PAGE_BYTES];
    /// device.page(&mut page).unwrap();
    /// let text = std::str::from_utf8(&page).unwrap();
    /// assert!(text.starts_with("CH PR VAL SHR M NT\n 1  1   1   1 -  1\n 2  2   2   1 -  0\n 3 -- --- --- M  0\n"));
    /// assert_eq!(device.page(&mut page[1..]).unwrap_err().0, 18);
    /// ```
    pub fn page(&self, page: &mut [u8]) -> Result<(), Refused> {
        // SAFETY: the pointers are to a device, which the call reads and does not keep, and to as many bytes as the
        // length says, which nobody else has for the call.
        answered(unsafe { muntinorris_page(self, page.as_mut_ptr(), page.len()) }, ())
    }
}

/// The pitch of a key, 0 to 127, with the sensitivity, 0 to 24 semitones, and the bend, 0 to 16383 with centre 8192, of
/// its channel; number 21 where one is out of range.
///
/// ```
/// let a = muntinorris::pitch(69, 2, 8192).unwrap();
/// assert_eq!((a.octave, a.entry), (5, 110217));
/// assert_eq!(muntinorris::pitch(69, 25, 8192).unwrap_err().0, 21);
/// ```
pub fn pitch(key: u8, sensitivity: u8, bend: u16) -> Result<Pitch, Refused> {
    // SAFETY: the call takes and gives plain numbers.
    let n = unsafe { muntinorris_pitch(key, sensitivity, bend) };
    answered(n.number, Pitch { octave: n.octave, entry: n.entry })
}

/// The gains left and right of a channel with this expression, volume and pan, each 0 to 127; number 24 where one is
/// above. Pan 0 and 1 are full left, 64 is the centre, 127 full right.
///
/// ```
/// let full_left = muntinorris::gains(127, 127, 1).unwrap();
/// assert!(1.0 - full_left.left <= 1e-6 && full_left.right == 0.0);
/// assert_eq!(muntinorris::gains(127, 128, 1).unwrap_err().0, 24);
/// ```
pub fn gains(expression: u8, volume: u8, pan: u8) -> Result<Gains, Refused> {
    // SAFETY: the call takes and gives plain numbers.
    unsafe { muntinorris_gains(expression, volume, pan) }.into()
}

impl Channel {
    /// The gains of a channel by its numbers in the record; number 24 where one of them is above 127, which no call
    /// makes.
    ///
    /// ```
    /// let (mut device, _) = muntinorris::Device::start(64, 0);
    /// for byte in [0xB4, 7, 64, 10, 127] {
    ///     device.byte(byte);
    /// }
    /// let gains = device.instrument().channels[5 - 1].gains().unwrap();
    /// assert!(gains.left == 0.0 && (gains.right - 64.0 * 64.0 / 16129.0).abs() <= 1e-6);
    /// ```
    pub fn gains(&self) -> Result<Gains, Refused> {
        // SAFETY: the pointer is to a channel, which the call reads and does not keep.
        unsafe { muntinorris_channel_gains(self) }.into()
    }
}

/// Writes the hardest song of `n` bytes for a fresh device of this polyphony into the buffer's first `n` bytes, and
/// gives its thefts, counted while it is played: without reports no `n` bytes make more. Number 1 for a polyphony that
/// is not 1 to 64, else 25 for `n` above 65,536 or above the buffer's length; the buffer is then untouched.
///
/// ```
/// let mut song = [0; 9];
/// assert_eq!(muntinorris::write_song(2, 9, &mut song), Ok(2));
/// assert_eq!(song, [0x90, 0, 64, 1, 64, 2, 64, 3, 64]);
/// assert_eq!(muntinorris::write_song(2, 10, &mut song).unwrap_err().0, 25);
/// ```
pub fn write_song(polyphony: u8, n: usize, song: &mut [u8]) -> Result<u32, Refused> {
    // SAFETY: the pointer is to as many bytes as the length says, which nobody else has for the call.
    let a = unsafe { muntinorris_write_song(polyphony, n, song.as_mut_ptr(), song.len()) };
    answered(a.number, a.thefts)
}

/// A log in parts of any length, so that it may be longer than memory: the message is the one that [`mip_from_log`]
/// gives for all parts together, however they are cut.
///
/// ```
/// use muntinorris::Log;
///
/// let mut log = Log::begin(&[10, 1, 2, 3, 4, 5, 6, 7, 8, 9, 11, 12, 13, 14, 15, 16]).unwrap();
/// for part in ["b,144\nb,6", "0\nb,64", "\n"] {
///     log.part(part.as_bytes()).unwrap();
/// }
/// let message = log.end().unwrap();
/// assert_eq!(message.bytes[..9], [0xF0, 0x7F, 0x7F, 0x0B, 0x01, 10 - 1, 0, 1 - 1, 1]);
/// assert_eq!(message.lines, 3);
/// ```
impl Log {
    /// A log with this order of all sixteen channels, 1 to 16, by falling priority; number 16 for any other list.
    pub fn begin(order: &[u8]) -> Result<Log, Refused> {
        let mut log = MaybeUninit::uninit();
        // SAFETY: the pointers are to memory for a log, all of whose fields the call writes without reading them, and
        // to as many bytes as the length says.
        let number = unsafe { muntinorris_log_begin(log.as_mut_ptr(), order.as_ptr(), order.len()) };
        answered(number, unsafe { log.assume_init() })
    }

    /// One part more, cut anywhere; number 15 or 17 if one has fallen so far, after which nothing is looked at any
    /// more.
    pub fn part(&mut self, part: &[u8]) -> Result<(), Refused> {
        // SAFETY: the pointers are to a log that nobody else has for the call, every value of which is a record, and to
        // as many bytes as the length says.
        let number = unsafe { muntinorris_log_part(self, part.as_ptr(), part.len()) };
        answered(number, ())
    }

    /// The message of the log as far as it was given, or its number and line; a last line without 0AH is of another
    /// form. The log may be gone on with.
    pub fn end(&self) -> Result<MipMessage, RefusedLog> {
        // SAFETY: the pointer is to a log, which the call reads and does not keep.
        unsafe { muntinorris_log_end(self) }.into()
    }
}

/// The MIP message of a song, from its log and an order of all sixteen channels, 1 to 16, by falling priority; else the
/// number, and the line that it fell at. A line of the log is `b,` and a MIDI byte or `e,` and a generator that is
/// reported, 0 to 63, in decimal, each ended by 0AH. The value of a channel is the largest number of generators that
/// were busy together, after some line, on it and the channels before it.
///
/// ```
/// use muntinorris::{mip_from_log, RefusedLog};
///
/// let order: Vec<u8> = (1..=16).collect();
/// let message = mip_from_log(&order, b"b,144\nb,60\nb,64\nb,64\nb,64\n").unwrap();
/// assert_eq!(message.bytes[5..9], [0, 2, 1, 2]);
/// assert_eq!(mip_from_log(&order, b"b,144\nb,060\n"), Err(RefusedLog { number: 15, line: 2 }));
/// ```
pub fn mip_from_log(order: &[u8], log: &[u8]) -> Result<MipMessage, RefusedLog> {
    // SAFETY: the pointers are to as many bytes as the lengths say, which the call reads and does not keep.
    unsafe { muntinorris_mip_from_log(order.as_ptr(), order.len(), log.as_ptr(), log.len()) }.into()
}
