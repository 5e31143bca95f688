//! The hardest song of n bytes, and the thefts that it makes (R13.1 to R13.4, R13.6).

use crate::answer::Number;
use crate::device::Device;

/// R13.3: the most bytes of a song.
pub const LONGEST_SONG: usize = 65_536;

/// R13.1: the most thefts that n bytes can make.
pub fn most_thefts(polyphony: u8, n: usize) -> usize {
    let notes = n.saturating_sub(1) / 2;
    notes.saturating_sub(usize::from(polyphony))
}

/// Note-on, channel 10, once: running status carries it on. The drums need no share of their own to lose a note, since
/// the new one counts.
const STATUS: u8 = 0x99;
/// Drums from here on, over 127 and 0 up to 41, are in no exclusive group, which would free a generator.
const FIRST_KEY: usize = 82;
/// So many there are: more than generators, so that a key comes again only after its note was stolen.
const KEYS: usize = 88;
const VELOCITY: u8 = 127;

/// The song's byte at this place, whatever its length.
fn byte_at(place: usize) -> u8 {
    if place == 0 {
        return STATUS;
    }
    let note = (place - 1) / 2;
    match place % 2 {
        1 => ((FIRST_KEY + note % KEYS) % 128) as u8,
        _ => VELOCITY,
    }
}

/// Writes the song to the first n bytes of the buffer and gives the thefts counted on a fresh device (R13.3, R13.4).
/// Number 1 comes before 25; both leave the buffer as it was (R13.6).
pub fn write_song(polyphony: u8, n: usize, buffer: &mut [u8]) -> Result<u32, Number> {
    let (mut device, answer) = Device::start(polyphony, 0);
    if let Some(number) = answer.number() {
        return Err(number);
    }
    if n > LONGEST_SONG || n > buffer.len() {
        return Err(Number::SongTooLong);
    }
    let mut thefts = 0;
    for (place, byte) in buffer[..n].iter_mut().enumerate() {
        *byte = byte_at(place);
        thefts += u32::from(device.byte(*byte).is_theft());
    }
    Ok(thefts)
}
