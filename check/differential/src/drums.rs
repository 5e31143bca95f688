//! The rhythm channels and their exclusive groups (R5.4, R5.12), as the book reads them.

/// Channels 10 and 11 on the wire.
pub const DRUM_CHANNEL: u8 = 9;
pub const SECOND_DRUM_CHANNEL: u8 = 10;

const GROUPS: [&[u8]; 5] = [&[42, 44, 46], &[71, 72], &[73, 74], &[78, 79], &[80, 81]];

/// Is `other` another key of the group of `key`, which a note of it ends on its rhythm channel (R5.3)?
pub fn excludes(key: u8, other: u8) -> bool {
    key != other
        && GROUPS
            .iter()
            .any(|group| group.contains(&key) && group.contains(&other))
}
