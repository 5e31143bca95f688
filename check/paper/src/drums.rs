//! The exclusive groups of a rhythm channel (R5.4).

/// Each drum key that excludes others, with the number of its group.
const GROUPS: [(u8, u8); 11] = [
    (42, 1),
    (44, 1),
    (46, 1),
    (71, 2),
    (72, 2),
    (73, 3),
    (74, 3),
    (78, 4),
    (79, 4),
    (80, 5),
    (81, 5),
];

/// The group of every key, 0 for none: the same table spread out for a look-up by key.
const GROUP_OF_KEY: [u8; 128] = {
    let mut groups = [0; 128];
    let mut i = 0;
    while i < GROUPS.len() {
        groups[GROUPS[i].0 as usize] = GROUPS[i].1;
        i += 1;
    }
    groups
};

/// The exclusive group of a drum key, if it is in one.
pub(crate) fn group(key: u8) -> Option<u8> {
    match GROUP_OF_KEY[usize::from(key & 0x7F)] {
        0 => None,
        group => Some(group),
    }
}
