//! The hardest song over the library: played anew on a device it makes as many thefts as the call told, and as many as
//! R13.1 says; no more bytes than it should are written.
use muntinorris::{write_song, Answer, Device, Refused, Was};

/// The thefts of a list of bytes on a fresh device.
fn thefts(polyphony: u8, id: u8, bytes: &[u8]) -> u32 {
    let (mut device, _) = Device::start(polyphony, id);
    bytes.iter().map(|b| u32::from(matches!(device.byte(*b), Answer::Note { was: Was::Stolen, .. }))).sum()
}

/// R13.1.
fn most(polyphony: u8, n: usize) -> u32 {
    (n.saturating_sub(1) / 2).saturating_sub(usize::from(polyphony)) as u32
}

#[test]
fn a_song_has_the_thefts_that_are_told() {
    for polyphony in 1..=64 {
        for n in (0..=2 * usize::from(polyphony) + 8).chain([400, 401]) {
            let mut song = vec![0xA5; n + 3];
            assert_eq!(write_song(polyphony, n, &mut song), Ok(most(polyphony, n)), "{polyphony} {n}");
            assert_eq!(song[n..], [0xA5; 3], "{polyphony} {n}");
            assert_eq!(thefts(polyphony, 0, &song[..n]), most(polyphony, n), "{polyphony} {n}");
            assert_eq!(thefts(polyphony, 126, &song[..n]), most(polyphony, n), "{polyphony} {n}");
        }
    }
}

#[test]
fn the_longest_song() {
    for polyphony in [1, 24, 64] {
        let mut song = vec![0; 65_536];
        assert_eq!(write_song(polyphony, song.len(), &mut song), Ok(32_767 - u32::from(polyphony)));
        assert_eq!(thefts(polyphony, 0, &song), 32_767 - u32::from(polyphony));
    }
}

#[test]
fn refused_songs_leave_the_buffer() {
    for (polyphony, n, length, number) in [
        (0, 3, 4, 1),
        (65, 3, 4, 1),
        (255, 5, 4, 1),
        (0, 65_537, 4, 1),
        (64, 5, 4, 25),
        (1, 1, 0, 25),
        (1, usize::MAX, 4, 25),
        (64, 65_537, 65_540, 25),
    ] {
        let mut song = vec![0xA5; length];
        assert_eq!(write_song(polyphony, n, &mut song), Err(Refused(number)), "{polyphony} {n}");
        assert_eq!(song, vec![0xA5; length], "{polyphony} {n}");
    }
    assert_eq!(write_song(64, 0, &mut []), Ok(0));
}

/// Songs of a driver's nightmares, none of which is worse: notes on all channels, drums, pedals, running status broken
/// by real-time bytes, MIP messages, resets.
#[test]
fn no_other_song_does_worse() {
    let songs: [&[u8]; 6] = [
        &[0x9F, 127, 1, 126, 1, 125, 1, 124, 1, 123, 1, 122, 1],
        &[0x90, 60, 64, 0x91, 60, 64, 0x92, 60, 64, 0x93, 60, 64],
        &[0x99, 42, 64, 44, 64, 46, 64, 35, 64, 36, 64, 37, 64],
        &[0xB0, 64, 127, 0x90, 60, 64, 60, 0, 61, 64, 61, 0, 62, 64],
        &[0x90, 60, 0xF8, 64, 61, 0xFE, 64, 0xF0, 0x7E, 0x7F, 0x09, 0x01, 0xF7, 0x90, 62, 64, 63, 64],
        &[0xF0, 0x7F, 0x7F, 0x0B, 0x01, 0x00, 0x01, 0x01, 0x02, 0xF7, 0x90, 60, 64, 61, 64, 0x91, 62, 64, 63, 64],
    ];
    for polyphony in 1..=4 {
        for song in songs {
            assert!(
                (0..=song.len()).all(|n| thefts(polyphony, 0, &song[..n]) <= most(polyphony, n)),
                "{polyphony} {song:?}"
            );
        }
        // the first is as hard as ours, so that a bound one lower would be noticed
        assert_eq!(thefts(polyphony, 0, songs[0]), most(polyphony, songs[0].len()));
    }
}
