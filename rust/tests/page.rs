//! The service page over the library: a page that is written out here from R15.1 to R15.7; buffers of every length; and
//! pages of many devices, held line by line against the queries.
use muntinorris::{Device, Refused, State, PAGE_BYTES};

fn played(polyphony: u8, bytes: &[u8]) -> Device {
    let (mut device, _) = Device::start(polyphony, 0);
    for byte in bytes {
        device.byte(*byte);
    }
    device
}

fn lines(device: &Device) -> Vec<String> {
    let mut page = [0; PAGE_BYTES];
    assert_eq!(device.page(&mut page), Ok(()));
    let text = String::from_utf8(page.to_vec()).unwrap();
    assert!(text.ends_with('\n'));
    text.lines().map(String::from).collect()
}

/// Channel 3 first, with value 0; then 16, whose thirteen notes are held but for one that is sustained and one that is
/// releasing; 1; and 8 with a value above the polyphony.
#[test]
fn the_page_of_a_song() {
    let mip = [0xF0, 0x7F, 0x7F, 0x0B, 0x01, 2, 0, 15, 12, 0, 63, 7, 127, 0xF7];
    let notes: Vec<u8> = (40..53).flat_map(|key| [key, 100]).collect();
    let more = [40, 0, 0xBF, 64, 64, 0x9F, 41, 0, 0x90, 60, 1, 0x97, 60, 1];
    let device = played(63, &[&mip[..], &[0x9F], &notes, &more].concat());
    let mut want = vec![
        "CH PR VAL SHR M NT".to_string(),
        " 1  3  63  51 -  1".into(),
        " 2 -- --- --- M  0".into(),
        " 3  1   0   0 -  0".into(),
    ];
    want.extend((4..=16).map(|channel| format!("{channel:2} -- --- --- M  0")));
    want[8] = " 8  4 127 --- M  0".into();
    want[16] = "16  2  12  12 - 12".into();
    assert_eq!(lines(&device), want);
}

/// A fresh device of polyphony 64 lists all channels, 10 first, each with value 64, so that the others' shares are 0.
#[test]
fn the_page_of_a_fresh_device() {
    let place = |channel: u8| if channel < 10 { channel + 1 } else { channel };
    let mut want: Vec<String> =
        (1..=16).map(|channel| format!("{channel:2} {:2}  64   0 -  0", place(channel))).collect();
    want.insert(0, "CH PR VAL SHR M NT".into());
    want[10] = "10  1  64  64 -  0".into();
    assert_eq!(lines(&played(64, &[])), want);
}

#[test]
fn a_buffer_of_any_length() {
    let device = played(4, &[0x90, 60, 64]);
    let (before, text) = (device.clone(), lines(&device).join("\n") + "\n");
    for length in 0..=512 {
        let mut page = vec![0xA5; length + 8];
        let answer = device.page(&mut page[..length]);
        let written = if length < 323 { 0 } else { 323 };
        assert_eq!(answer, if length < 323 { Err(Refused(18)) } else { Ok(()) }, "{length}");
        assert_eq!(page[..written], text.as_bytes()[..written], "{length}");
        assert_eq!(page[written..], vec![0xA5; length + 8 - written], "{length}");
        assert_eq!(device, before, "{length}");
    }
    assert_eq!(PAGE_BYTES, 323);
}

/// Share, mask and busy generators of every line are those that the queries give, after each byte of a song on devices
/// of every polyphony.
#[test]
fn a_page_says_what_the_queries_say() {
    let song = [
        0x90, 60, 64, 0x99, 36, 64, 0x91, 61, 64, 0xB1, 64, 127, 0x81, 61, 0, 0x90, 60, 0,
        0xF0, 0x7F, 0x7F, 0x0B, 0x01, 9, 1, 1, 3, 3, 40, 15, 100, 0xF7,
        0x93, 50, 1, 51, 1, 52, 1, 53, 1, 0x9F, 50, 1, 0xF0, 0x7E, 0x7F, 0x09, 0x01, 0xF7, 0x9F, 50, 1,
    ];
    for polyphony in 1..=64 {
        let (mut device, _) = Device::start(polyphony, 0);
        for byte in song {
            device.byte(byte);
            let page = lines(&device);
            for channel in 1..=16 {
                let busy = (0..polyphony)
                    .map(|g| device.generator(g).unwrap())
                    .filter(|g| g.channel == channel && matches!(g.state, State::Held | State::Sustained))
                    .count();
                let (share, mark) = match device.is_masked(channel) {
                    Ok(true) => ("---".to_string(), 'M'),
                    _ => (format!("{:3}", device.share(channel).unwrap()), '-'),
                };
                let line = &page[usize::from(channel)];
                assert_eq!(line[10..], format!("{share} {mark} {busy:2}"), "{polyphony} {channel}");
            }
        }
    }
}
