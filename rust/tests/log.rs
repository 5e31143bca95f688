//! The MIP message of a log over the library: what an arranger reads off it, each number at its line, a log in parts,
//! and the message sent to a device.
use muntinorris::{mip_from_log, Answer, Device, Log, MipMessage, Refused, RefusedLog, State};
use std::mem::{size_of, MaybeUninit};

const ORDER: [u8; 16] = [10, 1, 16, 2, 3, 4, 5, 6, 7, 8, 9, 11, 12, 13, 14, 15];

/// A log whose lines are these bytes.
fn bytes(list: &[u8]) -> String {
    list.iter().map(|b| format!("b,{b}\n")).collect()
}

/// The values of a message, by the places of the order; the rest of the message is looked at here.
fn values(order: &[u8], message: MipMessage) -> Vec<u8> {
    assert_eq!(message.bytes[..5], [0xF0, 0x7F, 0x7F, 0x0B, 0x01]);
    assert_eq!(message.bytes[37], 0xF7);
    let pairs = message.bytes[5..37].chunks(2);
    assert!(pairs.clone().zip(order).all(|(pair, channel)| pair[0] + 1 == *channel));
    pairs.map(|pair| pair[1]).collect()
}

fn written(log: &str) -> Vec<u8> {
    values(&ORDER, mip_from_log(&ORDER, log.as_bytes()).unwrap())
}

fn refused(number: u8, line: u64) -> Result<MipMessage, RefusedLog> {
    Err(RefusedLog { number, line })
}

/// The same values worked out with a device and its queries, a line at a time.
fn by_hand(order: &[u8], events: &[(bool, u8)]) -> Vec<u8> {
    let (mut device, _) = Device::start(64, 0);
    let mut most = vec![0; 16];
    for (is_byte, n) in events {
        if *is_byte {
            device.byte(*n);
        } else {
            device.report(*n);
        }
        let busy: Vec<u8> = (0..64)
            .map(|g| device.generator(g).unwrap())
            .filter(|g| matches!(g.state, State::Held | State::Sustained))
            .map(|g| g.channel)
            .collect();
        for (place, largest) in most.iter_mut().enumerate() {
            let joint = busy.iter().filter(|channel| order[..=place].contains(channel)).count() as u8;
            *largest = joint.max(*largest);
        }
    }
    most
}

#[test]
fn an_empty_log_needs_nothing() {
    assert_eq!(written(""), [0; 16]);
    assert_eq!(mip_from_log(&ORDER, b"").unwrap().lines, 0);
    assert_eq!(Log::begin(&ORDER).unwrap().end(), mip_from_log(&ORDER, b""));
}

#[test]
fn values_are_joint_counts() {
    // channel 1, then channel 16 when channel 1 is done: one is enough for both
    assert_eq!(written(&bytes(&[0x90, 60, 64, 60, 0, 0x9F, 60, 64])), [0, 1, 1, 1, 1, 1, 1, 1, 1, 1, 1, 1, 1, 1, 1, 1]);
    // both at once: the second place needs one, the third two
    assert_eq!(written(&bytes(&[0x90, 60, 64, 0x9F, 60, 64]))[..3], [0, 1, 2]);
    // a drum and a chord on channel 3, one note of which the pedal holds
    let chord = bytes(&[0xB2, 64, 127, 0x99, 36, 64, 0x92, 60, 64, 60, 0, 62, 64, 64, 64]);
    assert_eq!(written(&chord)[..6], [1, 1, 1, 1, 4, 4]);
    // a releasing note is not busy; what was seen before a reset stays
    assert_eq!(written(&bytes(&[0x90, 60, 64, 61, 64, 60, 0, 61, 0, 62, 64]))[1], 2);
    let reset = bytes(&[0xF0, 0x7E, 0x7F, 0x09, 0x01, 0xF7, 0x90, 60, 64]);
    assert_eq!(written(&(bytes(&[0x90, 60, 64, 61, 64]) + &reset))[1], 2);
    // after a report the generator is free
    assert_eq!(written(&(bytes(&[0x90, 60, 64]) + "e,0\n" + &bytes(&[61, 64])))[1], 1);
}

#[test]
fn values_are_those_of_a_device() {
    let mut seed: u32 = 1;
    let mut next = |n: u32| {
        seed = seed.wrapping_mul(1_664_525).wrapping_add(1_013_904_223);
        (seed >> 8) % n
    };
    for _ in 0..20 {
        let mut order: Vec<u8> = (1..=16).collect();
        for place in (1..16).rev() {
            order.swap(place, next(place as u32 + 1) as usize);
        }
        let mut events = Vec::new();
        for _ in 0..40 {
            let channel = next(16) as u8;
            let message: &[u8] = match next(5) {
                0 => &[0x80 + channel, next(4) as u8 + 60, 64],
                1 => &[0xB0 + channel, 64, next(128) as u8],
                2 => &[0xF8],
                _ => &[0x90 + channel, next(4) as u8 + 60, 64],
            };
            events.extend(message.iter().map(|b| (true, *b)));
            if next(4) == 0 {
                events.push((false, next(64) as u8));
            }
        }
        let log: String = events
            .iter()
            .map(|(is_byte, n)| format!("{},{n}\n", if *is_byte { 'b' } else { 'e' }))
            .collect();
        let message = mip_from_log(&order, log.as_bytes()).unwrap();
        assert_eq!(values(&order, message), by_hand(&order, &events));
        assert_eq!(message.lines, events.len() as u64);
    }
}

/// RP-034 2.2.1: the notes of each channel in its Figure 2, and the message that is printed for them. Which notes sound
/// at the same time our text of the figure has lost; these moments fit its values.
#[test]
fn the_message_that_rp_034_prints() {
    let order = [1, 10, 2, 3, 4, 11, 5, 9, 6, 8, 7, 12, 13, 14, 15, 16];
    let moments: [&[(u8, u8)]; 4] = [
        &[(1, 4), (10, 2), (2, 1), (4, 3), (8, 3)],
        &[(1, 4), (10, 5), (2, 1), (3, 2), (11, 4), (5, 1), (9, 3), (6, 6)],
        &[(1, 3), (10, 5), (2, 1), (3, 3)],
        &[(1, 3), (10, 5), (4, 4)],
    ];
    let mut log = String::new();
    for moment in moments {
        for (channel, notes) in moment {
            // drums 35 to 39 are in no exclusive group
            let keys: Vec<u8> = (35..35 + notes).flat_map(|key| [key, 64]).collect();
            log += &(bytes(&[0x90 + channel - 1]) + &bytes(&keys));
        }
        log += &(0..16).map(|channel| bytes(&[0xB0 + channel, 120, 0])).collect::<String>();
    }
    let printed = "F0 7F 7F 0B 01 00 04 09 09 01 0A 02 0C 03 0C 0A 10 04 11 08 14 05 1A 07 1A 06 1A \
                   0B 1A 0C 1A 0D 1A 0E 1A 0F 1A F7";
    let message = mip_from_log(&order, log.as_bytes()).unwrap();
    assert_eq!(message.bytes.map(|byte| format!("{byte:02X}")).join(" "), printed);
}

#[test]
fn numbers_and_their_lines() {
    // 64 keys, of which no two end each other on channel 10
    let keys: Vec<u8> = (0..18).chain(82..128).flat_map(|key| [key, 64]).collect();
    let full = bytes(&[0x90]) + &bytes(&keys);
    // 64 notes are lines 1 to 129; the theft is line 131
    let theft = full.clone() + &bytes(&[60, 64]);
    // the drums have all 64 and are within their share, so that channel 1 is turned away
    let shut = bytes(&[0x99]) + &bytes(&keys) + &bytes(&[0x90, 60, 64]);
    let mip = |id: u8, pairs: &[u8]| bytes(&[0xF0, 0x7F, id, 0x0B, 0x01]) + &bytes(pairs) + &bytes(&[0xF7]);
    assert_eq!(mip_from_log(&ORDER, full.as_bytes()).unwrap().lines, 129);
    for (log, number, line) in [
        ("b,256\n".to_string(), 15, 1),
        ("e,64\n".to_string(), 15, 1),
        ("b,1\nb,01\n".to_string(), 15, 2),
        ("b,1\n\nb,1\n".to_string(), 15, 2),
        ("b,1\nB,1\n".to_string(), 15, 2),
        ("b,1\r\n".to_string(), 15, 1),
        ("b,1\ne,\n".to_string(), 15, 2),
        ("b,1\nb,1111111111\n".to_string(), 15, 2),
        ("b,1\nb,1".to_string(), 15, 2),
        (theft, 17, 131),
        (shut, 17, 132),
        (mip(0x7F, &[0, 1]), 17, 8),
        (mip(0, &[0, 1]), 17, 8),
        (mip(0x7F, &[]), 17, 6),
        (mip(0x7F, &[0, 1]) + "x", 17, 8),
        ("b,248\nx\n".to_string() + &mip(0x7F, &[0, 1]), 15, 2),
    ] {
        assert_eq!(mip_from_log(&ORDER, log.as_bytes()), refused(number, line), "{log:?}");
        let mut parts = Log::begin(&ORDER).unwrap();
        let so_far = parts.part(log.as_bytes());
        // a last line without 0AH is one only at the end
        assert_eq!(so_far, if log.ends_with("b,1") { Ok(()) } else { Err(Refused(number)) }, "{log:?}");
        assert_eq!(parts.end(), refused(number, line), "{log:?}");
    }
    // a MIP message for another ID, a cut one and one without its head are none; other numbers are passed over
    for log in [
        mip(5, &[0, 1]),
        bytes(&[0xF0, 0x7F, 0x7F, 0x0B, 0x01, 0, 1, 0x90]),
        bytes(&[0xF0, 0x7F, 0x7F, 0x0B, 0xF7]),
        "b,60\ne,63\n".to_string(),
    ] {
        assert_eq!(written(&log), [0; 16], "{log:?}");
    }
}

#[test]
fn orders_that_are_none() {
    let mut twice = ORDER;
    twice[3] = 1;
    let mut low = ORDER;
    low[15] = 0;
    let mut high = ORDER;
    high[0] = 17;
    let more: Vec<u8> = (1..=17).collect();
    for order in [&[][..], &ORDER[..15], &more, &twice, &low, &high] {
        assert_eq!(mip_from_log(order, b"x"), refused(16, 0), "{order:?}");
        assert_eq!(Log::begin(order), Err(Refused(16)), "{order:?}");
    }
}

#[test]
fn however_it_is_cut() {
    let log = bytes(&[0x90, 60, 64, 0x9F, 61, 100]) + "e,0\n" + &bytes(&[62, 64]) + "b,12345678\nb,1\nb";
    let log = log.as_bytes();
    let mut whole = Log::begin(&ORDER).unwrap();
    assert_eq!(whole.part(log), Err(Refused(15)));
    for first in 0..=log.len() {
        for second in first..=log.len() {
            let mut parts = Log::begin(&ORDER).unwrap();
            let last = [&log[..first], &log[first..second], &log[second..]].map(|part| parts.part(part))[2];
            assert_eq!((last, &parts), (Err(Refused(15)), &whole), "{first} {second}");
            assert_eq!(parts.end(), refused(15, 10), "{first} {second}");
        }
        let mut part = Log::begin(&ORDER).unwrap();
        for byte in &log[..first] {
            let _ = part.part(&[*byte]);
        }
        assert_eq!(part.end(), mip_from_log(&ORDER, &log[..first]), "{first}");
    }
    let (song, line) = (whole.song(), whole.line());
    assert_eq!((song.lines, song.number, line.count, line.bytes), (10, 15, 1, [b'b', 0, 0, 0, 0, 0, 0]));
}

#[test]
fn an_end_in_the_middle() {
    let mut log = Log::begin(&ORDER).unwrap();
    assert_eq!(log.part(b"b,144\nb,60\nb,6"), Ok(()));
    let before = log.clone();
    assert_eq!(log.end(), refused(15, 3));
    assert_eq!(log, before);
    assert_eq!(log.part(b"4\n"), Ok(()));
    assert_eq!(log.end().map(|m| (values(&ORDER, m)[..2].to_vec(), m.lines)), Ok((vec![0, 1], 3)));
    assert_eq!(log.part(b"b,62\nb,64\n"), Ok(()));
    assert_eq!(log.end(), mip_from_log(&ORDER, bytes(&[0x90, 60, 64, 62, 64]).as_bytes()));
    assert_eq!(log.song().device.generator(1), Ok(muntinorris::Generator { state: State::Held, channel: 1, key: 62 }));
}

#[test]
fn a_device_takes_the_message() {
    let log = bytes(&[0x99, 36, 64, 0x9F, 60, 64, 61, 64, 0x90, 60, 64, 0x9E, 60, 64]);
    let message = mip_from_log(&ORDER, log.as_bytes()).unwrap();
    for (polyphony, id, before) in [(64, 0, &[][..]), (1, 126, &[0x90, 60][..]), (7, 5, &[0xF0, 1, 2][..])] {
        let (mut device, _) = Device::start(polyphony, id);
        for byte in before {
            device.byte(*byte);
        }
        let answers: Vec<Answer> = message.bytes.iter().map(|b| device.byte(*b)).collect();
        assert_eq!((answers[36], answers[37]), (Answer::None, Answer::Done));
        let table = &device.instrument().table;
        assert_eq!(table.count, 16);
        assert_eq!(table.entries.map(|e| e.channel), ORDER);
        assert_eq!(table.entries.map(|e| e.value), [1, 2, 4, 4, 4, 4, 4, 4, 4, 4, 4, 4, 4, 4, 4, 5]);
    }
}

/// A log of any bytes, which is one: it is made of whole numbers and padding.
fn rubbish(bytes: [u8; size_of::<Log>()]) -> Log {
    let mut memory = MaybeUninit::<Log>::uninit();
    // SAFETY: as many bytes are written as a log has, and any will do.
    unsafe {
        memory.as_mut_ptr().cast::<u8>().copy_from(bytes.as_ptr(), bytes.len());
        memory.assume_init()
    }
}

/// The places of fields in those bytes (`record::layout`).
const LINES: usize = 576;
const NUMBER: usize = 584;
const COUNT: usize = 592;

/// Records that no begin made: the calls return, and the fields are what the header says they are.
#[test]
fn records_full_of_rubbish() {
    for pattern in 1..=255 {
        let mut log = rubbish([pattern; size_of::<Log>()]);
        let lines = u64::from_ne_bytes([pattern; 8]);
        assert_eq!(log.end(), refused(pattern, lines));
        assert_eq!(log.part(b"b,144\nb,60\nb,64\n"), Err(Refused(pattern)));
        assert_eq!((log.song().lines, log.song().most, log.line().count), (lines, [pattern; 16], 0));
    }
    let mut seed: u32 = 7;
    let mut spoilt = 0;
    for _ in 0..2_000 {
        let mut bytes = [0; size_of::<Log>()].map(|_: u8| {
            seed = seed.wrapping_mul(1_664_525).wrapping_add(1_013_904_223);
            (seed >> 24) as u8
        });
        bytes[NUMBER] = 0;
        bytes[COUNT] = 0;
        let mut log = rubbish(bytes);
        let before = log.clone();
        let number = log.part(b"b,144\nb,60\nb,64\nb,128\nb,60\nb,64\ne,5\nb,176\nb,123\nb,0\n");
        assert_eq!(log.song().order, before.song().order);
        assert!(log.song().most.iter().zip(before.song().most).all(|(now, then)| *now >= then));
        match number {
            Ok(()) => assert_eq!(log.song().lines, before.song().lines + 10),
            Err(Refused(17)) => spoilt += 1,
            other => panic!("{other:?}"),
        }
        let end = log.end();
        let lines = log.song().lines;
        assert_eq!(end.map(|m| m.lines).map_err(|e| e.line), if number.is_ok() { Ok(lines) } else { Err(lines) });
    }
    assert!(0 < spoilt && spoilt < 2_000);
}

#[test]
fn lines_are_told_up_to_the_highest_number() {
    let mut bytes = [0; size_of::<Log>()];
    bytes[LINES..LINES + 8].copy_from_slice(&(u64::MAX - 1).to_ne_bytes());
    let mut log = rubbish(bytes);
    for line in ["b,144\n", "b,144\n", "b,248\n"] {
        assert_eq!(log.part(line.as_bytes()), Ok(()));
        assert_eq!(log.end().map(|m| m.lines), Ok(u64::MAX));
    }
    assert_eq!(log.part(b"x\n"), Err(Refused(15)));
    assert_eq!(log.end(), refused(15, u64::MAX));
}
