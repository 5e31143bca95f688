//! Instructions, by callgrind: each case is a set-up and then the calls that are counted.
//!
//! Between the parts `bench_mark` is called, before which callgrind writes out what it has counted so far and begins
//! anew; so it leaves two files for each case, the set-up's and the counted one's, in the order of the lines printed
//! here. A line has the case's name, how many calls were counted, what is made of them, and the target.

use crate::streams::{self, before_theft, four_notes_each, mip, Stream};
use crate::subject::Subject;
use random::Random;
use std::hint::black_box;

/// What a count is held against.
#[derive(Clone, Copy)]
enum Target {
    /// A theft at most 2,000 instructions, all its bytes together.
    Theft,
    /// A byte that completes nothing at most 100.
    NothingCompleted,
    /// Any single byte, and a start, at most 15,000.
    SingleByte,
    /// A pitch at most 100.
    Pitch,
    /// Gains at most 120.
    Gains,
    /// A page at most 10,000.
    Page,
    /// Nothing, as for a refused pitch, song or page, or a line of a log.
    None,
    /// The mean over a stream, a song or a log.
    Mean,
}

struct Case {
    name: String,
    setup: Vec<u8>,
    counted: Vec<u8>,
    target: Target,
}

const DRUM_CHANNEL: u8 = 9;
const SECOND_DRUM_CHANNEL: u8 = 10;

/// Callgrind writes a file whenever this is called.
#[no_mangle]
#[inline(never)]
extern "C" fn bench_mark() {
    black_box(());
}

/// P of the starts that are counted.
const STARTS: [(&str, u8); 2] = [("start, P 64", 64), ("start, number 1", 0)];

pub fn run<S: Subject>() {
    for (name, polyphony) in STARTS {
        bench_mark();
        black_box(S::start(black_box(polyphony)));
        bench_mark();
        print_line(name, 1, Target::SingleByte);
    }
    for case in nothing_completed().into_iter().chain(messages()) {
        count::<S>(64, &case);
    }
    count_report::<S>();
    for (name, call, target) in PITCHES {
        count_pitch::<S>(name, call, target);
    }
    for (name, call, target) in GAINS {
        count_gains::<S>(call);
        print_line(name, 1, target);
    }
    count_pans::<S>();
    for stream in streams::all() {
        count_stream::<S>(stream);
    }
    count_random::<S>();
    for stream in streams::all() {
        count_each_byte::<S>(&stream);
    }
}

fn count<S: Subject>(polyphony: u8, case: &Case) {
    let mut device = S::start(polyphony);
    feed(&mut device, &case.setup);
    bench_mark();
    feed(&mut device, &case.counted);
    bench_mark();
    print_line(&case.name, case.counted.len(), case.target);
}

fn feed<S: Subject>(device: &mut S, bytes: &[u8]) {
    for &byte in bytes {
        black_box(device.byte(black_box(byte)));
    }
}

fn print_line(name: &str, calls: usize, target: Target) {
    let (kind, most) = match target {
        Target::Theft => ("sum", "2000"),
        Target::NothingCompleted => ("sum", "100"),
        Target::SingleByte => ("sum", "15000"),
        Target::Pitch => ("sum", "100"),
        Target::Gains => ("sum", "120"),
        Target::Page => ("sum", "10000"),
        Target::None => ("sum", "-"),
        Target::Mean => ("mean", "-"),
    };
    println!("{name};{calls};{kind};{most}");
}

fn case(name: &str, setup: &[u8], counted: &[u8], target: Target) -> Case {
    Case {
        name: name.to_string(),
        setup: setup.to_vec(),
        counted: counted.to_vec(),
        target,
    }
}

fn nothing_completed() -> Vec<Case> {
    let nothing = |name, setup, byte| case(name, setup, &[byte], Target::NothingCompleted);
    let mut long = vec![0xF0];
    long.extend([0x01; 60]);
    vec![
        nothing("status byte", &[], 0x90),
        nothing("first data byte", &[0x90], 0x3C),
        nothing("real-time byte", &[0x90, 0x3C], 0xF8),
        nothing("real-time byte inside SysEx", &[0xF0, 0x7F], 0xF8),
        nothing("F0", &[0x90, 0x3C], 0xF0),
        nothing("SysEx data byte, head", &[0xF0, 0x7F, 0x7F], 0x0B),
        nothing(
            "SysEx data byte, pairs",
            &[0xF0, 0x7F, 0x7F, 0x0B, 0x01, 0x00],
            0x04,
        ),
        nothing("SysEx data byte, 61st", &long, 0x01),
        nothing("status that cuts a SysEx", &long, 0x90),
        nothing("song position status", &[0x90], 0xF2),
        nothing("swallowed data byte", &[0xF2], 0x00),
        nothing("stray data byte", &[], 0x00),
    ]
}

/// 64 generators of a channel, all but the newest releasing, all of one key.
fn drum_roll(channel: u8, key: u8) -> Vec<u8> {
    let mut bytes = vec![0x90 | channel];
    bytes.extend([key, 64].repeat(64));
    bytes
}

/// 64 generators of channel 1, held.
fn all_of_channel_1() -> Vec<u8> {
    all_of(0)
}

/// 64 generators of a channel on the wire, held.
fn all_of(channel: u8) -> Vec<u8> {
    let mut bytes = vec![0x90 | channel];
    bytes.extend((0..64).flat_map(|key| [key, 64]));
    bytes
}

fn followed(mut setup: Vec<u8>, more: &[u8]) -> Vec<u8> {
    setup.extend(more);
    setup
}

/// A MIP message without its F7.
fn open_mip(pairs: impl IntoIterator<Item = (u8, u8)>) -> Vec<u8> {
    let mut bytes = mip(pairs);
    bytes.pop();
    bytes
}

/// Whole notes, and last bytes that have the most to do.
fn messages() -> Vec<Case> {
    let last = |name, setup: &[u8], byte| case(name, setup, &[byte], Target::SingleByte);
    let (full, drums, theft) = (
        all_of_channel_1(),
        drum_roll(DRUM_CHANNEL, 44),
        before_theft(),
    );
    let mut cases = vec![
        case(
            "theft, three bytes, fresh table",
            &full,
            &[0x90, 100, 64],
            Target::Theft,
        ),
        case(
            "theft, three bytes, dearest table",
            &theft,
            &[0x99, 71, 64],
            Target::Theft,
        ),
        last("theft, last byte", &followed(theft, &[0x99, 71]), 64),
    ];
    cases.extend(pedal_thefts(&full));
    cases.extend(notes(&full, &drums));
    cases.extend(pedals(&full));
    cases.extend(kinds());
    cases.extend(exclusive(&full));
    cases
}

/// 63 notes held and one on the pedal, which is stolen: one in their midst; and the newest of all, of the last channel
/// that the search comes to.
fn pedal_thefts(full: &[u8]) -> Vec<Case> {
    let on_pedal = |key| followed(full.to_vec(), &[0xB0, 64, 127, 0x80, key, 64]);
    let last = mip((0..16).map(|channel| (channel, 64)));
    let theft = |name, setup: Vec<u8>| case(name, &setup, &[0x90, 100, 64], Target::Theft);
    vec![
        theft(
            "theft of a pedal note, three bytes, fresh table",
            on_pedal(32),
        ),
        theft(
            "theft of a pedal note, three bytes, dearest table",
            followed(last, &on_pedal(63)),
        ),
    ]
}

fn notes(full: &[u8], drums: &[u8]) -> Vec<Case> {
    let last = |name, setup: Vec<u8>, byte| case(name, &setup, &[byte], Target::SingleByte);
    let all_but_one = &full[..full.len() - 2];
    let masked = followed(mip([(1, 64)]), full);
    vec![
        last("note-on, first generator", vec![0x90, 60], 64),
        last(
            "note-on, last generator",
            followed(all_but_one.to_vec(), &[100]),
            64,
        ),
        last(
            "note-on, same key again",
            followed(full.to_vec(), &[63]),
            64,
        ),
        last(
            "note-on, group of 64 silenced",
            followed(drums.to_vec(), &[42]),
            64,
        ),
        last("note-on, number 10", followed(masked, &[0x90, 100]), 64),
        last(
            "note-on, number 11",
            followed(drums.to_vec(), &[0x90, 60]),
            64,
        ),
        last("note-off", followed(full.to_vec(), &[0x80, 63]), 64),
        last(
            "120 with 64 sounding",
            followed(full.to_vec(), &[0xB0, 120]),
            0,
        ),
        last("123 with 64 held", followed(full.to_vec(), &[0xB0, 123]), 0),
        last("126 with 64 held", followed(full.to_vec(), &[0xB0, 126]), 1),
    ]
}

fn pedals(full: &[u8]) -> Vec<Case> {
    let last = |name, setup: Vec<u8>, byte| case(name, &setup, &[byte], Target::SingleByte);
    let pedal_down = followed(full.to_vec(), &[0xB0, 64, 127]);
    let sustained = followed(pedal_down.clone(), &[123, 0]);
    vec![
        last(
            "123 with 64 held, pedal down",
            followed(pedal_down.clone(), &[123]),
            0,
        ),
        last(
            "126 with 64 held, pedal down",
            followed(pedal_down, &[126]),
            1,
        ),
        last(
            "pedal up with 64 sustained",
            followed(sustained.clone(), &[64]),
            0,
        ),
        last("121 with 64 sustained", followed(sustained, &[121]), 0),
        last("volume", vec![0xB0, 7], 100),
        last("bend", vec![0xE0, 0], 64),
        last("program", vec![0xC0], 5),
    ]
}

/// Programs while channel 11 holds 64 notes and its bank says rhythm, a bank alone, and a drum of channel 11.
fn kinds() -> Vec<Case> {
    let last = |name, setup: Vec<u8>, byte| case(name, &setup, &[byte], Target::SingleByte);
    let bank_select = [0xB0 | SECOND_DRUM_CHANNEL, 0, 120];
    let held = followed(all_of(SECOND_DRUM_CHANNEL), &bank_select);
    let program = 0xC0 | SECOND_DRUM_CHANNEL;
    let rhythm = followed(bank_select.to_vec(), &[program, 0]);
    let drums = followed(rhythm, &drum_roll(SECOND_DRUM_CHANNEL, 44));
    vec![
        last(
            "kind changes, 64 held",
            followed(held.clone(), &[program]),
            5,
        ),
        last(
            "program of another channel, 64 held",
            followed(held, &[0xC0]),
            5,
        ),
        last("bank select", bank_select[..2].to_vec(), 120),
        last(
            "note-on, group of 64 silenced, channel 11",
            followed(drums, &[42]),
            64,
        ),
    ]
}

fn exclusive(full: &[u8]) -> Vec<Case> {
    let end = |name, setup: Vec<u8>| case(name, &setup, &[0xF7], Target::SingleByte);
    let sixteen = |value: u8| open_mip((0..16).map(move |channel| (channel, value)));
    let falling = open_mip((0..16).map(|channel| (channel, if channel < 15 { 64 } else { 63 })));
    vec![
        end("F7 of another's SysEx", vec![0xF0, 0x43, 0x10, 0x4C]),
        end("F7 of MIP, 16 entries", sixteen(64)),
        end("F7 of MIP, 64 busy", followed(full.to_vec(), &sixteen(64))),
        end(
            "F7 of MIP, all 64 masked",
            followed(full.to_vec(), &sixteen(65)),
        ),
        end(
            "F7 of MIP, 4 each, 64 masked",
            followed(four_notes_each(), &sixteen(65)),
        ),
        end(
            "F7 of MIP, number 9 at the end",
            followed(full.to_vec(), &falling),
        ),
        end(
            "F7 of GM System On",
            followed(full.to_vec(), &[0xF0, 0x7E, 0x7F, 0x09, 0x01]),
        ),
    ]
}

/// The report of the oldest of 64 generators.
fn count_report<S: Subject>() {
    let mut device = S::start(64);
    feed(&mut device, &all_of_channel_1());
    bench_mark();
    black_box(device.report(0));
    bench_mark();
    print_line(
        "report (no byte) of the oldest of 64",
        1,
        Target::SingleByte,
    );
}

/// Key, sensitivity and bend of the pitches that are counted.
const PITCHES: [(&str, (u8, u8, u16), Target); 3] = [
    ("pitch, centre", (60, 2, 8192), Target::Pitch),
    // Below position 0, with a quotient that is not whole.
    ("pitch, bent down", (0, 24, 1), Target::Pitch),
    ("pitch, number 21", (60, 2, 16384), Target::None),
];

fn count_pitch<S: Subject>(name: &str, call: (u8, u8, u16), target: Target) {
    let (key, sensitivity, bend) = black_box(call);
    bench_mark();
    black_box(S::pitch(key, sensitivity, bend));
    bench_mark();
    print_line(name, 1, target);
}

/// Expression, volume and pan of the gains that are counted.
const GAINS: [(&str, (u8, u8, u8), Target); 4] = [
    ("gains, centre", (127, 100, 64), Target::Gains),
    ("gains, hard right", (127, 127, 127), Target::Gains),
    ("gains, silent", (0, 100, 64), Target::Gains),
    ("gains, number 24", (127, 100, 128), Target::None),
];

fn count_gains<S: Subject>(call: (u8, u8, u8)) {
    let (expression, volume, pan) = black_box(call);
    bench_mark();
    black_box(S::gains(expression, volume, pan));
    bench_mark();
}

/// Each pan, of which the dearest is looked for: a side may search its table.
fn count_pans<S: Subject>() {
    for pan in 0..=127 {
        count_gains::<S>((100, 100, pan));
        println!("dearest gains of 128 pans;1;largest;120");
    }
}

/// The gains of a channel of a fresh device. It is counted in a run of its own: a side may make a call for gains out of
/// it, and callgrind, which turns counting on where a function begins, would turn it off where another one does.
pub fn run_channels<S: Subject>() {
    let device = S::start(64);
    let channel = black_box(0);
    bench_mark();
    black_box(device.channel_gains(channel));
    bench_mark();
    print_line("gains of a channel", 1, Target::Gains);
}

/// P, n and the buffer's length of the songs that are counted; of a whole song the mean of its bytes.
const SONGS: [(&str, (u8, usize, usize), Target); 4] = [
    (
        "mean of the hardest song, P 64",
        (64, LONGEST, LONGEST),
        Target::Mean,
    ),
    (
        "mean of the hardest song, P 1",
        (1, LONGEST, LONGEST),
        Target::Mean,
    ),
    ("song, number 1", (65, LONGEST, LONGEST), Target::None),
    ("song, number 25", (64, LONGEST, LONGEST - 1), Target::None),
];
const LONGEST: usize = 65_536;

/// Songs, in a run of their own: a side plays them on a device, by a call that is counted elsewhere.
pub fn run_songs<S: Subject>() {
    for (name, call, target) in SONGS {
        let (polyphony, n, length) = black_box(call);
        let mut buffer = vec![0; length];
        bench_mark();
        black_box(S::write_song(polyphony, n, &mut buffer));
        bench_mark();
        print_line(name, n, target);
    }
}

/// Pages, in a run of their own: a side may ask its own queries for them, by calls that are counted elsewhere.
pub fn run_pages<S: Subject>() {
    let mut buffer = [0; PAGE];
    for shown in streams::shown() {
        let mut device = S::start(shown.polyphony);
        feed(&mut device, &shown.heard);
        bench_mark();
        black_box(device.page(black_box(&mut buffer)));
        bench_mark();
        print_line(shown.name, 1, Target::Page);
    }
    let mut device = S::start(64);
    bench_mark();
    black_box(device.page(black_box(&mut buffer[..PAGE - 1])));
    bench_mark();
    print_line("page, number 18", 1, Target::None);
}
const PAGE: usize = 323;

/// Logs, in a run of their own as songs are.
pub fn run_logs<S: Subject>() {
    let mut order: [u8; 16] = std::array::from_fn(|i| i as u8 + 1);
    bench_mark();
    black_box(S::log_begin(black_box(&mut order)));
    bench_mark();
    print_line("log, begin", 1, Target::None);
    for (name, setup, line) in log_lines() {
        let mut log = S::log_begin(&mut order);
        assert!(S::log_part(&mut log, &mut lines(&setup)), "a number fell");
        let mut part = line.as_bytes().to_vec();
        bench_mark();
        black_box(S::log_part(&mut log, black_box(&mut part)));
        bench_mark();
        print_line(name, 1, Target::None);
    }
    count_chords::<S>();
}

/// A log of chords in one part, and its end.
fn count_chords<S: Subject>() {
    let mut chords = streams::chords();
    let mut log = S::log_begin(&mut chords.order);
    bench_mark();
    black_box(S::log_part(&mut log, black_box(&mut chords.bytes)));
    bench_mark();
    print_line(
        "mean of a log of chords, a line",
        chords.lines,
        Target::Mean,
    );
    bench_mark();
    black_box(S::log_end(&mut log));
    bench_mark();
    print_line("log, end", 1, Target::None);
}

/// The lines that are counted, each behind the bytes that came before.
fn log_lines() -> [(&'static str, Vec<u8>, &'static str); 7] {
    let full = all_of_channel_1();
    let all_but_one = full[..full.len() - 2].to_vec();
    let mip = open_mip([(0, 64)]);
    [
        ("log line, status byte", vec![], "b,144\n"),
        ("log line, first data byte", vec![0x90], "b,60\n"),
        (
            "log line, note-on's last byte, first generator",
            vec![0x90, 60],
            "b,64\n",
        ),
        (
            "log line, note-on's last byte, last generator",
            followed(all_but_one, &[100]),
            "b,64\n",
        ),
        (
            "log line, report of the oldest of 64",
            full.clone(),
            "e,0\n",
        ),
        ("log line, number 15", vec![], "b,256\n"),
        ("log line, number 17 by a MIP message", mip, "b,247\n"),
    ]
}

/// A line for each byte.
fn lines(bytes: &[u8]) -> Vec<u8> {
    let line = |byte: &u8| format!("b,{byte}\n").into_bytes();
    bytes.iter().flat_map(line).collect()
}

/// So many random cases are counted for the dearest of their kind.
const RANDOM_CASES: usize = 100;

/// A MIP message, without its F7, of all channels in random order, values rising to about 64.
fn random_mip(random: &mut Random) -> Vec<u8> {
    let mut channels: Vec<u8> = (0..16).collect();
    random.shuffle(&mut channels);
    let step = random.pick(&[1, 5, 9, 12]);
    let mut value = 0;
    open_mip(channels.into_iter().map(|channel| {
        value = (value + random.below(step) as u8).min(127);
        (channel, value)
    }))
}

/// 64 held notes on random channels, no key twice.
fn random_notes(random: &mut Random) -> Vec<u8> {
    let channels = 1 + random.below(16);
    (0..64)
        .flat_map(|key| [0x90 | random.below(channels) as u8, key, 64])
        .collect()
}

/// The F7 of random MIP messages, and then the last byte of a note-on, on a device of 64 notes: a theft, or number 10
/// or 11.
fn count_random<S: Subject>() {
    let mut random = Random::new(4);
    for _ in 0..RANDOM_CASES {
        let mut device = S::start(64);
        feed(&mut device, &random_notes(&mut random));
        feed(&mut device, &random_mip(&mut random));
        count_byte(&mut device, 0xF7, "F7 of 100 random MIP messages");
        feed(&mut device, &random_notes(&mut random));
        feed(&mut device, &[0x90 | random.below(16) as u8, 100]);
        count_byte(&mut device, 64, "last byte of 100 random note-ons, 64 busy");
    }
}

/// Counts one byte of several, of which the dearest is looked for.
fn count_byte<S: Subject>(device: &mut S, byte: u8, of: &str) {
    bench_mark();
    black_box(device.byte(black_box(byte)));
    bench_mark();
    println!("dearest {of};1;largest;15000");
}

/// So many bytes of each stream are counted for its mean.
const SAMPLE: usize = 20_000;

fn count_stream<S: Subject>(mut stream: Stream) {
    stream.bytes.truncate(SAMPLE);
    let case = Case {
        name: format!("mean of {}", stream.name),
        setup: stream.setup,
        counted: stream.bytes,
        target: Target::Mean,
    };
    count::<S>(stream.polyphony, &case);
}

/// So many bytes of each stream are counted one by one, for the dearest.
const ONE_BY_ONE: usize = 300;

fn count_each_byte<S: Subject>(stream: &Stream) {
    let mut device = S::start(stream.polyphony);
    let (before, counted) = stream.bytes.split_at(SAMPLE);
    feed(&mut device, &stream.setup);
    feed(&mut device, before);
    for &byte in &counted[..ONE_BY_ONE] {
        count_byte(&mut device, byte, &format!("byte of {}", stream.name));
    }
}
