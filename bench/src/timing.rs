//! Times both implementations on each stream, on pages, on pitches, on gains, on a song and on a log, and prints what a
//! byte, a page, a pitch, a call for gains, the whole song or a line of the log costs.
//!
//! The stream is cut into slices, and the two sides take each slice in alternation; of the times of a slice over
//! several turns the median counts. So a machine that is busy with something else disturbs both sides alike, and
//! little.

use crate::streams::{self, Shown, Stream};
use crate::subject::{Paper, Proved, Subject};
use std::hint::black_box;
use std::time::Instant;

/// Passes over the stream; an odd number, for the median.
const TURNS: usize = 15;
/// Bytes of a slice: few enough to run mostly without being interrupted.
const SLICE: usize = 1000;
/// Dense notes at most so many times the second implementation's time.
const TARGET: f64 = 8.0;
/// The longest song in at most so many milliseconds.
const SONG_TARGET: f64 = 40.0;
/// A log of chords at least so many million lines a second.
const LOG_TARGET: f64 = 1.0;
/// Bytes of a log that are given at a time.
const LOG_PART: usize = 4096;

/// Prints a row for each stream; false if a target was missed.
pub fn run() -> bool {
    println!(
        "medians of {TURNS} turns, the sides in alternation; \
         ns a byte, page, pitch, call for gains or line, million messages or lines a second"
    );
    println!(
        "{:30} {:>8} {:>8} {:>7} {:>8} {:>8}  target",
        "stream", "proved", "paper", "ratio", "proved", "paper"
    );
    let rows: Vec<bool> = streams::all().iter().map(print_row).collect();
    streams::shown().iter().for_each(print_pages);
    print_pitches();
    print_gains();
    let song_met = print_song();
    let log_met = print_log();
    rows.into_iter().all(|met| met) && song_met && log_met
}

/// Prints what a stream costs; false if its target was missed.
fn print_row(stream: &Stream) -> bool {
    let (proved, paper) = seconds(stream);
    let per_byte = |seconds: f64| seconds * 1e9 / stream.bytes.len() as f64;
    let messages = |seconds: f64| match stream.messages {
        Some(messages) => format!("{:.2}", messages as f64 / seconds / 1e6),
        None => "-".to_string(),
    };
    let ratio = proved / paper;
    let (aimed, met) = (stream.name.starts_with("dense notes"), ratio <= TARGET);
    let verdict = match (aimed, met) {
        (false, _) => "-".to_string(),
        (true, met) => format!("{TARGET} {}", if met { "met" } else { "MISSED" }),
    };
    println!(
        "{:30} {:>8.1} {:>8.1} {ratio:>7.2} {:>8} {:>8}  {verdict}",
        stream.name,
        per_byte(proved),
        per_byte(paper),
        messages(proved),
        messages(paper),
    );
    met || !aimed
}

/// So many pages of each device in a turn.
const PAGES: usize = 1000;

/// Prints what a page of a device costs.
fn print_pages(shown: &Shown) {
    let (mut one, mut other) = (showing::<Proved>(shown), showing::<Paper>(shown));
    let (mut proved, mut paper) = (Vec::new(), Vec::new());
    for _ in 0..TURNS {
        let (seconds, page) = time_pages(&mut one);
        proved.push(seconds);
        let (seconds, page_too) = time_pages(&mut other);
        paper.push(seconds);
        assert_eq!(page, page_too, "the two sides answer differently");
    }
    print_calls(shown.name, PAGES, proved, paper);
}

fn showing<S: Subject>(shown: &Shown) -> S {
    let mut device = S::start(shown.polyphony);
    for &byte in &shown.heard {
        device.byte(byte);
    }
    device
}

/// The seconds for so many pages of a device, and its page.
fn time_pages<S: Subject>(device: &mut S) -> (f64, [u8; 323]) {
    let mut buffer = [0; 323];
    let clock = Instant::now();
    let written = (0..PAGES).filter(|_| device.page(black_box(&mut buffer)));
    let written = written.count();
    let seconds = clock.elapsed().as_secs_f64();
    assert_eq!(written, PAGES, "a page was refused");
    (seconds, buffer)
}

/// Prints what a pitch costs, over random calls within the ranges.
fn print_pitches() {
    let calls = streams::pitches();
    let (mut proved, mut paper) = (Vec::new(), Vec::new());
    for _ in 0..TURNS {
        let (seconds, sum) = time_pitches::<Proved>(&calls);
        proved.push(seconds);
        let (seconds, sum_too) = time_pitches::<Paper>(&calls);
        paper.push(seconds);
        assert_eq!(sum, sum_too, "the two sides answer differently");
    }
    print_calls("pitches", calls.len(), proved, paper);
}

/// Prints what one of so many calls costs, by the seconds of every turn. Calls have no target.
fn print_calls(name: &str, calls: usize, proved: Vec<f64>, paper: Vec<f64>) {
    let [proved, paper] = [proved, paper].map(|turns| median(turns) * 1e9 / calls as f64);
    println!(
        "{name:30} {proved:>8.1} {paper:>8.1} {:>7.2} {:>8} {:>8}  -",
        proved / paper,
        "-",
        "-"
    );
}

/// The seconds for these calls, and the sum of what they answered.
fn time_pitches<S: Subject>(calls: &[(u8, u8, u16)]) -> (f64, i64) {
    let clock = Instant::now();
    let answered = calls.iter().map(|&call| {
        let (key, sensitivity, bend) = black_box(call);
        let (octave, entry) = S::pitch(key, sensitivity, bend);
        i64::from(octave) + i64::from(entry)
    });
    let sum = answered.sum();
    (clock.elapsed().as_secs_f64(), sum)
}

/// Prints what gains cost, over random calls within the ranges, and over the channels of a device.
fn print_gains() {
    let calls = streams::gains();
    print_turns(
        "gains",
        &calls,
        |&(expression, volume, pan)| Proved::gains(expression, volume, pan),
        |&(expression, volume, pan)| Paper::gains(expression, volume, pan),
    );
    let channels: Vec<usize> = (0..calls.len()).map(|call| call % 16).collect();
    let (proved, paper) = (with_levels::<Proved>(), with_levels::<Paper>());
    print_turns(
        "gains of a channel",
        &channels,
        |&channel| proved.channel_gains(channel),
        |&channel| paper.channel_gains(channel),
    );
}

/// Times both sides' gains in turn. They need not be the same, but each side's are within a millionth of the right
/// ones.
fn print_turns<T>(
    name: &str,
    calls: &[T],
    proved: impl Fn(&T) -> (f32, f32),
    paper: impl Fn(&T) -> (f32, f32),
) {
    let same = |call: &T| {
        let (one, other) = (proved(call), paper(call));
        (one.0 - other.0).abs() <= 2e-6 && (one.1 - other.1).abs() <= 2e-6
    };
    assert!(calls.iter().all(same), "the two sides answer differently");
    let (of_proved, of_paper) = (0..TURNS)
        .map(|_| (time_gains(calls, &proved), time_gains(calls, &paper)))
        .unzip();
    print_calls(name, calls.len(), of_proved, of_paper);
}

fn time_gains<T>(calls: &[T], gains: impl Fn(&T) -> (f32, f32)) -> f64 {
    let clock = Instant::now();
    for call in calls {
        black_box(gains(black_box(call)));
    }
    clock.elapsed().as_secs_f64()
}

/// Prints what the longest song costs; false if its target was missed. The sides' songs are not the same.
fn print_song() -> bool {
    let mut buffer = vec![0; 65_536];
    let (mut proved, mut paper) = (Vec::new(), Vec::new());
    for _ in 0..TURNS {
        let (seconds, thefts) = time_song::<Proved>(&mut buffer);
        proved.push(seconds);
        let (seconds, thefts_too) = time_song::<Paper>(&mut buffer);
        paper.push(seconds);
        assert_eq!(thefts, thefts_too, "the two sides answer differently");
    }
    let [proved, paper] = [proved, paper].map(|turns| median(turns) * 1e3);
    let met = proved <= SONG_TARGET;
    println!(
        "{:30} {proved:>8.2} {paper:>8.2} {:>7.2} {:>8} {:>8}  {SONG_TARGET} ms {}",
        "song of 65,536 bytes, P 64, ms",
        proved / paper,
        "-",
        "-",
        if met { "met" } else { "MISSED" }
    );
    met
}

/// The seconds for a song at P 64 that fills the buffer, and its thefts.
fn time_song<S: Subject>(buffer: &mut [u8]) -> (f64, u32) {
    let clock = Instant::now();
    let thefts = S::write_song(black_box(64), buffer.len(), buffer);
    (clock.elapsed().as_secs_f64(), thefts)
}

/// Prints what a line of a log costs; false if its target was missed.
fn print_log() -> bool {
    let mut log = streams::chords();
    let parts = log.bytes.len().div_ceil(LOG_PART);
    let mut proved = vec![Vec::new(); parts];
    let mut paper = vec![Vec::new(); parts];
    for _ in 0..TURNS {
        let (mut order, mut order_too) = (log.order, log.order);
        let mut one = Proved::log_begin(&mut order);
        let mut other = Paper::log_begin(&mut order_too);
        for (at, part) in log.bytes.chunks_mut(LOG_PART).enumerate() {
            proved[at].push(time_part::<Proved>(&mut one, part));
            paper[at].push(time_part::<Paper>(&mut other, part));
        }
        let message = Proved::log_end(&mut one);
        assert_eq!(
            message,
            Paper::log_end(&mut other),
            "the two sides answer differently"
        );
        assert_eq!(message[0], 0xF0, "the log has no message");
    }
    let lines = log.lines as f64;
    let [proved, paper] = [proved, paper].map(|parts| parts.into_iter().map(median).sum::<f64>());
    let rates = [proved, paper].map(|seconds| lines / seconds / 1e6);
    let met = rates[0] >= LOG_TARGET;
    println!(
        "{:30} {:>8.1} {:>8.1} {:>7.2} {:>8.2} {:>8.2}  {LOG_TARGET} million {}",
        "log of chords, a line",
        proved * 1e9 / lines,
        paper * 1e9 / lines,
        proved / paper,
        rates[0],
        rates[1],
        if met { "met" } else { "MISSED" }
    );
    met
}

/// The seconds for a part of a log in which no number falls.
fn time_part<S: Subject>(log: &mut S::Log, part: &mut [u8]) -> f64 {
    let clock = Instant::now();
    let goes_on = S::log_part(log, black_box(part));
    let seconds = clock.elapsed().as_secs_f64();
    assert!(goes_on, "a number fell in the log");
    seconds
}

/// A device with levels of its own on every channel.
fn with_levels<S: Subject>() -> S {
    let mut device = S::start(64);
    for byte in streams::levels() {
        device.byte(byte);
    }
    device
}

/// The seconds that both sides take for the stream: the sum of its slices' medians.
fn seconds(stream: &Stream) -> (f64, f64) {
    let slices = stream.bytes.len().div_ceil(SLICE);
    let mut proved = vec![Vec::new(); slices];
    let mut paper = vec![Vec::new(); slices];
    for _ in 0..TURNS {
        let mut one = started::<Proved>(stream);
        let mut other = started::<Paper>(stream);
        for (at, slice) in stream.bytes.chunks(SLICE).enumerate() {
            let (seconds, answered) = time(&mut one, slice);
            proved[at].push(seconds);
            let (seconds, answered_too) = time(&mut other, slice);
            paper[at].push(seconds);
            assert_eq!(answered, answered_too, "the two sides answer differently");
        }
    }
    let sum = |slices: Vec<Vec<f64>>| slices.into_iter().map(median).sum();
    (sum(proved), sum(paper))
}

fn median(mut seconds: Vec<f64>) -> f64 {
    seconds.sort_by(f64::total_cmp);
    seconds[seconds.len() / 2]
}

fn started<S: Subject>(stream: &Stream) -> S {
    let mut device = S::start(stream.polyphony);
    for &byte in &stream.setup {
        device.byte(byte);
    }
    device
}

/// The seconds for these bytes, and how many of them completed a message.
fn time<S: Subject>(device: &mut S, bytes: &[u8]) -> (f64, usize) {
    let clock = Instant::now();
    let completing = |&&byte: &&u8| device.byte(black_box(byte));
    let answered = bytes.iter().filter(completing).count();
    (clock.elapsed().as_secs_f64(), answered)
}
