//! `differential`: the proved library and the second implementation on the same events and logs, and asked for the same
//! pages, pitches, gains and songs.
//!
//! `--events N`, `--logs N` and `--seed S` choose the run; `--all-pitches` asks for every pitch there is, not for a
//! sample; `--self-test` shows instead that the comparison finds wrong variants. The exit code is 0 only if nothing
//! differed and every answer was reached.

mod arranging;
mod arranging_self_test;
mod arranging_sides;
mod book;
mod channel_gains;
mod claims;
mod compare;
mod drums;
mod eleven;
mod eleven_tally;
mod gains;
mod gains_self_test;
mod hardest_song;
mod hardest_song_self_test;
mod library;
mod lists;
mod log_lines;
mod logs;
mod most_thefts;
mod pages;
mod pages_self_test;
mod pitches;
mod record;
mod reference;
mod self_test;
mod song;
mod split;
mod staged_thefts;
mod tally;
mod thefts;
mod writer;
mod wrong_device;
mod wrong_gains;
mod wrong_log;
mod wrong_page;
mod wrong_pitch;
mod wrong_song;

use arranging::Readers;
use arranging_sides::LentLog;
use compare::{Comparison, Reached};
use gains::Compared;
use hardest_song::HeldAgainst;
use most_thefts::Held;
use paper::Number;
use random::Random;
use std::process::ExitCode;
use std::time::Instant;
use tally::Tally;

struct Options {
    events: u64,
    logs: u64,
    seed: u64,
    all_pitches: bool,
    self_test: bool,
}

fn options() -> Result<Options, String> {
    let mut options = Options {
        events: 5_000_000,
        logs: 60_000,
        seed: 1,
        all_pitches: false,
        self_test: false,
    };
    let mut arguments = std::env::args().skip(1);
    while let Some(argument) = arguments.next() {
        let mut number = || {
            let value = arguments.next().unwrap_or_default();
            value
                .parse::<u64>()
                .map_err(|_| format!("{argument} needs a number"))
        };
        match argument.as_str() {
            "--events" => options.events = number()?,
            "--logs" => options.logs = number()?,
            "--seed" => options.seed = number()?,
            "--all-pitches" => options.all_pitches = true,
            "--self-test" => options.self_test = true,
            _ => return Err(format!("unknown argument {argument}")),
        }
    }
    Ok(options)
}

fn main() -> ExitCode {
    let outcome = options().and_then(|options| {
        println!("seed {}", options.seed);
        if options.self_test {
            self_test(options.seed)
        } else {
            differential(&options)
        }
    });
    match outcome {
        Ok(()) => ExitCode::SUCCESS,
        Err(message) => {
            println!("{message}");
            ExitCode::FAILURE
        }
    }
}

fn self_test(seed: u64) -> Result<(), String> {
    let complaints = self_test::run(seed);
    if !complaints.is_empty() {
        return Err(complaints.join("\n"));
    }
    println!("self-test: ok");
    Ok(())
}

fn differential(options: &Options) -> Result<(), String> {
    let comparison = Comparison {
        start_a: reference::start,
        start_b: library::start,
        slip: None,
        pages: true,
    };
    let clock = Instant::now();
    let (mut reached, failure) = comparison.run(options.seed, options.events);
    if let Some(failure) = failure {
        return Err(format!(
            "seed {}, second implementation against proved library: {failure}",
            options.seed
        ));
    }
    let seconds = clock.elapsed().as_secs_f64();
    let tally = &mut reached.tally;
    tally.refused(Number::PageTooShort, reached.pages.refused);
    let arranged = logs(options, tally)?;
    tally.refused(Number::PitchOutOfRange, pitches(options)?);
    tally.refused(
        Number::LevelOutOfRange,
        gains()? + channel_gains(options.seed)?,
    );
    songs(tally)?;
    let held = most_thefts(options.seed)?;
    let nowhere = pages::nowhere()?;
    print(&reached, seconds);
    println!("{nowhere} calls for a page without a buffer, each refused");
    rubbish(options.seed)?;
    let missing = missing(&reached, &held, &arranged);
    if !missing.is_empty() {
        return Err(format!("never reached: {}", missing.join(", ")));
    }
    println!("differential: ok");
    Ok(())
}

/// What a run must reach and did not.
fn missing(reached: &Reached, held: &Held, arranged: &arranging::Reached) -> Vec<String> {
    let mut missing = reached.tally.missing();
    if reached.claims.within_share_and_full == 0 || reached.claims.thefts_and_refusals == 0 {
        missing.push("a case of demand 3".to_string());
    }
    if reached.claims.drums_within_share_by_group == 0 {
        missing.push("a case of demand 3 on a rhythm channel 11".to_string());
    }
    if reached.claims.at_most_thefts == 0 || held.at_the_bound == 0 {
        missing.push("the most thefts that there can be".to_string());
    }
    missing.extend(reached.pages.missing());
    missing.extend(arranged.missing());
    missing
}

/// Logs of songs, each given to both sides whole and in parts.
fn logs(options: &Options, tally: &mut Tally) -> Result<arranging::Reached, String> {
    let clock = Instant::now();
    let readers = Readers::new(options.seed);
    let library = LentLog::new([library::RUBBISH; proved::LOG_BYTES]);
    let mut comparison = arranging::Comparison::new(library, &readers);
    comparison.run(options.seed, options.logs)?;
    let reached = comparison.reached;
    println!(
        "{} logs compared, {} lines in {} parts, {} ends asked for in the middle, no difference; \
         {} messages with {} values above 0, each taken by both sides, {:.1} s",
        reached.logs,
        reached.lines,
        reached.parts,
        reached.ends,
        reached.messages,
        reached.values,
        clock.elapsed().as_secs_f64()
    );
    println!("logs spoilt by: {}", reached.spoilers());
    for (number, count) in arranging::NUMBERS.into_iter().zip(reached.numbers) {
        tally.refused(number, count);
    }
    Ok(reached)
}

/// Pitches of both sides; how many of them were refused.
fn pitches(options: &Options) -> Result<u64, String> {
    let clock = Instant::now();
    let compared = if options.all_pitches {
        pitches::compare(pitches::all(), reference::pitch, library::pitch)?
    } else {
        let mut random = Random::new(options.seed);
        let sample = pitches::sample(&mut random);
        pitches::compare(sample, reference::pitch, library::pitch)?
    };
    println!(
        "{} pitches compared, {} of them refused, {:.1} s",
        compared.calls,
        compared.refused,
        clock.elapsed().as_secs_f64()
    );
    Ok(compared.refused)
}

/// Every call for gains, on both sides; how many of them were refused.
fn gains() -> Result<u64, String> {
    let clock = Instant::now();
    let compared = gains::compare(gains::all(), reference::gains, library::gains)?;
    print_gains("gains", compared, clock);
    Ok(compared.refused)
}

/// Gains of channels' numbers; how many calls were refused.
fn channel_gains(seed: u64) -> Result<u64, String> {
    let clock = Instant::now();
    let compared = channel_gains::compare(
        &mut Random::new(seed),
        reference::channel_gains,
        library::channel_gains,
    )?;
    print_gains("gains of channels", compared, clock);
    Ok(compared.refused)
}

fn print_gains(what: &str, compared: Compared, clock: Instant) {
    let farthest = compared.farthest.thousandths_of_a_billionth();
    println!(
        "{} {what} compared, {} of them refused, none wrong by more than {}.{:03} billionths, {:.1} s",
        compared.calls,
        compared.refused,
        farthest / 1000,
        farthest % 1000,
        clock.elapsed().as_secs_f64()
    );
}

/// The hardest songs of the library, and those of the second implementation on the library's devices.
fn songs(tally: &mut Tally) -> Result<(), String> {
    let clock = Instant::now();
    let compared = hardest_song::compare(
        hardest_song::calls(),
        HeldAgainst::DocumentedBytes,
        library::write_song,
    )?;
    let nowhere = hardest_song::nowhere()?;
    let played = hardest_song::play_those_of_the_reference()?;
    tally.refused(Number::PolyphonyOutOfRange, compared.bad_polyphony);
    tally.refused(Number::SongTooLong, compared.too_long);
    println!(
        "{} calls for songs compared, {} of them refused, no difference; \
         {} songs played anew on both sides, {} thefts; {nowhere} calls without a buffer; \
         {played} songs of the second implementation played, {:.1} s",
        compared.calls,
        compared.bad_polyphony + compared.too_long,
        compared.songs,
        compared.thefts,
        clock.elapsed().as_secs_f64()
    );
    Ok(())
}

/// Lists without reports, from fresh devices of every P.
fn most_thefts(seed: u64) -> Result<Held, String> {
    let clock = Instant::now();
    let held = most_thefts::hold(seed, paper::most_thefts)?;
    println!(
        "{} lists without reports, {} bytes: never more thefts than there can be, and as many after {} bytes, {:.1} s",
        held.lists,
        held.bytes,
        held.at_the_bound,
        clock.elapsed().as_secs_f64()
    );
    Ok(held)
}

/// Records that no start made.
fn rubbish(seed: u64) -> Result<(), String> {
    const RECORDS: usize = 20_000;
    let survived = library::survive_rubbish(&mut Random::new(seed), RECORDS);
    survived.map_err(|found| format!("a record full of rubbish: {} was written", found.0))?;
    let survived = arranging_sides::survive_rubbish(&mut Random::new(seed), RECORDS);
    survived.map_err(|found| format!("a log full of rubbish: {} was written", found.0))?;
    println!(
        "{RECORDS} records and as many logs full of rubbish: every call returned and wrote nothing beside them"
    );
    let queried = library::rhythm_of_rubbish(&mut Random::new(seed), RECORDS);
    queried.map_err(|found| format!("rhythm query: a record full of rubbish: {found}"))?;
    println!("{RECORDS} such records asked for their rhythm channels, each for all 256 numbers");
    let survived = library::survive_pages(&mut Random::new(seed), RECORDS);
    survived.map_err(|found| format!("the page of a record full of rubbish: {found}"))?;
    println!("{RECORDS} calls for pages of such records: 17 lines or number 18, and nothing else written");
    Ok(())
}

fn print(reached: &Reached, seconds: f64) {
    println!(
        "{} events in {} lists, {seconds:.1} s",
        reached.events, reached.lists
    );
    println!(
        "{} calls for pages compared, {} of them refused, no difference; \
         each page agrees with the library's queries and with the note book; lines: {}",
        reached.pages.pages,
        reached.pages.refused,
        reached.pages.words()
    );
    print!("{}", reached.tally);
    println!(
        "demand 3: {} note-ons within share, {} of them with every generator taken, \
         {} of these on a rhythm channel 11, where {} fit by their group alone; \
         {} thefts and refusals justified",
        reached.claims.within_share,
        reached.claims.within_share_and_full,
        reached.claims.drums_within_share_and_full,
        reached.claims.drums_within_share_by_group,
        reached.claims.thefts_and_refusals
    );
    println!(
        "most thefts: {} bytes from fresh devices without reports, \
         {} of them with as many thefts before as there can be",
        reached.claims.since_fresh, reached.claims.at_most_thefts
    );
}
