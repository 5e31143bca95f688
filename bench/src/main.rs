//! `bench`: what the proved library costs, beside the second implementation, on the same streams, pages, pitches, gains
//! and log, and on songs of one length, in one run.
//!
//! Without arguments it prints times, and fails if a target is missed or the sides answer differently. `--count proved`
//! and `--count paper`, and `--count-channels`, `--count-songs`, `--count-logs` and `--count-pages` with the same, are
//! for the script `count`, which runs them under callgrind and prints instructions.

mod counting;
mod streams;
mod subject;
mod timing;

use std::process::ExitCode;

fn main() -> ExitCode {
    let arguments: Vec<String> = std::env::args().skip(1).collect();
    let arguments: Vec<&str> = arguments.iter().map(String::as_str).collect();
    match arguments[..] {
        [] if !timing::run() => {
            eprintln!("bench: a target for the time is missed");
            return ExitCode::FAILURE;
        }
        [] => {}
        ["--count", "proved"] => counting::run::<subject::Proved>(),
        ["--count", "paper"] => counting::run::<subject::Paper>(),
        ["--count-channels", "proved"] => counting::run_channels::<subject::Proved>(),
        ["--count-channels", "paper"] => counting::run_channels::<subject::Paper>(),
        ["--count-songs", "proved"] => counting::run_songs::<subject::Proved>(),
        ["--count-songs", "paper"] => counting::run_songs::<subject::Paper>(),
        ["--count-logs", "proved"] => counting::run_logs::<subject::Proved>(),
        ["--count-logs", "paper"] => counting::run_logs::<subject::Paper>(),
        ["--count-pages", "proved"] => counting::run_pages::<subject::Proved>(),
        ["--count-pages", "paper"] => counting::run_pages::<subject::Paper>(),
        _ => {
            eprintln!(
                "usage: bench [--count | --count-channels | --count-songs | --count-logs | --count-pages \
                 proved|paper]"
            );
            return ExitCode::FAILURE;
        }
    }
    ExitCode::SUCCESS
}
