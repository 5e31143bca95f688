//! Feeds two implementations the same lists and compares answers, queries and whole records after
//! every event, and service pages now and then, with the book and its claims beside them.

use crate::book::{Book, Slip};
use crate::claims::{Claims, Exercised};
use crate::gains::Compared;
use crate::lists::{Event, Kind, List};
use crate::pages::{self, Pages};
use crate::record::{difference, Given, Implementation, Malformed, Record};
use crate::tally::Tally;
use paper::{Answer, Number, Progress, Was};
use random::Random;
use std::fmt;

/// What a run reached.
#[derive(Clone, Debug, Default)]
pub struct Reached {
    pub events: u64,
    pub lists: u64,
    pub tally: Tally,
    pub claims: Exercised,
    pub pages: pages::Reached,
}

/// The first difference of a run.
#[derive(Debug)]
pub struct Failure {
    pub what: String,
    pub event: u64,
    kind: Kind,
    start: (u8, u8),
    /// The last events up to the one that differed.
    recent: Vec<Event>,
}

const RECENT: usize = 20;

impl fmt::Display for Failure {
    fn fmt(&self, f: &mut fmt::Formatter<'_>) -> fmt::Result {
        writeln!(f, "difference at event {}: {}", self.event, self.what)?;
        writeln!(
            f,
            "list of kind {:?}, P {}, ID {}",
            self.kind, self.start.0, self.start.1
        )?;
        write!(f, "last {} events:", self.recent.len())?;
        self.recent.iter().try_for_each(|event| match event {
            Event::Byte(byte) => write!(f, " {byte:02X}"),
            Event::Report(generator) => write!(f, " report({generator})"),
        })
    }
}

/// Two implementations side by side: for each, how it starts.
pub struct Comparison<StartA, StartB> {
    pub start_a: StartA,
    pub start_b: StartB,
    pub slip: Option<Slip>,
    /// Are service pages compared as well?
    pub pages: bool,
}

impl<A, B, StartA, StartB> Comparison<StartA, StartB>
where
    A: Implementation,
    B: Implementation,
    StartA: Fn(u8, u8) -> (A, Given<Answer>),
    StartB: Fn(u8, u8) -> (B, Given<Answer>),
{
    /// Runs at least so many events, to the end of the last list.
    pub fn run(&self, seed: u64, events: u64) -> (Reached, Option<Failure>) {
        let mut random = Random::new(seed);
        let mut pages = Pages::new(seed);
        let mut reached = Reached::default();
        while reached.events < events {
            reached.lists += 1;
            let list = List::new(&mut random, reached.lists);
            let before = reached.events;
            let outcome = self.list(&list, &mut random, &mut pages, &mut reached);
            reached.pages = pages.reached.clone();
            if let Err(what) = outcome {
                let within = (reached.events - before) as usize;
                let failure = Failure {
                    what,
                    event: reached.events,
                    kind: list.kind,
                    start: (list.polyphony, list.id),
                    recent: list.events[within.saturating_sub(RECENT)..within].to_vec(),
                };
                return (reached, Some(failure));
            }
        }
        if self.pages {
            let filled = self.fill(&mut pages, reached.events);
            reached.pages = pages.reached;
            return (reached, filled.err());
        }
        (reached, None)
    }

    /// Devices of every P that fill with notes of one channel, and a page after each: few lists have so many on one.
    fn fill(&self, pages: &mut Pages, event: u64) -> Result<(), Failure> {
        for polyphony in 1..=64 {
            let status = 0x90 | polyphony % 16;
            let keys = (0..polyphony).flat_map(|key| [key, 64]);
            let bytes: Vec<u8> = [status].into_iter().chain(keys).collect();
            let failure = |what| Failure {
                what,
                event,
                kind: Kind::Playing,
                start: (polyphony, 0),
                recent: bytes.iter().map(|&byte| Event::Byte(byte)).collect(),
            };
            self.fill_with(pages, polyphony, &bytes).map_err(failure)?;
        }
        Ok(())
    }

    fn fill_with(&self, pages: &mut Pages, polyphony: u8, bytes: &[u8]) -> Result<(), String> {
        let (mut a, answer_a) = (self.start_a)(polyphony, 0);
        let (mut b, answer_b) = (self.start_b)(polyphony, 0);
        let answer = same("start", answer_a, answer_b)?;
        let mut claims = Claims::new(polyphony, 0, answer, self.slip);
        for &byte in bytes {
            let answer = same("answer", a.byte(byte), b.byte(byte))?;
            claims.event(Event::Byte(byte), answer, &mut Exercised::default())?;
            let record = same_record(&a, &b)?;
            pages.with_room(&mut a, &mut b, &record, claims.book())?;
        }
        Ok(())
    }

    fn list(
        &self,
        list: &List,
        random: &mut Random,
        pages: &mut Pages,
        reached: &mut Reached,
    ) -> Result<(), String> {
        let (mut a, answer_a) = (self.start_a)(list.polyphony, list.id);
        let (mut b, answer_b) = (self.start_b)(list.polyphony, list.id);
        let answer = same("start", answer_a, answer_b)?;
        reached.tally.answer(answer);
        let mut claims = Claims::new(list.polyphony, list.id, answer, self.slip);
        let mut record = same_record(&a, &b)?;
        claims.record(&record)?;
        if self.pages {
            pages.with_room(&mut a, &mut b, &record, claims.book())?;
        }
        for &event in &list.events {
            reached.events += 1;
            let answer = same("answer", happen(&mut a, event), happen(&mut b, event))?;
            count(&mut reached.tally, event, answer, &record);
            claims.event(event, answer, &mut reached.claims)?;
            let before = std::mem::replace(&mut record, same_record(&a, &b)?);
            reached.tally.eleven.event(event, answer, &before, &record);
            claims.record(&record)?;
            queries(&a, &b, random, &mut reached.tally, claims.book())?;
            if random.one_in(8) {
                probe(&a, &b, random)?;
            }
            if self.pages && reached.events % pages::EVERY == 0 {
                pages.turn(&mut a, &mut b, &record, claims.book())?;
            }
        }
        Ok(())
    }
}

/// Counts an answer, and what a report, a mode message or a theft found in the record before it.
fn count(tally: &mut Tally, event: Event, answer: Answer, before: &Record) {
    tally.answer(answer);
    match (event, answer, before.progress) {
        (
            _,
            Answer::Note {
                channel,
                generator,
                was: Was::Stolen,
                ..
            },
            _,
        ) => tally.theft(channel, generator, before),
        (Event::Report(generator), Answer::Done, _) => {
            tally.report(before.generators[usize::from(generator)].state);
        }
        (Event::Byte(0..=127), _, Progress::StatusAndData(status @ 0xB0..=0xBF, 124..=127)) => {
            tally.mode_message(status & 0x0F, before);
        }
        _ => {}
    }
}

fn happen(device: &mut impl Implementation, event: Event) -> Given<Answer> {
    match event {
        Event::Byte(byte) => device.byte(byte),
        Event::Report(generator) => device.report(generator),
    }
}

/// What both sides gave, if it is the same and well-formed.
pub fn same<T: PartialEq + fmt::Debug>(what: &str, a: Given<T>, b: Given<T>) -> Result<T, String> {
    let (a, b) = well_formed(what, a, b)?;
    if a == b {
        return Ok(a);
    }
    Err(format!("{what}: {a:?} against {b:?}"))
}

fn well_formed<T>(what: &str, a: Given<T>, b: Given<T>) -> Result<(T, T), String> {
    match (a, b) {
        (Ok(a), Ok(b)) => Ok((a, b)),
        (Err(Malformed(found)), _) | (_, Err(Malformed(found))) => {
            Err(format!("{what}: nobody may give {found}"))
        }
    }
}

/// The record of both sides, if it is the same.
pub fn same_record(a: &impl Implementation, b: &impl Implementation) -> Result<Record, String> {
    let (a, b) = well_formed("record", a.record(), b.record())?;
    match difference(&a, &b) {
        Some(what) => Err(what),
        None => Ok(a),
    }
}

/// Asks both one query of each kind, also for generators and channels that are none.
fn queries(
    a: &impl Implementation,
    b: &impl Implementation,
    random: &mut Random,
    tally: &mut Tally,
    book: &Book,
) -> Result<(), String> {
    let (generator, channel) = match random.below(8) {
        0 => (random.byte(), random.byte()),
        _ => (random.below(66) as u8, random.below(18) as u8),
    };
    let view = same(
        "generator query",
        a.generator(generator),
        b.generator(generator),
    );
    let masked = same("mask query", a.masked(channel), b.masked(channel));
    let share = same("share query", a.share(channel), b.share(channel));
    rhythm_query(a, b, channel, book)?;
    // A channel of the record, by the number that is drawn already.
    let wire = usize::from(channel) % 16;
    let words = || format!("gains query: channel {}", wire + 1);
    Compared::default().take(words, &a.gains(wire), &b.gains(wire))?;
    let numbers: [Option<Number>; 3] = [view?.err(), masked?.err(), share?.err()];
    numbers.into_iter().flatten().for_each(|n| tally.query(n));
    Ok(())
}

/// Asks both whether a channel, from 1, is a rhythm channel. A right book knows it too (R5.12, R9.19).
fn rhythm_query(
    a: &impl Implementation,
    b: &impl Implementation,
    channel: u8,
    book: &Book,
) -> Result<(), String> {
    let rhythm = same("rhythm query", a.rhythm(channel), b.rhythm(channel))?;
    let expected = (1..=16).contains(&channel) && book.is_rhythm(channel - 1);
    if book.is_right() && rhythm != expected {
        return Err(format!(
            "rhythm query: {rhythm} for channel {channel}, the book says {expected}"
        ));
    }
    Ok(())
}

/// Feeds copies of both one more byte: what a parser holds shows only in what comes of it.
fn probe(
    a: &impl Implementation,
    b: &impl Implementation,
    random: &mut Random,
) -> Result<(), String> {
    let byte = match random.below(3) {
        0 => 0xF7,
        1 => random.data(),
        _ => random.byte(),
    };
    let (mut a, mut b) = (a.clone(), b.clone());
    let answers = same("answer", a.byte(byte), b.byte(byte));
    match answers.and_then(|_| same_record(&a, &b)) {
        Ok(_) => Ok(()),
        Err(what) => Err(format!("if the byte {byte:02X} came next: {what}")),
    }
}
