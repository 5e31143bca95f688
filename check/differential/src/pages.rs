//! Asks two implementations for their service pages in the middle of a list and compares number and bytes, and holds
//! the page against the library's own queries and against the note book.
//!
//! Half of the pages are of copies that have just taken a MIP message: the lists seldom have values of three digits.
//! Buffers are of any length and full of rubbish, with more of it on both sides. The random numbers are of its own, so
//! that the lists are the same with pages and without.

use crate::book::Book;
use crate::compare::{same, same_record};
use crate::library;
use crate::record::{Implementation, Record};
use crate::split::Message;
use paper::{Answer, Entry, GeneratorView, Number, State, PAGE_BYTES};
use random::Random;
use std::fmt::Write;

/// So much memory on each side of a buffer.
pub const GUARD: usize = 1024;

/// A buffer with some memory on both sides, all of it rubbish before.
pub struct Memory {
    rubbish: Vec<u8>,
    bytes: Vec<u8>,
}

impl Memory {
    /// What is lent.
    pub fn buffer(&mut self) -> &mut [u8] {
        let end = self.bytes.len() - GUARD;
        &mut self.bytes[GUARD..end]
    }

    /// Changes the byte at a place of the buffer or beside it, as only a wrong library does.
    pub fn change(&mut self, place: isize) {
        let at = place.checked_add_unsigned(GUARD).map(usize::try_from);
        if let Some(place) = at.and_then(|at| self.bytes.get_mut(at.ok()?)) {
            *place = place.wrapping_add(1);
        }
    }

    /// Puts a byte to a place of the buffer or beside it.
    pub fn write(&mut self, place: isize, byte: u8) {
        let at = place.checked_add_unsigned(GUARD).map(usize::try_from);
        if let Some(place) = at.and_then(|at| self.bytes.get_mut(at.ok()?)) {
            *place = byte;
        }
    }

    /// The first so many bytes of the buffer, if no other byte was written.
    pub fn front(&self, count: usize) -> Result<&[u8], String> {
        let end = self.bytes.len() - GUARD;
        let unwritten = |from: usize, to: usize| self.bytes[from..to] == self.rubbish[from..to];
        if !unwritten(0, GUARD) || !unwritten(end, self.bytes.len()) {
            return Err("memory beside the buffer was written".to_string());
        }
        let behind = GUARD + count.min(end - GUARD);
        let written = (behind..end).find(|&at| self.bytes[at] != self.rubbish[at]);
        match written {
            None => Ok(&self.bytes[GUARD..behind]),
            Some(at) => Err(format!("byte {} of the buffer was written", at - GUARD)),
        }
    }
}

/// Where rubbish comes from.
pub struct Rubbish(Vec<u8>);

const RUBBISH_BYTES: usize = 1 << 17;

impl Rubbish {
    pub fn new(random: &mut Random) -> Rubbish {
        Rubbish((0..RUBBISH_BYTES).map(|_| random.byte()).collect())
    }

    /// A buffer of so many bytes.
    pub fn memory(&self, random: &mut Random, length: usize) -> Memory {
        let bytes = GUARD + length + GUARD;
        let from = random.below(RUBBISH_BYTES - bytes);
        let rubbish = self.0[from..from + bytes].to_vec();
        Memory {
            bytes: rubbish.clone(),
            rubbish,
        }
    }
}

/// Longer than a number of sixteen bits, and then of any length up to 400.
const LARGE: usize = 1 << 16;

/// The length of a buffer: from 0 to 400, mostly with room for a page, often just on one side of the limit, seldom
/// large.
pub fn some_length(random: &mut Random) -> usize {
    match random.below(500) {
        0 => LARGE + random.below(401),
        1..=99 => random.below(401),
        100..=199 => random.pick(&[PAGE_BYTES - 1, PAGE_BYTES, PAGE_BYTES + 1]),
        _ => PAGE_BYTES + random.below(78),
    }
}

/// A MIP message without F0 and F7: some channels in any order, with values from 0 to P, to one more or to 127.
fn some_table(random: &mut Random, polyphony: u8) -> Vec<u8> {
    let mut channels: Vec<u8> = (0..16).collect();
    random.shuffle(&mut channels);
    channels.truncate(1 + random.below(16));
    let most = random.pick(&[polyphony, polyphony + 1, 127]);
    let mut some_value = || random.below(usize::from(most) + 1) as u8;
    let mut values: Vec<u8> = channels.iter().map(|_| some_value()).collect();
    values.sort_unstable();
    let mut table = vec![0x7F, 0x7F, 0x0B, 0x01];
    let pairs = channels.into_iter().zip(values);
    table.extend(pairs.flat_map(|(channel, value)| [channel, value]));
    table
}

/// Kinds of lines and buffers that a run must reach.
const KINDS: [&str; 20] = [
    "listed",
    "masked",
    "unlisted",
    "value 0",
    "value P",
    "value P + 1",
    "two-digit value",
    "three-digit value",
    "two-digit place",
    "two-digit share",
    "share 0",
    "two-digit count",
    "count of 64",
    "held and sustained",
    "busy and releasing",
    "releasing alone",
    "buffer of 322",
    "of 323",
    "of 400",
    "above 65,535",
];

/// What a run reached.
#[derive(Clone, Debug, Default)]
pub struct Reached {
    /// Of both sides, in the lists.
    pub pages: u64,
    pub refused: u64,
    /// One place for each of `KINDS`.
    kinds: [u64; KINDS.len()],
}

impl Reached {
    /// What never came.
    pub fn missing(&self) -> Vec<String> {
        let rows = KINDS.iter().zip(self.kinds);
        let missing = rows.filter(|row| row.1 == 0);
        missing.map(|row| format!("a page: {}", row.0)).collect()
    }

    /// How often each kind came, in words.
    pub fn words(&self) -> String {
        let rows = KINDS.iter().zip(self.kinds);
        let rows: Vec<String> = rows
            .map(|(kind, count)| format!("{kind} {count}"))
            .collect();
        rows.join(", ")
    }

    /// Counts the lines of a page, by the record that it shows.
    fn count_lines(&mut self, record: &Record) {
        let polyphony = record.polyphony;
        for channel in 0..16 {
            let entries = record.entries.as_slice();
            let at = entries.iter().position(|entry| entry.channel == channel);
            let value = at.map(|at| entries[at].value);
            let share = share_of(entries, polyphony, at);
            let has = |state| {
                record
                    .generators
                    .iter()
                    .any(|view| is(view, channel, state))
            };
            let (held, sustained) = (has(State::Held), has(State::Sustained));
            let (releasing, busy) = (has(State::Releasing), held || sustained);
            let busy_count = record.generators.iter().filter(|view| {
                is(view, channel, State::Held) || is(view, channel, State::Sustained)
            });
            let busy_count = busy_count.count();
            let of_line = [
                share.is_some(),
                at.is_some() && share.is_none(),
                at.is_none(),
                value == Some(0),
                value == Some(polyphony),
                value == Some(polyphony + 1),
                value.is_some_and(|value| (10..100).contains(&value)),
                value.is_some_and(|value| value >= 100),
                at.is_some_and(|at| at + 1 >= 10),
                share.is_some_and(|share| share >= 10),
                share == Some(0),
                busy_count >= 10,
                busy_count == 64,
                held && sustained,
                busy && releasing,
                !busy && releasing,
            ];
            let kinds = self.kinds.iter_mut().zip(of_line);
            kinds.for_each(|(count, reached)| *count += u64::from(reached));
        }
    }

    /// Counts the buffer.
    fn count_length(&mut self, length: usize) {
        let of_buffer = [
            length == PAGE_BYTES - 1,
            length == PAGE_BYTES,
            length == 400,
            length >= LARGE,
        ];
        let kinds = self.kinds[KINDS.len() - of_buffer.len()..].iter_mut();
        let kinds = kinds.zip(of_buffer);
        kinds.for_each(|(count, reached)| *count += u64::from(reached));
    }
}

/// The share at a place of the table, if the channel is listed there and unmasked.
fn share_of(entries: &[Entry], polyphony: u8, at: Option<usize>) -> Option<u8> {
    let at = at?;
    let before = if at == 0 { 0 } else { entries[at - 1].value };
    (entries[at].value <= polyphony).then(|| entries[at].value - before)
}

/// Is this a generator of the channel on the wire, in this state?
fn is(view: &GeneratorView, channel: u8, state: State) -> bool {
    view.state == state && view.channel == channel + 1
}

/// What compares pages in the middle of a list.
pub struct Pages {
    random: Random,
    rubbish: Rubbish,
    pub reached: Reached,
}

/// A page is compared after so many events: often enough to reach everything, seldom enough to take little time. No
/// length of a message has a part in common with it.
pub const EVERY: u64 = 97;

impl Pages {
    pub fn new(seed: u64) -> Pages {
        let mut random = Random::new(seed);
        Pages {
            rubbish: Rubbish::new(&mut random),
            random,
            reached: Reached::default(),
        }
    }

    /// Compares the pages of both sides, whose record is this and whose book is that, in a buffer of any length; every
    /// other time those of copies that have just taken another table.
    pub fn turn(
        &mut self,
        a: &mut impl Implementation,
        b: &mut impl Implementation,
        record: &Record,
        book: &Book,
    ) -> Result<(), String> {
        let length = some_length(&mut self.random);
        if self.random.one_in(2) {
            return self.compare(length, a, b, record, book);
        }
        let table = some_table(&mut self.random, record.polyphony);
        let (mut a, mut b, mut book) = (a.clone(), b.clone(), book.clone());
        let next = |what: String| format!("if the table {table:02X?} came next: {what}");
        let mut last = Answer::None;
        for byte in [&[0xF0], &table[..], &[0xF7]].concat() {
            last = same("answer", a.byte(byte), b.byte(byte)).map_err(next)?;
        }
        let record = same_record(&a, &b).map_err(next)?;
        book.message(&Message::SysEx(table.clone()), last);
        let found = self.compare(length, &mut a, &mut b, &record, &book);
        found.map_err(|what| format!("{what}, behind the table {table:02X?}"))
    }

    /// Compares the pages of both sides in a buffer that has room.
    pub fn with_room(
        &mut self,
        a: &mut impl Implementation,
        b: &mut impl Implementation,
        record: &Record,
        book: &Book,
    ) -> Result<(), String> {
        let length = PAGE_BYTES + self.random.below(78);
        self.compare(length, a, b, record, book)
    }

    fn compare(
        &mut self,
        length: usize,
        a: &mut impl Implementation,
        b: &mut impl Implementation,
        record: &Record,
        book: &Book,
    ) -> Result<(), String> {
        let mut memory_a = self.rubbish.memory(&mut self.random, length);
        let mut memory_b = self.rubbish.memory(&mut self.random, length);
        let (given_a, given_b) = (a.page(&mut memory_a), b.page(&mut memory_b));
        let found = same("page", given_a, given_b)
            .and_then(|answer| judge(length, answer, &memory_a, &memory_b));
        let page = found.map_err(|what| of_buffer(length, &what))?;
        self.reached.pages += 1;
        self.reached.count_length(length);
        let Some(page) = page else {
            self.reached.refused += 1;
            return Ok(());
        };
        self.reached.count_lines(record);
        sums_up(page, record)?;
        agrees_with_queries(page, a, b, record.polyphony)?;
        agrees_with_book(page, book)
    }
}

fn of_buffer(length: usize, what: &str) -> String {
    let what = what.strip_prefix("page: ").unwrap_or(what);
    format!("page: buffer of {length} bytes: {what}")
}

/// The page, if the buffer has room for one and both sides have written the same, and nothing else.
fn judge<'a>(
    length: usize,
    answer: Result<(), Number>,
    a: &'a Memory,
    b: &Memory,
) -> Result<Option<&'a [u8]>, String> {
    let expected = match length {
        0..PAGE_BYTES => Err(Number::PageTooShort),
        _ => Ok(()),
    };
    if answer != expected {
        return Err(format!("both sides answer {answer:?}"));
    }
    let count = if answer.is_ok() { PAGE_BYTES } else { 0 };
    let (page, other) = (a.front(count)?, b.front(count)?);
    match first_difference(page, other) {
        Some(what) => Err(what),
        None => Ok(answer.is_ok().then_some(page)),
    }
}

/// The first byte in which two pages differ, in its line.
fn first_difference(page: &[u8], other: &[u8]) -> Option<String> {
    if page.len() != other.len() {
        return Some(format!("{} bytes against {}", page.len(), other.len()));
    }
    let at = page.iter().zip(other).position(|(a, b)| a != b)?;
    let line = |page: &[u8]| {
        let bytes = page.chunks(LINE_BYTES).nth(at / LINE_BYTES);
        String::from_utf8_lossy(bytes.unwrap_or_default())
            .escape_debug()
            .to_string()
    };
    Some(format!(
        "byte {at}, \"{}\" against \"{}\"",
        line(page),
        line(other)
    ))
}

const LINE_BYTES: usize = 19;

/// The lines of the sixteen channels, without their ends.
fn rows(page: &[u8]) -> impl Iterator<Item = (u8, &[u8])> {
    let rows = page.chunks(LINE_BYTES).skip(1);
    (1..).zip(rows.map(|row| &row[..LINE_BYTES - 1]))
}

/// The counts of the sixteen channels come to the busy generators.
fn sums_up(page: &[u8], record: &Record) -> Result<(), String> {
    let count = |row: &[u8]| {
        let text = String::from_utf8_lossy(&row[16..]).trim().to_string();
        text.parse::<usize>()
            .map_err(|_| format!("page: {text:?} is no count"))
    };
    let mut sum = 0;
    for (_, row) in rows(page) {
        sum += count(row)?;
    }
    let states = record.generators.iter().map(|view| view.state);
    let busy = states.filter(|state| matches!(state, State::Held | State::Sustained));
    match (sum, busy.count()) {
        (sum, busy) if sum == busy => Ok(()),
        (sum, busy) => Err(format!(
            "page: its counts come to {sum}, and {busy} generators are busy"
        )),
    }
}

/// What the queries of both sides say of share, mask and generators, one by one, is what stands in the last three
/// columns.
fn agrees_with_queries(
    page: &[u8],
    a: &impl Implementation,
    b: &impl Implementation,
    polyphony: u8,
) -> Result<(), String> {
    let mut busy = [0; 256];
    for generator in 0..polyphony {
        let views = (a.generator(generator), b.generator(generator));
        let view = accepted(same("generator query", views.0, views.1)?)?;
        let is_busy = matches!(view.state, State::Held | State::Sustained);
        busy[usize::from(view.channel)] += u8::from(is_busy);
    }
    for (channel, row) in rows(page) {
        let masked = same("mask query", a.masked(channel), b.masked(channel))?;
        let share = same("share query", a.share(channel), b.share(channel))?;
        let share = match (accepted(masked)?, accepted(share)?) {
            (true, _) => "--- M".to_string(),
            (false, share) => format!("{share:3} -"),
        };
        let expected = format!("{channel:2}|{share} {:2}", busy[usize::from(channel)]);
        let shown = [&row[..2], b"|", &row[10..]].concat();
        if shown != expected.as_bytes() {
            let shown = String::from_utf8_lossy(&shown).escape_debug().to_string();
            return Err(format!(
                "page: {shown:?} on it, {expected:?} by the queries"
            ));
        }
    }
    Ok(())
}

/// What a query gave that must not be refused.
fn accepted<T>(answer: Result<T, Number>) -> Result<T, String> {
    answer.map_err(|number| format!("page: a query is refused by {number:?}"))
}

/// The whole page is that of the book: its notes, and its table with P.
fn agrees_with_book(page: &[u8], book: &Book) -> Result<(), String> {
    match first_difference(page, of_book(book).as_bytes()) {
        Some(what) => Err(format!("page: {what} by the book")),
        None => Ok(()),
    }
}

fn of_book(book: &Book) -> String {
    let mut page = String::from("CH PR VAL SHR M NT\n");
    for channel in 1..=16 {
        let mut table = book.table().iter().enumerate();
        let entry = table.find(|(_, entry)| entry.0 == channel - 1);
        let listed = match entry {
            Some((at, (_, value))) => format!("{:2} {value:3}", at + 1),
            None => "-- ---".to_string(),
        };
        let share = match book.share(channel - 1) {
            Some(share) => format!("{share:3} -"),
            None => "--- M".to_string(),
        };
        let busy = book.notes_of(channel - 1).count();
        let written = writeln!(page, "{channel:2} {listed} {share} {busy:2}");
        written.expect("a string takes everything");
    }
    page
}

/// "With length 0 the pointer to bytes is not looked at."
const ADDRESSES: [usize; 4] = [0, 1, 4097, usize::MAX];

/// Calls that lend no buffer, by pointers to nowhere; how many.
pub fn nowhere() -> Result<u64, String> {
    let mut calls = 0;
    for (polyphony, address) in (0..=255).flat_map(|p| ADDRESSES.map(|address| (p, address))) {
        let (mut lent, _) = library::start(polyphony, 0);
        match lent.page_nowhere(address) {
            Ok(Err(Number::PageTooShort)) => calls += 1,
            found => {
                return Err(format!(
                    "page: P {polyphony}, no buffer, pointer {address:#X}: {found:?}"
                ))
            }
        }
    }
    Ok(calls)
}

/// The page of a record that no start made, in the same buffer twice, with other rubbish: it means nothing, but it is a
/// page, the same one each time, and nothing else is written.
pub fn judge_rubbish(length: usize, number: u8, twice: [&Memory; 2]) -> Result<(), String> {
    let expected = if length < PAGE_BYTES { 18 } else { 0 };
    if number != expected {
        return Err(format!("number {number} for a buffer of {length} bytes"));
    }
    let count = if number == 0 { PAGE_BYTES } else { 0 };
    let [page, again] = [twice[0].front(count)?, twice[1].front(count)?];
    if let Some(what) = first_difference(page, again) {
        return Err(format!("{what} where the buffer held something else"));
    }
    let ends = |(at, &byte): (usize, &u8)| (byte == b'\n') == (at % LINE_BYTES == LINE_BYTES - 1);
    match page.iter().enumerate().all(ends) {
        true => Ok(()),
        false => Err(format!("no 17 lines, {:02X?}", page)),
    }
}

#[test]
fn the_book_of_a_fresh_device() {
    let page = of_book(&Book::fresh(24, 0, None));
    assert_eq!(page.len(), PAGE_BYTES);
    assert!(page.contains("\n 9 10  24   0 -  0\n10  1  24  24 -  0\n11 11  24   0 -  0\n"));
}
