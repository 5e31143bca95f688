//! What some faults need that paper does not have.

use crate::answer::Number;
use crate::generators::Generators;
use crate::{Device, Event, GeneratorView, Parser, Progress, State};

/// The number of a MIP message whose pairs are judged by number 7 all, then by 8, then by 9.
pub fn kind_by_kind(pairs: &[u8]) -> Option<Number> {
    let pairs: Vec<&[u8]> = pairs.chunks_exact(2).collect();
    let any = |wrong: &dyn Fn(usize) -> bool| (0..pairs.len()).any(wrong);
    if any(&|at| pairs[at][0] > 15) {
        return Some(Number::MipChannelAbove15);
    }
    if any(&|at| pairs[..at].iter().any(|pair| pair[0] == pairs[at][0])) {
        return Some(Number::MipChannelTwice);
    }
    let falls = any(&|at| at > 0 && pairs[at][1] < pairs[at - 1][1]);
    falls.then_some(Number::MipValueFalls)
}

/// The keys that a channel on the wire holds, but for the one that came last.
pub fn held_before_the_newest(generators: &Generators, channel: u8) -> Vec<u8> {
    let views = generators.oldest_first().map(|g| generators.view(g));
    let held = views.filter(|view| view.state == State::Held && view.channel == channel + 1);
    let mut keys: Vec<u8> = held.map(|view| view.key).collect();
    keys.pop();
    keys
}

/// The oldest busy generator of a channel on the wire, sustained or held.
pub fn oldest_busy(generators: &Generators, channel: u8) -> Option<u8> {
    let mut oldest_first = generators.oldest_first();
    oldest_first.find(|&g| {
        let view = generators.view(g);
        view.channel == channel + 1 && view.state != State::Releasing
    })
}

/// The oldest sustained generator of those channels on the wire that count.
pub fn oldest_sustained(generators: &Generators, counts: impl Fn(u8) -> bool) -> Option<u8> {
    let mut oldest_first = generators.oldest_first();
    oldest_first.find(|&g| {
        let view = generators.view(g);
        view.state == State::Sustained && counts(view.channel - 1)
    })
}

/// Are these drum keys of one exclusive group?
pub fn same_group(key: u8, other: u8) -> bool {
    crate::drums::group(key).is_some() && crate::drums::group(key) == crate::drums::group(other)
}

/// A weight before it is rounded (R12.4), at any place.
pub fn sine(place: f64) -> f64 {
    32768.0 * (std::f64::consts::PI * place / 252.0).sin()
}

/// The starting order, from 1.
pub const STARTING: [u8; 16] = [10, 1, 2, 3, 4, 5, 6, 7, 8, 9, 11, 12, 13, 14, 15, 16];

/// The first sixteen channels of an order if it is accepted; 0 where there are none, but the missing one of fifteen.
pub fn sixteen(order: &[u8], accepted: bool) -> Option<[u8; 16]> {
    let missing = (1..=16)
        .find(|channel| !order.contains(channel))
        .filter(|_| order.len() == 15);
    accepted
        .then(|| std::array::from_fn(|place| order.get(place).copied().or(missing).unwrap_or(0)))
}

/// Is each channel there once?
pub fn once(order: &[u8]) -> bool {
    (0..order.len()).all(|place| !order[..place].contains(&order[place]))
}

/// A line without this byte.
pub fn without(line: &[u8], byte: u8) -> Vec<u8> {
    line.iter()
        .copied()
        .filter(|&other| other != byte)
        .collect()
}

pub fn digits(line: &[u8]) -> Vec<u8> {
    line.iter().copied().filter(u8::is_ascii_digit).collect()
}

/// A number without leading zeros, of any size that matters.
pub fn number(digits: &[u8]) -> Option<u128> {
    let right = (1..=30).contains(&digits.len()) && digits.iter().all(u8::is_ascii_digit);
    let number = digits.iter().fold(0, |number, digit| {
        10 * number + u128::from(digit.wrapping_sub(b'0'))
    });
    (right && (digits[0] != b'0' || digits.len() == 1)).then_some(number)
}

/// Does this byte end a SysEx of these bytes?
pub fn ends(device: &Device, event: Event, bytes: &[u8]) -> bool {
    let parser = device.parser();
    event == Event::Byte(0xF7)
        && parser.progress() == Progress::SysEx
        && parser.sysex().kept() == bytes
}

/// Is the last SysEx a MIP message for P 64 and ID 0?
pub fn is_mip(parser: &Parser) -> bool {
    matches!(parser.sysex().kept(), [0x7F, 0x7F | 0, 0x0B, 0x01, ..])
}

/// Is one of so many bytes under way behind the event, or does one end?
pub fn mip_under_way(device: &Device, event: Event, bytes: usize) -> bool {
    let mut after = *device;
    if let Event::Byte(byte) = event {
        after.byte(byte);
    }
    let open = |parser: &Parser| parser.progress() == Progress::SysEx && is_mip(parser);
    let long = after.parser().sysex().kept().len() >= bytes;
    open(after.parser()) && long || event == Event::Byte(0xF7) && open(device.parser())
}

pub fn is_busy(device: &Device, generator: u8) -> bool {
    device
        .generator(generator)
        .is_ok_and(|view| matches!(view.state, State::Held | State::Sustained))
}

pub fn is_idle(device: &Device, generator: u8) -> bool {
    device
        .generator(generator)
        .is_ok_and(|view| view.state == State::Idle)
}

/// How many generators of a channel, from 1, are counted by this rule.
pub fn count(device: &Device, channel: u8, counts: impl Fn(GeneratorView, u8) -> bool) -> u8 {
    let of_channel = |&g: &u8| {
        device
            .generator(g)
            .is_ok_and(|view| view.channel == channel && counts(view, g))
    };
    (0..64).filter(of_channel).count() as u8
}

/// How many generators of a channel, from 1, are busy; none of a channel that there is not.
pub fn busy(device: &Device, channel: u8) -> u8 {
    match channel {
        1..=16 => device.busy_count(channel - 1),
        _ => 0,
    }
}

/// The byte of a song at this place if these bytes come first.
pub fn behind(first: &[u8], place: usize, song: fn(usize) -> u8) -> u8 {
    match first.get(place) {
        Some(byte) => *byte,
        None => song(place - first.len()),
    }
}

/// The same if so many drums come first, of keys in no group.
pub fn behind_drums(drums: u8, place: usize, song: fn(usize) -> u8) -> u8 {
    let drums = (0..drums).flat_map(|drum| [82 + drum % 46, 0x40]);
    behind(
        &[0x99].into_iter().chain(drums).collect::<Vec<u8>>(),
        place,
        song,
    )
}

/// The value at a place of the table, from 0; 0 where there is none.
pub fn value(device: &Device, place: i16) -> u8 {
    let entry = usize::try_from(place)
        .ok()
        .and_then(|place| device.table().entries().get(place));
    entry.map_or(0, |entry| entry.value)
}

/// The value before that of a place, from 1; 0 before the first.
pub fn before(device: &Device, place: u8) -> u8 {
    value(device, i16::from(place) - 2)
}

/// The value of a channel on the wire; 0 if it is not listed.
pub fn value_of_channel(device: &Device, wire: u8) -> u8 {
    let entry = device
        .table()
        .entries()
        .iter()
        .find(|entry| entry.channel == wire);
    entry.map_or(0, |entry| entry.value)
}
