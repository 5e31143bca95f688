//! The logs that both sides are given, each with an order and with the places where it is cut into parts.

use crate::lists::{self, pick_weighted};
use crate::log_lines::{line, wrong_line, Musician};
use random::Random;

#[derive(Clone, Copy, Debug, PartialEq, Eq)]
pub enum Kind {
    Empty,
    /// Chords on many channels, pedals, System On, reports; and SysEx that is nearly a MIP message.
    Music,
    /// Music, what spoils it, and more music.
    Spoilt,
    /// Music with a line of another form in it, or two, at any place.
    OtherForm,
    /// Both, one after the other.
    SpoiltAndOtherForm,
    /// Music with a last line that does not end.
    Unended,
    /// Music with CR LF, everywhere or once.
    CarriageReturns,
    /// The events of a list for the comparison of bytes and reports.
    List,
    /// Bytes of the lines' letters, and any bytes.
    Noise,
    /// So much music that it has thousands of lines, or so much that a number of 16 bits does not reach.
    Long,
    Longest,
    /// A single line, every one that may be taken for a right one.
    OneLine,
    /// Orders, on both sides of every limit.
    Order,
}

const KINDS: &[(usize, Kind)] = &[
    (2, Kind::Empty),
    (34, Kind::Music),
    (20, Kind::Spoilt),
    (16, Kind::OtherForm),
    (8, Kind::SpoiltAndOtherForm),
    (8, Kind::Unended),
    (4, Kind::CarriageReturns),
    (12, Kind::List),
    (4, Kind::Noise),
];
const LONG_EVERY: u64 = 400;
/// One of four long logs has more bytes than 16 bits can count, in one part.
const LONGEST_EVERY: u64 = 1600;
/// A line that is longer than that.
const LONG_LINE_EVERY: u64 = 1900;

#[derive(Clone, Debug)]
pub struct Log {
    pub kind: Kind,
    pub order: Vec<u8>,
    pub bytes: Vec<u8>,
    /// How long each part is; together they are the log.
    pub parts: Vec<usize>,
    /// So many lines came before, none of which changed anything: mostly none.
    pub behind: u64,
}

/// Counts of lines just before a narrower number ends, and before the widest does.
const BEHIND: [u64; 7] = [
    254,
    65_534,
    (1 << 31) - 1,
    (1 << 32) - 2,
    u64::MAX - 30,
    u64::MAX - 1,
    u64::MAX,
];

impl Log {
    /// The random log with this number in its run, counted from 1.
    pub fn random(random: &mut Random, number: u64) -> Log {
        let kind = match (number % LONGEST_EVERY, number % LONG_EVERY) {
            (LONG_EVERY, _) => Kind::Longest,
            (_, 0) => Kind::Long,
            _ => pick_weighted(random, KINDS),
        };
        let mut bytes = lines_of(random, kind);
        if number % LONG_LINE_EVERY == LONG_EVERY + 1 {
            let at = random.below(bytes.len() + 1);
            bytes.splice(at..at, [b'0'; 70_000]);
        }
        let behind = match random.below(40) {
            0 => random.pick(&BEHIND),
            _ => 0,
        };
        Log {
            kind,
            order: match kind {
                Kind::Longest => by_number(),
                _ => some_order(random),
            },
            parts: match kind {
                Kind::Longest => vec![bytes.len()],
                _ => parts(random, &bytes),
            },
            bytes,
            behind: if kind == Kind::Longest { 0 } else { behind },
        }
    }

    /// A log in one part.
    fn whole(kind: Kind, order: Vec<u8>, bytes: &[u8]) -> Log {
        Log {
            kind,
            order,
            bytes: bytes.to_vec(),
            parts: vec![bytes.len()],
            behind: 0,
        }
    }
}

fn lines_of(random: &mut Random, kind: Kind) -> Vec<u8> {
    let length = random.pick(&[0, 1, 3, 8, 8, 20, 20, 50, 50, 100, 200]);
    match kind {
        Kind::Empty => Vec::new(),
        Kind::List => list(random, length),
        Kind::Noise => noise(random, length),
        Kind::OtherForm => {
            let music = music(random, length);
            with_wrong_lines(random, music)
        }
        Kind::SpoiltAndOtherForm => {
            let spoilt = spoilt(random, length.min(50));
            with_wrong_lines(random, spoilt)
        }
        Kind::Unended => {
            let mut music = music(random, length + 1);
            music.truncate(music.len() - 1 - random.below(6).min(music.len() - 1));
            music
        }
        Kind::CarriageReturns => {
            let music = music(random, length);
            let seldom = random.pick(&[1, 1, 10]);
            with_carriage_returns(random, &music, seldom)
        }
        Kind::Long => music(random, 2000),
        Kind::Longest => music(random, 15_000),
        Kind::Spoilt => spoilt(random, length),
        Kind::Music | Kind::OneLine | Kind::Order => music(random, length),
    }
}

fn music(random: &mut Random, length: usize) -> Vec<u8> {
    let mut musician = Musician::new(random);
    musician.phrases(length);
    musician.log
}

fn spoilt(random: &mut Random, length: usize) -> Vec<u8> {
    let mut musician = Musician::new(random);
    musician.phrases(length);
    musician.spoil();
    musician.phrases(length.min(30));
    let mut log = musician.log;
    // At times a line does not end, behind what spoils the log or at it.
    if random.one_in(4) {
        log.truncate(log.len().saturating_sub(1 + random.below(5)));
    }
    log
}

fn list(random: &mut Random, length: usize) -> Vec<u8> {
    let kinds = [
        lists::Kind::Noise,
        lists::Kind::Playing,
        lists::Kind::Pedals,
        lists::Kind::Tables,
        lists::Kind::Faults,
        lists::Kind::Song,
        lists::Kind::Thefts,
        lists::Kind::SecondDrums,
    ];
    let kind = random.pick(&kinds);
    let mut events = lists::events(random, kind, 1 + 3 * length, (64, 0));
    events.truncate(3 * length);
    events
        .into_iter()
        .flat_map(|event| line(event).into_bytes())
        .collect()
}

fn noise(random: &mut Random, length: usize) -> Vec<u8> {
    let letters: &[u8] = random.pick(&[
        b"be,0123456789\n\n".as_slice(),
        b"b,1\n".as_slice(),
        b"e,6\n3".as_slice(),
    ]);
    let any = random.one_in(4);
    let byte = |_| match any {
        true => random.byte(),
        false => random.pick(letters),
    };
    (0..6 * length).map(byte).collect()
}

/// A line of another form in the first place, the last one or anywhere; at times a second one.
fn with_wrong_lines(random: &mut Random, mut log: Vec<u8>) -> Vec<u8> {
    for _ in 0..1 + random.below(2) {
        let line_ends = log.iter().enumerate().filter(|(_, &byte)| byte == b'\n');
        let starts: Vec<usize> = [0]
            .into_iter()
            .chain(line_ends.map(|(at, _)| at + 1))
            .collect();
        let at = match random.below(4) {
            0 => 0,
            1 => log.len(),
            _ => random.pick(&starts),
        };
        log.splice(at..at, wrong_line(random));
    }
    log
}

/// A CR before each LF, or before one of so many.
fn with_carriage_returns(random: &mut Random, log: &[u8], seldom: usize) -> Vec<u8> {
    let mut written = Vec::new();
    for &byte in log {
        if byte == b'\n' && random.one_in(seldom) {
            written.push(b'\r');
        }
        written.push(byte);
    }
    written
}

/// Lengths of parts that come to the whole.
fn parts(random: &mut Random, bytes: &[u8]) -> Vec<usize> {
    if random.one_in(5) {
        return vec![bytes.len()];
    }
    let short = if bytes.len() <= 1000 { 1 } else { 200 };
    let longest = random.pick(&[1, 2, 8, 40, 300, 5000]).max(short);
    let (mut parts, mut left) = (Vec::new(), bytes.len());
    while left > 0 {
        let part = match random.below(8) {
            0 => 0,
            _ => 1 + random.below(longest),
        };
        parts.push(part.min(left));
        left -= part.min(left);
    }
    parts.extend(vec![0; random.below(2)]);
    parts
}

/// Channels 1 to 16 by number.
fn by_number() -> Vec<u8> {
    (1..=16).collect()
}

/// Mostly right.
fn some_order(random: &mut Random) -> Vec<u8> {
    let mut order = by_number();
    random.shuffle(&mut order);
    match random.below(24) {
        0 => order[random.below(16)] = random.pick(&[0, 17, 32, 128, 255]),
        1 => order[random.below(16)] = 1 + random.below(16) as u8,
        2 => {
            let more = random.below(21);
            order = order.into_iter().cycle().take(more).collect();
        }
        3 => order = (0..random.below(21)).map(|_| random.byte()).collect(),
        _ => {}
    }
    order
}

/// Logs that stand for all cases of orders and of lines; each is tried once in a run.
pub fn fixed() -> impl Iterator<Item = Log> {
    let of_orders = orders()
        .flat_map(|order| ORDERED.map(|bytes| Log::whole(Kind::Order, order.clone(), bytes)));
    let of_lines = lines().map(|mut line| {
        line.push(b'\n');
        Log::whole(Kind::OneLine, by_number(), &line)
    });
    // More lines than 16 bits can count.
    let many = b"b,248\n".repeat(65_600);
    let many = Log::whole(Kind::Longest, by_number(), &many);
    of_orders.chain([many]).chain(of_lines)
}

/// What is given with each order: a right log, one of another form, a spoilt one and one that does not end.
const ORDERED: [&[u8]; 4] = [
    b"b,144\nb,60\nb,64\nb,145\nb,60\nb,64\n",
    b"b,256\n",
    b"b,240\nb,127\nb,127\nb,11\nb,1\nb,247\n",
    b"b,1",
];

fn orders() -> impl Iterator<Item = Vec<u8>> {
    let long = [32, 255, 256, 272, 65_536, 65_552].map(|length| {
        let again = by_number().into_iter().cycle();
        again.take(length).collect()
    });
    let turned = (0..16).map(|by| {
        let mut order = by_number();
        order.rotate_left(by);
        order.reverse();
        order
    });
    let cut = (0..=20).flat_map(orders_of);
    let other = (0..16).flat_map(with_another);
    cut.chain(long).chain(other).chain(balanced()).chain(turned)
}

/// Orders of up to 20 channels: rising ones, those that begin anew, the wire's numbers, and one channel again and
/// again.
fn orders_of(length: usize) -> [Vec<u8>; 4] {
    let up_to = |from: u8| (from..).take(length).collect();
    let again = by_number().into_iter().cycle().take(length).collect();
    [up_to(1), again, up_to(0), vec![7; length]]
}

/// All channels but for another number in one place.
fn with_another(at: usize) -> impl Iterator<Item = Vec<u8>> {
    let channel = at as u8 + 1;
    let beyond = [0, 17, 18, 31, 127, 128, 255];
    let less_bits = [channel + 16, channel + 32, channel + 128];
    let others = beyond.into_iter().chain(less_bits).chain(1..=16);
    others.map(move |other| {
        let mut order = by_number();
        order[at] = other;
        order
    })
}

/// Orders that are wrong in four places and have the right sum.
fn balanced() -> [Vec<u8>; 2] {
    [(1, 2, 15, 14), (0, 15, 3, 12)].map(|(up, down, up_too, down_too)| {
        let mut order = by_number();
        (order[up], order[down]) = (order[up] + 1, order[down] - 1);
        (order[up_too], order[down_too]) = (order[up_too] - 1, order[down_too] + 1);
        order
    })
}

/// Lines that are right or nearly so, without their ends.
fn lines() -> impl Iterator<Item = Vec<u8>> {
    const LETTERS: &[u8] = b"be,0123569 ";
    let numbers = (0..=1100).flat_map(|n| [format!("b,{n}"), format!("e,{n}")]);
    let zeros = (0..=300).flat_map(|n| [format!("b,0{n}"), format!("e,0{n}"), format!("b,00{n}")]);
    let far = [
        "b,65536",
        "b,65680",
        "b,4294967440",
        "e,65536",
        "e,4294967296",
        "b,18446744073709551760",
        "b,-0",
        "b,-1",
        "b,1e1",
    ];
    // Right from a place on at which a line could be forgotten.
    let late = [7, 8, 255, 256].map(|before| "0".repeat(before) + "b,144");
    let written = numbers.chain(zeros).chain(far.map(str::to_string));
    let written = written.chain(late);
    let short = (0..=4u32).flat_map(|length| {
        let base = LETTERS.len();
        (0..base.pow(length)).map(move |number| {
            let letter = |place| LETTERS[number / base.pow(place) % base];
            (0..length).map(letter).collect()
        })
    });
    let near = [b"b,144".as_slice(), b"b,9", b"e,63", b"e,7", b"b,255"].into_iter();
    let near = near.flat_map(|line| (0..=line.len()).map(move |at| (line, at)));
    let near =
        near.flat_map(|(line, at)| (0..=255).flat_map(move |byte| near_lines(line, at, byte)));
    written.map(String::into_bytes).chain(short).chain(near)
}

/// A right line with this byte put in, or in place of another, and cut there; 0AH would be its end.
fn near_lines(line: &[u8], at: usize, byte: u8) -> impl Iterator<Item = Vec<u8>> {
    let more = [&line[..at], &[byte], &line[at..]].concat();
    let instead = [&line[..at], &[byte], line.get(at + 1..).unwrap_or_default()].concat();
    let both = [more, instead].into_iter();
    both.filter(move |_| byte != b'\n')
}
