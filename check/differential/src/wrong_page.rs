//! What can be wrong about a service page beside what stands in its columns (that is in `wrong`): its form, its number,
//! and what is written where. The page itself is the second implementation's.

use crate::library;
use crate::pages::Memory;
use crate::record::Given;
use paper::{Number, PAGE_BYTES};

const ROOM: usize = PAGE_BYTES;
/// The columns of a line below the head: channel, place, value, share, mark, count.
const COLUMNS: [std::ops::Range<usize>; 6] = [0..2, 3..5, 6..9, 10..13, 14..15, 16..18];
const NUMBERS: &[usize] = &[0, 1, 2, 3, 5];

#[derive(Clone, Copy)]
pub enum Slip {
    /// Is a buffer of this length refused?
    Refused(fn(usize) -> bool),
    LengthIgnored,
    /// The number instead of this one.
    Number(fn(u8) -> u8),
    /// What a refusal does with the page and the buffer, which must stay (R15.7), and where that ends.
    Left(fn(&[u8], &mut Memory, isize)),
    /// Where a byte of the page goes, by its place, in a buffer of this length.
    Put(fn(usize, u8, usize) -> Option<usize>),
    /// What is written beside the page.
    More(fn(&mut Memory, isize)),
    /// A byte of the page is one higher.
    Byte(usize),
    LineEnd(&'static str),
    /// All lines, the head first.
    Lines(fn(&mut Vec<String>)),
    /// Each line below the head.
    Row(fn(&str) -> String),
    /// Its fields, and what is between them.
    Fields(fn(&mut [String])),
    Between(&'static str),
    /// The fields of some columns, each alone.
    Field(&'static [usize], fn(&str) -> String),
}

#[rustfmt::skip]
pub const SLIPS: &[(&str, Slip)] = &[
    // The room for it.
    ("Buffer322Accepted", Slip::Refused(|length| length < ROOM - 1)),
    ("Buffer323Refused", Slip::Refused(|length| length <= ROOM)),
    ("RoomForTheCharactersAlone", Slip::Refused(|length| length < 17 * 18)),
    ("RoomForTheChannelsAlone", Slip::Refused(|length| length < 16 * 19)),
    ("AnyRoomWillDo", Slip::Refused(|_| false)),
    ("EmptyBufferAccepted", Slip::Refused(|length| length < ROOM && length > 0)),
    ("LongerBufferRefused", Slip::Refused(|length| length != ROOM)),
    ("LargeBufferRefused", Slip::Refused(|length| length < ROOM || length >= 1 << 16)),
    ("LengthInEightBits", Slip::Refused(|length| length % 256 < ROOM % 256)),
    ("LengthInSixteenBits", Slip::Refused(|length| length % (1 << 16) < ROOM)),
    ("LengthIgnored", Slip::LengthIgnored),
    // What it answers.
    ("RefusalUnnumbered", Slip::Number(|_| 0)),
    ("RefusedNumbered17", Slip::Number(|number| if number == 18 { 17 } else { number })),
    ("RefusedNumbered19", Slip::Number(|number| if number == 18 { 19 } else { number })),
    ("RefusedNumbered1", Slip::Number(|number| if number == 18 { 1 } else { number })),
    ("RefusedNumbered25", Slip::Number(|number| if number == 18 { 25 } else { number })),
    ("RefusedNumbered18InHexadecimal", Slip::Number(|number| if number == 18 { 0x18 } else { number })),
    ("AcceptedYetNumbered18", Slip::Number(|_| 18)),
    ("AcceptedYetNumbered1", Slip::Number(|number| if number == 0 { 1 } else { number })),
    // What a refusal leaves.
    ("FirstByteWrittenWhereRefused", Slip::Left(|_, memory, _| memory.change(0))),
    ("LastByteWrittenWhereRefused", Slip::Left(|_, memory, end| memory.change(end - 1))),
    ("ByteBeforeWrittenWhereRefused", Slip::Left(|_, memory, _| memory.change(-1))),
    ("ByteBehindWrittenWhereRefused", Slip::Left(|_, memory, end| memory.change(end))),
    ("BufferClearedWhereRefused", Slip::Left(|_, memory, _| memory.buffer().fill(0))),
    ("BufferBlankWhereRefused", Slip::Left(|_, memory, _| memory.buffer().fill(b' '))),
    ("PageCutToTheBuffer", Slip::Left(|page, memory, _| front(page, memory, ROOM))),
    ("PageCutToTheBufferAndAccepted", Slip::Refused(|_| false)),
    ("HeadWrittenWhereRefused", Slip::Left(|page, memory, _| front(page, memory, 19))),
    ("WholeLinesWrittenWhereRefused", Slip::Left(|page, memory, end| front(page, memory, end as usize / 19 * 19))),
    // What is written.
    ("Byte324Written", Slip::More(|memory, end| if end > 323 { memory.change(323) })),
    ("ZeroBehindThePage", Slip::More(|memory, end| if end > 323 { memory.write(323, 0) })),
    ("Byte324WrittenEvenBesideTheBuffer", Slip::More(|memory, _| memory.change(323))),
    ("RestCleared", Slip::More(|memory, _| memory.buffer()[ROOM..].fill(0))),
    ("RestBlank", Slip::More(|memory, _| memory.buffer()[ROOM..].fill(b' '))),
    ("LastByteOfTheBufferWritten", Slip::More(|memory, end| memory.change(end - 1))),
    ("ByteBeforeTheBufferWritten", Slip::More(|memory, _| memory.change(-1))),
    ("ByteBehindTheBufferWritten", Slip::More(|memory, end| memory.change(end))),
    ("FarByteBeforeWritten", Slip::More(|memory, _| memory.change(-1024))),
    ("FarByteBehindWritten", Slip::More(|memory, end| memory.change(end + 1023))),
    ("NothingWritten", Slip::Put(|_, _, _| None)),
    ("FirstByteMissing", Slip::Put(|at, _, _| (at != 0).then_some(at))),
    ("LastByteMissing", Slip::Put(|at, _, _| (at + 1 != ROOM).then_some(at))),
    ("BlanksNotWritten", Slip::Put(|at, byte, _| (byte != b' ').then_some(at))),
    ("DashesNotWritten", Slip::Put(|at, byte, _| (byte != b'-').then_some(at))),
    ("LineEndsNotWritten", Slip::Put(|at, byte, _| (byte != b'\n').then_some(at))),
    ("HeadNotWritten", Slip::Put(|at, _, _| (at >= 18).then_some(at))),
    ("LastLineNotWritten", Slip::Put(|at, _, _| (at < 16 * 19).then_some(at))),
    ("PageOneByteLater", Slip::Put(|at, _, _| Some(at + 1))),
    ("PageAtTheEndOfTheBuffer", Slip::Put(|at, _, length| Some(at + length - ROOM))),
    // Lines.
    ("LineEnd0D", Slip::LineEnd("\r")),
    ("LineEnd0D0A", Slip::LineEnd("\r\n")),
    ("LineEnd0A0D", Slip::LineEnd("\n\r")),
    ("LineEnd00", Slip::LineEnd("\0")),
    ("LineEndBlank", Slip::LineEnd(" ")),
    ("LastLineUnended", Slip::More(|memory, _| memory.write(322, b' '))),
    ("EmptyLineAtTheEnd", Slip::Lines(|lines| lines.push(String::new()))),
    ("LineEndsBetweenLinesAlone", Slip::Put(|at, _, _| (at + 1 < ROOM).then_some(at))),
    ("NineteenCharacters", Slip::Row(|row| format!("{row} "))),
    ("SeventeenCharacters", Slip::Row(|row| row[1..].to_string())),
    ("BlankAtTheFront", Slip::Row(|row| format!(" {}", &row[..17]))),
    ("NoHead", Slip::Lines(|lines| drop(lines.remove(0)))),
    ("HeadLast", Slip::Lines(|lines| lines.rotate_left(1))),
    ("HeadInSmallLetters", Slip::Lines(|lines| lines[0].make_ascii_lowercase())),
    ("HeadWithoutBlanks", Slip::Lines(|lines| lines[0] = format!("{:<18}", lines[0].replace(' ', "")))),
    ("HeadOfPolyphony", Slip::Lines(|lines| lines[0] = lines[0].replace("VAL", "POL"))),
    ("HeadWithWhoLosesFirst", Slip::Lines(|lines| lines[0] = lines[0].replace("CH PR", "PR CH"))),
    ("LineUnderTheHead", Slip::Lines(|lines| lines.insert(1, "-".repeat(18)))),
    // Columns.
    ("PlaceAndValueSwapped", Slip::Fields(|fields| fields.swap(1, 2))),
    ("ValueAndShareSwapped", Slip::Fields(|fields| fields.swap(2, 3))),
    ("MarkAndCountSwapped", Slip::Fields(|fields| fields.swap(4, 5))),
    ("CountBeforeTheMark", Slip::Fields(|fields| fields[3..].rotate_right(1))),
    ("TabsBetween", Slip::Between("\t")),
    ("CommasBetween", Slip::Between(",")),
    ("LinesBetweenColumns", Slip::Between("|")),
    ("AllLeftAligned", Slip::Field(NUMBERS, left)),
    ("ChannelLeftAligned", Slip::Field(&[0], left)),
    ("PlaceLeftAligned", Slip::Field(&[1], left)),
    ("ValueLeftAligned", Slip::Field(&[2], left)),
    ("ShareLeftAligned", Slip::Field(&[3], left)),
    ("CountLeftAligned", Slip::Field(&[5], left)),
    ("AllCentred", Slip::Field(NUMBERS, |field| format!("{:^1$}", field.trim(), field.len()))),
    ("AllZeroPadded", Slip::Field(NUMBERS, zeros)),
    ("ChannelZeroPadded", Slip::Field(&[0], zeros)),
    ("PlaceZeroPadded", Slip::Field(&[1], zeros)),
    ("ValueZeroPadded", Slip::Field(&[2], zeros)),
    ("ShareZeroPadded", Slip::Field(&[3], zeros)),
    ("CountZeroPadded", Slip::Field(&[5], zeros)),
    ("AllInHexadecimal", Slip::Field(NUMBERS, hexadecimal)),
    ("ChannelInHexadecimal", Slip::Field(&[0], hexadecimal)),
    ("ValueInHexadecimal", Slip::Field(&[2], hexadecimal)),
    ("DigitsBackward", Slip::Field(NUMBERS, |field| {
        format!("{:>1$}", field.trim().chars().rev().collect::<String>(), field.len())
    })),
    ("OneDash", Slip::Field(&[1, 2, 3], |field| nothing(field, &format!("{:>1$}", "-", field.len())))),
    ("OneDashLeft", Slip::Field(&[1, 2, 3], |field| nothing(field, &format!("{:<1$}", "-", field.len())))),
    ("TwoDashes", Slip::Field(&[1, 2, 3], |field| nothing(field, &format!("{:>1$}", "--", field.len())))),
    ("BlanksForNothing", Slip::Field(&[1, 2, 3], |field| nothing(field, &field.replace('-', " ")))),
    ("ZeroForNothing", Slip::Field(&[1, 2, 3], |field| nothing(field, &format!("{:>1$}", 0, field.len())))),
    ("UnderscoresForNothing", Slip::Field(&[1, 2, 3], |field| nothing(field, &field.replace('-', "_")))),
    ("PlaceOfUnlistedBlank", Slip::Field(&[1], |field| nothing(field, "  "))),
    ("ValueOfUnlistedBlank", Slip::Field(&[2], |field| nothing(field, "   "))),
    ("Count0Blank", Slip::Field(&[5], |field| if field == " 0" { "  " } else { field }.to_string())),
    ("CountAsAMark", Slip::Field(&[5], |field| if field == " 0" { "  " } else { " *" }.to_string())),
    // Channels.
    ("ChannelsByPriority", Slip::Lines(|lines| lines[1..].sort_by_key(|row| row[3..5].trim().parse().unwrap_or(17)))),
    ("ChannelsByFallingChannel", Slip::Lines(|lines| lines[1..].reverse())),
    ("DrumsFirst", Slip::Lines(|lines| lines[1..=10].rotate_right(1))),
    ("ChannelsOneLineLater", Slip::Lines(|lines| lines[1..].rotate_right(1))),
    ("UnlistedLineEmpty", Slip::Row(|row| if &row[3..5] == "--" { " ".repeat(18) } else { row.to_string() })),
];

/// Writes so many bytes of the page, if the buffer has them.
fn front(page: &[u8], memory: &mut Memory, most: usize) {
    let count = memory.buffer().len().min(most);
    memory.buffer()[..count].copy_from_slice(&page[..count]);
}

fn left(field: &str) -> String {
    format!("{:<1$}", field.trim(), field.len())
}

fn zeros(field: &str) -> String {
    field.replace(' ', "0")
}

fn hexadecimal(field: &str) -> String {
    let number = field.trim().parse::<u8>();
    number.map_or(field.to_string(), |number| {
        format!("{number:>0$X}", field.len())
    })
}

/// This in place of a field without a number.
fn nothing(field: &str, other: &str) -> String {
    if field.starts_with('-') { other } else { field }.to_string()
}

impl Slip {
    /// The page of a device, written by this slip.
    pub fn write(self, device: &wrong::Device, memory: &mut Memory) -> Given<Result<(), Number>> {
        let page = self.page(device);
        let length = memory.buffer().len();
        let refused = match self {
            Slip::Refused(refused) => refused(length),
            Slip::LengthIgnored => false,
            _ => length < ROOM,
        };
        let number = if refused {
            Number::PageTooShort as u8
        } else {
            0
        };
        match self {
            Slip::Left(left) if refused => left(&page, memory, length as isize),
            _ if refused => {}
            _ => self.put(&page, memory),
        }
        library::page_of(match self {
            Slip::Number(other) => other(number),
            _ => number,
        })
    }

    fn put(self, page: &[u8], memory: &mut Memory) {
        let length = memory.buffer().len();
        for (at, &byte) in page.iter().enumerate() {
            let place = match self {
                Slip::Put(put) => put(at, byte, length),
                _ => Some(at),
            };
            let cut = |place: &usize| *place < length || matches!(self, Slip::LengthIgnored);
            if let Some(place) = place.filter(cut) {
                memory.write(place as isize, byte);
            }
        }
        if let Slip::More(more) = self {
            more(memory, length as isize);
        }
    }

    /// The page as it is by this slip.
    fn page(self, device: &wrong::Device) -> Vec<u8> {
        let mut page = [0; ROOM];
        let _ = device.page(&mut page);
        if let Slip::Byte(at) = self {
            page[at] = page[at].wrapping_add(1);
            return page.to_vec();
        }
        let text = String::from_utf8_lossy(&page);
        let mut lines: Vec<String> = text.lines().map(str::to_string).collect();
        lines[1..].iter_mut().for_each(|row| *row = self.row(row));
        if let Slip::Lines(change) = self {
            change(&mut lines);
        }
        let end = match self {
            Slip::LineEnd(end) => end,
            _ => "\n",
        };
        lines
            .iter()
            .flat_map(|line| format!("{line}{end}").into_bytes())
            .collect()
    }

    fn row(self, row: &str) -> String {
        let mut fields = COLUMNS.map(|column| row[column].to_string());
        match self {
            Slip::Row(change) => return change(row),
            Slip::Fields(change) => change(&mut fields),
            Slip::Field(columns, change) => columns
                .iter()
                .for_each(|&at| fields[at] = change(&fields[at])),
            _ => {}
        }
        fields.join(match self {
            Slip::Between(between) => between,
            _ => " ",
        })
    }
}
