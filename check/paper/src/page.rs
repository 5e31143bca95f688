//! The service page, the state of a device as text (R15.1 to R15.7).

use crate::answer::Number;
use crate::device::Device;

/// R15.1: the page's lines, the characters of each, and what ends it.
const LINES: usize = 17;
const CHARACTERS: usize = 18;
const LINE_END: u8 = 0x0A;
const LINE_BYTES: usize = CHARACTERS + 1;
/// R15.1: 323.
pub const PAGE_BYTES: usize = LINES * LINE_BYTES;

/// R15.2: the first line; below it stand the columns of every other one.
const HEAD: &[u8; CHARACTERS] = b"CH PR VAL SHR M NT";

/// R15.6: what fills a field without a number.
const NOTHING: u8 = b'-';

impl Device {
    /// Writes the page to the front of the buffer and nothing behind it, nor anything to a shorter one (R15.7).
    pub fn page(&self, buffer: &mut [u8]) -> Result<(), Number> {
        let Some(page) = buffer.first_chunk_mut::<PAGE_BYTES>() else {
            return Err(Number::PageTooShort);
        };
        let mut listed = [None; 16];
        for (place, entry) in (1..).zip(self.table().entries()) {
            listed[usize::from(entry.channel)] = Some((place, entry.value));
        }
        let (head, rows) = page.split_at_mut(LINE_BYTES);
        head[..CHARACTERS].copy_from_slice(HEAD);
        head[CHARACTERS] = LINE_END;
        for (wire, row) in (0..).zip(rows.chunks_exact_mut(LINE_BYTES)) {
            self.row(wire, listed[usize::from(wire)], row);
        }
        Ok(())
    }

    /// The line of a channel on the wire, with its place and value if it is listed.
    fn row(&self, wire: u8, listed: Option<(u8, u8)>, row: &mut [u8]) {
        let share = self.table().share(wire);
        row.fill(b' ');
        put(&mut row[0..2], Some(wire + 1));
        put(&mut row[3..5], listed.map(|(place, _)| place));
        put(&mut row[6..9], listed.map(|(_, value)| value));
        put(&mut row[10..13], share);
        row[14] = if share.is_none() { b'M' } else { b'-' };
        put(&mut row[16..18], Some(self.busy_count(wire)));
        row[CHARACTERS] = LINE_END;
    }
}

/// R15.4: a number ends where its field ends; the blanks are there already.
fn put(field: &mut [u8], number: Option<u8>) {
    let Some(mut left) = number else {
        field.fill(NOTHING);
        return;
    };
    for digit in field.iter_mut().rev() {
        *digit = b'0' + left % 10;
        left /= 10;
        if left == 0 {
            break;
        }
    }
}
