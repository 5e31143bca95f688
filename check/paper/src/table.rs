//! The MIP table: who is masked, what each channel's share is, and how a message's pairs are judged.
//!
//! Channels are wire numbers here, 0 to 15.

use crate::answer::Number;
use crate::parser::PAIR_BYTES;

/// One pair *mm vv* of a MIP message.
#[derive(Clone, Copy, Debug, Default, PartialEq, Eq)]
pub struct Entry {
    /// The channel minus 1.
    pub channel: u8,
    /// R2.1: what this channel and all before it need together.
    pub value: u8,
}

/// The share of a channel that has none.
const MASKED: u8 = 255;

#[derive(Clone, Copy, Debug)]
pub struct Table {
    entries: [Entry; 16],
    length: u8,
    /// How many entries, from the first, are unmasked: values never fall, so these are all.
    unmasked: u8,
    /// The share of each channel, or `MASKED`: what the entries say, worked out once for each table.
    shares: [u8; 16],
}

impl Table {
    /// The starting table (R2.6): all sixteen channels with value P.
    pub(crate) fn starting(polyphony: u8) -> Table {
        let entries = std::array::from_fn(|place| Entry {
            channel: starting_channel(place as u8),
            value: polyphony,
        });
        Table::new(entries, 16, polyphony)
    }

    /// Who is unmasked (R2.2, R2.3), and the shares (R2.4, R2.5).
    fn new(entries: [Entry; 16], length: u8, polyphony: u8) -> Table {
        let mut table = Table {
            entries,
            length,
            unmasked: 0,
            shares: [MASKED; 16],
        };
        let mut before = 0;
        for entry in &entries[..usize::from(length)] {
            if entry.value > polyphony {
                break;
            }
            table.shares[usize::from(entry.channel)] = entry.value - before;
            table.unmasked += 1;
            before = entry.value;
        }
        table
    }

    /// Judges the pairs of a MIP message, at most 32 bytes: 6 first, then pair by pair 7, 8, 9 (R3.4, R3.5).
    pub(crate) fn read(pairs: &[u8], polyphony: u8) -> Result<Table, Number> {
        if pairs.is_empty() || pairs.len() % 2 == 1 {
            return Err(Number::MipOddOrEmpty);
        }
        debug_assert!(pairs.len() <= PAIR_BYTES);
        let mut entries = [Entry::default(); 16];
        let mut listed = 0u16;
        let mut before = 0;
        for (entry, pair) in entries.iter_mut().zip(pairs.chunks_exact(2)) {
            let (channel, value) = (pair[0], pair[1]);
            if channel > 15 {
                return Err(Number::MipChannelAbove15);
            }
            if listed >> channel & 1 == 1 {
                return Err(Number::MipChannelTwice);
            }
            if value < before {
                return Err(Number::MipValueFalls);
            }
            listed |= 1 << channel;
            before = value;
            *entry = Entry { channel, value };
        }
        Ok(Table::new(entries, (pairs.len() / 2) as u8, polyphony))
    }

    /// The share of a channel, or `None` if it is masked.
    pub(crate) fn share(&self, channel: u8) -> Option<u8> {
        match self.shares[usize::from(channel)] {
            MASKED => None,
            share => Some(share),
        }
    }

    /// The unmasked channels with their shares, the lowest priority first.
    pub(crate) fn lowest_priority_first(&self) -> impl Iterator<Item = (u8, u8)> + '_ {
        let unmasked = &self.entries[..usize::from(self.unmasked)];
        unmasked
            .iter()
            .rev()
            .map(|entry| (entry.channel, self.shares[usize::from(entry.channel)]))
    }

    /// The entries, by falling priority.
    pub fn entries(&self) -> &[Entry] {
        &self.entries[..usize::from(self.length)]
    }
}

/// R2.6: the channel at this place of the starting table, from 0. Channel 10 goes first, so that 1 to 9 stand one place
/// further back than by number. Three cases: a table of sixteen would have to be compared entry by entry.
fn starting_channel(place: u8) -> u8 {
    match place {
        0 => 9,
        1..=9 => place - 1,
        _ => place,
    }
}
