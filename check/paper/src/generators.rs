//! The generators: their states as bit sets (bit g for generator g), their notes, their order of age.
//!
//! Channels are wire numbers here, 0 to 15.

use crate::age::AgeOrder;
use crate::drums;

/// R1.1: the most that P can be.
pub const MOST_GENERATORS: usize = 64;

/// R1.3: what a generator can be.
#[derive(Clone, Copy, Debug, PartialEq, Eq)]
pub enum State {
    Idle,
    Held,
    Sustained,
    Releasing,
}

/// What the query of a generator gives (R7.4). Channel counts from 1; an idle one has 0 and 0 (R1.5).
#[derive(Clone, Copy, Debug, PartialEq, Eq)]
pub struct GeneratorView {
    pub state: State,
    pub channel: u8,
    pub key: u8,
}

#[derive(Clone, Copy, Debug)]
pub(crate) struct Generators {
    /// Generators 0 to P − 1.
    all: u64,
    held: u64,
    sustained: u64,
    releasing: u64,
    /// The sounding generators of each channel.
    of_channel: [u64; 16],
    /// Channel and key of each sounding generator.
    channel: [u8; MOST_GENERATORS],
    key: [u8; MOST_GENERATORS],
    age: AgeOrder,
}

/// The generators of a set, the lowest number first.
fn members(mut set: u64) -> impl Iterator<Item = usize> {
    std::iter::from_fn(move || {
        if set == 0 {
            return None;
        }
        let generator = set.trailing_zeros() as usize;
        set &= set - 1;
        Some(generator)
    })
}

impl Generators {
    /// `polyphony` idle generators, 1 to 64.
    pub(crate) fn idle(polyphony: u8) -> Generators {
        Generators {
            all: u64::MAX >> (MOST_GENERATORS as u32 - u32::from(polyphony)),
            held: 0,
            sustained: 0,
            releasing: 0,
            of_channel: [0; 16],
            channel: [0; MOST_GENERATORS],
            key: [0; MOST_GENERATORS],
            age: AgeOrder::EMPTY,
        }
    }

    fn busy(&self) -> u64 {
        self.held | self.sustained
    }

    fn sounding(&self) -> u64 {
        self.busy() | self.releasing
    }

    pub(crate) fn is_sounding(&self, generator: u8) -> bool {
        self.sounding() >> generator & 1 == 1
    }

    /// How many generators of a channel are held or sustained.
    pub(crate) fn busy_count(&self, channel: u8) -> u8 {
        (self.busy() & self.of_channel[usize::from(channel)]).count_ones() as u8
    }

    /// Is no generator idle or releasing?
    pub(crate) fn all_busy(&self) -> bool {
        self.busy() == self.all
    }

    /// R5.5: of the idle ones that of lowest number.
    pub(crate) fn lowest_idle(&self) -> Option<u8> {
        let idle = self.all & !self.sounding();
        (idle != 0).then(|| idle.trailing_zeros() as u8)
    }

    /// R5.6: the oldest that releases.
    pub(crate) fn oldest_releasing(&self) -> Option<u8> {
        self.age.oldest_of(self.releasing).map(|g| g as u8)
    }

    /// R5.9: what a channel loses, its oldest sustained one or, if it has none, its oldest held one.
    pub(crate) fn to_steal(&self, channel: u8) -> Option<u8> {
        let of_channel = self.of_channel[usize::from(channel)];
        let sustained = self.sustained & of_channel;
        let set = if sustained != 0 {
            sustained
        } else {
            self.held & of_channel
        };
        self.age.oldest_of(set).map(|g| g as u8)
    }

    /// Gives a generator of any state a new note, held and the newest (R5.11).
    pub(crate) fn assign(&mut self, generator: u8, channel: u8, key: u8) {
        let g = usize::from(generator);
        if self.is_sounding(generator) {
            self.forget(g);
        }
        self.held |= 1 << g;
        self.of_channel[usize::from(channel)] |= 1 << g;
        self.channel[g] = channel;
        self.key[g] = key;
        self.age.append(g);
    }

    /// A sounding generator becomes idle.
    pub(crate) fn silence(&mut self, generator: u8) {
        self.forget(usize::from(generator));
    }

    fn forget(&mut self, g: usize) {
        let others = !(1u64 << g);
        self.held &= others;
        self.sustained &= others;
        self.releasing &= others;
        self.of_channel[usize::from(self.channel[g])] &= others;
        self.age.remove(g);
    }

    fn release(&mut self, set: u64) {
        self.held &= !set;
        self.sustained &= !set;
        self.releasing |= set;
    }

    /// Those of a set whose note has this key.
    fn with_key(&self, set: u64, key: u8) -> u64 {
        members(set)
            .filter(|&g| self.key[g] == key)
            .fold(0, |found, g| found | 1 << g)
    }

    /// Note-on, step 2 (R5.2): who is busy with this channel and key releases.
    pub(crate) fn release_key(&mut self, channel: u8, key: u8) {
        let busy = self.busy() & self.of_channel[usize::from(channel)];
        self.release(self.with_key(busy, key));
    }

    /// Note-on, step 3 (R5.3): other keys of the same group fall idle on this channel.
    pub(crate) fn silence_group(&mut self, channel: u8, key: u8) {
        let Some(group) = drums::group(key) else {
            return;
        };
        for g in members(self.of_channel[usize::from(channel)]) {
            if self.key[g] != key && drums::group(self.key[g]) == Some(group) {
                self.forget(g);
            }
        }
    }

    /// Note-off (R6.2): held generators of this channel and key are sustained by the pedal, or release.
    pub(crate) fn key_up(&mut self, channel: u8, key: u8, pedal_down: bool) {
        let held = self.held & self.of_channel[usize::from(channel)];
        self.let_go(self.with_key(held, key), pedal_down);
    }

    /// 123 to 127 (R6.12): each held generator as by its note-off.
    pub(crate) fn all_keys_up(&mut self, channel: u8, pedal_down: bool) {
        self.let_go(
            self.held & self.of_channel[usize::from(channel)],
            pedal_down,
        );
    }

    fn let_go(&mut self, held: u64, pedal_down: bool) {
        if pedal_down {
            self.held &= !held;
            self.sustained |= held;
        } else {
            self.release(held);
        }
    }

    /// The pedal comes up (R6.7, R6.11): what it sustained releases.
    pub(crate) fn pedal_up(&mut self, channel: u8) {
        self.release(self.sustained & self.of_channel[usize::from(channel)]);
    }

    /// The channel is masked (R2.8) or of another kind (R6.16): its busy generators release, whatever the pedal.
    pub(crate) fn release_channel(&mut self, channel: u8) {
        self.release(self.busy() & self.of_channel[usize::from(channel)]);
    }

    /// 120 (R6.10): the channel's generators fall idle.
    pub(crate) fn silence_channel(&mut self, channel: u8) {
        for g in members(self.of_channel[usize::from(channel)]) {
            self.forget(g);
        }
    }

    /// The sounding generators, the oldest first.
    pub(crate) fn oldest_first(&self) -> impl Iterator<Item = u8> + '_ {
        self.age.oldest_first().map(|g| g as u8)
    }

    /// State, channel and key of a generator below 64.
    pub(crate) fn view(&self, generator: u8) -> GeneratorView {
        let in_set = |set: u64| set >> generator & 1 == 1;
        let state = if in_set(self.held) {
            State::Held
        } else if in_set(self.sustained) {
            State::Sustained
        } else if in_set(self.releasing) {
            State::Releasing
        } else {
            return GeneratorView {
                state: State::Idle,
                channel: 0,
                key: 0,
            };
        };
        GeneratorView {
            state,
            channel: self.channel[usize::from(generator)] + 1,
            key: self.key[usize::from(generator)],
        }
    }
}
