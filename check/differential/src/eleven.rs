//! Channel 11 as the book has it: its bank's MSB and its kind (R9.3, R9.18, R9.19), by its own messages alone.

use crate::book::Slip;
use crate::drums::SECOND_DRUM_CHANNEL;

#[derive(Clone, Copy, Debug)]
pub struct Eleven {
    bank_msb: u8,
    rhythm: bool,
}

impl Eleven {
    /// R9.4: melody.
    pub const FRESH: Eleven = Eleven {
        bank_msb: 121,
        rhythm: false,
    };

    pub fn is_rhythm(&self) -> bool {
        self.rhythm
    }

    /// Takes a channel message, as a wrong book does if there is a slip. True if the kind is another one then.
    pub fn message(
        &mut self,
        kind: u8,
        channel: u8,
        data: [u8; 2],
        has: impl Fn(Slip) -> bool,
    ) -> bool {
        let own = |slip| channel == SECOND_DRUM_CHANNEL || has(slip);
        let bank_select = if has(Slip::BankLsb) { 32 } else { 0 };
        match (kind, data) {
            (0xB, [number, msb]) if number == bank_select && own(Slip::BankOfAnyChannel) => {
                self.bank_msb = msb;
                has(Slip::KindByBankAlone) && self.choose(has)
            }
            (0xB, [121, 0]) if has(Slip::BankReset) && own(Slip::BankOfAnyChannel) => {
                self.bank_msb = 121;
                false
            }
            (0xB, [121, 0]) if has(Slip::KindReset) && own(Slip::BankOfAnyChannel) => {
                std::mem::take(&mut self.rhythm)
            }
            (0xC, _) if own(Slip::ProgramOfAnyChannel) => self.choose(has),
            _ => false,
        }
    }

    /// R6.15, from the book's own bank.
    fn choose(&mut self, has: impl Fn(Slip) -> bool) -> bool {
        let swapped = has(Slip::BanksSwapped);
        let rhythm = match self.bank_msb {
            120 => !swapped,
            121 => swapped,
            _ => self.rhythm && !has(Slip::OtherBanksMakeMelody),
        };
        std::mem::replace(&mut self.rhythm, rhythm) != rhythm
    }
}
