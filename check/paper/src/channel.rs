//! What a channel remembers, its thirteen numbers (R1.8), and what controllers do to them.

/// Controller numbers of MIDI 1.0 that the device stores or acts on.
pub(crate) mod controller {
    pub const BANK_MSB: u8 = 0;
    pub const MODULATION: u8 = 1;
    pub const DATA_ENTRY_MSB: u8 = 6;
    pub const VOLUME: u8 = 7;
    pub const PAN: u8 = 10;
    pub const EXPRESSION: u8 = 11;
    pub const BANK_LSB: u8 = 32;
    pub const HOLD: u8 = 64;
    pub const NRPN_LSB: u8 = 98;
    pub const NRPN_MSB: u8 = 99;
    pub const RPN_LSB: u8 = 100;
    pub const RPN_MSB: u8 = 101;
    pub const ALL_SOUND_OFF: u8 = 120;
    pub const RESET_ALL_CONTROLLERS: u8 = 121;
    pub const ALL_NOTES_OFF: u8 = 123;
    pub const OMNI_OFF: u8 = 124;
    pub const POLY_ON: u8 = 127;
}

/// R6.9: the highest bend sensitivity.
const WIDEST_BEND: u8 = 24;
/// The value of an RPN number that names no parameter.
const RPN_NULL: u8 = 127;

/// The bank MSB of rhythm and of melody, as in General MIDI 2.
pub(crate) const RHYTHM_BANK: u8 = 120;
pub(crate) const MELODY_BANK: u8 = 121;

/// The thirteen numbers in the order of R1.8.
#[derive(Clone, Copy, Debug, PartialEq, Eq)]
pub struct Channel {
    pub program: u8,
    pub modulation: u8,
    pub volume: u8,
    pub pan: u8,
    pub expression: u8,
    pub hold: u8,
    pub rpn_msb: u8,
    pub rpn_lsb: u8,
    pub bend_msb: u8,
    pub bend_lsb: u8,
    pub bend_sensitivity: u8,
    pub bank_msb: u8,
    pub bank_lsb: u8,
}

impl Channel {
    /// R1.9: how every channel but 10 starts.
    pub const FRESH: Channel = Channel {
        program: 0,
        modulation: 0,
        volume: 100,
        pan: 64,
        expression: 127,
        hold: 0,
        rpn_msb: RPN_NULL,
        rpn_lsb: RPN_NULL,
        bend_msb: 64,
        bend_lsb: 0,
        bend_sensitivity: 2,
        bank_msb: MELODY_BANK,
        bank_lsb: 0,
    };

    /// R1.9: how channel 10 starts.
    pub const FRESH_DRUMS: Channel = Channel {
        bank_msb: RHYTHM_BANK,
        ..Channel::FRESH
    };

    /// Is the pedal down (R6.3)?
    pub fn pedal_down(&self) -> bool {
        self.hold >= 64
    }

    /// Stores a controller's value (R6.6, R6.8, R6.9). Every other controller changes none of the thirteen (R6.13).
    #[inline]
    pub(crate) fn store(&mut self, number: u8, value: u8) {
        match number {
            controller::BANK_MSB => self.bank_msb = value,
            controller::MODULATION => self.modulation = value,
            controller::VOLUME => self.volume = value,
            controller::PAN => self.pan = value,
            controller::EXPRESSION => self.expression = value,
            controller::BANK_LSB => self.bank_lsb = value,
            controller::HOLD => self.hold = value,
            controller::RPN_LSB => self.rpn_lsb = value,
            controller::RPN_MSB => self.rpn_msb = value,
            controller::NRPN_LSB | controller::NRPN_MSB => self.clear_rpn(),
            controller::DATA_ENTRY_MSB if self.rpn_msb == 0 && self.rpn_lsb == 0 => {
                self.bend_sensitivity = value.min(WIDEST_BEND);
            }
            _ => {}
        }
    }

    /// R6.11: what 121 resets; the bank is not among it.
    pub(crate) fn reset_controllers(&mut self) {
        self.modulation = Self::FRESH.modulation;
        self.expression = Self::FRESH.expression;
        self.hold = Self::FRESH.hold;
        self.bend_msb = Self::FRESH.bend_msb;
        self.bend_lsb = Self::FRESH.bend_lsb;
        self.clear_rpn();
    }

    fn clear_rpn(&mut self) {
        self.rpn_msb = RPN_NULL;
        self.rpn_lsb = RPN_NULL;
    }

    /// The thirteen numbers as an array, in the order of R1.8.
    pub fn numbers(&self) -> [u8; 13] {
        [
            self.program,
            self.modulation,
            self.volume,
            self.pan,
            self.expression,
            self.hold,
            self.rpn_msb,
            self.rpn_lsb,
            self.bend_msb,
            self.bend_lsb,
            self.bend_sensitivity,
            self.bank_msb,
            self.bank_lsb,
        ]
    }
}
