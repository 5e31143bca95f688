//! The book's own splitting of the bytes into complete messages, by section 4 of the rules (R9.1).
//!
//! It collects the bytes of the message under way and asks, at each byte, whether it is complete. No
//! state of a device is used.

#[derive(Clone, Debug, PartialEq, Eq)]
pub enum Message {
    /// A channel message: the upper half of its status, the channel minus 1, its data (the second 0 if there is none).
    Channel {
        kind: u8,
        channel: u8,
        data: [u8; 2],
    },
    /// What stood between F0 and F7.
    SysEx(Vec<u8>),
}

#[derive(Clone, Debug, Default)]
pub struct Splitter {
    /// The message under way from its status on; empty if there is no status.
    open: Vec<u8>,
}

impl Splitter {
    /// Takes a byte and gives the message that it completes.
    pub fn byte(&mut self, byte: u8) -> Option<Message> {
        if byte >= 0xF8 {
            return None;
        }
        if byte >= 0x80 {
            return self.status(byte);
        }
        let status = *self.open.first()?;
        self.open.push(byte);
        let data = self.open.len() - 1;
        match status {
            0x80..=0xEF if data == data_bytes(status) => {
                let message = channel_message(&self.open);
                self.open.truncate(1);
                Some(message)
            }
            0xF1..=0xF3 if data == data_bytes(status) => {
                self.open.clear();
                None
            }
            _ => None,
        }
    }

    fn status(&mut self, byte: u8) -> Option<Message> {
        let was = std::mem::take(&mut self.open);
        if byte < 0xF4 {
            self.open.push(byte);
        }
        let ends_sysex = byte == 0xF7 && was.first() == Some(&0xF0);
        ends_sysex.then(|| Message::SysEx(was[1..].to_vec()))
    }
}

fn data_bytes(status: u8) -> usize {
    match status {
        0xC0..=0xDF | 0xF1 | 0xF3 => 1,
        _ => 2,
    }
}

fn channel_message(bytes: &[u8]) -> Message {
    Message::Channel {
        kind: bytes[0] >> 4,
        channel: bytes[0] & 0x0F,
        data: [bytes[1], bytes.get(2).copied().unwrap_or(0)],
    }
}
