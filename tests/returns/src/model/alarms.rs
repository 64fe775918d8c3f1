//! One end of the alarms of a priority: numbers, acknowledgements and repeats.
use super::NEVER;
use super::said::{Pdu, Priority, Says};

/// After this time data is sent again, and after the third repeat it is given up.
const REPEAT: u32 = 3_200;
const GIVEN_UP: u32 = 4 * REPEAT;

/// What a number is to the receiver of data.
#[derive(Clone, Copy, PartialEq)]
pub enum Number {
    Next,
    Last,
    Other,
}

/// What a unit brings.
#[derive(Clone, Copy, PartialEq)]
pub enum Tick {
    Nothing,
    Again,
    Spent,
}

/// One end of the alarms of a priority: the number of the data that it sent last, how long it waits for its ACK, and the number of the
/// data that it accepted last.
#[derive(Clone, Default)]
pub struct Alarms {
    pub sent: Option<u16>,
    pub accepted: Option<u16>,
    waiting: Option<u32>,
}

fn next(last: Option<u16>) -> u16 {
    last.map_or(0xFFFF, |last| last.wrapping_add(1) & 0x7FFF)
}

impl Alarms {
    /// The next data is sent.
    pub fn send(&mut self) {
        self.sent = Some(next(self.sent));
        self.waiting = Some(0);
    }

    /// Data with this number comes.
    pub fn accept(&mut self, number: u16) -> Number {
        if number == next(self.accepted) {
            self.accepted = Some(number);
            return Number::Next;
        }
        if Some(number) == self.accepted { Number::Last } else { Number::Other }
    }

    /// An ACK of this number comes.
    pub fn hear_ack(&mut self, number: u16) {
        if self.sent == Some(number) {
            self.waiting = None;
        }
    }

    /// The alarm is over.
    pub fn stop(&mut self) {
        self.waiting = None;
    }

    /// The units up to the next one that brings something.
    pub fn due(&self) -> u32 {
        self.waiting.map_or(NEVER, |waiting| (GIVEN_UP - waiting).min(REPEAT - waiting % REPEAT))
    }

    /// Units that bring nothing.
    pub fn pass(&mut self, units: u32) {
        self.waiting = self.waiting.map(|waiting| waiting + units);
    }

    /// A unit.
    pub fn tick(&mut self) -> Tick {
        self.pass(1);
        match self.waiting {
            Some(GIVEN_UP) => {
                self.waiting = None;
                Tick::Spent
            }
            Some(waiting) if waiting % REPEAT == 0 => Tick::Again,
            _ => Tick::Nothing,
        }
    }

    /// A PDU with the numbers of now.
    pub fn pdu(&self, priority: Priority, pdu: Pdu) -> Says {
        Says::Alarm(priority, pdu, self.sent.unwrap_or(0xFFFF), self.accepted.unwrap_or(0xFFFE))
    }

    /// The response to data.
    pub fn reply(&self, priority: Priority, number: Number) -> Says {
        self.pdu(priority, if number == Number::Other { Pdu::Nack } else { Pdu::Ack })
    }
}
