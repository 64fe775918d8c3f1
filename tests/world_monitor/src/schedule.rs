//! What may happen next, and schedules from a seed.
use device_core::Local;
use network_world::{End, Move};
use pn_values::{ParameterRecord, RealSubmodule};
use test_stations::octets;

/// A move, without the data structures of the world.
#[derive(Clone, Copy, Debug, PartialEq, Eq)]
pub enum Choice {
    /// The frame with this number comes to this end.
    Deliver(End, usize),
    /// A unit of time passes at this end.
    Tick(End),
    /// The input of slot 1 is set.
    Input([u8; 2]),
    /// An alarm of slot 1 is raised, with these octets.
    Alarm([u8; 2]),
    /// The output of slot 2 or 3 is set.
    Give(u16, [u8; 2]),
    /// The controller's application reads the record with this index of slot 1.
    Read(u16),
    /// The controller's application writes these octets to the record with this index of slot 1.
    Write(u16, [u8; 2]),
    /// The submodule in subslot 1 of this slot is pulled.
    Pull(u16),
    /// The module in this slot is pulled.
    PullModule(u16),
    /// A submodule with this ident number is plugged in subslot 1 of this slot, with a module of the same number if the slot is empty: 16
    /// has an input of two octets, and as many records of four octets as the last number says, from index 1; others have neither.
    Plug(u16, u32, u16),
    /// The controller is stopped.
    Stop,
}

/// The submodule that `Choice::Plug` plugs.
fn submodule_of(ident: u32, records: u16) -> RealSubmodule {
    let is_input = ident == 16;
    let mut submodule = RealSubmodule {
        subslot: 1,
        ident,
        input: if is_input { 2 } else { 0 },
        ..RealSubmodule::default()
    };
    for index in 1..=records {
        let _ = submodule.parameters.try_push(ParameterRecord { index, length: 4 });
    }
    submodule
}

impl Choice {
    /// The move of this choice.
    pub fn to_move(self) -> Move {
        match self {
            Choice::Deliver(end, number) => Move::Deliver(end, number),
            Choice::Tick(end) => Move::Tick(end),
            Choice::Input(value) => Move::Application(Local::Input(1, 1, octets(&value))),
            Choice::Alarm(data) => Move::Application(Local::Alarm(1, 1, octets(&data))),
            Choice::Give(slot, value) => Move::Give(slot, 1, octets(&value)),
            Choice::Read(index) => Move::Read(1, 1, index),
            Choice::Write(index, value) => Move::Write(1, 1, index, octets(&value)),
            Choice::Pull(slot) => Move::Application(Local::Pull(slot, 1)),
            Choice::PullModule(slot) => Move::Application(Local::PullModule(slot)),
            Choice::Plug(slot, ident, records) => {
                Move::Application(Local::Plug(slot, ident, submodule_of(ident, records)))
            }
            Choice::Stop => Move::Stop,
        }
    }

    /// The end at which the move is made.
    pub fn end(self) -> End {
        match self {
            Choice::Deliver(end, _) => end,
            Choice::Tick(end) => end,
            Choice::Input(_) => End::Device,
            Choice::Alarm(_) => End::Device,
            Choice::Give(_, _) => End::Controller,
            Choice::Read(_) => End::Controller,
            Choice::Write(_, _) => End::Controller,
            Choice::Pull(_) | Choice::PullModule(_) | Choice::Plug(..) => End::Device,
            Choice::Stop => End::Controller,
        }
    }
}

/// Numbers from a seed (xorshift, by Marsaglia).
pub struct Schedule {
    state: u64,
}

impl Schedule {
    /// The numbers from a seed.
    pub fn new(seed: u64) -> Schedule {
        Schedule {
            state: seed.wrapping_mul(0x9e37_79b9_7f4a_7c15) | 1,
        }
    }

    fn next(&mut self) -> u64 {
        let mut state = self.state;
        state ^= state << 13;
        state ^= state >> 7;
        state ^= state << 17;
        self.state = state;
        state
    }

    /// A number below `limit`, or 0 if `limit` is 0.
    pub fn below(&mut self, limit: u64) -> u64 {
        (self.next() >> 16).checked_rem(limit).unwrap_or(0)
    }

    fn value(&mut self) -> [u8; 2] {
        let drawn = self.next().to_be_bytes();
        [drawn[1], drawn[2]]
    }

    fn end(&mut self) -> End {
        if self.below(2) == 0 {
            End::Device
        } else {
            End::Controller
        }
    }

    /// A frame comes: most often one of the last ones, to either end, and sometimes one that was never sent.
    fn deliver(&mut self, count: usize) -> Choice {
        let count = count as u64;
        let number = match self.below(50) {
            0 => count.saturating_add(self.below(4)),
            1..40 => count.saturating_sub(1).saturating_sub(self.below(6)),
            _ => self.below(count),
        };
        Choice::Deliver(self.end(), number as usize)
    }

    /// The next move, after `count` frames were sent and `raised` alarms raised.
    pub fn choose(&mut self, count: usize, raised: u16) -> Choice {
        match self.below(100) {
            0..30 => Choice::Tick(self.end()),
            30..92 => self.deliver(count),
            92..95 => Choice::Give(2, self.value()),
            95..97 => Choice::Give(3, self.value()),
            97..98 => Choice::Input(self.value()),
            _ => Choice::Alarm(raised.to_be_bytes()),
        }
    }
}
