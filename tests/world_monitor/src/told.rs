//! The values that both ends report.
use both_ends::Net;
use controller_core::State;
use records::TakenRecord;
use relations::Phase;

/// The outputs of the slots 2 and 3.
#[derive(Clone, Copy, Debug, PartialEq, Eq)]
pub struct Outputs {
    pub second: [u8; 2],
    pub third: [u8; 2],
}

/// The outputs before any was set.
pub(crate) const ZEROS: Outputs = Outputs {
    second: [0; 2],
    third: [0; 2],
};

/// The values that both ends report, but for the octets of frames.
#[derive(Clone, Copy, PartialEq, Eq)]
pub struct Told {
    /// The state of the controller.
    pub state: State,
    /// The phase of the device's relation, if there is one.
    pub phase: Option<Phase>,
    /// Whether the relation is that of this controller.
    pub is_own: bool,
    /// The number of records that the device accepted.
    pub taken: usize,
    /// Whether these records are a prefix of the records of the plan.
    pub is_front: bool,
    /// The outputs that the device shows.
    pub outputs: Outputs,
    /// The number in the last alarm that the controller accepted.
    pub alarm: Option<u16>,
}

/// The first two octets, with zeros for those that are missing.
fn pair_of(octets: &[u8]) -> [u8; 2] {
    [
        octets.first().copied().unwrap_or(0),
        octets.get(1).copied().unwrap_or(0),
    ]
}

fn output_of(net: &Net, slot: u16) -> [u8; 2] {
    match net.device().output(slot, 1) {
        Some(value) => pair_of(value),
        None => [0; 2],
    }
}

/// The number in the octets of the last alarm, or `None` if there was none.
fn alarm_of(net: &Net) -> Option<u16> {
    match net.controller().alarm() {
        Some(alarm) => Some(u16::from_be_bytes(pair_of(alarm.alarm_data.octets()))),
        None => None,
    }
}

/// Whether the relation of the device is that of the controller.
fn is_own(net: &Net) -> bool {
    match net.device().ar() {
        Some(ar) => *ar.as_bytes() == *net.controller().ar().as_bytes(),
        None => false,
    }
}

/// The slots, the indices and the last octets of the records of the plans, each of four octets. Most plans have the first two.
const RECORDS: [(u16, u16, u8); 4] = [(1, 1, 100), (1, 2, 200), (4, 1, 44), (4, 2, 88)];

/// Whether this is the record with this index of a slot, with `last` as the last of its four octets.
fn is_record(taken: &TakenRecord, (slot, index, last): (u16, u16, u8)) -> bool {
    taken.slot == slot
        && taken.subslot == 1
        && taken.index == index
        && taken.value.as_slice() == &[0, 0, 0, last][..]
}

/// Whether the records that the device accepted are a prefix of those of a plan with this number of records.
fn are_front(taken: &[TakenRecord], planned: usize) -> bool {
    taken.len() <= planned.min(RECORDS.len())
        && taken
            .iter()
            .zip(RECORDS)
            .all(|(one, record)| is_record(one, record))
}

impl Told {
    /// The values that both ends report now.
    pub fn by(net: &Net) -> Told {
        Told {
            state: net.controller().state(),
            phase: net.device().phase(),
            is_own: is_own(net),
            taken: net.device().taken().len(),
            is_front: are_front(
                net.device().taken(),
                net.controller().plan().records().len(),
            ),
            outputs: Outputs {
                second: output_of(net, 2),
                third: output_of(net, 3),
            },
            alarm: alarm_of(net),
        }
    }

    /// Whether the device waits for the confirmation of ApplicationReady, in the relation of this controller, with this
    /// number of records accepted in order, each once.
    pub fn is_ready(&self, records: usize) -> bool {
        self.phase == Some(Phase::Awaiting) && self.is_own && self.taken == records && self.is_front
    }

    /// Whether both ends exchange data.
    pub fn is_exchanging(&self) -> bool {
        self.state == State::Exchanging && self.phase == Some(Phase::Exchanging)
    }

    /// Whether the controller has ended.
    pub fn is_ended(&self) -> bool {
        matches!(self.state, State::Ended(_))
    }
}
