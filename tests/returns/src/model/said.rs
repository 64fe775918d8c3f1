//! What a frame says.
use super::Record;
use std::fmt::{Display, Formatter, Result};

/// A call of a controller.
#[derive(Clone, Debug, PartialEq)]
pub enum Call {
    Connect,
    Write(Vec<Record>),
    Read(u16),
    End,
    Release,
}

/// An alarm PDU.
#[derive(Clone, Copy, Debug, PartialEq)]
pub enum Pdu {
    /// An alarm of high priority: its AlarmSpecifier and its value.
    Alarm(u16, [u8; 2]),
    /// A change of diagnosis: its AlarmSpecifier, its channel, and whether it appears.
    Report(u16, u16, bool),
    /// The AlarmAck of the alarm with this AlarmSpecifier.
    Taken(u16),
    /// That PDU arrived.
    Ack,
    /// It is not the next one.
    Nack,
}

/// The priority of an alarm PDU.
#[derive(Clone, Copy, Debug, PartialEq)]
pub enum Priority {
    High,
    Low,
}

/// What a frame says.
#[derive(Clone, Debug, PartialEq)]
pub enum Says {
    Identify,
    /// The address of the answer, and whether another device of another type sends it.
    Found([u8; 4], bool),
    Set,
    /// The BlockError of the answer.
    Done(u8),
    /// A call, the number of the controller, and that of the call.
    Call(Call, u32, u32),
    /// Whether a call is done, the number of the controller, and that of the call.
    Answer(bool, u32, u32),
    Ready(u32),
    Confirm(u32),
    /// CycleCounter, value, IOPS, and whether a diagnosis exists.
    Inputs(u16, [u8; 2], bool, bool),
    /// CycleCounter, and the value and IOPS of both submodules.
    Outputs(u16, [([u8; 2], bool); 2]),
    /// A PDU under this priority, the number that its end sent last, and the one that it accepted last.
    Alarm(Priority, Pdu, u16, u16),
    /// An ERR and its reason.
    Error(u8),
}

impl Says {
    /// The number of the controller whom a call, a response or an ApplicationReady names; 0 of other frames.
    pub fn whose(&self) -> u32 {
        match self {
            Says::Call(_, whose, _) | Says::Answer(_, whose, _) | Says::Ready(whose) | Says::Confirm(whose) => *whose,
            _ => 0,
        }
    }

    /// Whether it is cyclic.
    pub fn is_cyclic(&self) -> bool {
        matches!(self, Says::Inputs(..) | Says::Outputs(..))
    }

    /// Whether it is an answer to anybody, and not of a relation.
    pub fn is_for_anybody(&self) -> bool {
        matches!(self, Says::Found(..) | Says::Done(_) | Says::Answer(..))
    }
}

/// Octets as hex digits.
pub fn hex(octets: &[u8]) -> String {
    octets.iter().map(|octet| format!("{octet:02x}")).collect()
}

/// Records, each with its index.
pub fn listed(records: &[Record], between: &str) -> String {
    let spelled: Vec<String> = records.iter().map(|(index, octets)| format!("{index}:{}", hex(octets))).collect();
    spelled.join(between)
}

fn iops(is_good: bool) -> &'static str {
    if is_good { "80" } else { "00" }
}

fn call(call: &Call, whose: u32, number: u32) -> String {
    match call {
        Call::Connect => format!("connect#{whose}:{number}"),
        Call::Write(records) => format!("write#{whose}:{number}:{}", listed(records, ",")),
        Call::Read(index) => format!("read#{whose}:{number}:{index}"),
        Call::End => format!("end#{whose}:{number}"),
        Call::Release => format!("release#{whose}:{number}"),
    }
}

fn alarm(priority: Priority, pdu: Pdu) -> &'static str {
    match (pdu, priority) {
        (Pdu::Alarm(..), _) => "alarmh",
        (Pdu::Report(..), _) => "lowl",
        (Pdu::Taken(_), Priority::High) => "takenh",
        (Pdu::Taken(_), Priority::Low) => "lowtakenl",
        (Pdu::Ack, Priority::High) => "ackh",
        (Pdu::Ack, Priority::Low) => "ackl",
        (Pdu::Nack, Priority::High) => "nackh",
        (Pdu::Nack, Priority::Low) => "nackl",
    }
}

impl Display for Says {
    fn fmt(&self, to: &mut Formatter<'_>) -> Result {
        match self {
            Says::Identify => write!(to, "identify"),
            Says::Found(address, _) => write!(to, "found:{}", hex(address)),
            Says::Set => write!(to, "set"),
            Says::Done(error) => write!(to, "done:{error}"),
            Says::Call(which, whose, number) => write!(to, "{}", call(which, *whose, *number)),
            Says::Answer(true, whose, number) => write!(to, "yes#{whose}:{number}"),
            Says::Answer(false, whose, number) => write!(to, "no#{whose}:{number}"),
            Says::Ready(whose) => write!(to, "ready#{whose}"),
            Says::Confirm(whose) => write!(to, "confirm#{whose}"),
            Says::Inputs(counter, value, is_good, has_problem) => {
                write!(to, "in:{counter}:{}{}:{}", hex(value), iops(*is_good), if *has_problem { "15" } else { "35" })
            }
            Says::Outputs(counter, [first, second]) => {
                let spelled = |(value, is_good): &([u8; 2], bool)| format!("{}{}", hex(value), iops(*is_good));
                write!(to, "out:{counter}:{}:{}", spelled(first), spelled(second))
            }
            Says::Alarm(priority, pdu, sent, accepted) => write!(to, "{}:{sent}:{accepted}", alarm(*priority, *pdu)),
            Says::Error(reason) => write!(to, "err:{reason}"),
        }
    }
}
