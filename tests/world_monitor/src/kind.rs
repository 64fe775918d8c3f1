//! The kind of a frame, from its octets alone.

/// The kinds of frames that either end sends.
#[derive(Clone, Copy, Debug, PartialEq, Eq)]
pub enum Kind {
    /// Identify.
    Identify,
    /// The response to Identify.
    Found,
    /// A Set.
    Set,
    /// The response to a Set.
    SetDone,
    /// A Connect.
    Connect,
    /// A Release.
    Release,
    /// A Write.
    Write,
    /// A PrmEnd.
    PrmEnd,
    /// The positive response to a call of the controller.
    Positive,
    /// The negative response to a call of the controller.
    Negative,
    /// ApplicationReady.
    Ready,
    /// The confirmation of ApplicationReady.
    Confirm,
    /// A cyclic frame of the device: inputs.
    Inputs,
    /// A cyclic frame of the controller: outputs.
    Outputs,
    /// An alarm.
    Alarm,
    /// The AlarmAck of an alarm.
    AlarmAck,
    /// An alarm of low priority.
    LowAlarm,
    /// The AlarmAck of an alarm of low priority.
    LowAlarmAck,
    /// The ACK of an alarm PDU.
    Ack,
    /// The NACK of an alarm PDU.
    Nack,
    /// The end of a relation.
    Err,
    /// Anything else.
    Other,
}

fn octet_at(octets: &[u8], place: usize) -> u8 {
    octets.get(place).copied().unwrap_or(0)
}

/// The number in the two octets at an offset, or 0 if they are not there.
fn number_at(octets: &[u8], place: usize) -> u16 {
    let high = octet_at(octets, place);
    let low = octet_at(octets, place.saturating_add(1));
    u16::from_be_bytes([high, low])
}

/// The offset of the EtherType: after the tag, if there is one.
fn type_place(octets: &[u8]) -> usize {
    if number_at(octets, 12) == 0x8100 {
        16
    } else {
        12
    }
}

/// The kind of the data of an alarm PDU, by the type of its block.
fn data_kind(block_type: u16) -> Kind {
    match block_type {
        0x0001 => Kind::Alarm,
        0x8001 => Kind::AlarmAck,
        0x0002 => Kind::LowAlarm,
        0x8002 => Kind::LowAlarmAck,
        _ => Kind::Other,
    }
}

/// The kind of an alarm PDU, by the low bits of its PDUType.
fn alarm_kind(pdu_type: u8, block_type: u16) -> Kind {
    match pdu_type & 0x0f {
        1 => data_kind(block_type),
        2 => Kind::Nack,
        3 => Kind::Ack,
        4 => Kind::Err,
        _ => Kind::Other,
    }
}

/// A Set, or the response to one, by its ServiceType.
fn set_kind(service_type: u8) -> Kind {
    if service_type == 0 {
        Kind::Set
    } else {
        Kind::SetDone
    }
}

/// The kind of a frame of EtherType 0x8892 whose FrameID is at an offset.
fn real_time_kind(octets: &[u8], place: usize) -> Kind {
    let pdu_type = octet_at(octets, place.saturating_add(6));
    let block_type = number_at(octets, place.saturating_add(14));
    match number_at(octets, place) {
        0xfefe => Kind::Identify,
        0xfeff => Kind::Found,
        0xfefd => set_kind(octet_at(octets, place.saturating_add(3))),
        0xc001 => Kind::Inputs,
        0xc000 => Kind::Outputs,
        0xfc01 => alarm_kind(pdu_type, block_type),
        0xfe01 => alarm_kind(pdu_type, block_type),
        _ => Kind::Other,
    }
}

/// The kind of a call to the device, by its operation.
fn call_kind(operation: u16) -> Kind {
    match operation {
        0 => Kind::Connect,
        1 => Kind::Release,
        3 => Kind::Write,
        4 => Kind::PrmEnd,
        _ => Kind::Other,
    }
}

/// The kind of a response to a call of the controller, by its PNIOStatus.
fn answer_kind(high: u16, low: u16) -> Kind {
    if high == 0 && low == 0 {
        Kind::Positive
    } else {
        Kind::Negative
    }
}

/// The kind of a datagram with a call (0) or a response (2), by the interface to which it goes: of the device (1) or of
/// the controller (2).
fn datagram_kind(octets: &[u8]) -> Kind {
    match (octet_at(octets, 43), octet_at(octets, 69)) {
        (0, 1) => call_kind(number_at(octets, 110)),
        (0, 2) => Kind::Ready,
        (2, 1) => answer_kind(number_at(octets, 122), number_at(octets, 124)),
        (2, 2) => Kind::Confirm,
        _ => Kind::Other,
    }
}

impl Kind {
    /// The kind of the frame with these octets.
    pub fn of(octets: &[u8]) -> Kind {
        let place = type_place(octets);
        match number_at(octets, place) {
            0x8892 => real_time_kind(octets, place.saturating_add(2)),
            0x0800 => datagram_kind(octets),
            _ => Kind::Other,
        }
    }

    /// Whether the frame is cyclic.
    pub fn is_cyclic(self) -> bool {
        self == Kind::Inputs || self == Kind::Outputs
    }

    /// The name of the kind.
    pub fn name(self) -> &'static str {
        match self {
            Kind::Identify => "Identify",
            Kind::Found => "answer to Identify",
            Kind::Set => "Set",
            Kind::SetDone => "answer to Set",
            Kind::Connect => "Connect",
            Kind::Release => "Release",
            Kind::Write => "Write",
            Kind::PrmEnd => "PrmEnd",
            Kind::Positive => "positive answer",
            Kind::Negative => "negative answer",
            Kind::Ready => "ApplicationReady",
            Kind::Confirm => "its answer",
            Kind::Inputs => "inputs",
            Kind::Outputs => "outputs",
            Kind::Alarm => "alarm",
            Kind::AlarmAck => "AlarmAck",
            Kind::LowAlarm => "alarm of low priority",
            Kind::LowAlarmAck => "AlarmAck of low priority",
            Kind::Ack => "ACK",
            Kind::Nack => "NACK",
            Kind::Err => "ERR",
            Kind::Other => "other",
        }
    }
}

/// The SendSeqNum of an alarm PDU: 8 octets after the offset of its FrameID.
pub(crate) fn send_number_of(octets: &[u8]) -> u16 {
    number_at(octets, type_place(octets).saturating_add(10))
}

/// The number at an offset of the block that an alarm PDU has, which begins 16 octets after the EtherType.
fn in_block(octets: &[u8], place: usize) -> u16 {
    number_at(octets, type_place(octets).saturating_add(16).saturating_add(place))
}

/// Whether an alarm reports a pull or a plug, in API 0: its AlarmType is Pull, Plug, Plug wrong submodule or Pull module.
pub(crate) fn reports_change(octets: &[u8]) -> bool {
    let is_change = matches!(in_block(octets, 6), 0x0003 | 0x0004 | 0x000a | 0x001f);
    is_change && in_block(octets, 8) == 0 && in_block(octets, 10) == 0
}

/// SlotNumber and SubslotNumber of an alarm.
pub(crate) fn place_of(octets: &[u8]) -> (u16, u16) {
    (in_block(octets, 12), in_block(octets, 14))
}

/// Whether an alarm is about all of a slot: a module was pulled, which SubslotNumber 0 says too.
pub(crate) fn whole_slot_of(octets: &[u8]) -> bool {
    let alarm_type = in_block(octets, 6);
    alarm_type == 0x001f || (alarm_type == 0x0003 && in_block(octets, 14) == 0)
}

/// SequenceNumber: the low 11 bits of the AlarmSpecifier of an alarm.
pub(crate) fn low_sequence_of(octets: &[u8]) -> u16 {
    in_block(octets, 24) & 0x07ff
}

/// The same of an AlarmAck.
pub(crate) fn ack_sequence_of(octets: &[u8]) -> u16 {
    in_block(octets, 16) & 0x07ff
}

/// The CycleCounter of a cyclic frame: the two octets before its last two.
pub(crate) fn counter_of(octets: &[u8]) -> u16 {
    number_at(octets, octets.len().saturating_sub(4))
}

/// The two octets of an output at an offset of a cyclic frame with a tag; zeros if the IOPS after them is not GOOD.
pub(crate) fn output_at(octets: &[u8], place: usize) -> [u8; 2] {
    let place = place.saturating_add(20);
    if octet_at(octets, place.saturating_add(2)) == 0x80 {
        number_at(octets, place).to_be_bytes()
    } else {
        [0; 2]
    }
}

/// A checksum of octets that shows whether a frame was changed (FNV-1a, 32 bits).
pub(crate) fn sum_of(octets: &[u8]) -> u32 {
    let mut sum = 0x811c_9dc5_u32;
    for octet in octets {
        sum = (sum ^ u32::from(*octet)).wrapping_mul(0x0100_0193);
    }
    sum
}
