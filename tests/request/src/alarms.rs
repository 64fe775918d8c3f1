//! PDUs of alarms: the octets are worked out by hand from the formats, and those of the first alarm are a worked frame's.

use super::blocks::with;
use diagnosis::{Priority, read_report};
use arrayvec::ArrayVec;
use block_codec::{AlarmAck, AlarmNotification};
use pn_alarms::{
    Abort, Alarm, AlarmFault, ControllerAlarms, DeviceAlarms, Due, Message, PduFate, PduType, RaiseFault,
    Receiver, Taken, alarm_front, pdu_front, read_message, read_pdu,
};

/// The first alarm of a relation, of slot 1 and subslot 1, with two octets of data.
const ALARM: [u8; 42] = [
    0x00, 0x01, 0x00, 0x01, 0x11, 0x11, 0xFF, 0xFF, 0xFF, 0xFE, 0x00, 0x1E, 0x00, 0x01, 0x00, 0x1A,
    0x01, 0x00, 0x00, 0x02, 0x00, 0x00, 0x00, 0x00, 0x00, 0x01, 0x00, 0x01, 0x00, 0x00, 0x00, 0x10,
    0x00, 0x00, 0x00, 0x10, 0x00, 0x00, 0x00, 0x01, 0xAA, 0xBB,
];

/// The first AlarmAck of a relation, which is of it.
const ACK: [u8; 34] = [
    0x00, 0x01, 0x00, 0x01, 0x11, 0x11, 0xFF, 0xFF, 0xFF, 0xFF, 0x00, 0x16, 0x80, 0x01, 0x00, 0x12,
    0x01, 0x00, 0x00, 0x02, 0x00, 0x00, 0x00, 0x00, 0x00, 0x01, 0x00, 0x01, 0x00, 0x00, 0x00, 0x00,
    0x00, 0x00,
];

/// An alarm of slot 1 and subslot 1.
fn alarm_of(alarm_data: &[u8]) -> Alarm<'_> {
    Alarm {
        slot_number: 1,
        subslot_number: 1,
        module_ident_number: 0x10,
        submodule_ident_number: 0x10,
        alarm_data,
    }
}

/// A device's end with RTATimeoutFactor 1 and RTARetries 3, which raised its first alarm.
fn alarmed() -> DeviceAlarms {
    let mut alarms = DeviceAlarms::new(1, 3);
    let _ = alarms.raise(&alarm_of(&[0xAA, 0xBB]));
    alarms
}

/// What is sent of the pending alarm.
fn sent(alarms: &DeviceAlarms) -> ArrayVec<u8, 72> {
    let mut octets = ArrayVec::new();
    if let Some(alarm) = alarms.standing() {
        let front = alarm_front(&alarms.header(PduType::Data, 1, 1), &alarm);
        let _ = octets.try_extend_from_slice(&front);
        let _ = octets.try_extend_from_slice(alarm.alarm_data.octets());
    }
    octets
}

/// The number of two octets at a place.
fn number_at(octets: &[u8], place: usize) -> u16 {
    match octets.get(place..) {
        Some([high, low, ..]) => u16::from_be_bytes([*high, *low]),
        _ => 0x1234,
    }
}

/// What becomes of octets that come.
fn heard(alarms: &mut DeviceAlarms, octets: &[u8]) -> Option<PduFate> {
    match read_message(octets) {
        Ok((_header, message)) => Some(alarms.hear(&message)),
        Err(_) => None,
    }
}

/// Why octets say nothing to a device.
fn fault_of(octets: &[u8]) -> Option<AlarmFault> {
    match read_message(octets) {
        Ok(_) => None,
        Err(fault) => Some(fault),
    }
}

/// Raises an alarm without data.
fn raise(alarms: &mut DeviceAlarms) -> Result<(), RaiseFault> {
    alarms.raise(&alarm_of(&[]))
}

/// Whether an alarm is pending.
fn stands(alarms: &DeviceAlarms) -> bool {
    alarms.standing().is_some()
}

/// What becomes of a message that comes.
fn hear(alarms: &mut DeviceAlarms, message: Message) -> PduFate {
    alarms.hear(&message)
}

/// What is due as a unit of time ends.
fn tick(alarms: &mut DeviceAlarms) -> Due {
    alarms.tick()
}

#[test]
fn first_alarm() {
    assert_eq!(sent(&alarmed()).as_slice(), ALARM.as_slice());
}

/// Whether octets are the first alarm.
fn is_first(octets: &[u8]) -> Option<bool> {
    let pdu = read_pdu(octets).ok()?;
    let report = read_report(pdu.body).ok()?;
    let alarm = report.notification;
    Some(
        report.priority == Priority::High
            && report.user_structure == Some(1)
            && alarm.alarm_type == 2
            && alarm.slot_number == 1
            && alarm.module_ident_number == 0x10
            && alarm.alarm_data.octets() == [0xAA, 0xBB].as_slice(),
    )
}

#[test]
fn alarm_is_read() {
    assert_eq!(is_first(&ALARM), Some(true));
}

#[test]
fn one_stands_at_a_time() {
    let mut alarms = alarmed();
    assert_eq!(raise(&mut alarms), Err(RaiseFault::Busy));
    assert_eq!(RaiseFault::Busy.number(), 1);
    let fate = heard(&mut alarms, &ACK);
    assert_eq!(fate, Some(PduFate::Data(Taken::New)));
    assert!(!stands(&alarms));
    // again it is acknowledged, and ends nothing
    assert_eq!(raise(&mut alarms), Ok(()));
    let fate = heard(&mut alarms, &ACK);
    assert_eq!(fate, Some(PduFate::Data(Taken::Again)));
    assert!(stands(&alarms));
    // number 0 and AlarmSpecifier 1; the AlarmAck was number 0xFFFF
    let octets = sent(&alarms);
    assert_eq!(number_at(octets.as_slice(), 6), 0);
    assert_eq!(number_at(octets.as_slice(), 8), 0xFFFF);
    assert_eq!(number_at(octets.as_slice(), 36), 1);
}

/// The units of time at whose end this is due.
fn units_of(due: Due) -> ArrayVec<u32, 8> {
    let mut alarms = alarmed();
    let mut units = ArrayVec::new();
    for unit in 1..20_000_u32 {
        if tick(&mut alarms) == due {
            let _ = units.try_push(unit);
        }
    }
    units
}

#[test]
fn sent_again_until_it_is_spent() {
    let again = units_of(Due::Again);
    assert_eq!(again.as_slice(), [3_200, 6_400, 9_600].as_slice());
    assert_eq!(units_of(Due::Spent).as_slice(), [12_800].as_slice());
}

/// Whether something is due within 20,000 units.
fn is_due(alarms: &mut DeviceAlarms) -> bool {
    let mut is_due = false;
    for _ in 0..20_000_u32 {
        is_due = is_due || tick(alarms) != Due::Nothing;
    }
    is_due
}

#[test]
fn acknowledged() {
    let mut alarms = alarmed();
    assert_eq!(hear(&mut alarms, Message::Nack), PduFate::Ignored);
    assert_eq!(hear(&mut alarms, Message::Ack(0)), PduFate::Ignored);
    let fate = hear(&mut alarms, Message::Ack(0xFFFF));
    assert_eq!(fate, PduFate::Done);
    assert!(!is_due(&mut alarms));
    let status = Abort::DataHold.status();
    let fate = hear(&mut alarms, Message::Abort(status));
    assert_eq!(fate, PduFate::Aborted(status));
    let mut idle = DeviceAlarms::new(1, 3);
    let fate = hear(&mut idle, Message::Ack(0xFFFF));
    assert_eq!(fate, PduFate::Ignored);
}

/// What becomes of the number that an alarm has.
fn take(receiver: &mut Receiver, number: u16) -> Taken {
    receiver.take(number)
}

/// Numbers that come, and what becomes of each.
const NUMBERS: [(u16, Taken); 9] = [
    (0xFFFE, Taken::Refused),
    (0, Taken::Refused),
    (0xFFFF, Taken::New),
    (0xFFFF, Taken::Again),
    (1, Taken::Refused),
    (0, Taken::New),
    (0xFFFF, Taken::Refused),
    (0, Taken::Again),
    (1, Taken::New),
];

#[test]
fn taken_in_order() {
    let mut receiver = Receiver::new();
    for (number, taken) in NUMBERS {
        let found = take(&mut receiver, number);
        assert_eq!((number, found), (number, taken));
    }
}

/// Each has one octet of the AlarmAck's data changed: at which place, to what, and the fault.
const CHANGED: [(usize, u8, Option<AlarmFault>); 12] = [
    (4, 0x10, Some(AlarmFault::Type)),
    (4, 0x15, Some(AlarmFault::Type)),
    (4, 0x21, Some(AlarmFault::Type)),
    (4, 0x12, None),
    (4, 0x13, None),
    (4, 0x14, None),
    (5, 0x00, None),
    (11, 0x17, Some(AlarmFault::Short)),
    (11, 0x15, Some(AlarmFault::Block)),
    (12, 0x00, Some(AlarmFault::Block)),
    (15, 0x11, Some(AlarmFault::Block)),
    (16, 0x02, Some(AlarmFault::Block)),
];

/// The fault of octets of which one is another.
fn fault_with(octets: &[u8], place: usize, octet: u8) -> Option<AlarmFault> {
    fault_of(with(octets, place, octet).as_slice())
}

#[test]
fn faults_in_their_order() {
    for (place, octet, fault) in CHANGED {
        let found = fault_with(&ACK, place, octet);
        assert_eq!((place, octet, found), (place, octet, fault));
    }
    assert_eq!(fault_of(&ALARM), Some(AlarmFault::Block));
}

#[test]
fn each_length() {
    for length in 0..34 {
        assert_eq!(fault_of(&ACK[..length]), Some(AlarmFault::Short));
    }
    assert_eq!(fault_of(&ACK), None);
}

/// The ERR of a relation that is ended for this reason.
fn ended(reason: Abort) -> ArrayVec<u8, 16> {
    let mut octets = ArrayVec::new();
    let pdu = reason.pdu(2, 1, 0xFFFF, 0xFFFE);
    let _ = octets.try_extend_from_slice(&pdu_front(&pdu));
    let _ = octets.try_extend_from_slice(pdu.body);
    octets
}

#[test]
fn relation_is_ended() {
    for (reason, code) in [
        (Abort::DataHold, 5),
        (Abort::Activity, 6),
        (Abort::Other, 13),
    ] {
        let octets = [
            0x00, 0x02, 0x00, 0x01, 0x14, 0x01, 0xFF, 0xFF, 0xFF, 0xFE, 0x00, 0x04, 0xCF, 0x81,
            0xFD, code,
        ];
        assert_eq!(ended(reason).as_slice(), octets.as_slice());
        assert_eq!(fault_of(&octets), None);
        // with fewer than four octets after the header
        assert_eq!(fault_with(&octets, 11, 3), Some(AlarmFault::Cause));
    }
}

/// An AlarmAck's block of the first alarm.
const CONFIRMED: AlarmAck = AlarmAck {
    alarm_type: 2,
    api: 0,
    slot_number: 1,
    subslot_number: 1,
    alarm_specifier: 0,
    pnio_status: 0,
};

/// AlarmSpecifier and the first octet of data of an alarm.
type Told = (u16, u8);

fn told(alarm: &AlarmNotification) -> Told {
    let octet = alarm.alarm_data.octets().first().copied().unwrap_or(0);
    (alarm.alarm_specifier, octet)
}

/// What may happen between both ends: what each sends has a place from then on, and comes when a move says so.
#[derive(Clone, Copy)]
enum Move {
    /// The device raises an alarm with this octet of data.
    Raise(u8),
    /// The controller sends an AlarmAck.
    Confirm,
    AlarmComes(usize),
    ConfirmComes(usize),
    AckComes(usize),
    NackComes,
}

/// Both ends, and what either sent and took.
struct Ends {
    device: DeviceAlarms,
    controller: ControllerAlarms,
    raised: Vec<Told>,
    alarms: Vec<(u16, Told)>,
    taken: Vec<Told>,
    confirms: Vec<u16>,
    heard: usize,
    acks: Vec<u16>,
}

impl Ends {
    fn new() -> Ends {
        Ends {
            device: DeviceAlarms::new(1, 3),
            controller: ControllerAlarms::new(1, 3),
            raised: Vec::new(),
            alarms: Vec::new(),
            taken: Vec::new(),
            confirms: Vec::new(),
            heard: 0,
            acks: Vec::new(),
        }
    }

    /// Raises an alarm. It is refused while another one is pending.
    fn raise(&mut self, octet: u8) {
        if self.device.raise(&alarm_of(&[octet])).is_err() {
            return;
        }
        let number = self.device.header(PduType::Data, 1, 1).send_number;
        if let Some(alarm) = self.device.standing() {
            let told = told(&alarm);
            self.raised.push(told);
            self.alarms.push((number, told));
        }
    }

    /// Confirms an alarm that was accepted, and is not confirmed yet.
    fn confirm(&mut self) {
        if self.confirms.len() < self.taken.len() {
            self.controller.confirm(CONFIRMED);
            let header = self.controller.header(PduType::Data, 1, 1);
            self.confirms.push(header.send_number);
        }
    }

    fn alarm_comes(&mut self, place: usize) {
        let Some((number, told)) = self.alarms.get(place).copied() else {
            return;
        };
        match self.controller.take(number) {
            Taken::New => {
                self.taken.push(told);
                self.acks.push(number);
            }
            Taken::Again => self.acks.push(number),
            Taken::Refused => {}
        }
    }

    fn confirm_comes(&mut self, place: usize) {
        let Some(number) = self.confirms.get(place) else {
            return;
        };
        let fate = self.device.hear(&Message::Data(*number, CONFIRMED));
        if fate == PduFate::Data(Taken::New) {
            self.heard += 1;
        }
    }

    fn happen(&mut self, one: Move) {
        match one {
            Move::Raise(octet) => self.raise(octet),
            Move::Confirm => self.confirm(),
            Move::AlarmComes(place) => self.alarm_comes(place),
            Move::ConfirmComes(place) => self.confirm_comes(place),
            Move::AckComes(place) => {
                if let Some(number) = self.acks.get(place) {
                    self.device.hear(&Message::Ack(*number));
                }
            }
            Move::NackComes => {
                self.device.hear(&Message::Nack);
            }
        }
    }
}

#[test]
fn alarms_come_in_order_over_a_network_that_repeats_them() {
    let moves = [
        Move::Raise(0xAA),
        // refused: one is pending
        Move::Raise(0xCC),
        Move::AlarmComes(0),
        Move::AlarmComes(0),
        Move::AckComes(1),
        Move::Confirm,
        // refused: one alarm was accepted
        Move::Confirm,
        Move::ConfirmComes(0),
        Move::ConfirmComes(0),
        Move::Raise(0xBB),
        Move::AlarmComes(0),
        Move::AlarmComes(1),
        // refused: a later one was accepted, and the NACK ends nothing
        Move::AlarmComes(0),
        Move::NackComes,
        Move::Raise(0xDD),
        // no such place
        Move::AlarmComes(2),
    ];
    let mut ends = Ends::new();
    for one in moves {
        ends.happen(one);
    }
    assert_eq!(ends.raised, [(0, 0xAA), (1, 0xBB)]);
    assert_eq!(ends.taken, [(0, 0xAA), (1, 0xBB)]);
    assert_eq!(ends.heard, 1);
    assert_eq!(ends.confirms.len(), 1);
}
