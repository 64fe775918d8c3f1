//! Cyclic data: worked layouts, each fault, and the order of faults; images, and which frames are due and accepted.

use arrayvec::ArrayVec;
use connect_blocks::{IoObject, IoObjects, IocrType};
use cyclic_data::{
    Consumer, CyclicExchange, CyclicTail, DataStatus, ExpectedData, Image, Layout, LayoutFault, Place,
    PlaceKind, Provider, ReceivedImage, Route, ShortFrame, StationState, Statuses, put_cyclic,
    read_cyclic,
};
use connect_blocks::SubmoduleData;

/// The access point with its two ports, an input of two octets in slot 1 and an output of two octets in slot 2.
const EXPECTED: [(u16, u16, Option<u16>, Option<u16>); 5] = [
    (0, 1, None, None),
    (0, 0x8000, None, None),
    (0, 0x8001, None, None),
    (1, 1, Some(2), None),
    (2, 1, None, Some(2)),
];

/// Its data objects and its IOCS in either direction, each by its slot, its subslot and its offset.
const INPUTS: [(u16, u16, u16); 4] = [(0, 1, 0), (0, 0x8000, 1), (0, 0x8001, 2), (1, 1, 3)];

const INPUT_IOCS: [(u16, u16, u16); 1] = [(2, 1, 6)];

const OUTPUTS: [(u16, u16, u16); 1] = [(2, 1, 0)];

const OUTPUT_IOCS: [(u16, u16, u16); 4] = [(0, 1, 3), (0, 0x8000, 4), (0, 0x8001, 5), (1, 1, 6)];

/// Places of these numbers.
fn objects(numbers: &[(u16, u16, u16)]) -> ArrayVec<IoObject, 256> {
    let mut list = ArrayVec::new();
    for (slot_number, subslot_number, frame_offset) in numbers {
        let _ = list.try_push(IoObject {
            slot_number: *slot_number,
            subslot_number: *subslot_number,
            frame_offset: *frame_offset,
        });
    }
    list
}

/// What `check` says of places in frames of 40 octets.
fn checked(
    direction: IocrType,
    data: &[(u16, u16, u16)],
    iocs: &[(u16, u16, u16)],
) -> Result<Layout, LayoutFault> {
    let mut expected = ArrayVec::<ExpectedData, 64>::new();
    for (slot, subslot, input, output) in &EXPECTED {
        let _ = expected.try_push(ExpectedData {
            slot: *slot,
            subslot: *subslot,
            io_data: SubmoduleData {
                input: *input,
                output: *output,
            },
        });
    }
    let (data, iocs) = (objects(data), objects(iocs));
    Layout::check(
        direction,
        40,
        &IoObjects::lent(&data),
        &IoObjects::lent(&iocs),
        expected.as_slice(),
    )
}

/// The fault of places in input frames, if they are no layout.
fn fault(data: &[(u16, u16, u16)], iocs: &[(u16, u16, u16)]) -> Option<LayoutFault> {
    checked(IocrType::Input, data, iocs).err()
}

/// A place as its kind, slot, subslot, offset and size.
fn place(kind: PlaceKind, slot: u16, subslot: u16, offset: u16, size: u16) -> Place {
    Place {
        kind,
        slot,
        subslot,
        offset,
        size,
    }
}

#[test]
fn the_places_are_those_asked_for() {
    let Ok(input) = checked(IocrType::Input, &INPUTS, &INPUT_IOCS) else {
        panic!("no layout of inputs");
    };
    let wanted = [
        place(PlaceKind::Data, 0, 1, 0, 1),
        place(PlaceKind::Data, 0, 0x8000, 1, 1),
        place(PlaceKind::Data, 0, 0x8001, 2, 1),
        place(PlaceKind::Data, 1, 1, 3, 3),
        place(PlaceKind::Iocs, 2, 1, 6, 1),
    ];
    assert_eq!(input.data_length(), 40);
    assert_eq!(input.places(), &wanted[..]);
    let Ok(output) = checked(IocrType::Output, &OUTPUTS, &OUTPUT_IOCS) else {
        panic!("no layout of outputs");
    };
    let wanted = [
        place(PlaceKind::Data, 2, 1, 0, 3),
        place(PlaceKind::Iocs, 0, 1, 3, 1),
        place(PlaceKind::Iocs, 0, 0x8000, 4, 1),
        place(PlaceKind::Iocs, 0, 0x8001, 5, 1),
        place(PlaceKind::Iocs, 1, 1, 6, 1),
    ];
    assert_eq!(output.places(), &wanted[..]);
}

#[test]
fn each_fault_and_the_first_of_two() {
    // the data object of slot 1 and the IOCS of slot 2 at other places, and what is listed beside them
    let with = |offset: u16, iocs: &[(u16, u16, u16)]| {
        let data = [(0, 1, 0), (0, 0x8000, 1), (0, 0x8001, 2), (1, 1, offset)];
        fault(&data, iocs)
    };
    let cases = [
        (with(37, &[(2, 1, 6)]), None),
        (with(38, &[(2, 1, 6)]), Some(LayoutFault::Outside)),
        (with(3, &[(2, 1, 39)]), None),
        (with(3, &[(2, 1, 40)]), Some(LayoutFault::Outside)),
        (with(3, &[(2, 1, 5)]), Some(LayoutFault::Overlap)),
        (with(2, &[(2, 1, 6)]), Some(LayoutFault::Overlap)),
        (with(3, &[(2, 1, 6), (9, 1, 7)]), Some(LayoutFault::Unknown)),
        (with(3, &[(2, 1, 6), (1, 1, 7)]), Some(LayoutFault::Unknown)),
        (with(3, &[(2, 1, 6), (2, 1, 7)]), Some(LayoutFault::Unknown)),
        (with(3, &[]), Some(LayoutFault::Missing)),
        // two at once
        (with(38, &[(2, 1, 0)]), Some(LayoutFault::Outside)),
        (with(38, &[(9, 1, 6)]), Some(LayoutFault::Outside)),
        (with(38, &[]), Some(LayoutFault::Outside)),
        (with(3, &[(9, 1, 5)]), Some(LayoutFault::Overlap)),
        (with(2, &[]), Some(LayoutFault::Overlap)),
        (with(3, &[(9, 1, 6)]), Some(LayoutFault::Unknown)),
    ];
    for (found, wanted) in cases {
        assert_eq!(found, wanted);
    }
}

#[test]
fn numbers_of_faults() {
    assert_eq!(LayoutFault::Outside.number(), 1);
    assert_eq!(LayoutFault::Overlap.number(), 2);
    assert_eq!(LayoutFault::Unknown.number(), 3);
    assert_eq!(LayoutFault::Missing.number(), 4);
}

#[test]
fn counters_come_round() {
    let mut consumer = Consumer::new(3, 32);
    let good = StationState::in_order().data_status();
    assert!(consumer.accept(65_520, good, 0));
    assert!(consumer.accept(16, good, 0));
    assert!(!consumer.accept(65_520, good, 0));
    assert!(!consumer.accept(16, good, 0));
    assert!(!consumer.accept(17, good, 1));
    assert!(!consumer.accept(17, DataStatus(0x31), 0));
    assert!(consumer.accept(16 + 61_440, good, 0));
    // the time is over with unit 96
    for _ in 0..95 {
        assert!(!consumer.expired());
    }
    assert!(consumer.expired());
}

#[test]
fn a_frame_each_interval() {
    let mut provider = Provider::start(32, 2);
    for unit in 1..=192 {
        assert_eq!(provider.due(), unit % 64 == 0);
    }
}

#[test]
fn an_image_of_inputs() {
    let Ok(layout) = checked(IocrType::Input, &INPUTS, &INPUT_IOCS) else {
        panic!("no layout of inputs");
    };
    let mut image = Image::new();
    assert_eq!(image.bytes().len(), 0);
    image.start(&layout);
    for (slot, subslot, _) in &INPUTS {
        assert!(image.set_status(PlaceKind::Data, *slot, *subslot, 0x80));
    }
    assert!(image.set_status(PlaceKind::Iocs, 2, 1, 0x80));
    assert!(image.put(1, 1, &[0x12, 0x34]));
    // no such place, or another length
    assert!(!image.put(1, 1, &[0x12]));
    assert!(!image.put(2, 1, &[0x12, 0x34]));
    assert!(!image.set_status(PlaceKind::Iocs, 1, 1, 0x80));
    assert!(image.put(0, 1, &[]));
    let wanted = [0x80, 0x80, 0x80, 0x12, 0x34, 0x80, 0x80];
    assert_eq!(image.bytes().len(), 40);
    for (index, octet) in image.bytes().iter().enumerate() {
        assert_eq!(*octet, wanted.get(index).copied().unwrap_or(0));
    }
    assert_eq!(image.get(1, 1), Some(&[0x12, 0x34][..]));
    assert_eq!(image.get(2, 1), None);
    assert_eq!(image.status(PlaceKind::Iocs, 2, 1), Some(0x80));
}

/// A status for data, and one for IOCS. In slot 0 both are bad.
struct Given {
    iops: u8,
    iocs: u8,
}

impl Statuses for Given {
    fn status(&self, kind: PlaceKind, slot: u16, _subslot: u16) -> u8 {
        match (slot, kind) {
            (0, _) => 0,
            (_, PlaceKind::Data) => self.iops,
            (_, PlaceKind::Iocs) => self.iocs,
        }
    }
}

#[test]
fn data_is_cleared_and_statuses_are_set_anew() {
    let (Ok(input), Ok(output)) = (
        checked(IocrType::Input, &INPUTS, &INPUT_IOCS),
        checked(IocrType::Output, &OUTPUTS, &OUTPUT_IOCS),
    ) else {
        panic!("no layouts");
    };
    let mut exchange = CyclicExchange::new();
    exchange.clear(1, 1);
    exchange.restate(&Given { iops: 0x80, iocs: 0x80 });
    assert_eq!(exchange.sent().bytes().len(), 0);
    let given = Given { iops: 0x80, iocs: 0x60 };
    exchange.open(Route::blank(), Provider::start(1, 1), Consumer::new(1, 1), &input, &output, &given);
    let first = |exchange: &CyclicExchange| exchange.sent().bytes()[..8].to_vec();
    assert_eq!(first(&exchange), [0, 0, 0, 0, 0, 0x80, 0x60, 0]);
    assert!(exchange.give(1, 1, &[0x12, 0x34]));
    exchange.restate(&Given { iops: 0x40, iocs: 0x20 });
    assert_eq!(first(&exchange), [0, 0, 0, 0x12, 0x34, 0x40, 0x20, 0]);
    // no data there, or none at all
    exchange.clear(0, 1);
    exchange.clear(2, 1);
    exchange.clear(9, 1);
    assert_eq!(first(&exchange), [0, 0, 0, 0x12, 0x34, 0x40, 0x20, 0]);
    exchange.clear(1, 1);
    assert_eq!(first(&exchange), [0, 0, 0, 0, 0, 0x40, 0x20, 0]);
}

#[test]
fn an_image_of_outputs() {
    let Ok(layout) = checked(IocrType::Output, &OUTPUTS, &OUTPUT_IOCS) else {
        panic!("no layout of outputs");
    };
    let mut image = ReceivedImage::new();
    assert_eq!(image.output(2, 1), None);
    image.start(&layout);
    assert_eq!(image.output(2, 1), Some(&[0, 0][..]));
    let mut octets = [0xEE; 40];
    octets[0] = 0xAB;
    octets[1] = 0xCD;
    octets[2] = 0x80;
    octets[3] = 0x80;
    assert!(image.data_length() == 40);
    image.accept(&octets);
    assert_eq!(image.output(2, 1), Some(&[0xAB, 0xCD][..]));
    assert_eq!(image.status(PlaceKind::Data, 2, 1), Some(0x80));
    assert_eq!(image.status(PlaceKind::Iocs, 0, 1), Some(0x80));
    assert_eq!(image.output(1, 1), None);
    // data that is not good
    octets[2] = 0x60;
    assert!(image.data_length() == 40);
    image.accept(&octets);
    assert_eq!(image.get(2, 1), Some(&[0xAB, 0xCD][..]));
    assert_eq!(image.output(2, 1), Some(&[0, 0][..]));
    // a layout of its own again
    image.start(&layout);
    assert_eq!(image.get(2, 1), Some(&[0, 0][..]));
    assert_eq!(image.status(PlaceKind::Iocs, 0, 1), Some(0));
}

// Bits 0 (State: primary) and 2 (DataValid) are set, bit 4 (ProviderState) is 1 for Run, and bit 5 (StationProblemIndicator) is 1 for no
// problem (IEC 61158-6-10, 4.7.2.1.3).
#[test]
fn what_a_station_says_of_itself() {
    for (is_running, has_problem, wanted) in [(true, false, 0x35), (true, true, 0x15), (false, false, 0x25), (false, true, 0x05)] {
        let state = StationState { is_running, has_problem };
        assert_eq!(CyclicTail::of(0x1234, state).octets().as_slice(), [0x12, 0x34, wanted, 0].as_slice());
    }
}

#[test]
fn octets_of_a_frame() {
    let mut out = ArrayVec::<u8, 20>::new();
    put_cyclic(&mut out, &[1, 2, 3], CyclicTail::of(0x1234, StationState::in_order()));
    let wanted = [1, 2, 3, 0x12, 0x34, 0x35, 0];
    assert_eq!(out.as_slice(), &wanted[..]);
    // padding is not looked at
    assert!(out.try_push(0xFF).is_ok());
    let tail = CyclicTail {
        counter: 0x1234,
        data_status: DataStatus(0x35),
        transfer_status: 0,
    };
    assert_eq!(read_cyclic(out.as_slice(), 3), Ok((&[1, 2, 3][..], tail)));
    assert_eq!(read_cyclic(&wanted, 3), Ok((&[1, 2, 3][..], tail)));
    assert_eq!(read_cyclic(&wanted, 4), Err(ShortFrame));
    assert_eq!(read_cyclic(&wanted[..3], 3), Err(ShortFrame));
}
