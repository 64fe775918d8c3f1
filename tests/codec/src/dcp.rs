//! Frames that other stations sent, and what this one answers. Each is given from the end of its FrameID on.

use arrayvec::ArrayVec;
use dcp_core::{
    AliasName, Block, DcpFault, Kind, Outcome, Request, Response, ResponseBlock, ResponseBlocks, Service,
    get_answer, identify_answer, identify_matches, read_answer, read_request, set_answer, set_plan,
    write_request,
};
use pn_values::{BlockError, Command, IpSuite, SetItem, Settings, demo_identity};
use station_names::check;

const GET_SET: u16 = 0xFEFD;

const IDENTIFY: u16 = 0xFEFE;

const IDENTIFIED: u16 = 0xFEFF;

/// Identify all, padded.
const ALL: [u8; 16] = [5, 0, 0, 0, 0, 1, 0, 1, 0, 4, 255, 255, 0, 0, 0, 0];

/// Sets `pump-1`, and a suite whose mask has a hole.
const NAME_AND_SUITE: [u8; 40] = [
    4, 0, 0, 0, 0, 2, 0, 0, 0, 30, 2, 2, 0, 8, 0, 1, b'p', b'u', b'm', b'p', b'-', b'1', 1, 2, 0,
    14, 0, 1, 192, 168, 0, 2, 255, 0, 255, 0, 0, 0, 0, 0,
];

/// The demo device with no name and no address, as it answers Identify.
const DEMO: [u8; 104] = [
    5, 1, 0, 0, 0, 1, 0, 0, 0, 0x5e, // the header
    2, 1, 0, 9, 0, 0, b'p', b'n', b'-', b'd', b'e', b'm', b'o', 0, // the station type
    2, 2, 0, 2, 0, 0, // no name
    2, 3, 0, 6, 0, 0, 1, 0x23, 4, 0x56, // the device
    2, 4, 0, 4, 0, 0, 1, 0, // its role
    2, 5, 0, 26, 0, 0, 1, 1, 1, 2, 2, 1, 2, 2, 2, 3, 2, 4, 2, 5, 2, 7, 5, 3, 5, 4, 5, 5, 5,
    6, // its options
    2, 7, 0, 4, 0, 0, 0, 1, // its instance
    1, 2, 0, 14, 0, 0, 0, 0, 0, 0, 0, 0, 0, 0, 0, 0, 0, 0, // no address
];

/// The same with the name `pump-1` and an address, to another request.
const NAMED: [u8; 110] = [
    5, 1, 0x11, 0x22, 0x33, 0x44, 0, 0, 0, 0x64, // the header
    2, 1, 0, 9, 0, 0, b'p', b'n', b'-', b'd', b'e', b'm', b'o', 0, // the station type
    2, 2, 0, 8, 0, 0, b'p', b'u', b'm', b'p', b'-', b'1', // the name
    2, 3, 0, 6, 0, 0, 1, 0x23, 4, 0x56, // the device
    2, 4, 0, 4, 0, 0, 1, 0, // its role
    2, 5, 0, 26, 0, 0, 1, 1, 1, 2, 2, 1, 2, 2, 2, 3, 2, 4, 2, 5, 2, 7, 5, 3, 5, 4, 5, 5, 5,
    6, // its options
    2, 7, 0, 4, 0, 0, 0, 1, // its instance
    1, 2, 0, 14, 0, 1, 192, 168, 0, 2, 255, 255, 255, 0, 192, 168, 0,
    1, // the address: BlockInfo 1
];

/// Sets no name and the suite 192.168.0.2, and resets the texts.
const NAME_SUITE_AND_RESET: [u8; 40] = [
    4, 0, 0, 0, 0, 9, 0, 0, 0, 30, 2, 2, 0, 2, 0, 1, 1, 2, 0, 14, 0, 1, 192, 168, 0, 2, 255, 255,
    255, 0, 0, 0, 0, 0, 5, 6, 0, 2, 0, 2,
];

/// A request that can be read.
fn request<'a>(frame_id: u16, bytes: &'a [u8]) -> Request<'a> {
    read_request(frame_id, bytes).ok().expect("a request")
}

/// Why a request cannot be read.
fn fault(frame_id: u16, bytes: &[u8]) -> Option<DcpFault> {
    read_request(frame_id, bytes).err()
}

/// This is how a station with these settings answers Identify.
fn identifies(settings: &Settings, xid: u32, expected: &[u8]) {
    let answer = identify_answer(&demo_identity(), settings, xid);
    assert!(answer.as_slice() == expected);
}

/// This is how a station with these settings answers a Get.
fn gets(settings: &Settings, asked_for: &[u8], expected: &[u8]) {
    let request = request(GET_SET, asked_for);
    let answer = get_answer(&demo_identity(), settings, None, &request);
    assert!(answer.as_slice() == expected);
}

/// This is how a Set is answered whose blocks came to these errors.
fn sets(request: &Request<'_>, errors: &[BlockError], expected: &[u8]) {
    let mut answers = ArrayVec::new();
    let _ = answers.try_extend_from_slice(errors);
    let answer = set_answer(request, &answers);
    assert!(answer.as_slice() == expected);
}

/// Whether an Identify request asks for a station as it leaves the factory.
fn asks_for_all(request: &Request<'_>) -> bool {
    identify_matches(&demo_identity(), &Settings::factory(), None, request)
}

#[test]
fn answers_identify_all() {
    let request = request(IDENTIFY, &ALL);
    assert_eq!(request.service, Service::Identify);
    assert_eq!(request.xid, 1);
    assert!(asks_for_all(&request));
    identifies(&Settings::factory(), request.xid, &DEMO);
}

#[test]
fn gets_each_pair_once() {
    let asked_for = [3, 0, 0, 0, 0, 3, 0, 0, 0, 8, 2, 2, 1, 2, 2, 2, 3, 1];
    let expected = [
        3, 1, 0, 0, 0, 3, 0, 0, 0, 32, 2, 2, 0, 2, 0, 0, 1, 2, 0, 14, 0, 0, 0, 0, 0, 0, 0, 0, 0, 0,
        0, 0, 0, 0, 5, 4, 0, 3, 3, 1, 1, 0,
    ];
    gets(&Settings::factory(), &asked_for, &expected);
}

/// The name by the place behind the port `port-003` of `sw-1`.
fn alias() -> AliasName {
    let mut alias = AliasName::new();
    alias.try_extend_from_slice(b"port-003.sw-1").expect("fits");
    alias
}

// The octets are those of a reference model that shares no line with this crate.
#[test]
fn gets_the_name_by_the_place() {
    let asked_for = [3, 0, 0, 0, 0, 3, 0, 0, 0, 2, 2, 6];
    let expected = [
        3, 1, 0, 0, 0, 3, 0, 0, 0, 20, 2, 6, 0, 15, 0, 0, b'p', b'o', b'r', b't', b'-', b'0', b'0',
        b'3', b'.', b's', b'w', b'-', b'1', 0,
    ];
    let request = request(GET_SET, &asked_for);
    let answer = get_answer(
        &demo_identity(),
        &Settings::factory(),
        Some(&alias()),
        &request,
    );
    assert_eq!(answer.as_slice(), expected);
    // Without one the suboption is unknown, as before.
    let expected = [3, 1, 0, 0, 0, 3, 0, 0, 0, 8, 5, 4, 0, 3, 2, 6, 2, 0];
    gets(&Settings::factory(), &asked_for, &expected);
}

/// An Identify by the name `port-003.sw-1` by the place, padded.
const BY_ALIAS: [u8; 28] = [
    5, 0, 0, 0, 0, 9, 0, 1, 0, 18, 2, 6, 0, 13, b'p', b'o', b'r', b't', b'-', b'0', b'0', b'3',
    b'.', b's', b'w', b'-', b'1', 0,
];

#[test]
fn is_found_by_the_name_by_the_place() {
    let request = request(IDENTIFY, &BY_ALIAS);
    let matches = |alias: Option<&AliasName>, request: &Request<'_>| {
        identify_matches(&demo_identity(), &Settings::factory(), alias, request)
    };
    assert!(matches(Some(&alias()), &request));
    let mut other = alias();
    other.push(b'0');
    assert!(!matches(Some(&other), &request));
    assert!(!matches(None, &request));
}

// An empty name by the place asks for no station.
#[test]
fn is_not_found_by_no_name_by_the_place() {
    let bytes = [5, 0, 0, 0, 0, 9, 0, 1, 0, 4, 2, 6, 0, 0];
    let request = request(IDENTIFY, &bytes);
    assert!(!asks_for_all(&request));
}

/// A device at this address.
fn at_192_168_0_2() -> Settings {
    let suite = IpSuite::new([192, 168, 0, 2], [255, 255, 255, 0], [192, 168, 0, 1]);
    Settings {
        suite: suite.expect("a suite"),
        ..Settings::factory()
    }
}

#[test]
fn answers_identify_with_its_address() {
    let settings = Settings {
        name: check(b"pump-1").ok().expect("a name"),
        ..at_192_168_0_2()
    };
    identifies(&settings, 0x1122_3344, &NAMED);
}

#[test]
fn gets_an_address_that_is_set() {
    let asked_for = [3, 0, 0, 0, 0, 3, 0, 0, 0, 2, 1, 2];
    let expected = [
        3, 1, 0, 0, 0, 3, 0, 0, 0, 18, 1, 2, 0, 14, 0, 1, 192, 168, 0, 2, 255, 255, 255, 0, 192,
        168, 0, 1,
    ];
    gets(&at_192_168_0_2(), &asked_for, &expected);
}

#[test]
fn answers_a_set_that_is_not_stored() {
    let request = request(GET_SET, &NAME_SUITE_AND_RESET);
    let errors = [
        BlockError::Exhausted,
        BlockError::Local,
        BlockError::InOperation,
    ];
    let expected = [
        4, 1, 0, 0, 0, 9, 0, 0, 0, 24, // the header
        5, 4, 0, 3, 2, 2, 4, 0, // there is no room
        5, 4, 0, 3, 1, 2, 5, 0, // it could not be stored
        5, 4, 0, 3, 5, 6, 6, 0, // not while the device operates
    ];
    sets(&request, &errors, &expected);
}

#[test]
fn plans_a_signal() {
    let flash = [4, 0, 0, 0, 0, 2, 0, 0, 0, 8, 5, 3, 0, 4, 0, 0, 1, 0];
    let request = request(GET_SET, &flash);
    assert!(matches!(
        set_plan(&request, true).as_slice(),
        [SetItem::Signal]
    ));
}

#[test]
fn faults_are_numbered() {
    assert_eq!(DcpFault::Length.number(), 1);
    assert_eq!(DcpFault::Service.number(), 2);
    assert_eq!(DcpFault::Block.number(), 3);
}

/// Whether a Set must store the name `pump-1`, and refuse the next block because of its value.
fn stores_a_name_alone(request: &Request<'_>) -> bool {
    match set_plan(request, false).as_slice() {
        [
            SetItem::Ask(Command::SetName { permanent, name }),
            SetItem::Answer(error),
        ] => *permanent && name.as_bytes() == b"pump-1".as_slice() && *error == BlockError::Value,
        _ => false,
    }
}

#[test]
fn plans_a_name_and_refuses_a_mask() {
    let request = request(GET_SET, &NAME_AND_SUITE);
    assert!(stores_a_name_alone(&request));
    let errors = [BlockError::Done, BlockError::Value];
    let expected = [
        4, 1, 0, 0, 0, 2, 0, 0, 0, 16, 5, 4, 0, 3, 2, 2, 0, 0, 5, 4, 0, 3, 1, 2, 3, 0,
    ];
    sets(&request, &errors, &expected);
}

/// What a Set of this name asks for, of a station that no relation uses. The name has an even number of octets.
fn set_of(name: &[u8]) -> ArrayVec<SetItem, 16> {
    let mut bytes = ArrayVec::<u8, 64>::new();
    let head = [4, 0, 0, 0, 0, 2, 0, 0, 0, name.len() as u8 + 6];
    let block = [2, 2, 0, name.len() as u8 + 2, 0, 1];
    for part in [&head[..], &block, name] {
        bytes.try_extend_from_slice(part).expect("fits");
    }
    set_plan(&request(GET_SET, bytes.as_slice()), false)
}

// No octets delete the name; a text that is not a station name is refused, and deletes nothing.
#[test]
fn refuses_a_bad_name() {
    assert!(matches!(
        set_of(b"").as_slice(),
        [SetItem::Ask(Command::SetName { permanent: true, name })] if name.as_bytes().is_empty()
    ));
    for name in [
        &b"Pump-1"[..],
        b"pump-1--",
        b"a..b",
        b"port-001",
        b"10.0.0.1",
    ] {
        assert!(
            matches!(
                set_of(name).as_slice(),
                [SetItem::Answer(BlockError::Value)]
            ),
            "{name:?}"
        );
    }
}

/// This is how a request for one block is sent.
fn asks(service: Service, kind: Kind, contents: &[u8], expected: &[u8]) {
    let mut blocks = ArrayVec::new();
    blocks.push(Block { kind, contents });
    let mut octets = ArrayVec::<u8, 64>::new();
    write_request(
        &Request {
            service,
            xid: 0x0102_0304,
            blocks,
        },
        &mut octets,
    );
    assert_eq!(octets.as_slice(), expected, "{service:?}");
}

// As Wireshark reads them: an Identify has the ResponseDelay 1, which a Get and a Set do not have.
#[test]
fn asks_with_a_delay_only_in_an_identify() {
    asks(
        Service::Identify,
        Kind::NameOfStation,
        b"pump-1",
        &[
            5, 0, 1, 2, 3, 4, 0, 1, 0, 10, 2, 2, 0, 6, b'p', b'u', b'm', b'p', b'-', b'1',
        ],
    );
    asks(
        Service::Get,
        Kind::NameOfStation,
        b"",
        &[3, 0, 1, 2, 3, 4, 0, 0, 0, 2, 2, 2],
    );
    asks(
        Service::Set,
        Kind::Signal,
        &[0, 0, 1, 0],
        &[4, 0, 1, 2, 3, 4, 0, 0, 0, 8, 5, 3, 0, 4, 0, 0, 1, 0],
    );
}

#[test]
fn reads_no_seventeenth_pair() {
    let mut bytes = [1; 44];
    bytes[0] = 3;
    bytes[1] = 0;
    bytes[8] = 0;
    bytes[9] = 32;
    assert_eq!(fault(GET_SET, &bytes), None);
    bytes[9] = 34;
    assert_eq!(fault(GET_SET, &bytes), Some(DcpFault::Block));
}

#[test]
fn tells_faults_apart() {
    let mut bytes = ALL;
    bytes[9] = 0;
    assert_eq!(fault(IDENTIFY, &bytes), None);
    bytes[9] = 5;
    assert_eq!(fault(IDENTIFY, &bytes), Some(DcpFault::Block));
    assert_eq!(fault(IDENTIFY, &bytes[..14]), Some(DcpFault::Length));
    assert_eq!(fault(GET_SET, &ALL), Some(DcpFault::Service));
    let short = [4, 0, 0, 0, 0, 2, 0, 0, 0, 5, 2, 2, 0, 1, 0];
    assert_eq!(fault(GET_SET, &short), Some(DcpFault::Block));
    let other = [4, 5, 0, 0, 0, 2, 0, 0, 0, 4, 2, 2, 0, 0];
    assert_eq!(fault(GET_SET, &other), Some(DcpFault::Service));
}

/// A name that was set, padded.
const SET: [u8; 44] = [
    4, 1, 0, 0, 0, 2, 0, 0, 0, 8, 5, 4, 0, 3, 2, 2, 0, 0, 0, 0, 0, 0, 0, 0, 0, 0, 0, 0, 0, 0, 0, 0,
    0, 0, 0, 0, 0, 0, 0, 0, 0, 0, 0, 0,
];

/// No name, no address, and a pair whose option is not known, padded.
const GOT: [u8; 44] = [
    3, 1, 0, 0, 0, 3, 0, 0, 0, 32, 2, 2, 0, 2, 0, 0, 1, 2, 0, 14, 0, 0, 0, 0, 0, 0, 0, 0, 0, 0, 0,
    0, 0, 0, 5, 4, 0, 3, 3, 1, 1, 0, 0, 0,
];

/// An answer that can be read.
fn answer<'a>(frame_id: u16, bytes: &'a [u8]) -> Response<'a> {
    read_answer(frame_id, bytes).ok().expect("an answer")
}

/// Why an answer cannot be read.
fn answer_fault(frame_id: u16, bytes: &[u8]) -> Option<DcpFault> {
    read_answer(frame_id, bytes).err()
}

fn count_of(blocks: ResponseBlocks<'_>) -> usize {
    let mut count: usize = 0;
    for _ in blocks {
        count = count.saturating_add(1);
    }
    count
}

/// An answer tells this value of a kind, or none.
fn tells(answer: &Response<'_>, kind: Kind, value: Option<&[u8]>) {
    assert_eq!(answer.value(kind), value, "{kind:?}");
}

/// Whether a block says that this became of what was asked.
fn says(block: Option<ResponseBlock<'_>>, asked: Kind, error: BlockError) -> bool {
    match block {
        Some(ResponseBlock::Outcome { kind, outcome }) => {
            kind == asked && outcome == Outcome::Known(error)
        }
        _ => false,
    }
}

#[test]
fn reads_an_answer_to_identify() {
    let answer = answer(IDENTIFIED, &DEMO);
    assert_eq!(answer.service, Service::Identify);
    assert!(answer.is_supported);
    assert_eq!(answer.xid, 1);
    assert_eq!(count_of(answer.blocks), 7);
    tells(&answer, Kind::StationType, Some(b"pn-demo"));
    tells(&answer, Kind::NameOfStation, Some(b""));
    tells(&answer, Kind::DeviceId, Some(&[1, 0x23, 4, 0x56]));
    tells(&answer, Kind::IpSuite, Some(&[0; 12]));
    tells(&answer, Kind::MacAddress, None);
    assert!(answer.is_positive());
}

#[test]
fn reads_an_answer_to_a_set() {
    let answer = answer(GET_SET, &SET);
    assert_eq!(answer.service, Service::Set);
    assert_eq!(answer.xid, 2);
    let mut blocks = answer.blocks;
    assert!(says(blocks.next(), Kind::NameOfStation, BlockError::Done));
    assert!(answer.is_positive());
}

#[test]
fn a_set_that_was_refused() {
    let mut refused = SET;
    refused[16] = 3;
    let answer = answer(GET_SET, &refused);
    assert!(answer.is_supported);
    assert!(!answer.is_positive());
}

#[test]
fn a_set_that_is_not_supported() {
    let mut unsupported = SET;
    unsupported[1] = 5;
    unsupported[9] = 0;
    let answer = answer(GET_SET, &unsupported);
    assert!(!answer.is_supported);
    assert!(!answer.is_positive());
    assert_eq!(count_of(answer.blocks), 0);
}

#[test]
fn reads_an_answer_to_a_get() {
    let answer = answer(GET_SET, &GOT);
    assert_eq!(answer.service, Service::Get);
    tells(&answer, Kind::NameOfStation, Some(b""));
    tells(&answer, Kind::IpSuite, Some(&[0; 12]));
    assert!(!answer.is_positive());
    let mut blocks = answer.blocks;
    let _name = blocks.next();
    let _address = blocks.next();
    let asked = Kind::Other {
        option: 3,
        suboption: 1,
    };
    assert!(says(blocks.next(), asked, BlockError::Option));
    assert!(blocks.next().is_none());
}

#[test]
fn reads_seventeen_blocks_of_an_answer() {
    let mut bytes = [0; 112];
    bytes[0] = 3;
    bytes[1] = 1;
    bytes[9] = 102;
    for block in 0..17 {
        bytes[10 + 6 * block] = 2;
        bytes[11 + 6 * block] = 2;
        bytes[13 + 6 * block] = 2;
    }
    assert_eq!(count_of(answer(GET_SET, &bytes).blocks), 17);
}

#[test]
fn tells_faults_of_answers_apart() {
    let length = Some(DcpFault::Length);
    let service = Some(DcpFault::Service);
    let block = Some(DcpFault::Block);
    assert_eq!(answer_fault(IDENTIFIED, &DEMO[..103]), length);
    assert_eq!(answer_fault(IDENTIFIED, &DEMO[..9]), length);
    assert_eq!(answer_fault(IDENTIFY, &DEMO), service);
    assert_eq!(answer_fault(GET_SET, &ALL), service);
    let mut bytes = SET;
    bytes[1] = 2;
    bytes[13] = 4;
    assert_eq!(answer_fault(GET_SET, &bytes), service);
    bytes[1] = 1;
    assert_eq!(answer_fault(GET_SET, &bytes), block);
    bytes[9] = 9;
    bytes[13] = 3;
    assert_eq!(answer_fault(GET_SET, &bytes), block);
    let short = [3, 1, 0, 0, 0, 3, 0, 0, 0, 6, 2, 2, 0, 1, 0, 0];
    assert_eq!(answer_fault(GET_SET, &short), block);
}
