//! A device answers exactly the requests of DCP and ARP that are for it, each once, to the station that asked, with its Xid and what the running
//! settings say; at all others, and at frames and packets to other stations, nothing is sent (`answers_law::device_answers`).
use device_core::Event;
use flash_model::MemoryFlash;
use frame_codec::Outbox;
use test_stations::{IDENTIFY, SET, Station, call, frame, mend, no_modules, station};

/// What the station has: its MAC address, address, mask and gateway, type, name, VendorID with DeviceID, and instance.
const MAC: [u8; 6] = [2, 0, 0, 0, 0, 1];
const SUITE: [u8; 12] = [192, 168, 0, 2, 255, 255, 255, 0, 0, 0, 0, 0];
const KIND: &[u8] = b"pn-demo";
const NAME: &[u8] = b"pump-1";
const DEVICE: [u8; 4] = [1, 0x23, 4, 0x56];
const INSTANCE: [u8; 2] = [0, 1];
const KNOWN: [u8; 24] = [1, 1, 1, 2, 2, 1, 2, 2, 2, 3, 2, 4, 2, 5, 2, 7, 5, 3, 5, 4, 5, 5, 5, 6];

const GROUP: [u8; 6] = [1, 0x0E, 0xCF, 0, 0, 0];
const ALL: [u8; 6] = [0xFF; 6];
const OTHER: [u8; 6] = [2, 0, 0, 0, 0, 9];
const ASKER: [u8; 6] = [2, 0, 0, 0, 0, 2];
const XID: [u8; 4] = [0xC1, 0xC2, 0xC3, 0xC4];

type Block = (u8, u8, Vec<u8>);

fn number(octets: &[u8], at: usize) -> usize {
    let octet = |at: usize| octets.get(at).copied().map_or(0, usize::from);
    octet(at) * 256 + octet(at + 1)
}

/// Where the EtherType is.
fn place(came: &[u8]) -> usize {
    if number(came, 12) == 0x8100 { 16 } else { 12 }
}

// ---- the law, read of octets

/// The data of a request with this FrameID and ServiceID, if the frame is one.
fn data(came: &[u8], id: usize, service: u8) -> Option<&[u8]> {
    let at = place(came);
    let size = number(came, at + 12);
    let is = number(came, at) == 0x8892
        && number(came, at + 2) == id
        && came.get(at + 4..at + 6) == Some(&[service, 0][..])
        && came.len() <= at + 1502;
    if is { came.get(at + 14..at + 14 + size) } else { None }
}

/// The blocks, if they are whole.
fn blocks(least: usize, mut octets: &[u8]) -> Option<Vec<Block>> {
    let mut found = Vec::new();
    while !octets.is_empty() {
        let size = number(octets, 2);
        if found.len() == 16 || size < least || 4 + size > octets.len() {
            return None;
        }
        found.push((octets[0], octets[1], octets[4..4 + size].to_vec()));
        octets = octets.get(4 + size + size % 2..).unwrap_or(&[]);
    }
    Some(found)
}

/// The value that the station has.
fn value(option: u8, suboption: u8) -> Option<Vec<u8>> {
    let value: &[u8] = match (option, suboption) {
        (1, 1) => &MAC,
        (1, 2) => &SUITE,
        (2, 1) => KIND,
        (2, 2) => NAME,
        (2, 3) => &DEVICE,
        (2, 4) => &[1, 0],
        (2, 5) => &KNOWN,
        (2, 7) => &INSTANCE,
        _ => return None,
    };
    Some(value.to_vec())
}

fn fits((option, suboption, asked): &Block) -> bool {
    match (option, suboption) {
        (255, 255) => asked.is_empty(),
        (2, 5) => false,
        _ => value(*option, *suboption).as_ref() == Some(asked) && !asked.is_empty(),
    }
}

fn block(option: u8, suboption: u8, info: u8, value: &[u8]) -> Vec<u8> {
    let size = value.len() + 2;
    let mut octets = vec![option, suboption, 0, size as u8, 0, info];
    octets.extend_from_slice(value);
    octets.resize(4 + size + size % 2, 0);
    octets
}

fn outcome(option: u8, suboption: u8, error: u8) -> Vec<u8> {
    vec![5, 4, 0, 3, option, suboption, error, 0]
}

fn padded(mut octets: Vec<u8>) -> Vec<u8> {
    octets.resize(octets.len().max(60), 0);
    octets
}

fn answer(came: &[u8], id: u8, service: u8, blocks: &[u8]) -> Vec<u8> {
    let at = place(came);
    let head = [&[0x88, 0x92, 0xFE, id, service, 1][..], &came[at + 6..at + 10], &[0, 0, 0, blocks.len() as u8]];
    padded([&came[6..12], &MAC, &head.concat(), blocks].concat())
}

/// What a pair of a Get is answered.
fn pair(option: u8, suboption: u8) -> Vec<u8> {
    match value(option, suboption) {
        Some(value) => block(option, suboption, u8::from((option, suboption) == (1, 2)), &value),
        None => outcome(option, suboption, if [1, 2, 5].contains(&option) { 2 } else { 1 }),
    }
}

/// What a frame is to the station: no request for it; one whose answer is known to the octet; or a Set of these blocks.
enum Asked {
    Nothing,
    Answered(Vec<u8>),
    Set(Vec<Block>),
}

fn asked(came: &[u8]) -> Asked {
    let at = place(came);
    let own = came[..6] == MAC;
    let identify = data(came, 0xFEFE, 5).and_then(|data| blocks(0, data));
    if let Some(found) = identify.filter(|found| (own || came[..6] == GROUP) && !found.is_empty() && found.iter().all(fits)) {
        assert!(found.len() <= 16);
        let all = [(2, 1), (2, 2), (2, 3), (2, 4), (2, 5), (2, 7), (1, 2)];
        return Asked::Answered(answer(came, 0xFF, 5, &all.map(|(option, suboption)| pair(option, suboption)).concat()));
    }
    if let Some(pairs) = data(came, 0xFEFD, 3).filter(|data| own && data.len() % 2 == 0 && data.len() <= 32) {
        let mut all: Vec<[u8; 2]> = Vec::new();
        for one in pairs.chunks(2).map(|one| [one[0], one[1]]) {
            if !all.contains(&one) {
                all.push(one);
            }
        }
        return Asked::Answered(answer(came, 0xFD, 3, &all.iter().map(|one| pair(one[0], one[1])).collect::<Vec<_>>().concat()));
    }
    if let Some(found) = data(came, 0xFEFD, 4).and_then(|data| blocks(2, data)).filter(|_| own) {
        return Asked::Set(found);
    }
    let resolves = number(came, at) == 0x0806
        && (own || came[..6] == ALL)
        && came.get(at + 2..at + 10) == Some(&[0, 1, 8, 0, 6, 4, 0, 1][..])
        && came.get(at + 26..at + 30) == Some(&SUITE[..4])
        && came.len() <= at + 1502;
    if resolves {
        let head = [8, 6, 0, 1, 8, 0, 6, 4, 0, 2];
        return Asked::Answered(padded([&came[6..12], &MAC, &head, &MAC, &SUITE[..4], &came[at + 10..at + 20]].concat()));
    }
    Asked::Nothing
}

/// Whether the law holds of a frame that came and of those that were sent.
fn holds(came: &[u8], sent: &[Vec<u8>]) -> bool {
    match asked(came) {
        Asked::Nothing => sent.is_empty(),
        Asked::Answered(octets) => sent == [octets],
        Asked::Set(blocks) => sent.len() == 1 && (0..7).any(|error| {
            let all: Vec<Vec<u8>> = blocks.iter().map(|(option, suboption, _)| outcome(*option, *suboption, error)).collect();
            sent[0] == answer(came, 0xFD, 4, &all.concat())
        }),
    }
}

// ---- frames

fn request(to: [u8; 6], id: u8, service: [u8; 2], blocks: &[u8]) -> Vec<u8> {
    let size = [0, blocks.len() as u8];
    [&to[..], &ASKER, &[0x88, 0x92, 0xFE, id], &service, &XID, &[0, 1], &size, blocks].concat()
}

fn asks(option: u8, suboption: u8, value: &[u8]) -> Vec<u8> {
    let mut octets = vec![option, suboption, 0, value.len() as u8];
    octets.extend_from_slice(value);
    octets.resize(octets.len() + value.len() % 2, 0);
    octets
}

fn tagged(came: &[u8]) -> Vec<u8> {
    [&came[..12], &[0x81, 0, 0xC0, 0], &came[12..]].concat()
}

fn arp(to: [u8; 6], operation: u8, target: [u8; 4]) -> Vec<u8> {
    [&to[..], &ASKER, &[8, 6, 0, 1, 8, 0, 6, 4, 0, operation], &ASKER, &[192, 168, 0, 1], &[0; 6], &target].concat()
}

fn with(octets: &[u8], place: usize, octet: u8) -> Vec<u8> {
    let mut changed = octets.to_vec();
    changed[place] = octet;
    changed
}

/// Identify requests of each kind, each with whether it is for the station.
fn identifies() -> Vec<(Vec<u8>, bool)> {
    let name = asks(2, 2, NAME);
    let identify = |blocks: &[u8]| request(GROUP, 0xFE, [5, 0], blocks);
    let many = |count: usize| identify(&asks(255, 255, &[]).repeat(count));
    let mut long = identify(&name);
    long.resize(1514, 0);
    let mut too_long = long.clone();
    too_long.push(0);
    vec![
        (IDENTIFY.to_vec(), true),
        (identify(&name), true),
        (request(MAC, 0xFE, [5, 0], &name), true),
        (tagged(&identify(&name)), true),
        (identify(&[asks(2, 3, &DEVICE), name.clone()].concat()), true),
        (identify(&[name.clone(), asks(1, 1, &MAC), asks(1, 2, &SUITE), asks(2, 1, KIND), asks(2, 4, &[1, 0]), asks(2, 7, &INSTANCE)].concat()), true),
        (long, true),
        (many(16), true),
        (too_long, false),
        (many(17), false),
        (identify(&[]), false),
        (identify(&asks(2, 2, b"pump-2")), false),
        (identify(&asks(2, 2, b"pump-11")), false),
        (identify(&asks(2, 2, &[])), false),
        (identify(&asks(255, 255, &[0])), false),
        (identify(&[name.clone(), asks(2, 3, &[1, 0x23, 4, 0x57])].concat()), false),
        (identify(&[asks(2, 3, &[1, 0x22, 4, 0x56]), name.clone()].concat()), false),
        (identify(&asks(1, 2, &[192, 168, 0, 3, 255, 255, 255, 0, 0, 0, 0, 0])), false),
        (identify(&asks(1, 1, &OTHER)), false),
        (identify(&asks(2, 5, &KNOWN)), false),
        (identify(&asks(2, 6, b"port-001.plc")), false),
        (identify(&asks(3, 1, &[1])), false),
        (identify(&name[..name.len() - 1]), false),
        (request(OTHER, 0xFE, [5, 0], &name), false),
        (request(ALL, 0xFE, [5, 0], &name), false),
        (request(GROUP, 0xFE, [5, 1], &name), false),
        (request(GROUP, 0xFE, [3, 0], &name), false),
        (request(GROUP, 0xFD, [5, 0], &name), false),
        (request(GROUP, 0xFF, [5, 0], &name), false),
        (with(&identify(&name), 13, 0x93), false),
        (with(&identify(&name), 25, 60), false),
    ]
}

/// The same of Get, Set, ARP and calls.
fn others() -> Vec<(Vec<u8>, bool)> {
    let get = |to: [u8; 6], pairs: &[u8]| request(to, 0xFD, [3, 0], pairs);
    let asking = [2, 2, 1, 2, 2, 5, 2, 2, 2, 6, 1, 3, 5, 3, 9, 9];
    let mut far = call(5, 7, 1, &[0; 64]);
    far[33] = 3;
    mend(&mut far);
    let foreign = with(call(5, 7, 1, &[0; 64]).as_slice(), 5, 9);
    vec![
        (get(MAC, &asking), true),
        (get(MAC, &[]), true),
        (tagged(&get(MAC, &asking)), true),
        (get(OTHER, &asking), false),
        (get(GROUP, &asking), false),
        (get(ALL, &asking), false),
        (get(MAC, &asking[..7]), false),
        (request(MAC, 0xFE, [3, 0], &asking), false),
        (request(MAC, 0xFD, [3, 1], &asking), false),
        (SET.to_vec(), true),
        (with(&SET, 5, 9), false),
        (with(&SET, 29, 1), false),
        (with(&SET, 17, 1), false),
        (arp(ALL, 1, [192, 168, 0, 2]), true),
        (arp(MAC, 1, [192, 168, 0, 2]), true),
        (tagged(&arp(ALL, 1, [192, 168, 0, 2])), true),
        (arp(ALL, 1, [192, 168, 0, 3]), false),
        (arp(ALL, 1, [0, 0, 0, 0]), false),
        (arp(OTHER, 1, [192, 168, 0, 2]), false),
        (arp(GROUP, 1, [192, 168, 0, 2]), false),
        (arp(ALL, 2, [192, 168, 0, 2]), false),
        (with(&arp(ALL, 1, [192, 168, 0, 2]), 15, 6), false),
        (with(&arp(ALL, 1, [192, 168, 0, 2]), 16, 9), false),
        (with(&arp(ALL, 1, [192, 168, 0, 2]), 18, 8), false),
        (arp(ALL, 1, [192, 168, 0, 2])[..41].to_vec(), false),
        (far.as_slice().to_vec(), false),
        (foreign, false),
    ]
}

/// The station "pump-1" with its address, and what it sends at a frame.
fn pump() -> Station {
    let mut device = station(no_modules(), MemoryFlash::blank()).expect("a station");
    device.step(&frame(&SET), &mut Outbox::new());
    device
}

fn sent_at(device: &mut Station, came: &[u8]) -> Vec<Vec<u8>> {
    let mut outbox = Outbox::new();
    device.step(&frame(came), &mut outbox);
    outbox.as_slice().iter().map(|sent| sent.as_slice().to_vec()).collect()
}

/// Each frame, with what was sent at it.
fn run() -> Vec<(Vec<u8>, Vec<Vec<u8>>)> {
    identifies().into_iter().chain(others()).map(|(came, _)| (came.clone(), sent_at(&mut pump(), &came))).collect()
}

#[test]
fn exactly_the_requests_for_it_are_answered() {
    for ((came, is_for_it), (_, sent)) in identifies().into_iter().chain(others()).zip(run()) {
        assert!(holds(&came, &sent), "{came:02X?}: {sent:02X?}");
        assert_eq!(sent.len(), usize::from(is_for_it), "{came:02X?}");
    }
}

// A device that answers each Identify, each request of ARP, or a frame to somebody else.
#[test]
fn an_answer_to_what_is_for_others() {
    let answer = sent_at(&mut pump(), &IDENTIFY);
    for (came, sent) in run().into_iter().filter(|(_, sent)| sent.is_empty()) {
        assert!(holds(&came, &sent) && !holds(&came, &answer));
    }
}

#[test]
fn a_request_without_an_answer_or_with_two() {
    for (came, sent) in run().into_iter().filter(|(_, sent)| sent.len() == 1) {
        assert!(!holds(&came, &[]));
        assert!(!holds(&came, &[sent[0].clone(), sent[0].clone()]));
    }
}

// To another station, from another one, under another FrameID, as another service, with another Xid, or with other blocks.
#[test]
fn an_answer_with_another_field() {
    for (came, sent) in run().into_iter().filter(|(_, sent)| sent.len() == 1) {
        let places = if sent[0][12..14] == [8, 6] { vec![0, 11, 13, 21, 27, 31, 37, 41] } else { vec![0, 11, 15, 16, 17, 18, 21, 25] };
        for place in places {
            assert!(!holds(&came, &[with(&sent[0], place, sent[0][place] ^ 0x40)]), "place {place}");
        }
    }
    let answer = sent_at(&mut pump(), &IDENTIFY);
    for place in 26..answer[0].len() {
        assert!(!holds(&IDENTIFY, &[with(&answer[0], place, answer[0][place] ^ 1)]), "place {place}");
    }
}
