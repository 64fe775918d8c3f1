//! A tool before a controller starts. Scapy 2.5 made the octets of each frame but the Identify by a name by the place and the Set,
//! which were composed by hand from IEC 61158-6-10, 4.3.

use super::operations::asked;
use super::served::{padded, spelled};
use c_layout::Op;
use commissioning::Search;
use controller_abi::{WrittenTarget, WrittenTool, find, hear, name, outcome, read, record};

/// A station without a name answers.
const NAMELESS: &str = "0200000000020200000000018892feff05014e414d450000001002020002000002030006000001230456000000\
    000000000000000000000000000000";

/// The same one with a name.
const NAMED: &str = "0200000000020200000000018892feff05014e414d450000001602020008000070756d702d3102030006000001\
    230456000000000000000000000000";

/// Another one without a name.
const OTHER: &str = "0200000000020200000000038892feff05014e414d450000001002020002000002030006000001230456000000\
    000000000000000000000000000000";

/// The station has the name.
const DONE: &str = "0200000000020200000000018892fefd04017c5e1a930000000805040003020200000000000000000000000000\
    000000000000000000000000000000";

/// The station could not store it.
const FAILED: &str = "0200000000020200000000018892fefd04017c5e1a930000000805040003020205000000000000000000000000\
    000000000000000000000000000000";

/// The Read Implicit of 0xF841.
const ASK: &str = "0200000000010200000000020800450000c0000040004011b8d9c0a80001c0a800028894889400ac29c0040020\
    0000000000dea000006c9711d18271000104560123dea000016c9711d1827100a02442df7d6263646566676869\
    6a6b6c6d6e6f70710000000000000001000000000005ffffffff0054000000000000055c000000400000055c00\
    000000000000400009003c010000000000000000000000000000000000000000000000000000000000f8410000\
    051c000000000000000000000000000000000000000000000000";

/// Its answer, in little endian: four octets.
const ANSWER: &str = "0200000000020200000000010800450000c4000040004011b8d5c0a80002c0a800018894889400b071b504020a\
    00100000000000a0de976cd11182710001045601230100a0de976cd111827100a02442df7d6564636267666968\
    6a6b6c6d6e6f70710000000001000000000000000500ffffffff58000000000000000000440000005c05000000\
    000000440000008009003c010000000000000000000000000000000000000000000000000000000000f8410000\
    0004000000000000000000000000000000000000000000000000c0ffee01";

/// It is refused: there is no such index.
const REFUSAL: &str = "020000000002020000000001080045000080000040004011b919c0a80002c0a8000188948894006cb67b04020a\
    0000000000dea000006c9711d18271000104560123dea000016c9711d1827100a02442df7d6263646566676869\
    6a6b6c6d6e6f70710000000000000001000000000005ffffffff001400000000de80b000000000000000055c00\
    00000000000000";

/// The tool as it has asked for a place.
const TOOL: WrittenTool = with_number(0x4E41_4D45);

/// The tool before it sets the name.
const ALMOST: WrittenTool = with_number(0x7C5E_1A92);

/// The tool after it.
const SETS: WrittenTool = with_number(0x7C5E_1A93);

/// The tool with a number of its request.
const fn with_number(xid: u32) -> WrittenTool {
    WrittenTool {
        mac: [2, 0, 0, 0, 0, 2],
        address: [192, 168, 0, 1],
        xid,
    }
}

const TARGET: WrittenTarget = WrittenTarget {
    mac: [2, 0, 0, 0, 0, 1],
    address: [192, 168, 0, 2],
    vendor_id: 0x0123,
    device_id: 0x0456,
};

/// The activity of the read.
const ACTIVITY: [u8; 16] = *b"bcdefghijklmnopq";

/// The octets that an operation reports.
fn told(op: &Op) -> &[u8] {
    &op.octets[..op.length as usize]
}

/// A search that heard these frames.
fn search(frames: &[&str]) -> Search {
    let mut search = Search::new(TOOL.xid);
    for digits in frames {
        hear(&TOOL, &mut search, &spelled(digits));
    }
    search
}

/// What a host finds in a search: how many stations, whether a name is told, its octets, and the number.
fn seen(search: &Search) -> (u32, u32, u32, u32) {
    (search.stations, search.is_told, search.length, search.xid)
}

#[test]
fn a_name_by_the_place_is_asked_for() {
    let mut op = asked(0);
    let mut tool = with_number(TOOL.xid - 1);
    let mut found = search(&[NAMED, OTHER]);
    assert_eq!(find(&mut tool, &mut found, b"port-003.switch-a", &mut op), 0);
    let wanted = "010ecf00000002000000000288 92fefe05004e414d4500010016 02060011706f72742d3030332e7377697463682d6100";
    assert_eq!(told(&op), padded(&wanted.replace(' ', "")));
    assert_eq!((tool.xid, seen(&found)), (TOOL.xid, (0, 0, 0, TOOL.xid)));
    assert_eq!(find(&mut tool, &mut found, &[b'x'; 511], &mut op), 0);
    assert_eq!((op.length, tool.xid, found.xid), (14 + 12 + 4 + 512, TOOL.xid + 1, TOOL.xid + 1));
    op.length = 5;
    assert_eq!(find(&mut tool, &mut found, &[b'x'; 512], &mut op), 8);
    assert_eq!(find(&mut tool, &mut found, b"", &mut op), 8);
    assert_eq!((op.length, tool.xid, found.xid), (5, TOOL.xid + 1, TOOL.xid + 1));
    // After the last number comes 0.
    tool.xid = u32::MAX;
    assert_eq!(find(&mut tool, &mut found, b"x", &mut op), 0);
    assert_eq!((tool.xid, found.xid, &told(&op)[18..22]), (0, 0, &[0; 4][..]));
}

#[test]
fn a_late_answer_to_another_search_changes_nothing() {
    let mut op = asked(0);
    let mut tool = with_number(TOOL.xid - 1);
    // The station at the first place answers only after the tool has asked for the second one.
    let (mut first, mut second) = (search(&[]), search(&[]));
    assert_eq!(find(&mut tool, &mut first, b"port-001.switch-a", &mut op), 0);
    assert_eq!(find(&mut tool, &mut second, b"port-002.switch-a", &mut op), 0);
    hear(&tool, &mut second, &spelled(NAMELESS));
    assert_eq!(seen(&second), (0, 0, 0, TOOL.xid + 1));
    assert_eq!(name(&mut tool, &second, b"pump-1", &mut op), 28);
    // It is the answer to the first one.
    hear(&tool, &mut first, &spelled(NAMELESS));
    assert_eq!((seen(&first), first.first), ((1, 1, 0, TOOL.xid), [2, 0, 0, 0, 0, 1]));
    // Asked for again, in the same memory, it does not count either.
    assert_eq!(find(&mut tool, &mut first, b"port-001.switch-a", &mut op), 0);
    hear(&tool, &mut first, &spelled(NAMELESS));
    assert_eq!(seen(&first), (0, 0, 0, TOOL.xid + 2));
}

#[test]
fn the_only_nameless_station_gets_the_name() {
    let mut op = asked(0);
    let wanted = "02000000000102000000000288 92fefd04007c5e1a930000000c 02020008000170756d702d31";
    // It answers twice; frames of others, and its answers to others, count for nothing.
    let mut to_another = spelled(NAMELESS);
    to_another[5] = 3;
    let mut of_another_request = spelled(OTHER);
    of_another_request[21] = 1;
    let mut found = search(&[NAMELESS, NAMELESS, DONE, ANSWER]);
    hear(&TOOL, &mut found, &to_another);
    hear(&TOOL, &mut found, &of_another_request);
    let mut tool = ALMOST;
    assert_eq!(name(&mut tool, &found, b"pump-1", &mut op), 0);
    assert_eq!(tool.xid, SETS.xid);
    assert_eq!(told(&op), padded(&wanted.replace(' ', "")));
    for (frame, answer, error) in [(DONE, 0, 0), (FAILED, 0, 5), (NAMELESS, 27, 9)] {
        op.block_error = 9;
        assert_eq!(outcome(&SETS, &found, &spelled(frame), &mut op), answer);
        assert_eq!(op.block_error, error);
    }
    let mut of_another = spelled(DONE);
    of_another[11] = 3;
    assert_eq!(outcome(&SETS, &found, &of_another, &mut op), 27);
    assert_eq!(outcome(&SETS, &search(&[]), &spelled(DONE), &mut op), 27);
    // The same station answers to the Set of somebody else, and to one with the number of the search.
    let mut to_another_set = spelled(DONE);
    to_another_set[21] = 0x92;
    let mut by_the_search = spelled(DONE);
    by_the_search[18..22].copy_from_slice(&TOOL.xid.to_be_bytes());
    for frame in [to_another_set, by_the_search] {
        assert_eq!(outcome(&SETS, &found, &frame, &mut op), 27);
    }
    // A station that does not support the Set (ServiceType 5).
    let mut unsupported = spelled(DONE);
    unsupported[17] = 5;
    assert_eq!(outcome(&SETS, &found, &unsupported, &mut op), 0);
    assert_eq!(op.block_error, 1);
    // An answer to the Set that tells no outcome.
    let mut silent = spelled(DONE);
    silent[25] = 0;
    op.block_error = 9;
    assert_eq!(outcome(&SETS, &found, &silent, &mut op), 0);
    assert_eq!(op.block_error, 1);
}

#[test]
fn no_other_station_gets_it() {
    let mut untold = spelled(NAMELESS);
    untold.drain(26..32); // the block of the name
    untold[25] -= 6;
    let mut coy = search(&[]);
    hear(&TOOL, &mut coy, &untold);
    for (search, why) in [
        (search(&[]), 28),
        (search(&[NAMELESS, OTHER]), 29),
        (search(&[OTHER, NAMED]), 29),
        (search(&[NAMELESS, OTHER, NAMELESS, NAMELESS]), 29),
        (search(&[NAMED]), 30),
        (search(&[NAMELESS, NAMED]), 30),
        (coy, 31),
    ] {
        let (mut op, mut tool) = (asked(0), TOOL);
        op.length = 5;
        assert_eq!(name(&mut tool, &search, b"pump-1", &mut op), why);
        assert_eq!((op.length, tool.xid), (5, TOOL.xid));
    }
    let mut op = asked(0);
    let found = search(&[NAMELESS]);
    for text in [&b""[..], b"Pump", &[b'a'; 241]] {
        let mut tool = TOOL;
        assert_eq!((name(&mut tool, &found, text, &mut op), tool.xid), (41, TOOL.xid));
    }
    // What a host finds: of a station that told a name and then none it finds none, and after a second station the name of the first one.
    assert_eq!(seen(&search(&[NAMED])), (1, 1, 6, TOOL.xid));
    assert_eq!(seen(&search(&[NAMED, OTHER, OTHER])), (2, 1, 6, TOOL.xid));
    let mut silent = search(&[NAMED]);
    hear(&TOOL, &mut silent, &untold);
    assert_eq!(seen(&silent), (1, 0, 0, TOOL.xid));
    let named = search(&[NAMED]);
    assert_eq!(&named.name[..named.length as usize], b"pump-1");
    let both = search(&[NAMELESS, OTHER]);
    assert_eq!((both.first, both.other), ([2, 0, 0, 0, 0, 1], [2, 0, 0, 0, 0, 3]));
}

#[test]
fn a_record_is_read() {
    let mut op = asked(0);
    op.index = 0xF841;
    assert_eq!(read(&TOOL, &TARGET, &ACTIVITY, &mut op), 0);
    assert_eq!(told(&op), spelled(ASK));
    assert_eq!(record(&TOOL, &ACTIVITY, &spelled(ANSWER), &mut op), 0);
    assert_eq!((op.status, told(&op)), (0, &[0xC0, 0xFF, 0xEE, 0x01][..]));
    assert_eq!(record(&TOOL, &ACTIVITY, &spelled(REFUSAL), &mut op), 0);
    assert_eq!((op.status, op.length), (0xDE80_B000, 4));
    let mut another = ACTIVITY;
    another[0] = 0;
    for (activity, frame) in [(&another, ANSWER), (&another, REFUSAL), (&ACTIVITY, ASK), (&ACTIVITY, NAMELESS)] {
        assert_eq!(record(&TOOL, activity, &spelled(frame), &mut op), 27);
    }
    for (slot, subslot, index) in [(65536, 0, 0), (0, 65536, 0), (0, 0, 65536)] {
        (op.slot, op.subslot, op.index, op.length) = (slot, subslot, index, 5);
        assert_eq!(read(&TOOL, &TARGET, &ACTIVITY, &mut op), 9);
        assert_eq!(op.length, 5);
    }
}
