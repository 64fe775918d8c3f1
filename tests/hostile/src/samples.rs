//! DCP requests of each kind, and what becomes of each at the station `pump-1`.

use Fate::{Answered, Fault, Filter, NotMine};
use rattle_std::alloc::Global;
use rattle_std::{Vec, format};

/// What becomes of a frame.
#[derive(Clone, Copy, Debug, PartialEq, Eq)]
pub(super) enum Fate {
    /// One frame is sent.
    Answered,
    /// It cannot be read.
    Fault,
    /// An Identify request for other stations.
    Filter,
    /// It is for another station, or is no request.
    NotMine,
}

/// A DCP request: where it goes, FrameID with ServiceID and ServiceType, its blocks or pairs, and what becomes of it.
pub(super) type Sample = (&'static str, &'static str, &'static str, Fate);

const ALL: &str = "010ecf000000";

const OWN: &str = "020000000001";

const OTHER: &str = "020000000003";

const IDENTIFY: &str = "fefe0500";

pub(super) const GET: &str = "fefd0300";

const SET: &str = "fefd0400";

/// The name `pump-1` and the suite that the station has before each sample.
pub(super) const NAMED: &str = "frame 0200000000010200000000028892fefd0400000000020000001e02020008000170756d702d310102000e0001c0a80002ffffff0000000000\n";

/// Requests of each kind.
pub(super) const SAMPLES: [Sample; 52] = [
    (ALL, IDENTIFY, "ffff0000", Answered),
    (ALL, IDENTIFY, "01010006020000000001", Answered),
    (ALL, IDENTIFY, "0102000cc0a80002ffffff0000000000", Answered),
    (ALL, IDENTIFY, "02010007706e2d64656d6f00", Answered),
    (ALL, IDENTIFY, "0202000670756d702d31", Answered),
    (ALL, IDENTIFY, "0203000401230456", Answered),
    (ALL, IDENTIFY, "020400020100", Answered),
    (ALL, IDENTIFY, "020700020001", Answered),
    (
        ALL,
        IDENTIFY,
        "02010007706e2d64656d6f000202000670756d702d310203000401230456",
        Answered,
    ),
    (
        ALL,
        IDENTIFY,
        "ffff0000ffff0000ffff0000ffff0000ffff0000ffff0000ffff0000ffff0000ffff0000ffff0000ffff0000ffff0000ffff0000ffff0000ffff0000ffff0000",
        Answered,
    ),
    (
        ALL,
        IDENTIFY,
        "ffff0000ffff0000ffff0000ffff0000ffff0000ffff0000ffff0000ffff0000ffff0000ffff0000ffff0000ffff0000ffff0000ffff0000ffff0000ffff0000f\
            fff0000",
        Fault,
    ),
    (OWN, IDENTIFY, "0202000670756d702d31", Answered),
    (ALL, IDENTIFY, "", Filter),
    (ALL, IDENTIFY, "0102000c000000000000000000000000", Filter),
    (ALL, IDENTIFY, "0202000670756d702d32", Filter),
    (ALL, IDENTIFY, "02020000", Filter),
    (
        ALL,
        IDENTIFY,
        "02010007706e2d64656d6f000202000670756d702d320203000401230456",
        Filter,
    ),
    (ALL, IDENTIFY, "020500020101", Filter),
    (ALL, IDENTIFY, "05030002010003010000", Filter),
    (OTHER, IDENTIFY, "ffff0000", NotMine),
    (ALL, "feff0501", "020200020000", NotMine),
    (OWN, "feff0501", "020200020000", NotMine),
    (OWN, "fefc0400", "050600020004", NotMine),
    (OWN, GET, "", Answered),
    (OWN, GET, "0202", Answered),
    (OWN, GET, "01010102020102020203020402050207", Answered),
    (OWN, GET, "0301059902022202ffff0503", Answered),
    (
        OWN,
        GET,
        "0202020202020202020202020202020202020202020202020202020202020202",
        Answered,
    ),
    (
        OWN,
        GET,
        "02020202020202020202020202020202020202020202020202020202020202020202",
        Fault,
    ),
    (ALL, GET, "0202", NotMine),
    (OTHER, GET, "0202", NotMine),
    (OWN, "fefd0301", "0202", Fault),
    (OWN, "fefd0500", "ffff0000", Fault),
    (OWN, "fefe0400", "050600020004", Fault),
    (OWN, SET, "", Answered),
    (OWN, SET, "02020008000170756d702d31", Answered),
    (OWN, SET, "020200070000746573743100", Answered),
    (OWN, SET, "020200020001", Answered),
    (OWN, SET, "0102000e0001c0a80002ffffff0000000000", Answered),
    (OWN, SET, "0102000e0000c0a80002ffffff0000000000", Answered),
    (OWN, SET, "0503000400000100", Answered),
    (OWN, SET, "050500020000", Answered),
    (OWN, SET, "050600020002", Answered),
    (OWN, SET, "050600020004", Answered),
    (OWN, SET, "05060002000e", Answered),
    (OWN, SET, "020100020000030100020000050400020000", Answered),
    (
        OWN,
        SET,
        "0202000500016162630005030004000001000102000e0001c0a80002ffffff0000000000050600020004050500020000",
        Answered,
    ),
    (OWN, SET, "05030004000001000202000500016162", Fault),
    (OWN, SET, "0503000400000100020200010061", Fault),
    (
        OWN,
        SET,
        "020200020001020200020001020200020001020200020001020200020001020200020001020200020001020200020001020200020001020200020001020200020\
            001020200020001020200020001020200020001020200020001020200020001",
        Answered,
    ),
    (
        OWN,
        SET,
        "020200020001020200020001020200020001020200020001020200020001020200020001020200020001020200020001020200020001020200020001020200020\
            001020200020001020200020001020200020001020200020001020200020001020200020001",
        Fault,
    ),
    (OTHER, SET, "050600020004", NotMine),
];

/// The bytes of a sample, filled up to 60. A tagged one has a VLAN tag.
pub(super) fn frame(alloc: Global, sample: &Sample, tag: &str) -> Vec<u8> {
    let (destination, head, data, _) = sample;
    let length = data.len() / 2;
    let text = format!(in alloc;
        "{destination}020000000002{tag}8892{head}000000070000{length:04x}{data}"
    )
    .unwrap();
    let mut bytes = hex::decode(alloc, text.as_bytes()).unwrap();
    let length = bytes.len().max(60);
    bytes.resize(length, 0).unwrap();
    bytes
}
