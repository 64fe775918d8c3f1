//! DCP frames that are cut short, or whose lengths are wrong. What has to become of each is computed here, by the standard alone.

use super::samples::Fate::{self, Answered, Fault, Filter, NotMine};
use super::samples::{GET, NAMED, SAMPLES, Sample, frame};
use rattle_std::alloc::{AllocError, Global};
use rattle_std::{String, Vec, format};
use script_runner::run;

/// A station's answer to Identify asks each of its blocks to be one of these: Option, Suboption, value.
const VALUES: [(u8, u8, &[u8]); 8] = [
    (0xFF, 0xFF, b""),
    (1, 1, b"\x02\0\0\0\0\x01"),
    (1, 2, b"\xC0\xA8\0\x02\xFF\xFF\xFF\0\0\0\0\0"),
    (2, 1, b"pn-demo"),
    (2, 2, b"pump-1"),
    (2, 3, b"\x01\x23\x04\x56"),
    (2, 4, b"\x01\0"),
    (2, 7, b"\0\x01"),
];

/// Appends a line that hands these bytes to the device.
fn put_line(alloc: Global, bytes: &[u8], script: &mut String) -> Result<(), AllocError> {
    let digits = hex::encode(alloc, bytes)?;
    script.push_str("frame ")?;
    script.push_str(digits.as_str())?;
    script.push_str("\n")
}

/// What a line notes of a frame, where it is a note.
fn noted(line: &[u8]) -> Option<Fate> {
    match line {
        b"note done" => Some(Answered),
        b"note fault" => Some(Fault),
        b"note filter" => Some(Filter),
        b"note not-mine" => Some(NotMine),
        _ => None,
    }
}

/// What became of each frame, by what a script printed.
fn fates(alloc: Global, text: &[u8]) -> Vec<Fate> {
    let mut fates = Vec::new(alloc);
    let mut is_sent = false;
    for line in text.split(|byte| *byte == b'\n') {
        let Some(fate) = noted(line) else {
            is_sent = line.starts_with(b"out ");
            continue;
        };
        assert_eq!(is_sent, fate == Answered, "an answer is a frame");
        is_sent = false;
        fates.push(fate).unwrap();
    }
    fates
}

/// The first block of some data, by Option, Suboption and contents, and the rest. A block of odd Length is followed by a byte of
/// padding, which may be missing at the end.
fn first_block(data: &[u8]) -> Option<((u8, u8, &[u8]), &[u8])> {
    let [option, suboption, high, low, behind @ ..] = data else {
        return None;
    };
    let length = usize::from(u16::from_be_bytes([*high, *low]));
    let (contents, behind) = behind.split_at_checked(length)?;
    let behind = match behind {
        [_, behind @ ..] if length % 2 == 1 => behind,
        _ => behind,
    };
    Some(((*option, *suboption, contents), behind))
}

/// How many blocks some data has, and whether the station has the value of each. `None` if the data cannot be
/// read: a block is not whole or has less than `least` bytes, or there are more than sixteen.
fn blocks(data: &[u8], least: usize) -> Option<(usize, bool)> {
    let mut rest = data;
    let mut are_all_known = true;
    for count in 0..17 {
        if rest.is_empty() {
            return Some((count, are_all_known));
        }
        let ((option, suboption, contents), behind) = first_block(rest)?;
        if contents.len() < least {
            return None;
        }
        are_all_known &= VALUES
            .iter()
            .any(|(o, s, value)| *o == option && *s == suboption && *value == contents);
        rest = behind;
    }
    None
}

/// The fate that the octets after a FrameID must have: ServiceID, ServiceType, Xid, ResponseDelay, DCPDataLength, data.
fn fate_of_request(is_identify: bool, body: &[u8]) -> Fate {
    let [service, kind, _, _, _, _, _, _, high, low, rest @ ..] = body else {
        return Fault;
    };
    let Some(data) = rest.get(..usize::from(u16::from_be_bytes([*high, *low]))) else {
        return Fault;
    };
    match (is_identify, service, kind) {
        (false, 3, 0) if data.len() % 2 == 0 && data.len() <= 32 => Answered,
        (false, 4, 0) if blocks(data, 2).is_some() => Answered,
        (true, 5, 0) => match blocks(data, 0) {
            Some((1..=16, true)) => Answered,
            Some(_) => Filter,
            None => Fault,
        },
        _ => Fault,
    }
}

/// What has to become of a frame of at most 1,514 bytes, or 1,518 with a tag.
fn fate_of(frame: &[u8]) -> Fate {
    let Some((addresses, rest)) = frame.split_first_chunk::<12>() else {
        return Fault;
    };
    let rest = match rest {
        [0x81, 0, _, _, rest @ ..] => rest,
        _ => rest,
    };
    let [0x88, 0x92, high, low, body @ ..] = rest else {
        return Fault;
    };
    let is_own = addresses.starts_with(&[2, 0, 0, 0, 0, 1]);
    let is_for_all = addresses.starts_with(&[1, 0x0E, 0xCF, 0, 0, 0]);
    match (high, low) {
        (0xFE, 0xFD) if is_own => fate_of_request(false, body),
        (0xFE, 0xFE) if is_own || is_for_all => fate_of_request(true, body),
        _ => NotMine,
    }
}

/// What a script prints that hands frames to the device `pump-1`.
fn printed(alloc: Global, frames: &str) -> Vec<u8> {
    let script = format!(in alloc; "{NAMED}{frames}").unwrap();
    let mut reader = script.as_bytes();
    let mut text = Vec::new(alloc);
    assert_eq!(run(alloc, &mut reader, &mut text), Ok(()));
    text
}

/// Hands frames to the device `pump-1`, and compares what became of them.
fn hand_in(alloc: Global, frames: &str, wanted: &[Fate], sample: &Sample) {
    let text = printed(alloc, frames);
    let fates = fates(alloc, text.as_slice());
    let named = fates.as_slice().strip_prefix(&[Answered]);
    assert!(
        named == Some(wanted),
        "of {sample:?} came {named:?}, wanted {wanted:?}"
    );
}

/// How many bytes of a sample decide its fate. The first `head` bytes end with its FrameID.
fn needed((_, _, data, fate): &Sample, head: usize) -> usize {
    if *fate == NotMine {
        head
    } else {
        (data.len() / 2).saturating_add(10).saturating_add(head)
    }
}

/// Appends a line for each front of a frame, and what has to become of each: of those with less bytes than are needed, a fault.
fn put_fronts(
    alloc: Global,
    bytes: &[u8],
    (needed, fate): (usize, Fate),
    script: &mut String,
    wanted: &mut Vec<Fate>,
) {
    for length in 1..bytes.len() {
        put_line(alloc, &bytes[..length], script).unwrap();
        wanted
            .push(if length < needed { Fault } else { fate })
            .unwrap();
    }
    put_line(alloc, bytes, script).unwrap();
    wanted.push(fate).unwrap();
}

/// Hands each front of a sample in, with this tag.
fn hand_in_cut(alloc: Global, sample: &Sample, (tag, head): (&str, usize)) {
    let bytes = frame(alloc, sample, tag);
    let becomes = (needed(sample, head), sample.3);
    let mut script = String::new(alloc);
    let mut wanted = Vec::new(alloc);
    put_fronts(alloc, bytes.as_slice(), becomes, &mut script, &mut wanted);
    hand_in(alloc, script.as_str(), wanted.as_slice(), sample)
}

// A frame that ends before its FrameID does is a fault. A longer one is judged by its destination. A request that ends before its
// data does is a fault. What follows the data is padding.
#[test]
fn cut_short() {
    let alloc = Global;
    for sample in &SAMPLES {
        hand_in_cut(alloc, sample, ("", 16));
        hand_in_cut(alloc, sample, ("8100c000", 20));
    }
}

/// The places of the lengths in a frame. The first is DCPDataLength, at `place`. A Get has no other.
fn lengths(alloc: Global, frame: &[u8], place: usize, is_get: bool) -> Vec<usize> {
    let mut places = Vec::new(alloc);
    places.push(place).unwrap();
    let Some([high, low, rest @ ..]) = frame.get(place..) else {
        return places;
    };
    let length = usize::from(u16::from_be_bytes([*high, *low]));
    let end = frame
        .len()
        .saturating_sub(rest.len())
        .saturating_add(length);
    let mut data = rest.get(..length).unwrap_or(&[]);
    for _ in 0..17 {
        if data.is_empty() || is_get {
            break;
        }
        places
            .push(end.saturating_sub(data.len()).saturating_add(2))
            .unwrap();
        data = match first_block(data) {
            Some((_, behind)) => behind,
            None => &[],
        };
    }
    places
}

/// The number of two bytes at a place.
fn number_at(frame: &[u8], place: usize) -> Option<u16> {
    match frame.get(place..)? {
        [high, low, ..] => Some(u16::from_be_bytes([*high, *low])),
        _ => None,
    }
}

/// The frame with another number of two bytes at a place.
fn with_number(alloc: Global, frame: &[u8], place: usize, number: u16) -> Vec<u8> {
    let [high, low] = number.to_be_bytes();
    let mut bytes = Vec::new(alloc);
    for (index, byte) in frame.iter().enumerate() {
        bytes
            .push(match index.checked_sub(place) {
                Some(0) => high,
                Some(1) => low,
                _ => *byte,
            })
            .unwrap();
    }
    bytes
}

/// Appends lines with the length at a place set to 0, to 1, to its greatest value and to the values beside its own, and
/// what has to become of each.
fn put_wrong(
    alloc: Global,
    good: &[u8],
    place: usize,
    script: &mut String,
    wanted: &mut Vec<Fate>,
) {
    let own = number_at(good, place).expect("a length stands there");
    for length in [0, 1, u16::MAX, own.saturating_sub(1), own.saturating_add(1)] {
        let bytes = with_number(alloc, good, place, length);
        put_line(alloc, bytes.as_slice(), script).unwrap();
        wanted.push(fate_of(bytes.as_slice())).unwrap();
    }
}

/// Hands a sample in with other lengths, with this tag. The first of its lengths is at `place`.
fn hand_in_wrong(alloc: Global, sample: &Sample, (tag, place): (&str, usize)) {
    let good = frame(alloc, sample, tag);
    assert_eq!(fate_of(good.as_slice()), sample.3, "{sample:?}");
    let mut script = String::new(alloc);
    let mut wanted = Vec::new(alloc);
    for place in lengths(alloc, good.as_slice(), place, sample.1 == GET) {
        put_wrong(alloc, good.as_slice(), place, &mut script, &mut wanted);
    }
    hand_in(alloc, script.as_str(), wanted.as_slice(), sample)
}

#[test]
fn wrong_lengths() {
    let alloc = Global;
    for sample in &SAMPLES {
        hand_in_wrong(alloc, sample, ("", 24));
        hand_in_wrong(alloc, sample, ("8100c000", 28));
    }
}

/// A frame with this tag may have this many bytes, and no more.
fn hand_in_long(alloc: Global, (tag, longest): (&str, usize)) {
    let sample = &SAMPLES[0];
    let mut bytes = frame(alloc, sample, tag);
    let mut script = String::new(alloc);
    for length in [longest, longest.saturating_add(1), 1519, 3000] {
        bytes.resize(length, 0).unwrap();
        put_line(alloc, bytes.as_slice(), &mut script).unwrap();
    }
    let wanted = [Answered, Fault, Fault, Fault];
    hand_in(alloc, script.as_str(), &wanted, sample)
}

// A frame has at most 1,514 bytes, and one with a tag at most 1,518.
#[test]
fn longest_frames() {
    let alloc = Global;
    hand_in_long(alloc, ("", 1514));
    hand_in_long(alloc, ("8100c000", 1518))
}
