//! Calls to the station, and the station that they go to: what is plugged in it, and a relation that it serves.
use crate::connects::{Blocks, Plan, connect};
use device_core::Event;
use flash_model::MemoryFlash;
use frame_codec::{Bytes, Outbox};
use test_stations::{
    CONNECT, CONTROL, PRM_END, Station, call, frame, plugged, response, station, step,
};

/// A Write of a record in that relation.
pub(crate) fn write(sequence: u8, slot: u16, subslot: u16, index: u16, record: &[u8]) -> Blocks {
    let mut blocks = Blocks::new();
    let _ = blocks.try_extend_from_slice(&[0, 8, 0, 60, 1, 0, 0, sequence]);
    let _ = blocks.try_extend_from_slice(&[0x11; 16]);
    let _ = blocks.try_extend_from_slice(&[0; 4]);
    let _ = blocks.try_extend_from_slice(&slot.to_be_bytes());
    let _ = blocks.try_extend_from_slice(&subslot.to_be_bytes());
    let _ = blocks.try_extend_from_slice(&[0; 2]);
    let _ = blocks.try_extend_from_slice(&index.to_be_bytes());
    // the last four of eight octets
    let _ = blocks.try_extend_from_slice(&record.len().to_be_bytes()[4..]);
    let _ = blocks.try_extend_from_slice(&[0; 24]);
    let _ = blocks.try_extend_from_slice(record);
    blocks
}

/// How many frames are in a box, how long the first of them is, and its status.
pub(crate) fn answer_in(outbox: &Outbox) -> (usize, usize, [u8; 4]) {
    let sent = outbox.as_slice();
    let mut status = [0xFF; 4];
    match sent.first() {
        Some(first) if first.len() >= 126 => {
            status.copy_from_slice(&first.as_slice()[122..126]);
            (sent.len(), first.len(), status)
        }
        _ => (sent.len(), 0, status),
    }
}

/// Hands a call in, and says what is sent.
pub(crate) fn served(device: &mut Station, bytes: &Bytes) -> (usize, usize, [u8; 4]) {
    let mut outbox = Outbox::new();
    let _ = step(device, &frame(bytes.as_slice()), &mut outbox);
    answer_in(&outbox)
}

/// A station that serves a relation, made by the first call of the activity 0707..07.
pub(crate) fn related(factor: u16, plan: Plan) -> Option<Station> {
    let mut device = station(plugged(), MemoryFlash::blank())?;
    let blocks = connect(0x11, factor, plan);
    let _ = served(&mut device, &call(CONNECT, 7, 0, blocks.as_slice()));
    Some(device)
}

/// A station that exchanges data.
pub(crate) fn exchanging() -> Option<Station> {
    exchanging_by(connect(0x11, 600, crate::connects::THREE).as_slice())
}

/// A station that exchanges data as these blocks of a Connect ask.
pub(crate) fn exchanging_by(blocks: &[u8]) -> Option<Station> {
    let mut device = station(plugged(), MemoryFlash::blank())?;
    let _ = served(&mut device, &call(CONNECT, 7, 0, blocks));
    let _ = served(&mut device, &call(CONTROL, 7, 1, &PRM_END));
    let _ = served(&mut device, &response());
    Some(device)
}

/// Lets this many units of time go by. Returns how many frames are sent.
pub(crate) fn sent_in(device: &mut Station, units: u32) -> usize {
    let mut outbox = Outbox::new();
    let mut sent: usize = 0;
    for _ in 0..units {
        let _ = step(device, &Event::Tick, &mut outbox);
        sent = sent.wrapping_add(outbox.len());
    }
    sent
}
