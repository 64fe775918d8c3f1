//! Frames of each kind, cut at each length.

use super::numbers::{Order, mend, put};
use super::samples::{ARP, DATAGRAMS, TAGS, frame};
use super::stations::Trial;
use rattle_std::Vec;
use rattle_std::alloc::Global;

#[test]
fn arp_cut_short() {
    let alloc = Global;
    let mut trial = Trial::new(alloc);
    for tag in TAGS {
        let (mut octets, _) = frame(alloc, ARP, tag);
        for length in (0..=octets.len()).rev() {
            octets.truncate(length);
            trial.judge(octets.as_slice());
        }
    }
    trial.end()
}

/// Which lengths follow a cut: none, those of packet and datagram, or those of the call too.
#[derive(Clone, Copy)]
enum Lowered {
    None,
    OfDatagram,
    OfCall,
}

/// Lowers lengths to what is there of a packet. The checksums are right again.
fn lower(order: Order, packet: &mut [u8], lowered: Lowered) {
    let length = (packet.len() % 65536) as u32;
    if matches!(lowered, Lowered::OfCall) {
        let carried = length.saturating_sub(128);
        put(order, packet, 102, 2, length.saturating_sub(108));
        put(order, packet, 112, 4, carried);
        put(order, packet, 124, 4, carried);
    }
    put(Order::Big, packet, 2, 2, length);
    put(Order::Big, packet, 24, 2, length.saturating_sub(20));
    mend(packet);
}

/// A frame of the first octets of this one, this many.
fn cut((good, head): (&Vec<u8>, usize), order: Order, length: usize, lowered: Lowered) -> Vec<u8> {
    let mut octets = good.clone().unwrap();
    octets.truncate(length);
    match (lowered, octets.as_mut_slice().get_mut(head..)) {
        (Lowered::OfDatagram | Lowered::OfCall, Some(packet)) => lower(order, packet, lowered),
        _ => {}
    }
    octets
}

/// Hands in a datagram cut at each length, in each way.
fn cut_each(trial: &mut Trial, frame: (&Vec<u8>, usize), order: Order) {
    for length in 0..=frame.0.len() {
        for lowered in [Lowered::None, Lowered::OfDatagram, Lowered::OfCall] {
            let octets = cut(frame, order, length, lowered);
            trial.judge(octets.as_slice());
        }
    }
}

#[test]
fn datagrams_cut_short() {
    let alloc = Global;
    let mut trial = Trial::new(alloc);
    for sample in &DATAGRAMS {
        let (good, head) = frame(alloc, sample.hex, &[]);
        cut_each(&mut trial, (&good, head), sample.order);
    }
    trial.end()
}
