//! A station whose application says when it is ready: ApplicationReady follows its word, and not the answer to PrmEnd. The
//! octets that have to come were worked out by hand from IEC 61158-6-10.
use crate::Tried;
use crate::connects::{THREE, connect};
use crate::requests::served;
use device_core::{Device, Event, Note};
use flash_model::MemoryFlash;
use frame_codec::{Frame, Outbox};
use pn_values::demo_identity;
use relations::{DeviceOptions, Phase};
use test_stations::{
    CONNECT, CONTROL, END, PRM_END, RELEASE, Station, call, frame, plugged, response, set_address,
};

// IODConnectReq ApplicationReady: BlockType 0x0112, BlockLength 28, version 1.0, 2 octets of padding, the ARUUID, SessionKey 1,
// 2 octets of padding, ControlCommand 2, ControlBlockProperties 0.
const READY: [u8; 32] = *b"\x01\x12\x00\x1c\x01\x00\x00\x00\
    \x11\x11\x11\x11\x11\x11\x11\x11\x11\x11\x11\x11\x11\x11\x11\x11\x00\x01\x00\x00\x00\x02\x00\x00";

// Where the block of a call starts in its frame.
const BLOCK: usize = 142;

/// A station with an address whose application says when it is ready, or does not, and whose relation has this activity
/// timeout.
fn told(ready_by_application: bool, factor: u16) -> Option<Station> {
    let options = DeviceOptions { ready_by_application, ..DeviceOptions::default() };
    let mut device = Device::unstarted(demo_identity(), plugged(), options, MemoryFlash::blank());
    device.load().ok()?;
    let _ = device.step(&set_address(), &mut Outbox::new());
    let blocks = connect(0x11, factor, THREE);
    let _ = served(&mut device, &call(CONNECT, 7, 0, blocks.as_slice()));
    Some(device)
}

/// One with the option, whose parameters have ended.
fn waiting(factor: u16) -> Tried {
    let mut device = Tried::new(told(true, factor));
    device.serves(&call(CONTROL, 7, 1, &PRM_END), (1, 174, [0; 4]));
    device.is_at(Some(Phase::Preparing));
    device
}

/// Whether a frame is ApplicationReady of that relation.
fn is_ready(sent: &Frame) -> bool {
    sent.len() == 174 && sent.as_slice().get(BLOCK..) == Some(READY.as_slice())
}

impl Tried {
    /// This word of the application sends ApplicationReady, and nothing else.
    fn gets_ready(&mut self) {
        self.notes(&Event::ready(), Note::Done);
        assert_eq!(self.last.len(), 1);
        assert!(self.last.as_slice().iter().all(is_ready));
        self.is_at(Some(Phase::Awaiting));
    }

    /// How many times ApplicationReady is sent in this many units of time.
    fn calls_ready(&mut self, units: u32) -> usize {
        let mut calls: usize = 0;
        for _ in 0..units {
            self.notes(&Event::Tick, Note::Done);
            let ready = self.last.as_slice().iter().filter(|sent| is_ready(sent)).count();
            calls = calls.wrapping_add(ready);
        }
        calls
    }
}

#[test]
fn application_ready_follows_the_word_of_the_application() {
    let mut device = waiting(600);
    assert!(device.station.parameters_end());
    device.gets_ready();
    device.sends_none(&frame(response().as_slice()), Note::Done);
    device.is_at(Some(Phase::Exchanging));
}

#[test]
fn it_counts_once_and_only_after_the_parameters() {
    let mut device = Tried::new(told(true, 600));
    device.sends_none(&Event::ready(), Note::Refused);
    device.is_at(Some(Phase::Started));
    let mut device = waiting(600);
    device.gets_ready();
    device.sends_none(&Event::ready(), Note::Refused);
    device.sends_none(&frame(response().as_slice()), Note::Done);
    device.sends_none(&Event::ready(), Note::Refused);
    device.is_at(Some(Phase::Exchanging));
    device.serves(&call(RELEASE, 7, 2, &END), (1, 174, [0; 4]));
    device.sends_none(&Event::ready(), Note::Refused);
}

#[test]
fn an_answer_that_comes_before_it_is_not_wanted() {
    let mut device = waiting(600);
    device.sends_none(&frame(response().as_slice()), Note::NoRelation);
    device.is_at(Some(Phase::Preparing));
    device.gets_ready();
}

#[test]
fn a_station_without_the_option_refuses_it() {
    let mut device = Tried::new(told(false, 600));
    device.sends_none(&Event::ready(), Note::Refused);
    device.serves(&call(CONTROL, 7, 1, &PRM_END), (2, 174, [0; 4]));
    assert!(device.last.as_slice().iter().skip(1).all(is_ready));
    device.is_at(Some(Phase::Awaiting));
    device.sends_none(&Event::ready(), Note::Refused);
}

#[test]
fn a_second_counts_from_its_sending() {
    let mut device = waiting(600);
    // Nothing but inputs is sent until the application is ready.
    assert_eq!(device.calls_ready(40_000), 0);
    device.gets_ready();
    assert_eq!(device.calls_ready(31_999), 0);
    assert_eq!(device.calls_ready(1), 1);
    assert_eq!(device.calls_ready(31_999), 0);
    assert_eq!(device.calls_ready(1), 1);
}

#[test]
fn the_activity_timer_runs_on() {
    // 3,200 units from the answer to PrmEnd, whether the application was ready by then or not.
    for ready_at in [0, 3_000] {
        let mut device = waiting(1);
        assert_eq!(device.calls_ready(ready_at), 0);
        device.gets_ready();
        assert_eq!(device.calls_ready(3_199 - ready_at), 0);
        device.is_at(Some(Phase::Awaiting));
        device.notes(&Event::Tick, Note::Done);
        device.is_at(None);
    }
    let mut device = waiting(1);
    assert_eq!(device.calls_ready(3_199), 0);
    device.is_at(Some(Phase::Preparing));
    device.notes(&Event::Tick, Note::Done);
    device.is_at(None);
    device.sends_none(&Event::ready(), Note::Refused);
}

#[test]
fn parameters_end_once_there_too() {
    let mut device = waiting(600);
    // The first one once more is answered from the stored answer.
    device.serves(&call(CONTROL, 7, 1, &PRM_END), (1, 174, [0; 4]));
    let again = call(CONTROL, 7, 2, &PRM_END);
    device.serves(&again, (1, 142, [0xDD, 0x81, 0x40, 6]));
    device.is_at(Some(Phase::Preparing));
    device.gets_ready();
}

#[test]
fn leaps_go_over_the_wait() {
    let mut device = waiting(600);
    let mut units: u32 = 0;
    while units < 40_000 {
        let leap = device.station.due().min(40_000 - units);
        let _ = device.station.elapse(leap, &mut device.last);
        assert!(!device.last.as_slice().iter().any(is_ready));
        units += leap;
    }
    device.gets_ready();
}

#[test]
fn a_restart_forgets_the_wait() {
    let mut device = waiting(600);
    // The power fails, and the device starts again in place.
    assert!(device.station.load().is_ok());
    device.is_at(None);
    device.sends_none(&Event::ready(), Note::Refused);
    let blocks = connect(0x11, 600, THREE);
    let _ = served(&mut device.station, &call(CONNECT, 7, 0, blocks.as_slice()));
    device.sends_none(&Event::ready(), Note::Refused);
    device.serves(&call(CONTROL, 7, 1, &PRM_END), (1, 174, [0; 4]));
    device.gets_ready();
}
