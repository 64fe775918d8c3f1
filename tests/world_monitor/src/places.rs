//! What is known of the submodules of the plan: the pulls and plugs that the device reports, read from the octets of its alarms, and the
//! laws of records after a plug and of places, computed from what both ends report.
use crate::kind::{low_sequence_of, place_of, reports_change, send_number_of, whole_slot_of};
use crate::law::Law;
use arrayvec::ArrayVec;
use both_ends::Net;
use controller_core::{PlaceState, State};
use expected_places::Progress;
use rattle_std::Vec;
use rattle_std::alloc::{AllocError, Global};
use records::TakenRecord;
use relations::Phase;

/// The most changes that are reported under different numbers: a SequenceNumber has 11 bits.
const MOST_REPORTS: u32 = 2048;

/// A submodule of the plan, and what was seen of it in the relation of the device.
#[derive(Clone, Copy)]
pub(crate) struct Place {
    pub(crate) slot: u16,
    subslot: u16,
    /// The ident numbers of the plan: of its module and its own.
    module: u32,
    submodule: u32,
    /// Whether a pull or a plug of it was reported.
    pub(crate) is_reported: bool,
    /// How many of its records the device had when the last of these alarms was sent. The records after these are those since then.
    pub(crate) had: usize,
    /// Whether the application of the controller wrote a record of it.
    pub(crate) is_written: bool,
    /// Which premises held of it after the last move, in the order of `PlaceTally`.
    was: [bool; 5],
}

/// A record of the plan.
pub(crate) struct Wanted {
    slot: u16,
    subslot: u16,
    index: u16,
    pub(crate) data: ArrayVec<u8, 64>,
}

/// How often a premise of these laws began to hold of a place.
#[derive(Clone, Copy, Debug, Default)]
pub struct PlaceTally {
    /// It is good again after a plug.
    pub renewed: u64,
    /// It is, and the law of records speaks of it: of the records that the plan has for it.
    pub parametrized: u64,
    /// It is, and the law of ready places speaks of it.
    pub ready: u64,
    /// Nothing was reported of it, and the law of places speaks of it, while another place is good again after a plug.
    pub untouched: u64,
    /// It is not as planned, and the law of places speaks of it.
    pub amiss: u64,
    /// How many pulls and plugs were reported.
    pub reported: u64,
}

impl PlaceTally {
    /// Those of another world too.
    pub fn add(&mut self, other: &PlaceTally) {
        self.reported += other.reported;
        self.renewed += other.renewed;
        self.parametrized += other.parametrized;
        self.ready += other.ready;
        self.untouched += other.untouched;
        self.amiss += other.amiss;
    }
}

/// The submodules of the plan, and the alarms of low priority of the device's relation.
pub(crate) struct Places {
    pub(crate) all: Vec<Place>,
    pub(crate) wanted: Vec<Wanted>,
    /// How many alarms were reported, and the SendSeqNum and the SequenceNumber of the last one.
    reported: u32,
    last: Option<(u16, u16)>,
    /// Whether the AlarmAck of each reported alarm came to the device.
    pub(crate) is_confirmed: bool,
    tally: PlaceTally,
}

/// Whether the device has valid data of this place.
fn is_good(net: &Net, place: &Place) -> bool {
    let places = net.device().expected().unwrap_or(&[]);
    places.iter().any(|one| one.is_for(place.slot, place.subslot) && one.progress() == Progress::Good)
}

/// Whether the submodule of the plan is plugged, in the module of the plan.
fn is_as_planned(net: &Net, place: &Place) -> bool {
    net.device().real().modules.iter().any(|module| {
        let is_part = |subslot, ident| subslot == place.subslot && ident == place.submodule;
        module.slot == place.slot
            && module.ident == place.module
            && module.submodules.iter().any(|part| is_part(part.subslot, part.ident))
    })
}

/// The records that the device accepted and keeps of this place, in order.
fn kept<'a>(net: &'a Net, place: &'a Place) -> impl Iterator<Item = &'a TakenRecord> {
    let records = net.device().taken().iter();
    records.filter(move |record| record.slot == place.slot && record.subslot == place.subslot)
}

/// Whether the controller says that a place is not as planned.
fn is_amiss(state: PlaceState) -> bool {
    matches!(state, PlaceState::Differs | PlaceState::Gone | PlaceState::Wrong)
}

impl Places {
    /// The submodules of the plan of a world in which nothing has happened yet.
    pub(crate) fn new(alloc: Global, net: &Net) -> Result<Places, AllocError> {
        let plan = net.controller().plan();
        let (mut all, mut wanted) = (Vec::new(alloc), Vec::new(alloc));
        for module in &plan.real().modules {
            for part in &module.submodules {
                all.push(Place {
                    slot: module.slot,
                    subslot: part.subslot,
                    module: module.ident,
                    submodule: part.ident,
                    is_reported: false,
                    had: 0,
                    is_written: false,
                    was: [false; 5],
                })?;
            }
        }
        for record in plan.records() {
            wanted.push(Wanted {
                slot: record.slot,
                subslot: record.subslot,
                index: record.index,
                data: record.data.clone(),
            })?;
        }
        let tally = PlaceTally::default();
        Ok(Places { all, wanted, reported: 0, last: None, is_confirmed: true, tally })
    }

    /// How often something was at stake.
    pub(crate) fn tally(&self) -> PlaceTally {
        self.tally
    }

    /// Whether a pull or a plug was reported in the relation.
    pub(crate) fn is_any_reported(&self) -> bool {
        self.all.iter().any(|place| place.is_reported)
    }

    /// The device sent an alarm of low priority. One with another SendSeqNum than the last one is not a repeat.
    pub(crate) fn report(&mut self, net: &Net, octets: &[u8]) {
        let number = send_number_of(octets);
        if self.last.is_some_and(|last| last.0 == number) {
            return;
        }
        self.last = Some((number, low_sequence_of(octets)));
        self.reported = self.reported.saturating_add(1);
        self.is_confirmed = false;
        if !reports_change(octets) {
            return;
        }
        self.tally.reported = self.tally.reported.saturating_add(1);
        let (slot, subslot) = place_of(octets);
        for place in self.all.iter_mut() {
            if place.slot == slot && (place.subslot == subslot || whole_slot_of(octets)) {
                place.is_reported = true;
                place.had = kept(net, place).count();
            }
        }
    }

    /// An AlarmAck of low priority comes to the device, with this SequenceNumber.
    pub(crate) fn confirm(&mut self, sequence: u16) {
        if self.last.is_some_and(|last| last.1 == sequence) {
            self.is_confirmed = true;
        }
    }

    /// The application of the controller writes a record of the submodule in this slot and subslot.
    pub(crate) fn write(&mut self, slot: u16, subslot: u16) {
        for place in self.all.iter_mut() {
            place.is_written |= place.slot == slot && place.subslot == subslot;
        }
    }

    /// The device has no relation: nothing was reported in it.
    pub(crate) fn forget(&mut self) {
        for place in self.all.iter_mut() {
            place.is_reported = false;
            place.had = 0;
        }
        (self.reported, self.last, self.is_confirmed) = (0, None, true);
    }

    /// Whether this is one of the plan's records of a place.
    fn is_wanted(place: &Place, record: &Wanted) -> bool {
        record.slot == place.slot && record.subslot == place.subslot
    }

    /// Whether the plan has a record of this place.
    fn has_records(&self, place: &Place) -> bool {
        self.wanted.iter().any(|record| Places::is_wanted(place, record))
    }

    /// Whether the records that the device accepted of a place since the last alarm of a pull or a plug of it end with those of the plan,
    /// in order.
    fn ends_with_wanted(&self, net: &Net, place: &Place) -> bool {
        let wanted = || self.wanted.iter().filter(|record| Places::is_wanted(place, record));
        let since = || kept(net, place).skip(place.had);
        let Some(others) = since().count().checked_sub(wanted().count()) else {
            return false;
        };
        let mut pairs = since().skip(others).zip(wanted());
        pairs.all(|(one, record)| one.index == record.index && one.value.as_slice() == record.data.as_slice())
    }

    /// Whether the plan's records are all that is written of a place: its controller gives up after a refused record, its application
    /// wrote none there, and the device keeps them.
    fn is_undisturbed(net: &Net, place: &Place) -> bool {
        !place.is_written
            && net.device().passed_on() == 0
            && !net.controller().plan().continues_on_refused_record()
    }

    /// Whether the controller's relation is established and each alarm of low priority was confirmed at the device.
    fn is_settled(&self, net: &Net) -> bool {
        net.controller().state() == State::Exchanging && self.is_confirmed
    }

    /// Whether moreover no change waits to be reported. While data is exchanged, the device reports the next one as soon as the last one
    /// is confirmed.
    fn is_quiet(&self, net: &Net) -> bool {
        self.is_settled(net) && net.device().phase() == Some(Phase::Exchanging)
    }

    /// Whether the laws speak of a place that was plugged again.
    fn is_good_again(&self, net: &Net, place: &Place) -> bool {
        place.is_reported && self.reported <= MOST_REPORTS && is_good(net, place)
    }

    /// The law that does not hold of a place that is good at the device and of which a pull or a plug was reported.
    fn broken_again(&self, net: &Net, place: &Place) -> Option<Law> {
        if Places::is_undisturbed(net, place) && !self.ends_with_wanted(net, place) {
            return Some(Law::PlugRecords);
        }
        let state = net.controller().place(place.slot, place.subslot);
        if self.is_settled(net) && !matches!(state, Some(PlaceState::Ready(_))) {
            return Some(Law::Ready);
        }
        None
    }

    /// Whether both ends agree of a place, while nothing is unconfirmed and nothing waits.
    fn is_agreed(net: &Net, place: &Place) -> bool {
        let Some(state) = net.controller().place(place.slot, place.subslot) else {
            return false;
        };
        let is_planned = is_as_planned(net, place);
        is_amiss(state) != is_planned && (place.is_reported || (is_planned && state == PlaceState::There))
    }

    /// The first law of places that does not hold, or `None` if all hold.
    pub(crate) fn broken(&self, net: &Net) -> Option<Law> {
        let is_quiet = self.is_quiet(net);
        for place in self.all.iter() {
            if self.is_good_again(net, place)
                && let Some(law) = self.broken_again(net, place)
            {
                return Some(law);
            }
            if is_quiet && !Places::is_agreed(net, place) {
                return Some(Law::Places);
            }
        }
        None
    }

    /// Updates the counts that show how much the laws were exercised.
    pub(crate) fn reckon(&mut self, net: &Net) {
        let is_any_again = self.all.iter().any(|place| self.is_good_again(net, place));
        for number in 0..self.all.len() {
            let now = self.premises(net, &self.all[number], is_any_again);
            let was = self.all[number].was;
            let tally = &mut self.tally;
            let counts = [&mut tally.renewed, &mut tally.parametrized, &mut tally.ready, &mut tally.untouched, &mut tally.amiss];
            for (count, (is, was)) in counts.into_iter().zip(now.into_iter().zip(was)) {
                *count += u64::from(is && !was);
            }
            self.all[number].was = now;
        }
    }

    /// Which premises hold of a place, in the order of `PlaceTally`.
    fn premises(&self, net: &Net, place: &Place, is_any_again: bool) -> [bool; 5] {
        let (is_again, is_quiet) = (self.is_good_again(net, place), self.is_quiet(net));
        [
            is_again,
            is_again && self.has_records(place) && Places::is_undisturbed(net, place),
            is_again && self.is_settled(net),
            is_quiet && is_any_again && !place.is_reported,
            is_quiet && !is_as_planned(net, place),
        ]
    }
}
