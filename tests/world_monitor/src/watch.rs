//! The watch: what was seen of each frame when it was sent, and the laws after each move.
use crate::kind::{Kind, ack_sequence_of, counter_of, output_at, send_number_of, sum_of};
use crate::law::{Law, is_newer, is_row_of_controller, is_row_of_device};
use crate::places::{PlaceTally, Places};
use crate::schedule::Choice;
use crate::told::{Outputs, Told, ZEROS};
use both_ends::{Fresh, Net};
use controller_core::State;
use network_world::End;
use rattle_std::Vec;
use rattle_std::alloc::{AllocError, Global};
use relations::Phase;

/// What was seen of a frame when it was sent.
#[derive(Clone, Copy)]
struct Seen {
    /// The end that sent it.
    from: End,
    kind: Kind,
    /// Whether the device waited for the confirmation of ApplicationReady then, with all records accepted.
    is_ready: bool,
    /// The outputs that were set last.
    given: Outputs,
    /// The outputs in its octets, if it is a cyclic frame of the controller.
    brings: Outputs,
    /// Its CycleCounter, if it is a cyclic frame.
    counter: u16,
    /// Its SendSeqNum, if it is an alarm PDU.
    send_number: u16,
    /// A checksum of its octets.
    sum: u32,
}

/// Counts that show how much the laws were exercised.
#[derive(Clone, Copy)]
pub struct Tally {
    /// The moves after which both ends exchanged data.
    pub exchanging: u64,
    /// The moves after which an output was not zeros.
    pub shown: u64,
    /// The moves after which an alarm had been accepted.
    pub alarmed: u64,
    /// The moves that were skipped.
    pub skipped: u64,
}

/// A world, and what was seen of it.
pub struct Watched {
    net: Net,
    /// The number of records that the controller writes.
    records: usize,
    told: Told,
    seen: Vec<Seen>,
    given: Outputs,
    /// The last cyclic frame that the device accepted in its relation.
    last: Option<Seen>,
    was_handed: bool,
    was_exchanging: bool,
    relations: u32,
    raised: u16,
    /// The number of AlarmAcks that the controller sent, without repeats, and the number of the last one.
    acknowledged: u16,
    last_ack: Option<u16>,
    places: Places,
    tally: Tally,
}

/// What is seen of these octets when this end sends them.
fn seen_of(octets: &[u8], from: End, is_ready: bool, given: Outputs) -> Seen {
    Seen {
        from,
        kind: Kind::of(octets),
        is_ready,
        given,
        brings: Outputs {
            second: output_at(octets, 0),
            third: output_at(octets, 3),
        },
        counter: counter_of(octets),
        send_number: send_number_of(octets),
        sum: sum_of(octets),
    }
}

/// Whether only this end changed.
fn is_at_one(end: End, before: &Told, now: &Told) -> bool {
    match end {
        End::Device => now.state == before.state && now.alarm == before.alarm,
        End::Controller => {
            now.phase == before.phase
                && now.is_own == before.is_own
                && now.taken == before.taken
                && now.outputs == before.outputs
        }
    }
}

/// Whether `shown` is what was set, or zeros.
fn is_given(shown: [u8; 2], given: [u8; 2]) -> bool {
    shown == given || shown == [0; 2]
}

impl Watched {
    /// A watch over a world in which nothing has happened yet.
    pub fn new(alloc: Global, fresh: Fresh) -> Result<Watched, AllocError> {
        let Fresh { net, records } = fresh;
        let told = Told::by(&net);
        let places = Places::new(alloc, &net)?;
        let mut watched = Watched {
            net,
            records,
            told,
            seen: Vec::new(alloc),
            given: ZEROS,
            last: None,
            was_handed: false,
            was_exchanging: false,
            relations: 0,
            raised: 0,
            acknowledged: 0,
            last_ack: None,
            places,
            tally: Tally {
                exchanging: 0,
                shown: 0,
                alarmed: 0,
                skipped: 0,
            },
        };
        watched.see(End::Controller)?;
        Ok(watched)
    }

    /// What both ends tell.
    pub fn told(&self) -> Told {
        self.told
    }

    /// The number of frames that were sent.
    pub fn count(&self) -> usize {
        self.seen.len()
    }

    /// The number of alarms that were raised.
    pub fn raised(&self) -> u16 {
        self.raised
    }

    /// The number of records that the controller writes.
    pub fn records(&self) -> usize {
        self.records
    }

    /// How often something was at stake.
    pub fn tally(&self) -> Tally {
        self.tally
    }

    /// How often the laws of places spoke of something.
    pub fn place_tally(&self) -> PlaceTally {
        self.places.tally()
    }

    /// The kind of the frame with this number.
    pub fn kind(&self, number: usize) -> Kind {
        match self.seen.get(number) {
            Some(seen) => seen.kind,
            None => Kind::Other,
        }
    }

    /// The end that did not send the frame with this number.
    pub fn other_end(&self, number: usize) -> End {
        match self.seen.get(number) {
            Some(seen) => match seen.from {
                End::Device => End::Controller,
                End::Controller => End::Device,
            },
            None => End::Device,
        }
    }

    /// Makes a move. Returns the law that does not hold after it, or `None` if all hold.
    pub fn make(&mut self, choice: Choice) -> Result<Option<Law>, AllocError> {
        let before = self.told;
        let count = self.seen.len();
        if let Err(error) = self.net.play(&[choice.to_move()]) {
            return self.without_memory(error);
        }
        self.told = Told::by(&self.net);
        let came = self.came(choice, &before);
        self.note(choice, &before);
        self.see(choice.end())?;
        self.note_raised(choice, count);
        self.reckon();
        Ok(self.broken(choice, came, &before, count))
    }

    /// Whether each frame that was sent is still as it was, and there is no other frame.
    pub fn are_kept(&self) -> bool {
        for (number, seen) in self.seen.iter().enumerate() {
            match self.net.sent(number) {
                Some(frame) => {
                    if sum_of(frame.as_slice()) != seen.sum {
                        return false;
                    }
                }
                None => return false,
            }
        }
        self.net.sent(self.seen.len()).is_none()
    }

    /// Handles a move for which there was no memory: the error, or a law if the world is not that of the moves before.
    fn without_memory(&self, error: AllocError) -> Result<Option<Law>, AllocError> {
        if Told::by(&self.net) == self.told && self.are_kept() {
            Err(error)
        } else {
            Ok(Some(Law::Front))
        }
    }

    /// Records the frames that this end just sent: at most four.
    fn see(&mut self, from: End) -> Result<(), AllocError> {
        let is_ready = self.told.is_ready(self.records);
        for _ in 0..4 {
            let seen = match self.net.sent(self.seen.len()) {
                Some(frame) => seen_of(frame.as_slice(), from, is_ready, self.given),
                None => return Ok(()),
            };
            self.note_report(&seen);
            self.note_ack(&seen);
            self.seen.push(seen)?;
        }
        Ok(())
    }

    /// Whether a move must change nothing.
    fn is_skipped(&self, choice: Choice, before: &Told) -> bool {
        match choice {
            Choice::Deliver(End::Device, number) => {
                number >= self.seen.len() || (self.kind(number).is_cyclic() && !before.is_own)
            }
            Choice::Deliver(End::Controller, number) => {
                number >= self.seen.len() || (self.kind(number).is_cyclic() && before.is_ended())
            }
            _ => false,
        }
    }

    /// The kind of the frame that came from the network, if the other end sent it.
    fn came(&self, choice: Choice, before: &Told) -> Option<Kind> {
        match choice {
            Choice::Deliver(end, number) => {
                if self.is_skipped(choice, before) || self.other_end(number) != end {
                    None
                } else {
                    Some(self.kind(number))
                }
            }
            _ => None,
        }
    }

    /// Records the values that were set and the frame that came.
    fn note(&mut self, choice: Choice, before: &Told) {
        match choice {
            Choice::Give(2, value) => self.given.second = value,
            Choice::Give(3, value) => self.given.third = value,
            Choice::Deliver(End::Device, number) => {
                self.note_outputs(number, before);
                self.note_confirmed(number, before);
            }
            Choice::Deliver(End::Controller, number) => self.note_handed(number),
            Choice::Write(_, _) => self.places.write(1, 1),
            _ => (),
        }
        if before.phase.is_none() && self.told.phase.is_some() {
            self.relations = self.relations.saturating_add(1);
        }
        if self.told.phase.is_none() {
            self.last = None;
            self.places.forget();
        }
        if self.told.state == State::Exchanging {
            self.was_exchanging = true;
        }
        if self.is_skipped(choice, before) {
            self.tally.skipped = self.tally.skipped.saturating_add(1);
        }
    }

    /// A cyclic frame of the controller comes to the device in its relation. The device accepts it if its counter is
    /// newer.
    fn note_outputs(&mut self, number: usize, before: &Told) {
        let seen = match self.seen.get(number) {
            Some(seen) => *seen,
            None => return,
        };
        if before.is_own
            && seen.from == End::Controller
            && seen.kind == Kind::Outputs
            && is_behind(self.last, seen.counter)
        {
            self.last = Some(seen);
        }
    }

    /// An ApplicationReady that the device sent while it waited for the confirmation came to the controller, which now
    /// exchanges data.
    fn note_handed(&mut self, number: usize) {
        let seen = match self.seen.get(number) {
            Some(seen) => *seen,
            None => return,
        };
        if seen.from == End::Device
            && seen.kind == Kind::Ready
            && seen.is_ready
            && self.told.state == State::Exchanging
        {
            self.was_handed = true;
        }
    }

    /// The device sends an alarm of low priority.
    fn note_report(&mut self, seen: &Seen) {
        if seen.from == End::Device
            && seen.kind == Kind::LowAlarm
            && let Some(frame) = self.net.sent(self.seen.len())
        {
            self.places.report(&self.net, frame.as_slice());
        }
    }

    /// The AlarmAck of an alarm of low priority comes to the device in its relation.
    fn note_confirmed(&mut self, number: usize, before: &Told) {
        if before.is_own
            && self.kind(number) == Kind::LowAlarmAck
            && self.other_end(number) == End::Device
            && let Some(frame) = self.net.sent(number)
        {
            self.places.confirm(ack_sequence_of(frame.as_slice()));
        }
    }

    /// An AlarmAck that is not a repeat has another number than the last one.
    fn note_ack(&mut self, seen: &Seen) {
        if seen.from == End::Controller
            && seen.kind == Kind::AlarmAck
            && self.last_ack != Some(seen.send_number)
        {
            self.acknowledged = self.acknowledged.saturating_add(1);
            self.last_ack = Some(seen.send_number);
        }
    }

    /// An alarm that is raised is sent.
    fn note_raised(&mut self, choice: Choice, count: usize) {
        if matches!(choice, Choice::Alarm(_)) && self.seen.len() != count {
            self.raised = self.raised.saturating_add(1);
        }
    }

    /// Updates the counts that show how much the laws were exercised.
    fn reckon(&mut self) {
        if self.told.is_exchanging() {
            self.tally.exchanging = self.tally.exchanging.saturating_add(1);
        }
        if self.told.outputs != ZEROS {
            self.tally.shown = self.tally.shown.saturating_add(1);
        }
        if self.told.alarm.is_some() {
            self.tally.alarmed = self.tally.alarmed.saturating_add(1);
        }
        self.places.reckon(&self.net);
    }

    /// The first law that does not hold, or `None` if all hold.
    fn broken(
        &self,
        choice: Choice,
        came: Option<Kind>,
        before: &Told,
        count: usize,
    ) -> Option<Law> {
        let is_changed = self.told != *before || self.seen.len() != count;
        if self.told.state == State::Exchanging && !self.was_handed {
            Some(Law::StartUp)
        } else if self.told.phase == Some(Phase::Exchanging) && !self.was_exchanging {
            Some(Law::Confirmed)
        } else if !is_row_of_device(before.phase, self.told.phase, came) || self.relations > 1 {
            Some(Law::Phases)
        } else if !is_row_of_controller(before.state, self.told.state, came) {
            Some(Law::States)
        } else if !self.are_in_order(before, came) {
            Some(Law::Records)
        } else if !self.are_given() {
            Some(Law::Outputs)
        } else if !self.is_last() {
            Some(Law::Alarms)
        } else if self.is_skipped(choice, before) && is_changed {
            Some(Law::Skipped)
        } else if !is_at_one(choice.end(), before, &self.told) {
            Some(Law::OneEnd)
        } else if self.net.sent(self.seen.len()).is_some() {
            Some(Law::Frames)
        } else {
            self.places.broken(&self.net)
        }
    }

    /// Whether the records are a prefix of those of the plan, with at most one more than before, by a Write. A Write that
    /// carries a list brings any of its records. Once a pull or a plug is reported, records are forgotten and written again.
    fn are_in_order(&self, before: &Told, came: Option<Kind>) -> bool {
        if self.places.is_any_reported() {
            return true;
        }
        let is_list = self.net.controller().plan().has_multiple_write();
        let is_more = if is_list {
            before.taken < self.told.taken
        } else {
            before.taken.saturating_add(1) == self.told.taken
        };
        (self.told.is_front || is_list)
            && (self.told.taken == before.taken
                || self.told.phase.is_none()
                || (is_more && came == Some(Kind::Write)))
    }

    /// Whether the outputs are those of the last frame that the device accepted and had been set, or zeros.
    fn are_given(&self) -> bool {
        match &self.last {
            Some(last) => {
                self.told.outputs == last.brings
                    && is_given(last.brings.second, last.given.second)
                    && is_given(last.brings.third, last.given.third)
            }
            None => self.told.outputs == ZEROS,
        }
    }

    /// Whether the last alarm of the controller is the last one that was raised or the one before it, and an AlarmAck was
    /// sent once for each that was accepted.
    fn is_last(&self) -> bool {
        let taken = match self.told.alarm {
            Some(number) => number.saturating_add(1),
            None => 0,
        };
        self.acknowledged == taken
            && (taken == self.raised || taken.saturating_add(1) == self.raised)
    }
}

/// Whether a frame with this counter is newer than the last one, if there was one.
fn is_behind(last: Option<Seen>, counter: u16) -> bool {
    match last {
        Some(last) => is_newer(last.counter, counter),
        None => true,
    }
}

#[cfg(test)]
#[path = "lies.rs"]
mod lies;
