//! The laws of both ends with their names, and the state transitions of either end.
use crate::kind::Kind;
use controller_core::State;
use relations::Phase;

/// The laws.
#[derive(Clone, Copy, Debug, PartialEq, Eq)]
pub enum Law {
    /// If the controller exchanges data, it received an ApplicationReady that the device had sent while it waited for the
    /// confirmation, in the relation of this controller, with all records accepted in order, each once.
    StartUp,
    /// The device never exchanges data before its controller does.
    Confirmed,
    /// The device changes its phase only by a row of its phase table, on the frame that the row names, and makes at most
    /// one relation.
    Phases,
    /// The controller changes its state only by a row of its state table, on the frame that the row names.
    States,
    /// Until a pull or a plug is reported, the records that the device accepted are a prefix of those of the plan, and it
    /// accepts at most one in a move, by a Write. Of a list it accepts any.
    Records,
    /// The outputs are all zeros, or those of the last frame that the device accepted in its relation: the controller
    /// sent that frame, with the values that its application had set when it was sent.
    Outputs,
    /// If n alarms were raised, the last one of the controller is the n-th or the one before it, or it has none yet if n
    /// is at most 1. It sent one AlarmAck for each alarm that it accepted.
    Alarms,
    /// If a pull or a plug of a submodule was reported and its place is good at the device, the records that the device accepted
    /// there since the last of these alarms end with those of the plan, in order.
    PlugRecords,
    /// If moreover no alarm of low priority is unconfirmed, the controller says that it is there again after a plug.
    Ready,
    /// If no alarm of low priority is unconfirmed and none waits, the controller says that a submodule of the plan differs, is
    /// gone or is a wrong one exactly if the plan's is not plugged. If no pull or plug of it was reported, it is there.
    Places,
    /// A frame that does not exist, and a cyclic frame to an end that has left, change nothing.
    Skipped,
    /// A move changes only the end at which it is made.
    OneEnd,
    /// Each frame that was sent stays as it was, in its place.
    Frames,
    /// If there is no memory for a move, the world is that of the moves before.
    Front,
}

impl Law {
    /// The name of the law.
    pub fn name(self) -> &'static str {
        match self {
            Law::StartUp => "start-up",
            Law::Confirmed => "confirmed",
            Law::Phases => "phases",
            Law::States => "states",
            Law::Records => "records",
            Law::Outputs => "outputs",
            Law::Alarms => "alarms",
            Law::PlugRecords => "records after plugs",
            Law::Ready => "ready places",
            Law::Places => "places",
            Law::Skipped => "skipped",
            Law::OneEnd => "one end",
            Law::Frames => "frames",
            Law::Front => "front",
        }
    }
}

/// Whether the device may make this transition, by this frame if one came.
pub(crate) fn is_row_of_device(
    before: Option<Phase>,
    now: Option<Phase>,
    came: Option<Kind>,
) -> bool {
    match (before, now) {
        (None, Some(Phase::Started)) => came == Some(Kind::Connect),
        (Some(Phase::Started), Some(Phase::Preparing | Phase::Awaiting)) => {
            came == Some(Kind::PrmEnd)
        }
        (Some(Phase::Awaiting), Some(Phase::Exchanging)) => came == Some(Kind::Confirm),
        (Some(_), None) => true,
        _ => before == now,
    }
}

/// Whether the controller may make this transition, by this frame if one came.
pub(crate) fn is_row_of_controller(before: State, now: State, came: Option<Kind>) -> bool {
    match (before, now) {
        (State::Looking, State::Addressing) => came == Some(Kind::Found),
        (State::Looking, State::Connecting) => came == Some(Kind::Found),
        (State::Addressing, State::Connecting) => came == Some(Kind::SetDone),
        (State::Connecting, State::Writing) => came == Some(Kind::Positive),
        // This is for a plan without records.
        (State::Connecting, State::Ending) => came == Some(Kind::Positive),
        (State::Writing, State::Ending) => came == Some(Kind::Positive),
        (State::Ending, State::Waiting) => came == Some(Kind::Positive),
        (State::Ending, State::Exchanging) => came == Some(Kind::Ready),
        (State::Waiting, State::Exchanging) => came == Some(Kind::Ready),
        (State::Ended(_), _) => before == now,
        (_, State::Ended(_)) => true,
        _ => before == now,
    }
}

/// Whether a cycle counter is newer than the one before it: 1 to 61,440 units later, modulo 65,536.
pub(crate) fn is_newer(last: u16, counter: u16) -> bool {
    let later = counter.wrapping_sub(last);
    (1..=61_440).contains(&later)
}
