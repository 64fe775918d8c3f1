//! What both ends tell.
use crate::ends::World;
use controller_core::{Cause, Controller, Priority, State};
use relations::Phase;

impl World {
    /// The running IP address of the device.
    pub fn address(&self) -> [u8; 4] {
        self.device().running().suite.address()
    }

    /// What both ends tell.
    pub fn seen(&self) -> String {
        format!("{}; {}", self.seen_at_device(), self.seen_at_controller())
    }

    fn seen_at_device(&self) -> String {
        if !self.is_on {
            return String::from("off");
        }
        let device = self.device();
        let phase = match device.phase() {
            None => "none",
            Some(Phase::Started) => "started",
            Some(Phase::Preparing) => "preparing",
            Some(Phase::Awaiting) => "awaiting",
            Some(Phase::Exchanging) => "exchanging",
        };
        let taken: Vec<String> = device.taken().iter().map(|taken| format!("{}:{}", taken.index, spelled(&taken.value))).collect();
        let diagnoses: Vec<String> = device.diagnoses().iter().map(|diagnosis| diagnosis.channel.to_string()).collect();
        format!(
            "{phase}#{} [{}] {} {} {} {} [{}]",
            self.owner(),
            taken.join(" "),
            spelled(device.output(2, 1).unwrap_or(&[])),
            spelled(device.output(3, 1).unwrap_or(&[])),
            spelled(&self.address()),
            if device.left() == 0 { "failed" } else { "stores" },
            diagnoses.join(" ")
        )
    }

    fn seen_at_controller(&self) -> String {
        let controller = self.controller();
        let alarm = controller.alarm().map_or(String::from("-"), |alarm| spelled(alarm.alarm_data.octets()));
        let diagnoses: Vec<String> = controller.diagnoses().iter().map(|diagnosis| diagnosis.channel.to_string()).collect();
        format!(
            "{}#{} {} {}:{alarm} {} [{}] {} {}",
            state_name(controller.state()),
            self.turn,
            spelled(controller.value(1, 1).unwrap_or(&[])),
            accepted(controller.accepted(Priority::High)),
            accepted(controller.accepted(Priority::Low)),
            diagnoses.join(" "),
            controller.left(),
            requests(controller)
        )
    }
}

/// The request of the application that waits, and how the last one was answered.
fn requests(controller: &Controller) -> String {
    let waiting = controller.waiting().map_or(String::from("-"), |request| request.sequence.to_string());
    let answer = controller
        .answer()
        .map_or(String::from("-"), |answer| format!("{}{}", if answer.status.is_done() { "yes" } else { "no" }, answer.request.sequence));
    format!("{waiting}:{answer}")
}

fn accepted(number: Option<u16>) -> String {
    number.map_or(String::from("-"), |number| number.to_string())
}

pub fn spelled(octets: &[u8]) -> String {
    octets.iter().map(|octet| format!("{octet:02x}")).collect()
}

fn state_name(state: State) -> &'static str {
    match state {
        State::Looking => "looking",
        State::Addressing => "addressing",
        State::Connecting => "connecting",
        State::Writing => "writing",
        State::Ending => "ending",
        State::Waiting => "waiting",
        State::Exchanging => "exchanging",
        State::Ended(Cause::WrongDevice) => "ended:wrong",
        State::Ended(Cause::Refused) => "ended:refused",
        State::Ended(Cause::ModuleDiff) => "ended:modules",
        State::Ended(Cause::DataHold) => "ended:silence",
        State::Ended(Cause::Aborted) => "ended:aborted",
        State::Ended(Cause::AlarmRetries) => "ended:alarm",
        State::Ended(Cause::Stopped) => "ended:stopped",
        State::Ended(Cause::NoProgress) => "ended:patience",
    }
}
