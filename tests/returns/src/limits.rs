//! The limits of coming back, by the times of a plan and its hosts: of some plans computed by hand, and beside a model of a small world that
//! shares no line with the product, played from many states: none needs more rounds than the limits say. All times are in units of 31.25 microseconds.

#[cfg(test)]
mod by_hand;
#[cfg(test)]
mod played;
#[cfg(test)]
mod small_world;

/// The numbers of a plan and its hosts.
#[derive(Clone, Copy, Debug, PartialEq, Eq)]
pub struct Plan {
    /// The number of Writes of a start-up.
    pub writes: u32,
    /// For how long a state of the controller lasts at most, except the wait for ApplicationReady.
    pub patience: u32,
    /// For how long the wait for ApplicationReady lasts at most.
    pub waiting: u32,
    /// The data hold time of either end.
    pub hold: u32,
    /// For how long a device waits for the next call before data is exchanged (CMInitiatorActivityTimeoutFactor).
    pub inactivity: u32,
    /// After which time a request, and ApplicationReady, is sent again.
    pub repeat: u32,
    /// After which time a controller that ended is started again.
    pub pause: u32,
}

/// Within how many units both ends exchange data after a start: the device has no relation, and the controller has sent its Identify.
pub fn start_up_limit(plan: Plan) -> u64 {
    u64::from(plan.writes) + 5
}

/// Within how many units both ends exchange data from any state.
pub fn comeback_limit(plan: Plan) -> u64 {
    let patience = 4 * u64::from(plan.patience) + u64::from(plan.waiting);
    let silence = u64::from(plan.inactivity) + 2 * u64::from(plan.hold);
    u64::from(plan.repeat) + patience + silence + 2 * u64::from(plan.pause) + start_up_limit(plan) + 14
}
