//! One end of cyclic data: when a frame is due, which frame counts, and when the partner was silent for too long.
use super::{NEVER, Setting};

/// One end of cyclic data.
#[derive(Clone)]
pub struct Cyclic {
    interval: u32,
    hold: u32,
    elapsed: u32,
    silent: u32,
    last: Option<u16>,
    is_begun: bool,
}

impl Cyclic {
    pub fn new(setting: &Setting) -> Cyclic {
        Cyclic { interval: setting.interval, hold: setting.hold, elapsed: 0, silent: 0, last: None, is_begun: false }
    }

    /// The first frame is due an interval from now.
    pub fn open(&mut self) {
        self.elapsed = 0;
    }

    /// The exchange begins: silence counts.
    pub fn begin(&mut self) {
        self.is_begun = true;
        self.silent = 0;
    }

    /// Whether a frame with this CycleCounter counts: from 1 to 61,440 ahead of the last one.
    pub fn accept(&mut self, counter: u16) -> bool {
        let is_newer = self.last.is_none_or(|last| (1..=61_440).contains(&counter.wrapping_sub(last)));
        if is_newer {
            self.last = Some(counter);
            self.silent = 0;
        }
        is_newer
    }

    /// The units up to the next one that brings something.
    pub fn due(&self) -> u32 {
        let silent = if self.is_begun { self.hold.saturating_sub(self.silent).max(1) } else { NEVER };
        silent.min(self.interval - self.elapsed)
    }

    /// Units that bring nothing.
    pub fn pass(&mut self, units: u32) {
        self.elapsed += units;
        self.silent += if self.is_begun { units } else { 0 };
    }

    /// A unit: whether a frame is due, and whether the partner was silent for too long.
    pub fn tick(&mut self) -> (bool, bool) {
        self.elapsed = (self.elapsed + 1) % self.interval;
        self.silent = if self.is_begun { (self.silent + 1).min(self.hold) } else { self.silent };
        (self.elapsed == 0, self.is_begun && self.silent >= self.hold)
    }
}
