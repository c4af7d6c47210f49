//! When to stop.

use std::time::{Duration, Instant};

#[derive(Clone, Copy)]
pub struct Clock {
    start: Instant,
    time: Duration,
}

impl Clock {
    pub fn new(time: Duration) -> Clock {
        Clock { start: Instant::now(), time }
    }

    pub fn left(&self) -> Duration {
        self.time.saturating_sub(self.start.elapsed())
    }

    pub fn is_over(&self) -> bool {
        self.left().is_zero()
    }
}
