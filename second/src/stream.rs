//! Event streams.

/// A stream of events with period P and jitter J, in ticks.
#[derive(Clone, Copy, Debug, PartialEq, Eq)]
pub struct Stream {
    pub period: u64,
    pub jitter: u64,
}

impl Stream {
    /// The least distance d(n) of n events, n at least 1.
    pub fn least_distance(self, n: u64) -> u64 {
        ((n - 1) * self.period).saturating_sub(self.jitter)
    }

    /// The most events in a half-open span of t ticks, t above 0.
    pub fn most_events(self, t: u64) -> u64 {
        (t + self.jitter + self.period - 1) / self.period
    }

    /// The stream with that many ticks added to its jitter.
    pub fn with_added_jitter(self, ticks: u64) -> Stream {
        Stream {
            jitter: self.jitter + ticks,
            ..self
        }
    }
}
