//! Stands for embassy-time: a `Duration` and an `Instant` are a number of ticks in 64 bits, and at the crate's default
//! tick rate of 1 MHz a tick is a microsecond.
#![no_std]

#[derive(Debug, Default, Clone, Copy, PartialEq, Eq, PartialOrd, Ord)]
pub struct Duration {
    ticks: u64,
}

impl Duration {
    pub const fn from_ticks(ticks: u64) -> Self {
        Self { ticks }
    }

    pub const fn from_micros(micros: u64) -> Self {
        Self { ticks: micros }
    }

    pub const fn from_millis(millis: u64) -> Self {
        Self { ticks: millis * 1_000 }
    }

    pub const fn from_secs(secs: u64) -> Self {
        Self {
            ticks: secs * 1_000_000,
        }
    }

    pub const fn as_micros(&self) -> u64 {
        self.ticks
    }
}

#[derive(Debug, Clone, Copy, PartialEq, Eq)]
pub struct Instant {
    ticks: u64,
}

impl Instant {
    pub const MIN: Instant = Instant { ticks: 0 };

    /// The time of the last packet sent is stored, and nothing that is compared reads it: no clock runs here.
    pub fn now() -> Self {
        Self::MIN
    }
}
