//! Link gauges (2026-10): the answer times of TEST LINK, in double precision.

use crate::smcr::{link_in_range, Group};

/// A sample "is whole milliseconds, 0 to 60,000".
pub const MAX_SAMPLE: u32 = 60_000;
/// "A sample count up to 8."
pub const MAX_COUNT: u8 = 8;

/// "A gauge record holds, in double precision, the mean and the worst answer
/// time of TEST LINK, a sample count up to 8, and whether the link is late."
#[derive(Clone, Copy, Debug, Default, PartialEq)]
pub struct Gauge {
    pub mean: f64,
    pub worst: f64,
    pub count: u8,
    pub late: bool,
}

/// "The health of a link is unheard, or steady with its mean, or late with its
/// mean and its worst."
#[derive(Clone, Copy, Debug, PartialEq)]
pub enum Health {
    Unheard,
    Steady(f64),
    Late(f64, f64),
}

impl Gauge {
    pub fn health(&self) -> Health {
        if self.count == 0 {
            Health::Unheard
        } else if self.late {
            Health::Late(self.mean, self.worst)
        } else {
            Health::Steady(self.mean)
        }
    }

    /// The gauge after a sample.
    pub fn after(&self, sample: f64) -> Gauge {
        if self.count == 0 {
            // "The first sample is the mean", and it is never late.
            return Gauge {
                mean: sample,
                worst: sample,
                count: 1,
                late: false,
            };
        }
        Gauge {
            mean: smoothed(self.mean, sample),
            worst: if sample > self.worst {
                sample
            } else {
                self.worst
            },
            count: self.count.min(MAX_COUNT - 1) + 1,
            late: sample > late_above(self.mean),
        }
    }
}

/// "The mean becomes m + (s - m) x 0.125, three operations in that order, each
/// rounded once."
pub fn smoothed(mean: f64, sample: f64) -> f64 {
    let apart = sample - mean;
    let eighth = apart * 0.125;
    mean + eighth
}

/// "Above 4 x the mean before it, plus 20, rounded likewise."
pub fn late_above(mean: f64) -> f64 {
    let four = 4.0 * mean;
    four + 20.0
}

impl Group {
    /// 17: the sample is above 60,000.
    pub fn sample_too_long(milliseconds: u32) -> bool {
        milliseconds > MAX_SAMPLE
    }

    /// **Sample** (link, milliseconds) answers the health. Tests 13, 6, 17.
    pub fn sample(&mut self, link: u8, milliseconds: u32) -> Result<Health, u8> {
        if !link_in_range(link) {
            return Err(13);
        }
        if self.link_down(link) {
            return Err(6);
        }
        if Group::sample_too_long(milliseconds) {
            return Err(17);
        }
        let gauge = &mut self.gauges[usize::from(link) - 1];
        *gauge = gauge.after(f64::from(milliseconds));
        Ok(gauge.health())
    }
}
