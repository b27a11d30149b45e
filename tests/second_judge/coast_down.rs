//! The weekly coast-down (request A.2): a run's ranges, and whether it passes.

use crate::numbers::{refusal, Refusal};

/// One run on the rollers.
#[derive(Clone, Copy, PartialEq, Eq, Debug)]
pub struct Run {
    pub inertia: u16, // 0.1 kg
    pub power: u16,   // set and friction power together, 0.01 kW
    pub faster: bool, // 48 to 32 km/h; the slower is 33 to 17
    pub ms: u32,      // as measured
}

impl Run {
    /// Refusal 16, then 17. Any milliseconds are fit.
    pub fn check(&self) -> Result<(), Refusal> {
        if !(1050..=1350).contains(&self.inertia) {
            return Err(refusal(16, 0));
        }
        if !(50..=325).contains(&self.power) {
            return Err(refusal(17, 0));
        }
        Ok(())
    }

    /// The nominal milliseconds, times 81 q.
    pub fn nominal(&self) -> u64 {
        let factor = if self.faster { 40_000 } else { 25_000 };
        factor * self.inertia as u64
    }

    /// The measured milliseconds, times 81 q.
    pub fn measured(&self) -> u64 {
        81 * self.power as u64 * self.ms as u64
    }

    /// Within 7 percent of nominal, ends included; nothing is rounded.
    pub fn passes(&self) -> bool {
        let hundredfold = 100 * self.measured();
        93 * self.nominal() <= hundredfold && hundredfold <= 107 * self.nominal()
    }
}
