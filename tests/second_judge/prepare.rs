//! The zero check before a test (request A.5): what a prepare carries, its refusal, and whether it stands.

use crate::numbers::{refusal, Refusal, GREATEST};

/// One prepare, as measured.
#[derive(Clone, Copy, PartialEq, Eq, Debug)]
pub struct Prepare {
    pub background: [u16; 3], // HC, CO, NO in units: codes 4 to 6
    pub residue: i16,         // of HC
}

impl Prepare {
    /// Refusal 18 at the lowest code whose background is above its channel's
    /// greatest. Any residue is fit.
    pub fn check(&self) -> Result<(), Refusal> {
        for code in 4..=6 {
            if self.background[code - 4] as i128 > GREATEST[code - 1] {
                return Err(refusal(18, code));
            }
        }
        Ok(())
    }

    /// HC < 15, CO < 2, NO < 25 and a residue of 0 to 7.
    pub fn stands(&self) -> bool {
        let [hc, co, no] = self.background;
        hc < 15 && co < 2 && no < 25 && (0..=7).contains(&self.residue)
    }
}
