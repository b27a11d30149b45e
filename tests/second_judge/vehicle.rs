//! The vehicle under test: settings, limits, loads, targets.

use crate::numbers::{humidity_factor, refusal, Refusal};

/// Least and greatest value of each setting, by the kind.
pub fn setting_ranges(kind: u16) -> [(u16, u16); 7] {
    let greatest_displacement = if kind == 2 { 50 } else { 2000 };
    [
        (1, 2),
        (1900, 2100),
        (1, greatest_displacement),
        (1, 2),
        (0, 100),
        (2, 43),
        (800, 1100),
    ]
}

/// The place (1 to 7) of the first setting out of range.
pub fn unfit_setting(s: &[u16; 7]) -> Option<usize> {
    let ranges = setting_ranges(s[0]);
    let fits = |i: usize| ranges[i].0 <= s[i] && s[i] <= ranges[i].1;
    (0..7).find(|&i| !fits(i)).map(|i| i + 1)
}

pub fn saturation_fits(p: u16) -> bool {
    (500..=4300).contains(&p)
}

/// The three limits, in units.
#[derive(Clone, Copy, PartialEq, Eq, Debug)]
pub struct Limits {
    pub co: u128,
    pub hc: u128,
    pub no: u128,
}

/// The vehicle under test and the air around it.
#[derive(Clone, Copy, Debug)]
pub struct Vehicle {
    pub moped: bool,
    pub year: u16,
    pub displacement: u16,
    pub automatic: bool,
    pub k: u128,
}

impl Vehicle {
    /// From fit settings and a fit p.
    pub fn new(s: &[u16; 7], p: u16) -> Vehicle {
        Vehicle {
            moped: s[0] == 2,
            year: s[1],
            displacement: s[2],
            automatic: s[3] == 2,
            k: humidity_factor(s[4], p, s[6]),
        }
    }

    pub fn limits(&self) -> Limits {
        match (self.moped, self.year < 2001) {
            (false, true) => Limits {
                co: 1100,
                hc: 750,
                no: 340,
            },
            (false, false) => Limits {
                co: 950,
                hc: 600,
                no: 1300,
            },
            (true, true) => Limits {
                co: 1400,
                hc: 3000,
                no: 450,
            },
            (true, false) => Limits {
                co: 750,
                hc: 570,
                no: 1000,
            },
        }
    }

    /// P in 0.01 kW.
    pub fn set_load(&self, mode: u8) -> i64 {
        let loads = match mode {
            1 => [25, 35, 85, 120, 180, 225],
            _ => [20, 27, 69, 100, 150, 187],
        };
        let up_to = [50, 100, 125, 200, 250];
        loads[up_to.iter().filter(|&&d| self.displacement > d).count()]
    }

    pub fn load_in_tolerance(&self, mode: u8, load: i64) -> bool {
        let p = self.set_load(mode);
        50 * (load - p).abs() <= p.max(100)
    }

    pub fn target(&self, mode: u8) -> i64 {
        match (self.moped, mode) {
            (false, 1) => 250,
            (false, _) => 400,
            (true, 1) => 200,
            (true, _) => 300,
        }
    }

    pub fn off_target(&self, mode: u8, speed: i64) -> i64 {
        (speed - self.target(mode)).abs()
    }

    pub fn engine_good(&self, engine: Option<i64>) -> bool {
        self.automatic || engine.is_some_and(|e| (3000..=5000).contains(&e))
    }

    /// Settings, then p, of a start: refusals 4 and 5.
    pub fn from_start(s: &[u16; 7], p: u16) -> Result<Vehicle, Refusal> {
        if let Some(place) = unfit_setting(s) {
            return Err(refusal(4, place));
        }
        if !saturation_fits(p) {
            return Err(refusal(5, 0));
        }
        Ok(Vehicle::new(s, p))
    }
}
