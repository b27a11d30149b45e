//! A window for averages before rounding, taken apart.

use crate::exact_averages::{dilution_fraction, Case, Exact, Fraction};
use crate::numbers::{dilution_divisor, judge_reading, Reading};
use crate::vehicle::{saturation_fits, setting_ranges, unfit_setting};

/// What takes a case out of the premise; seconds from 0.
#[derive(Clone, Copy, PartialEq, Eq, Debug)]
pub enum Fault {
    Setting(usize),
    Saturation,
    Reading(usize, u8),
    Over(usize, u8),
    Diluted(usize),
}

/// A case taken apart.
pub struct Seen {
    pub case: Case,
    pub automatic: bool,
    pub averages: Option<Exact>,
}

impl Fault {
    /// What is at fault.
    pub fn text(&self) -> &'static str {
        match self {
            Fault::Setting(_) => "a setting",
            Fault::Saturation => "p",
            Fault::Reading(..) => "a reading",
            Fault::Over(..) => "a gas over range",
            Fault::Diluted(_) => "a sum",
        }
    }
}

impl Seen {
    pub fn of(case: Case) -> Seen {
        Seen {
            automatic: case.settings[3] == 2,
            averages: case.averages(),
            case,
        }
    }

    pub fn bits(&self, i: usize, code: u8) -> u32 {
        self.case.ten[i][code as usize - 1]
    }

    pub fn units(&self, i: usize, code: u8) -> Option<i64> {
        match judge_reading(code, self.automatic, self.bits(i, code)) {
            Some(Reading::Units(n)) => Some(n),
            _ => None,
        }
    }

    pub fn sum(&self, i: usize) -> Option<i64> {
        Some(self.units(i, 7)? + self.units(i, 5)?)
    }

    /// CO2 and CO of a second within the premise.
    pub fn pair(&self, i: usize) -> (i64, i64) {
        let units = |code| self.units(i, code).unwrap_or(0);
        (units(7), units(5))
    }

    pub fn d(&self, i: usize) -> i64 {
        let (co2, co) = self.pair(i);
        dilution_divisor(co2 as u128, co as u128) as i64
    }

    /// Is DCF held at so many in a second? 0: it is not held.
    pub fn held_at(&self, i: usize, end: u128) -> bool {
        let (co2, co) = self.pair(i);
        match dilution_fraction(co2 as u128, co as u128) {
            (held, 1) => held == end,
            _ => end == 0,
        }
    }

    pub fn any(&self, holds: impl Fn(usize) -> bool) -> bool {
        (0..10).any(holds)
    }

    pub fn all(&self, holds: impl Fn(usize) -> bool) -> bool {
        (0..10).all(holds)
    }

    pub fn all_units(&self, code: u8, units: i64) -> bool {
        self.all(|i| self.units(i, code) == Some(units))
    }

    /// In how many seconds a code counts as zero.
    pub fn zeros(&self, code: u8) -> usize {
        (0..10).filter(|i| self.units(*i, code) == Some(0)).count()
    }

    pub fn air_is(&self, r: u16, p: u16, b: u16) -> bool {
        (self.case.settings[4], self.case.p, self.case.settings[6]) == (r, p, b)
    }

    /// In how many seconds a code has these bits.
    pub fn count_bits(&self, code: u8, bits: u32) -> usize {
        (0..10).filter(|i| self.bits(*i, code) == bits).count()
    }

    fn next(&self, i: usize, code: u8, side: i32) -> Option<Reading> {
        let bits = self.bits(i, code).wrapping_add_signed(side);
        judge_reading(code, self.automatic, bits)
    }

    /// The bits are the farthest below zero that count as 0.
    pub fn at_zero_edge(&self, i: usize, code: u8) -> bool {
        self.bits(i, code) >> 31 == 1
            && self.units(i, code) == Some(0)
            && self.next(i, code, 1).is_none()
    }

    /// The bits are unfit, and those before them are not.
    pub fn just_unfit(&self, i: usize, code: u8) -> bool {
        self.next(i, code, -1).is_some()
    }

    /// HC, CO and NO are zero wherever they are numbers.
    pub fn zero_gases(&self) -> bool {
        let zero = |i: usize, code: u8| self.units(i, code).is_none_or(|n| n == 0);
        (4..=6).all(|code| self.all(|i| zero(i, code)))
    }

    /// The bits are the least, with a side of −1, or the greatest, with 1, that count as these units.
    pub fn at_edge(&self, i: usize, code: u8, side: i32) -> bool {
        let units = self.units(i, code);
        let above_zero =
            units > Some(0) || (units.is_some() && self.bits(i, code) >> 31 == 0 && side > 0);
        above_zero && self.next(i, code, side) != units.map(Reading::Units)
    }

    /// Both readings of a sum are the least of their units, or the greatest.
    pub fn sum_at_edges(&self, i: usize, sum: i64, side: i32) -> bool {
        self.sum(i) == Some(sum) && self.at_edge(i, 5, side) && self.at_edge(i, 7, side)
    }

    pub fn faults(&self) -> Vec<Fault> {
        let mut faults = unfit_settings(self.case.settings);
        if !saturation_fits(self.case.p) {
            faults.push(Fault::Saturation);
        }
        for i in 0..10 {
            let judge = |code: &u8| judge_reading(*code, self.automatic, self.bits(i, *code));
            let unfit = (1..=8).filter(|code| judge(code).is_none());
            faults.extend(unfit.map(|code| Fault::Reading(i, code)));
            let over = (4..=7).filter(|code| judge(code) == Some(Reading::Over));
            faults.extend(over.map(|code| Fault::Over(i, code)));
            if self.sum(i).is_some_and(|sum| sum < 600) {
                faults.push(Fault::Diluted(i));
            }
        }
        faults
    }

    /// Is one of the averages just this fraction?
    pub fn is(&self, which: usize, over: u128, under: u128) -> bool {
        let wanted = Fraction::of(over, under);
        let is = |average: &Fraction| {
            average.over.times(&wanted.under) == wanted.over.times(&average.under)
        };
        self.averages.as_ref().is_some_and(|all| is(&all[which]))
    }

    pub fn all_above_zero(&self) -> bool {
        self.zero_names() == ZEROS[0]
    }

    /// Which of the averages are zero.
    pub fn zero_names(&self) -> &'static str {
        let all = self.averages.iter().flatten();
        let places = all.enumerate().filter(|(_, average)| average.is_zero());
        ZEROS[places.map(|(i, _)| 1 << i).sum::<usize>()]
    }
}

/// Every setting that is out of range.
fn unfit_settings(mut settings: [u16; 7]) -> Vec<Fault> {
    let mut faults = Vec::new();
    while let Some(place) = unfit_setting(&settings) {
        faults.push(Fault::Setting(place));
        settings[place - 1] = setting_ranges(settings[0])[place - 1].0;
    }
    faults
}

/// The averages that are zero.
pub const ZEROS: [&str; 8] = [
    "all above zero",
    "zero: HC",
    "zero: CO",
    "zero: HC and CO",
    "zero: NO",
    "zero: HC and NO",
    "zero: CO and NO",
    "zero: HC, CO and NO",
];
