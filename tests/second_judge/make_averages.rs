//! Making input: windows for averages before rounding, seeded ones behind all corners.

use crate::averages_corners::averages_corners;
use crate::dice::{some_settings, spoil_setting, Dice};
use crate::driver::unfit_bits;
use crate::exact_averages::Case;
use crate::make_corrections::put_ten;
use crate::make_records::{make_records, put_item};
use crate::named_records::{sample, ZERO_RECORDS};
use crate::numbers::OVER;
use crate::script::bits_of;

/// The corners alone reach everything: the least COUNT is 0.
pub const REACHING_AVERAGES: usize = 0;

fn put_case(out: &mut Vec<u8>, case: &Case) {
    put_ten(out, &case.settings, case.p, &case.ten);
}

/// The same floats whoever rounds them: outside the premise, or zero all three.
pub fn only_exact(case: &Case) -> bool {
    let averages = case.averages();
    averages.is_none_or(|averages| averages.iter().all(|average| average.is_zero()))
}

/// All corners, then seeded cases, most of them inside the premise.
pub fn make_averages(seed: u64, count: usize) -> Vec<u8> {
    let mut dice = Dice(seed ^ 0x6176_6572);
    let mut out = Vec::new();
    let corners = averages_corners();
    corners.iter().for_each(|case| put_case(&mut out, case));
    for _ in 0..count {
        put_case(&mut out, &some_case(&mut dice));
    }
    out
}

/// Cases that are only exact: all such corners, then seeded ones.
pub fn make_exact_averages(seed: u64, count: usize) -> Vec<u8> {
    let mut dice = Dice(seed ^ 0x6578_6163);
    let mut out = Vec::new();
    let corners = averages_corners();
    let corners = corners.iter().filter(|case| only_exact(case));
    corners.for_each(|case| put_case(&mut out, case));
    for _ in 0..count {
        put_case(&mut out, &some_exact_case(&mut dice));
    }
    out
}

/// The records by name with averages of zero and one above 30 °C first, then as many as are left
/// of `make records`.
pub fn make_averages_records(seed: u64, count: usize) -> Vec<u8> {
    let mut out = Vec::new();
    let named = ZERO_RECORDS.iter().chain(&["hot"]);
    let first: Vec<Vec<u8>> = named.filter_map(|name| sample(name)).collect();
    let some = first.iter().take(count);
    some.for_each(|record| put_item(&mut out, record));
    out.extend(make_records(seed, count.saturating_sub(first.len())));
    out
}

fn some_exact_case(dice: &mut Dice) -> Case {
    loop {
        let mut case = some_inside(dice);
        match dice.percent(60) {
            true => some_zeros(&mut case, dice),
            false => spoil(&mut case, dice),
        }
        if only_exact(&case) {
            return case;
        }
    }
}

fn some_case(dice: &mut Dice) -> Case {
    let mut case = some_inside(dice);
    match dice.below(100) {
        0..=9 => spoil(&mut case, dice),
        10..=11 => some_zeros(&mut case, dice),
        _ => {}
    }
    case
}

/// From 1 to a greatest count, each number of digits as often.
fn some_most(greatest: i64, dice: &mut Dice) -> i64 {
    let powers = [1, 10, 100, 1000, 10_000];
    dice.pick(&powers).min(greatest)
}

/// A range of CO2 and the greatest CO: DCF held at 1, at 3, about each of these ends, and any.
fn some_dilution(dice: &mut Dice) -> (i64, i64, i64) {
    dice.pick(&[
        (1533, 1800, 2000),
        (0, 120, 600),
        (1200, 1560, 500),
        (0, 511, 717),
        (600, 1532, 10),
        (0, 1800, 2000),
        (1100, 1300, 200),
    ])
}

/// Ten seconds within the premise.
fn some_inside(dice: &mut Dice) -> Case {
    let (settings, p) = (some_settings(dice), some_p(dice));
    let mut case = Case {
        settings,
        p,
        ten: [[0; 8]; 10],
    };
    let (hc, no) = (some_most(9999, dice), some_most(5000, dice));
    let (least, greatest, most_co) = some_dilution(dice);
    for second in &mut case.ten {
        let co2 = dice.within(least, greatest);
        let co = dice.within((600 - co2).max(0), most_co.max(600 - co2));
        let units = [
            dice.within(0, 999),
            dice.within(0, 999),
            dice.within(0, 9999),
            dice.within(0, hc),
            co,
            dice.within(0, no),
            co2,
            dice.within(0, 250),
        ];
        for code in 1..=8u8 {
            let (units, offset) = (units[code as usize - 1], dice.within(-49, 49));
            second[code as usize - 1] = bits_of(code, units, offset);
        }
    }
    case
}

fn some_p(dice: &mut Dice) -> u16 {
    match dice.percent(20) {
        true => dice.pick(&[500, 4300]),
        false => dice.within(500, 4300) as u16,
    }
}

/// Some of HC, CO and NO zero in all seconds or in some, the sum still 6 percent.
fn some_zeros(case: &mut Case, dice: &mut Dice) {
    let gases: &[u8] = dice.pick(&[&[4, 5, 6][..], &[4, 5, 6], &[4], &[5], &[6], &[4, 6]]);
    let kept = dice.pick(&[0, 0, 0, 1, 5]);
    for second in case.ten.iter_mut().skip(kept) {
        for code in gases {
            second[*code as usize - 1] = bits_of(*code, 0, dice.pick(&[0, 25, -25, 49, -49]));
        }
        if gases.contains(&5) {
            second[6] = bits_of(7, dice.within(600, 1800), 0);
        }
    }
}

/// One thing that leaves the premise.
fn spoil(case: &mut Case, dice: &mut Dice) {
    let automatic = case.settings[3] == 2;
    let second = &mut case.ten[dice.below(10) as usize];
    match dice.below(6) {
        0 => spoil_setting(&mut case.settings, dice.within(1, 7) as usize, dice),
        1 => case.p = dice.pick(&[0, 499, 4301, 65535]),
        2 => second[dice.within(3, 6) as usize] = OVER,
        3 => {
            let co2 = dice.within(0, 599);
            let lower = dice.within(co2, 599);
            let sum = dice.pick(&[599, 599, lower]);
            second[4] = bits_of(5, sum - co2, dice.within(-49, 49));
            second[6] = bits_of(7, co2, dice.within(-49, 49));
        }
        _ => {
            let code = dice.within(1, 8) as u8;
            second[code as usize - 1] = unfit_bits(code, automatic, dice);
        }
    }
}
