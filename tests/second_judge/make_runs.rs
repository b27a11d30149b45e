//! Making input: coast-down runs.

use crate::bench::Event;
use crate::coast_down::Run;
use crate::dice::Dice;

/// Passed, one of each speed, with different inertia and power.
pub const PASSED_RUNS: [Event; 2] = [run(1200, 100, true, 5926), run(1100, 200, false, 1698)];

pub const fn run(inertia: u16, power: u16, faster: bool, ms: u32) -> Event {
    Event::Run(Run {
        inertia,
        power,
        faster,
        ms,
    })
}

/// The least and the greatest milliseconds with which a run passes.
pub fn passing_ms(inertia: u16, power: u16, faster: bool) -> (u32, u32) {
    let nominal = inertia as u64 * if faster { 40_000 } else { 25_000 };
    let whole = 100 * 81 * power as u64;
    let least = (93 * nominal).div_ceil(whole);
    (least as u32, (107 * nominal / whole) as u32)
}

/// Fit inertia and power, their ends often.
fn some_rollers(dice: &mut Dice) -> (u16, u16) {
    if dice.percent(15) {
        return (1134, 50); // both ends of the passing range are met exactly
    }
    let inertia = if dice.percent(40) {
        dice.pick(&[1050, 1350])
    } else {
        dice.within(1050, 1350) as u16
    };
    let power = if dice.percent(40) {
        dice.pick(&[50, 325])
    } else {
        dice.within(50, 325) as u16
    };
    (inertia, power)
}

/// A run that passes, at an end of its range often.
pub fn passed_run(faster: bool, dice: &mut Dice) -> Event {
    let (inertia, power) = some_rollers(dice);
    let (least, greatest) = passing_ms(inertia, power, faster);
    let between = dice.within(least as i64, greatest as i64) as u32;
    let ms = dice.pick(&[least, greatest, between]);
    run(inertia, power, faster, ms)
}

/// A run that fails: beside an end, at the other speed's ends, or far off.
pub fn failed_run(faster: bool, dice: &mut Dice) -> Event {
    let (inertia, power) = some_rollers(dice);
    let (least, greatest) = passing_ms(inertia, power, faster);
    let (other_least, other_greatest) = passing_ms(inertia, power, !faster);
    let beside = [least - 1, greatest + 1];
    let far = [other_least, other_greatest, 0, u32::MAX, least + 65_536];
    let ms = if dice.percent(60) {
        dice.pick(&beside)
    } else {
        dice.pick(&far)
    };
    run(inertia, power, faster, ms)
}

/// Inertia unfit, power unfit, or both.
pub fn unfit_run(dice: &mut Dice) -> Event {
    let (mut inertia, mut power) = some_rollers(dice);
    let which = dice.below(3);
    if which != 1 {
        inertia = dice.pick(&[1049, 1351, 0, 65535]);
    }
    if which != 0 {
        power = dice.pick(&[49, 326, 0, 65535]);
    }
    run(
        inertia,
        power,
        dice.percent(50),
        dice.within(0, 20_000) as u32,
    )
}

/// A run of any sort, mostly fit.
pub fn any_run(dice: &mut Dice) -> Event {
    let faster = dice.percent(50);
    match dice.below(10) {
        0..=3 => passed_run(faster, dice),
        4..=7 => failed_run(faster, dice),
        _ => unfit_run(dice),
    }
}
