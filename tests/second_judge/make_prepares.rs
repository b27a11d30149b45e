//! Making input: prepares.

use crate::bench::Event;
use crate::dice::Dice;
use crate::numbers::GREATEST;
use crate::prepare::Prepare;

/// One that stands, away from every end.
pub const PREPARED: Event = prepare([3, 0, 5], 2);

pub const fn prepare(background: [u16; 3], residue: i16) -> Event {
    Event::Prepare(Prepare {
        background,
        residue,
    })
}

/// The greatest background of code 4, 5 or 6.
fn greatest(code: usize) -> u16 {
    GREATEST[code - 1] as u16
}

/// Backgrounds and a residue that stand, their ends often.
fn some_standing(dice: &mut Dice) -> ([u16; 3], i16) {
    let background = [14, 1, 24].map(|end: u16| {
        let within = dice.within(0, end as i64) as u16;
        dice.pick(&[end, within, within])
    });
    let within = dice.within(0, 7) as i16;
    (background, dice.pick(&[0, 7, within, within]))
}

pub fn standing_prepare(dice: &mut Dice) -> Event {
    let (background, residue) = some_standing(dice);
    prepare(background, residue)
}

/// A prepare that is fit and does not stand: beside an end, or far off.
pub fn failed_prepare(dice: &mut Dice) -> Event {
    let (mut background, mut residue) = some_standing(dice);
    for _ in 0..dice.pick(&[1, 1, 2]) {
        match dice.below(4) {
            3 => residue = dice.pick(&[-1, 8, -1, 8, i16::MIN, i16::MAX, 256]),
            i => {
                let code = i as usize + 4;
                let beside = [15, 2, 25][code - 4];
                let far = dice.within(beside as i64, greatest(code) as i64) as u16;
                background[code - 4] = dice.pick(&[beside, beside, far, greatest(code)]);
            }
        }
    }
    prepare(background, residue)
}

/// A prepare with one background or more above its channel's greatest.
pub fn unfit_prepare(dice: &mut Dice) -> Event {
    let (mut background, mut residue) = some_standing(dice);
    for _ in 0..dice.pick(&[1, 1, 2, 3]) {
        let code = dice.within(4, 6) as usize;
        background[code - 4] = dice.pick(&[greatest(code) + 1, greatest(code) + 1, 65535]);
    }
    if dice.percent(30) {
        residue = dice.pick(&[-1, 8]);
    }
    prepare(background, residue)
}

/// A prepare of any sort, mostly standing.
pub fn any_prepare(dice: &mut Dice) -> Event {
    match dice.below(10) {
        0..=5 => standing_prepare(dice),
        6..=7 => failed_prepare(dice),
        _ => unfit_prepare(dice),
    }
}
