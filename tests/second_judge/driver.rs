//! Making input: a driver with a temper, who looks where the test stands.

use crate::attempt::{judge_attempt, Stage};
use crate::bench::step_of;
use crate::dice::Dice;
use crate::numbers::{judge_reading, GREATEST, MISSING, OVER};
use crate::running::Running;
use crate::script::{nearest_bits, Item, Script};
use crate::test::{Standing, FRESH};
use crate::vehicle::Vehicle;
use std::collections::VecDeque;

/// Plays a test second by second: looks where the test stands, and plans a
/// piece that leads somewhere from there.
pub struct Driver {
    pub script: Script,
    pub planned: VecDeque<Item>,
    pub seen: (Standing, Stage),
    pub temper: u64, // 0 quick, 1 dirty, 2 inconclusive, 3 clumsy, 4 close, 5 mixed
}

impl Driver {
    pub fn new(car: Vehicle, dice: &mut Dice) -> Driver {
        let mut script = Script::mixed(car, dice.next());
        script.noise = dice.pick(&[0, 0, 1, 1, 2, 4]);
        let temper = dice.pick(&[0, 0, 1, 1, 2, 2, 3, 3, 4, 5]);
        Driver {
            script,
            planned: VecDeque::new(),
            seen: (FRESH, Stage::Ended),
            temper,
        }
    }

    pub fn next(&mut self, test: &Running) -> Item {
        let stage = stage_now(test);
        if self.seen != (test.standing, stage) {
            self.planned.clear();
            self.seen = (test.standing, stage);
        }
        while self.planned.is_empty() {
            self.script.mode = test.standing.mode;
            self.plan(stage);
            self.planned.extend(self.script.items.drain(..));
        }
        match self.planned.pop_front() {
            Some(item) => item,
            None => Item::Stop(1),
        }
    }

    pub fn plan(&mut self, stage: Stage) {
        match stage {
            Stage::Rest => self.plan_rest(),
            Stage::Settling => self.plan_settling(),
            _ => self.plan_measuring(),
        }
    }

    pub fn plan_rest(&mut self) {
        let s = &mut self.script;
        match s.dice.below(10) {
            0 => s.idle(9, 11),
            1 => {
                s.idle(4, 9);
                s.stop(2);
            }
            2 => s.clean(1),
            _ => s.rest(),
        }
    }

    pub fn plan_settling(&mut self) {
        let clumsy = self.temper == 3;
        let s = &mut self.script;
        let roll = if clumsy {
            s.dice.below(14)
        } else {
            s.dice.below(60)
        };
        match roll {
            0 => s.idle(3, 10),
            1 => s.stop(3),
            2 => s.void(7),
            3 => s.void(6),
            4 => s.void(5),
            5 => s.far(140),
            6 => {
                let count = s.dice.within(1, 25) as usize;
                s.unready(count);
            }
            7 => {
                let count = s.dice.within(1, 60) as usize;
                s.far(count);
            }
            8 => {
                let cause = s.dice.within(1, 4) as u8;
                s.clean(3);
                s.stop(cause);
            }
            _ => s.settle(),
        }
    }

    pub fn plan_measuring(&mut self) {
        let temper = match self.temper {
            5 => self.script.dice.below(5),
            temper => temper,
        };
        let s = &mut self.script;
        match temper {
            0 => s.clean(25),
            1 => s.dirty(90),
            2 if s.dice.percent(80) => s.inconclusive(s.noise > 2),
            2 => some_dip(s, 90),
            3 => plan_clumsy(s),
            _ => s.close(90),
        }
    }
}

/// A dip at one of seconds 2 to 11, where a run begins here.
fn some_dip(s: &mut Script, count: usize) {
    let second = s.dice.within(2, 11) as usize;
    let depth = s.dice.pick(&[8, 9]);
    s.dip(second, depth, count);
}

fn plan_clumsy(s: &mut Script) {
    match s.dice.below(8) {
        0 => s.out(3),
        1 => s.out(1),
        2 => {
            let cause = s.dice.within(1, 4) as u8;
            s.stop(cause);
        }
        3 => s.seconds(1, |w| w.over = 6),
        4 => s.diluted(),
        5 => some_dip(s, 25),
        _ => {
            let count = s.dice.within(1, 20) as usize;
            s.clean(count);
        }
    }
}

/// The stage of a running test, told from its list.
fn stage_now(test: &Running) -> Stage {
    if test.resting {
        return Stage::Rest;
    }
    judge_attempt(&test.car, test.standing.mode, &test.seconds, &[], 0).stage
}

/// A whole driven test, cut off after `most` seconds.
pub fn driven_test(car: Vehicle, most: usize, dice: &mut Dice) -> Vec<Item> {
    let mut driver = Driver::new(car, dice);
    driver.script.vary();
    let mut test = Running::new(car);
    let mut items = Vec::new();
    let mut seconds = 0;
    while !test.ended && seconds < most {
        let item = driver.next(&test);
        seconds += matches!(item, Item::Second(_)) as usize;
        items.push(item);
        let _ = step_of(&mut test, &item.event());
    }
    items
}

/// A bit pattern unfit for a code, if its gearbox excuses nothing.
pub fn unfit_bits(code: u8, automatic: bool, dice: &mut Dice) -> u32 {
    let number = |units: f64| nearest_bits(code, units);
    loop {
        let bits = match dice.below(12) {
            0 => MISSING,
            1 => OVER,
            2 => 0xFFC0_0000,
            3 => 0xFF80_0000,
            4 => 0x7F80_0001,
            5 => 0x7FC0_0001,
            6 => 0xFF80_0001 + dice.below(0x7F_FFFE) as u32,
            7 => 0x7F80_0001 + dice.below(0x7F_FFFE) as u32,
            // CO2 also where it was fit in tenths.
            8 if code == 7 => number(dice.pick(&[-1.0, -4.0, -6.0])),
            9 if code == 7 => number(1800.0 + dice.pick(&[0.6, 4.0, 4.9, 6.0])),
            8 => number(-1.0),
            9 => number(GREATEST[code as usize - 1] as f64 + 0.6),
            10 => 0x7F7F_FFFF,
            _ => number(-0.51),
        };
        if judge_reading(code, automatic, bits).is_none() {
            return bits;
        }
    }
}
