//! Making input: scripted coast-down runs.

use crate::bench::Event;
use crate::make_prepares::PREPARED;
use crate::make_runs::{failed_run, passed_run, passing_ms, run, PASSED_RUNS};
use crate::scripted_events::{Story, SIGN_IN, WRONG};

/// Inertia and power: the ends of their ranges, the worked case, and one where
/// 93 and 107 percent are whole milliseconds.
const ROLLERS: [(u16, u16); 4] = [(1050, 325), (1350, 50), (1200, 100), (1134, 50)];

impl Story {
    pub fn runs(&mut self) {
        self.slower_first();
        self.failed_and_passed();
        self.runs_voided();
        self.unfit_runs();
        self.runs_beside_their_ends();
    }

    fn passed(&mut self, faster: bool) {
        let event = passed_run(faster, &mut self.dice);
        self.after(0, event);
    }

    fn failed(&mut self, faster: bool) {
        let event = failed_run(faster, &mut self.dice);
        self.after(0, event);
    }

    /// What a start needs after a power-on or clock setting, but the runs.
    fn ready_but_runs(&mut self) {
        self.add(&[Event::WarmUp, Event::Calibration(true), SIGN_IN, PREPARED]);
    }

    /// Lock 3 until the slower run and then the faster have passed.
    fn slower_first(&mut self) {
        self.after(1, Event::PowerOn);
        self.ready_but_runs();
        for faster in [false, true] {
            self.passed(faster);
            self.start();
        }
    }

    /// A failed run after a passed one: lock 3, which a run of the other speed
    /// leaves and a passed one of its own speed lifts.
    fn failed_and_passed(&mut self) {
        for faster in [true, false] {
            self.fresh();
            self.failed(faster);
            self.start();
            self.passed(!faster);
            self.start();
            self.passed(faster);
            self.start();
        }
    }

    /// Runs before a power-on or a clock setting: both, then one of them.
    fn runs_voided(&mut self) {
        self.fresh();
        for (power, faster) in [(true, true), (false, false), (true, false), (false, true)] {
            if power {
                self.after(1, Event::PowerOn);
            } else {
                self.set_clock(self.now + 3);
            }
            self.ready_but_runs();
            self.start();
            self.passed(faster);
            self.start();
            self.passed(!faster);
        }
        self.start();
    }

    /// Unfit runs ahead of a start, and one too early: none changes anything.
    fn unfit_runs(&mut self) {
        self.fresh();
        for (inertia, power) in [
            (1049, 50),
            (1351, 325),
            (0, 100),
            (65535, 100),
            (1050, 49),
            (1350, 326),
            (1200, 0),
            (1200, 65535),
            (1049, 49),
            (1351, 326),
        ] {
            let faster = self.dice.percent(50);
            self.ahead(3, run(inertia, power, faster, 1));
        }
        self.earlier(1, run(1049, 326, true, 1));
        self.earlier(1, run(1200, 100, false, 1));
        self.start();
    }

    /// Runs at and beside the ends of what passes, a start behind each: lock 3
    /// or, signed out, lock 4.
    fn runs_beside_their_ends(&mut self) {
        self.fresh();
        self.after(0, WRONG);
        for (inertia, power) in ROLLERS {
            for faster in [true, false] {
                let (least, greatest) = passing_ms(inertia, power, faster);
                for ms in [least - 1, least, greatest + 1, greatest] {
                    self.after(0, run(inertia, power, faster, ms));
                    self.start();
                }
            }
        }
        for ms in [0, u32::MAX, 5926 + 65_536] {
            self.after(0, run(1200, 100, true, ms));
            self.start();
        }
        self.add(&PASSED_RUNS);
        self.start();
    }
}
