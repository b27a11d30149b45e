//! Making input: scripted events about invalid windows.

use crate::bench::Event;
use crate::make_prepares::PREPARED;
use crate::script::Script;
use crate::scripted_events::Story;

impl Story {
    /// As `fail`, with an invalid window at the verdict, and others that mode 2 empties; by tenths
    /// the windows of mode 2 would pass.
    pub fn fail_with_invalid(&mut self) {
        self.fresh();
        let mut script = self.start();
        script.settle();
        script.dirty(88);
        script.out(1);
        script.dirty(1);
        script.mode = 2;
        script.settle();
        script.narrow(89, true);
        script.out(1);
        self.play(&mut script);
    }

    /// Incomplete verdicts at t = 9 and at t = 10, on a ready bench.
    pub fn first_windows(&mut self) {
        self.incomplete_at_9();
        self.incomplete_at_10();
    }

    /// A start on a bench that was ready before its last test.
    pub fn start_another(&mut self) -> Script {
        self.add(&[Event::Upload, Event::Calibration(true), PREPARED]);
        self.start()
    }

    /// No window as yet, after an attempt with an invalid one; by tenths void 5 comes while settling.
    fn incomplete_at_9(&mut self) {
        let mut script = self.start_another();
        script.settle();
        script.clean(9);
        script.out(1);
        script.stop(1);
        script.rest();
        script.clean(1);
        script.stop(2);
        script.rest();
        script.settle_by_hundredths();
        script.sum_with(601, 553);
        script.clean(8);
        script.sum_with(599, 547);
        self.play(&mut script);
    }

    /// One window, invalid by its oldest second, after a restart that emptied two.
    fn incomplete_at_10(&mut self) {
        let mut script = self.start_another();
        for cause in [4, 1] {
            script.clean(1);
            script.stop(cause);
            script.rest();
        }
        script.settle();
        script.clean(9);
        script.out(4);
        script.clean(9);
        script.stop(2);
        self.play(&mut script);
    }
}
