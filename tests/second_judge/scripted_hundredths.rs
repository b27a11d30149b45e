//! Making input: tests in which CO2 rounded to a tenth would give something else.

use crate::make_records::until_verdict;
use crate::script::Script;
use crate::scripted_events::Story;

impl Script {
    /// Settling by sums beside a tenth's: 600 is not ready, though a tenth above would be, nor void
    /// 5, though a tenth below would be; 601 is ready.
    pub fn settle_by_hundredths(&mut self) {
        self.clean(2);
        self.sum_with(600, 547);
        self.clean(1);
        self.sum_with(600, 543);
        self.clean(self.settling() - 1);
        self.sum_with(601, 541);
    }

    /// Failing windows, then passing ones up to the pass: by tenths too few pass.
    pub fn pass_by_hundredths(&mut self) {
        self.settle();
        self.narrow(13, true);
        self.narrow(24, false);
    }
}

impl Story {
    /// An incomplete verdict and a pass that tenths would not give, a start right behind each.
    pub fn hundredths(&mut self) {
        self.fresh();
        let mut script = self.start();
        for cause in [1, 2] {
            script.clean(1);
            script.stop(cause);
            script.rest();
        }
        script.clean(1);
        script.sum_with(599, 546);
        self.play(&mut script);
        self.start();
        let mut script = self.start_another();
        script.pass_by_hundredths();
        script.items = until_verdict(script.car, &script.items);
        self.play(&mut script);
        self.start();
    }
}
