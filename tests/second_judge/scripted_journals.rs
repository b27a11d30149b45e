//! Making input: stories for journals, each start behind another event that left its lock standing.

use crate::bench::Event;
use crate::dice::Dice;
use crate::journaling::Journal;
use crate::make_prepares::{failed_prepare, unfit_prepare, PREPARED};
use crate::make_runs::{failed_run, passed_run, unfit_run, PASSED_RUNS};
use crate::scripted_events::{Story, SIGN_IN, WRONG};

impl Story {
    fn journal(self) -> Journal {
        Journal {
            v: self.v,
            u: self.u,
            events: self.events,
        }
    }

    /// Events, and a start behind each.
    fn each_with_start(&mut self, events: &[Event]) {
        for event in events {
            self.after(2, *event);
            self.start();
        }
    }

    /// A start, then what lifts locks 1, 3, 4 and 8 one by one, a start behind each.
    fn ladder(&mut self) {
        self.start();
        let [faster, slower] = PASSED_RUNS;
        self.each_with_start(&[
            Event::WarmUp,
            Event::Calibration(true),
            faster,
            slower,
            SIGN_IN,
            PREPARED,
        ]);
    }

    /// Nothing since the beginning, then a power-on, then clock settings back and on, with events between
    /// that are refused and may not be named.
    fn ladders(&mut self) {
        self.ladder();
        self.start();
        self.ahead(5, Event::ClockSetting(7));
        self.after(1, Event::PowerOn);
        self.earlier(1, Event::PowerOn);
        self.earlier(1, Event::Start([0; 7], 0));
        self.ladder();
        for new in [3, 1_000_000] {
            self.after(1, Event::PowerOn);
            self.set_clock(new);
            self.earlier(1, Event::ClockSetting(0));
            self.ladder();
        }
        self.after(1, Event::PowerOn);
        self.start();
    }

    /// Calibrations and runs that did not pass, one alone and several; newer runs of the other speed.
    fn parts_of_lock_3(&mut self) {
        self.fresh();
        let dice = &mut self.dice;
        let (failed_fast, failed_slow) = (failed_run(true, dice), failed_run(false, dice));
        let (fast, slow) = (passed_run(true, dice), passed_run(false, dice));
        let (passed, failed) = (Event::Calibration(true), Event::Calibration(false));
        self.each_with_start(&[failed, fast, slow, failed_fast, failed, passed, slow]);
        self.each_with_start(&[failed_slow, fast, fast, failed_slow, failed_fast, slow]);
        let unfit = unfit_run(&mut self.dice);
        self.ahead(1, unfit);
        self.start();
        self.add(&[fast, PREPARED]);
        self.start();
        self.after(1, Event::PowerOn);
        self.add(&[Event::WarmUp, failed]);
        self.each_with_start(&[slow, passed, slow, failed_fast]);
    }

    /// Tries that are wrong or no longer good; prepares that do not stand, are refused, too old or used up.
    fn signing_in_and_preparing(&mut self) {
        self.fresh();
        let expired = Event::Try(Some(self.now));
        self.each_with_start(&[WRONG, SIGN_IN]);
        self.fresh();
        self.each_with_start(&[expired, WRONG, expired]);
        self.add(&[SIGN_IN]);
        let dice = &mut self.dice;
        let (failed, unfit) = (failed_prepare(dice), unfit_prepare(dice));
        self.each_with_start(&[failed, unfit, failed, PREPARED]);
        self.fresh();
        let mut script = self.start();
        self.incomplete(&mut script, 1);
        self.renew_but(1, PREPARED);
        self.start();
        self.each_with_start(&[Event::Upload, unfit, PREPARED]);
    }

    /// At the end of what admits a start, and a second later: locks 2, 3, 4 and 8.
    fn ages(&mut self) {
        for late in [0, 1] {
            for (wait, kind) in [
                (1800, Event::WarmUp),
                (self.v, Event::Calibration(true)),
                (120, PREPARED),
            ] {
                self.fresh();
                self.renew_but(wait + late, kind);
                self.start();
            }
            self.fresh();
            self.after(0, Event::Try(Some(self.now + 10)));
            self.renew_but(10 + late, SIGN_IN);
            self.start();
        }
    }

    /// 1,800 s after a test's last second, and 1,801: stops, runs and prepares do not count.
    fn idle_after_a_test(&mut self) {
        for late in [0, 1] {
            self.fresh();
            let mut script = self.start();
            self.incomplete(&mut script, 100);
            self.add(&PASSED_RUNS);
            self.renew_but(1700 + late, Event::WarmUp);
            self.start();
        }
    }

    /// Rows of wrong tries: the fourth is named, whatever comes behind it.
    fn rows_of_wrong_tries(&mut self) {
        let unlock = Event::AuthorityUnlock;
        for tries in [
            &[WRONG; 4][..],
            &[WRONG; 6],
            &[WRONG, WRONG, WRONG, SIGN_IN, WRONG, WRONG, WRONG, WRONG],
            &[
                WRONG, WRONG, WRONG, WRONG, SIGN_IN, WRONG, WRONG, WRONG, WRONG,
            ],
            &[
                WRONG, WRONG, WRONG, WRONG, unlock, WRONG, WRONG, WRONG, WRONG, WRONG,
            ],
            &[WRONG, WRONG, unlock, WRONG, WRONG, WRONG, WRONG],
        ] {
            self.fresh();
            self.add(tries);
            self.add(&[SIGN_IN, PREPARED]);
            self.start();
        }
        self.after(1, Event::PowerOn);
        self.ready_but(0, unlock);
        self.start();
    }

    /// The newest authority lock, not one before an unlock; lock 5 comes first.
    fn authority_locks(&mut self) {
        let (lock, unlock) = (Event::AuthorityLock, Event::AuthorityUnlock);
        self.fresh();
        self.each_with_start(&[lock, lock, SIGN_IN]);
        self.add(&[WRONG; 4]);
        self.each_with_start(&[SIGN_IN, lock]);
        self.add(&[unlock, lock]);
        self.start();
        self.after(1, Event::PowerOn);
        self.ready_but(0, unlock);
        self.each_with_start(&[unlock]);
    }

    /// Lock 7 by a stop's verdict and by a second's; what comes behind a verdict is not named.
    fn unsent_verdicts(&mut self) {
        for by_second in [false, true] {
            self.fresh();
            for left in (0..self.u).rev() {
                self.add(&[Event::WarmUp, Event::Calibration(true), PREPARED]);
                let mut script = self.start();
                if by_second && left == 0 {
                    script.void(5);
                    script.rest();
                    script.void(6);
                    script.rest();
                    script.void(6);
                    self.play(&mut script);
                } else {
                    self.incomplete(&mut script, 1);
                }
            }
            self.renew_but(0, Event::Upload);
            self.each_with_start(&[Event::AuthorityUnlock, WRONG, SIGN_IN]);
        }
        self.after(1, Event::Upload);
        self.start();
    }

    /// A pass and a fail as verdicts.
    fn pass_and_fail(&mut self) {
        self.fresh();
        let mut script = self.start();
        script.pass();
        self.play(&mut script);
        self.start();
        self.fail();
        self.start();
    }
}

/// A bench of its own for each story: V, U, and what is told.
const STORIES: [(u32, u16, fn(&mut Story)); 15] = [
    (86_400, 5, Story::ladders),
    (900, 5, Story::parts_of_lock_3),
    (86_400, 5, Story::signing_in_and_preparing),
    (900, 5, Story::ages),
    (1, 1, Story::ages),
    (2_592_000, 255, Story::idle_after_a_test),
    (3600, 5, Story::rows_of_wrong_tries),
    (3600, 5, Story::authority_locks),
    (3600, 2, Story::unsent_verdicts),
    (86_400, 1, Story::unsent_verdicts),
    (86_400, 1, Story::pass_and_fail),
    (86_400, 3, Story::hundredths),
    (900, 20, locks_case_by_case),
    (86_400, 20, checks_case_by_case),
    (60, 3, tests_case_by_case),
];

/// The scripted events about locks, as in `make events`.
fn locks_case_by_case(story: &mut Story) {
    story.first_events();
    story.idle_lock();
    story.calibration_lock();
    story.sign_in_lock();
    story.password_lock();
    story.authority_lock();
}

/// Those about runs and prepares.
fn checks_case_by_case(story: &mut Story) {
    story.runs();
    story.prepares();
}

/// Those about what is refused, in a test and elsewhere, and about clocks.
fn tests_case_by_case(story: &mut Story) {
    story.refused_in_a_test();
    story.unfit_starts();
    story.stops_and_clock();
    story.refused_second_and_lock_2();
    story.near_the_end();
    story.unsent_lock();
}

pub fn scripted_journals(dice: &mut Dice) -> Vec<Journal> {
    let told = STORIES.iter().map(|(v, u, tell)| {
        let mut story = Story::new(*v, *u, dice.next());
        tell(&mut story);
        story.journal()
    });
    told.collect()
}
