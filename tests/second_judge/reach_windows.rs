//! Reach: invalid windows, counted from the seconds as the steps go by.

use crate::attempt::{Did, Stage};
use crate::numbers::Second;
use crate::running::{State, Step};
use crate::test::{Next, Word};
use crate::vehicle::Vehicle;

const BY_OUT: &str = "window invalid by out seconds alone";

const BY_ENGINE: &str = "window invalid by engine speed alone";

const OLDEST: &str = "window invalid by its oldest second alone";

const NEWEST: &str = "window invalid by its newest second alone";

const BEHIND: &str = "window valid right behind an invalid one";

const FIRST: &str = "window invalid at t = 10";

const ALL_SORTS: &str = "passing, failing and invalid windows";

const THEN_RESTART: &str = "invalid windows, then a restart";

const THEN_ANOTHER: &str = "invalid windows, then another restart";

const THEN_REST: &str = "invalid windows, then a rest";

const THEN_MODE_2: &str = "invalid windows, then mode 2 by failing ones";

const THEN_Q: &str = "invalid windows, then mode 2 by void 9";

const EARLY: &str = "pass at t = 25 with an invalid window";

const BETWEEN: &str = "pass between t = 25 and 90 with invalid windows";

const LATE: &str = "pass at t = 90 with invalid windows";

const FAIL: &str = "fail by failing windows with invalid ones";

const FAIL_BY_Q: &str = "fail by void 9 with invalid windows";

const INCOMPLETE: &str = "incomplete by void 1 to 6 with invalid windows";

const INCOMPLETE_BY_9: &str = "incomplete by void 9 with invalid windows";

const AT_8: &str = "verdict at t = 1 to 8";

const AT_9: &str = "verdict at t = 9";

const AT_10: &str = "verdict at t = 10, window invalid";

const FORGOTTEN: &str = "verdict without windows after an attempt with invalid ones";

const OPEN: &str = "open with invalid windows";

const OPEN_EMPTIED: &str = "open without windows after invalid ones";

/// A name and the modes in which it is required; without any where mode 2 begins.
type Wanted = (&'static str, &'static [u8]);

const IN_TESTS: [Wanted; 18] = [
    (BY_OUT, &[1, 2]),
    (BY_ENGINE, &[1]),
    (OLDEST, &[1, 2]),
    (NEWEST, &[1, 2]),
    (BEHIND, &[1, 2]),
    (FIRST, &[1, 2]),
    (ALL_SORTS, &[1, 2]),
    (THEN_RESTART, &[1, 2]),
    (THEN_ANOTHER, &[1, 2]),
    (THEN_REST, &[1, 2]),
    (THEN_MODE_2, &[]),
    (THEN_Q, &[]),
    (EARLY, &[1]),
    (BETWEEN, &[1]),
    (FAIL, &[2]),
    (FAIL_BY_Q, &[2]),
    (INCOMPLETE_BY_9, &[1]),
    (AT_8, &[1]),
];

const IN_RECORDS: [Wanted; 14] = [
    (BY_OUT, &[1, 2]),
    (OLDEST, &[1, 2]),
    (NEWEST, &[1, 2]),
    (BEHIND, &[1, 2]),
    (FIRST, &[1, 2]),
    (ALL_SORTS, &[2]),
    (THEN_RESTART, &[1, 2]),
    (THEN_ANOTHER, &[1, 2]),
    (THEN_REST, &[2]),
    (EARLY, &[1]),
    (BETWEEN, &[1]),
    (FAIL_BY_Q, &[2]),
    (OPEN, &[1]),
    (OPEN_EMPTIED, &[1, 2]),
];

const IN_EVENTS: [Wanted; 14] = [
    (BY_OUT, &[1]),
    (OLDEST, &[1]),
    (NEWEST, &[1]),
    (FIRST, &[1]),
    (THEN_RESTART, &[1]),
    (THEN_REST, &[1]),
    (THEN_MODE_2, &[]),
    (EARLY, &[1]),
    (LATE, &[1]),
    (FAIL, &[2]),
    (INCOMPLETE, &[1]),
    (AT_9, &[1]),
    (AT_10, &[1]),
    (FORGOTTEN, &[1]),
];

/// Required of tests.
pub fn windows_in_tests() -> Vec<String> {
    required(&IN_TESTS)
}

/// Required of records.
pub fn windows_in_records() -> Vec<String> {
    required(&IN_RECORDS)
}

/// Required of lists of events.
pub fn windows_in_events() -> Vec<String> {
    required(&IN_EVENTS)
}

fn required(list: &[Wanted]) -> Vec<String> {
    let names = list.iter().flat_map(|(what, modes)| match modes {
        [] => vec![what.to_string()],
        _ => modes.iter().map(|mode| in_mode(what, *mode)).collect(),
    });
    names.collect()
}

fn in_mode(what: &str, mode: u8) -> String {
    format!("{what} in mode {mode}")
}

/// Invalid windows of the run under way, told by how many of its newest seconds in a row are good.
#[derive(Default)]
pub struct Windows {
    t: usize,
    inside: usize,      // not out, in a row
    good: usize,        // with a good engine speed, in a row
    pub invalid: usize, // windows of this run
    restarted: bool,    // in this attempt, behind invalid windows
    earlier: bool,      // this test had invalid windows before this run
}

impl Windows {
    /// Takes a step of one test; names what it shows of invalid windows.
    pub fn step(&mut self, car: &Vehicle, second: Option<Second>, step: &Step) -> Vec<String> {
        let (mode, t) = (step.state.standing.mode, step.state.t);
        let mut shown = Vec::new();
        if t > self.t {
            let clean = self.clean();
            second.map(|second| self.measured(car, mode, &second));
            shown.extend(self.window_names(clean, &step.state));
        }
        if t == 0 {
            shown.extend(self.emptied(step));
        }
        if let Next::Ends(word) = step.next {
            shown.extend(self.verdict_names(word, step));
        }
        let named = |what: &&str| match step.next {
            Next::Mode2 => what.to_string(),
            _ => in_mode(what, mode),
        };
        shown.iter().map(named).collect()
    }

    /// How many of the newest seconds in a row are neither out nor of a bad engine speed.
    fn clean(&self) -> usize {
        self.inside.min(self.good)
    }

    fn measured(&mut self, car: &Vehicle, mode: u8, second: &Second) {
        let near = car.off_target(mode, second.speed) <= 15;
        let inside = near && car.load_in_tolerance(mode, second.load);
        let good = car.engine_good(second.engine);
        self.t += 1;
        self.inside = if inside { self.inside + 1 } else { 0 };
        self.good = if good { self.good + 1 } else { 0 };
        self.invalid += (self.t >= 10 && self.clean() < 10) as usize;
    }

    /// Begins a run anew; tells what emptied the counts where they had invalid windows.
    fn emptied(&mut self, step: &Step) -> Option<&'static str> {
        let old = std::mem::take(self);
        let had = old.invalid > 0;
        self.earlier = old.earlier || had;
        self.restarted = step.state.stage == Stage::Measuring && (old.restarted || had);
        match (step.did, step.next) {
            _ if !had => None,
            (Did::Restarted, _) if old.restarted => Some(THEN_ANOTHER),
            (Did::Restarted, _) => Some(THEN_RESTART),
            (Did::Void(9), Next::Mode2) => Some(THEN_Q),
            (_, Next::Mode2) => Some(THEN_MODE_2),
            (_, Next::Rests) => Some(THEN_REST),
            _ => None,
        }
    }

    /// What the window that ends here shows; `before` is how many were clean a second ago.
    fn window_names(&self, before: usize, state: &State) -> Vec<&'static str> {
        if self.t < 10 {
            return Vec::new();
        }
        let (inside, good) = (self.inside >= 10, self.good >= 10);
        let sorts = [state.passing, state.failing, self.invalid];
        held(&[
            (BY_OUT, !inside && good),
            (BY_ENGINE, inside && !good),
            (OLDEST, self.clean() == 9),
            (NEWEST, self.clean() == 0 && before >= 9),
            (BEHIND, self.clean() == 10 && self.t > 10),
            (FIRST, self.t == 10 && self.invalid == 1),
            (ALL_SORTS, sorts.iter().all(|count| *count > 0)),
        ])
    }

    fn verdict_names(&self, word: Word, step: &Step) -> Vec<&'static str> {
        let (t, did) = (step.state.t, step.did);
        let void_9 = did == Did::Void(9);
        let cut_off = matches!(did, Did::Void(1..=6));
        let is = |other| word == other && self.invalid > 0;
        held(&[
            (EARLY, is(Word::Pass) && t == 25),
            (BETWEEN, is(Word::Pass) && (26..90).contains(&t)),
            (LATE, is(Word::Pass) && t == 90),
            (FAIL, is(Word::Fail) && !void_9),
            (FAIL_BY_Q, is(Word::Fail) && void_9),
            (INCOMPLETE, is(Word::Incomplete) && cut_off),
            (INCOMPLETE_BY_9, is(Word::Incomplete) && void_9),
            (AT_8, (1..9).contains(&t)),
            (AT_9, t == 9),
            (AT_10, t == 10 && self.invalid == 1),
            (FORGOTTEN, t < 10 && self.earlier),
        ])
    }

    /// What a record's line shows that is left open.
    pub fn open_name(&self, mode: u8) -> Option<String> {
        match self.invalid {
            0 if self.t < 10 && self.earlier => Some(in_mode(OPEN_EMPTIED, mode)),
            0 => None,
            _ => Some(in_mode(OPEN, mode)),
        }
    }
}

/// The names that hold.
fn held(names: &[(&'static str, bool)]) -> Vec<&'static str> {
    let held = names.iter().filter(|(_, held)| *held);
    held.map(|(what, _)| *what).collect()
}
