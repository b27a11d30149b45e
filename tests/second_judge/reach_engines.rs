//! Reach: the engine speed that belongs to the last valid window.

use crate::attempt::Did;
use crate::running::Step;
use crate::test::Next;

/// The engine speeds of the measured seconds and of the last valid window, as the steps go by.
#[derive(Default)]
pub struct Engines {
    measured: Vec<Option<i64>>,
    passing: usize,
    failing: usize,
    window_end: usize, // the t of the last valid window, 0 without one
    window_fails: bool,
}

/// Required of records and of tests.
pub const ON_THE_SHEET: [&str; 10] = [
    "engine speed, manual gearbox",
    "engine speed, automatic gearbox",
    "engine speed, manual gearbox, window failing",
    "engine speed, sum ends in 5",
    "engine speed, sum ends in 4",
    "engine speed 0",
    "engine speed, another in the last ten seconds",
    "no engine speed, no window",
    "no engine speed, only the oldest missing",
    "no engine speed, only the newest missing",
];

/// Required of tests.
pub const IN_A_TEST: [&str; 4] = [
    "engine speed, one missing in the last ten seconds",
    EMPTIED_BY_RESTART,
    EMPTIED_BY_VOID,
    EMPTIED_BY_MODE_2,
];

const EMPTIED_BY_RESTART: &str = "engine speed, then a restart";

const EMPTIED_BY_VOID: &str = "engine speed, then a void";

const EMPTIED_BY_MODE_2: &str = "engine speed, then mode 2";

/// The sum of ten engine speeds, none where one is missing.
fn sum_of(ten: &[Option<i64>]) -> Option<i64> {
    ten.iter().copied().sum()
}

fn mean_of(ten: &[Option<i64>]) -> Option<i64> {
    sum_of(ten).map(|sum| (sum + 5) / 10)
}

impl Engines {
    /// Takes a step; tells what emptied a window that had an engine speed.
    pub fn step(&mut self, engine: Option<i64>, step: &Step) -> Option<&'static str> {
        let state = &step.state;
        if state.t == 0 {
            let shown = self.mean().is_some();
            *self = Engines::default();
            return emptied_by(step).filter(|_| shown);
        }
        if state.t > self.measured.len() {
            self.measured.push(engine);
        }
        if state.passing + state.failing > self.passing + self.failing {
            self.window_end = state.t;
            self.window_fails = state.failing > self.failing;
        }
        (self.passing, self.failing) = (state.passing, state.failing);
        None
    }

    fn window(&self) -> Option<&[Option<i64>]> {
        let start = self.window_end.checked_sub(10)?;
        Some(&self.measured[start..self.window_end])
    }

    /// The mean of the last valid window, as the steps gave it.
    pub fn mean(&self) -> Option<i64> {
        self.window().and_then(mean_of)
    }

    /// What a sheet printed now would show.
    pub fn names(&self, automatic: bool) -> Vec<&'static str> {
        let Some(window) = self.window() else {
            return vec!["no engine speed, no window"];
        };
        let Some(sum) = sum_of(window) else {
            return missing_name(window).into_iter().collect();
        };
        let last_ten = mean_of(&self.measured[self.measured.len() - 10..]);
        let names = [
            ("engine speed, manual gearbox", !automatic),
            ("engine speed, automatic gearbox", automatic),
            (
                "engine speed, manual gearbox, window failing",
                !automatic && self.window_fails,
            ),
            ("engine speed, sum ends in 5", sum % 10 == 5),
            ("engine speed, sum ends in 4", sum % 10 == 4),
            ("engine speed 0", sum == 0),
            (
                "engine speed, another in the last ten seconds",
                last_ten.is_some() && last_ten != mean_of(window),
            ),
            (
                "engine speed, one missing in the last ten seconds",
                last_ten.is_none(),
            ),
        ];
        let reached = names.iter().filter(|(_, reached)| *reached);
        reached.map(|(name, _)| *name).collect()
    }
}

/// Which one of a window's speeds is missing, where it is the oldest or the newest alone.
fn missing_name(window: &[Option<i64>]) -> Option<&'static str> {
    let missing = |ten: &[Option<i64>]| ten.iter().filter(|speed| speed.is_none()).count();
    match (
        missing(&window[..1]),
        missing(&window[1..9]),
        missing(&window[9..]),
    ) {
        (1, 0, 0) => Some("no engine speed, only the oldest missing"),
        (0, 0, 1) => Some("no engine speed, only the newest missing"),
        _ => None,
    }
}

fn emptied_by(step: &Step) -> Option<&'static str> {
    match (step.did, step.next) {
        (_, Next::Mode2) => Some(EMPTIED_BY_MODE_2),
        (_, Next::Rests) => Some(EMPTIED_BY_VOID),
        (Did::Restarted, _) => Some(EMPTIED_BY_RESTART),
        _ => None,
    }
}
