//! A test under way: the same lists, growing.

use crate::attempt::{judge_attempt, Attempt, Did, Stage, Stop};
use crate::numbers::Second;
use crate::test::{after_end, rest_length, Next, Standing, Word, FRESH};
use crate::vehicle::Vehicle;

/// The state that is printed after each second or stop.
#[derive(Clone, Copy, PartialEq, Eq, Debug)]
pub struct State {
    pub standing: Standing,
    pub stage: Stage,
    pub c: usize,
    pub n: usize,
    pub g: usize,
    pub t: usize,
    pub u: usize,
    pub w: usize,
    pub passing: usize,
    pub failing: usize,
    pub invalid: usize,
    pub rest: usize,
    pub engine: Option<u128>, // the mean of the last valid window
}

impl State {
    pub fn empty(standing: Standing, stage: Stage) -> State {
        let (c, n, g, t, u, w) = (0, 0, 0, 0, 0, 0);
        State {
            standing,
            stage,
            c,
            n,
            g,
            t,
            u,
            w,
            passing: 0,
            failing: 0,
            invalid: 0,
            rest: 0,
            engine: None,
        }
    }

    pub fn of(standing: Standing, a: &Attempt) -> State {
        State {
            c: a.c,
            n: a.n,
            g: a.g,
            t: a.t,
            u: a.u,
            w: a.w,
            passing: a.passing,
            failing: a.failing,
            invalid: a.invalid,
            engine: a.engine,
            ..State::empty(standing, a.stage)
        }
    }

    /// A verdict keeps the counts of the attempt in which it fell.
    pub fn ended(standing: Standing, a: &Attempt) -> State {
        State {
            stage: Stage::Ended,
            ..State::of(standing, a)
        }
    }
}

/// A verdict as an event answers it.
#[derive(Clone, Copy, PartialEq, Eq, Debug)]
pub struct Verdict {
    pub word: Word,
    pub t: usize,
    pub passing: usize,
    pub failing: usize,
    pub invalid: usize,
}

/// What a second or stop did, what follows, and the state after it.
pub struct Step {
    pub did: Did,
    pub next: Next,
    pub state: State,
}

impl Step {
    pub fn verdict(&self) -> Option<Verdict> {
        let State {
            t,
            passing,
            failing,
            invalid,
            ..
        } = self.state;
        match self.next {
            Next::Ends(word) => Some(Verdict {
                word,
                t,
                passing,
                failing,
                invalid,
            }),
            _ => None,
        }
    }
}

/// A running test: the counted seconds of the attempt under way, or the last
/// seconds of the rest in a row below 10.
#[derive(Clone)]
pub struct Running {
    pub car: Vehicle,
    pub standing: Standing,
    pub resting: bool,
    pub seconds: Vec<Second>,
    pub ended: bool,
}

impl Running {
    pub fn new(car: Vehicle) -> Running {
        Running {
            car,
            standing: FRESH,
            resting: false,
            seconds: Vec::new(),
            ended: false,
        }
    }

    /// The state in rest or at c = 0.
    pub fn quiet_state(&self) -> State {
        let stage = if self.resting {
            Stage::Rest
        } else {
            Stage::Settling
        };
        State {
            rest: self.seconds.len(),
            ..State::empty(self.standing, stage)
        }
    }

    pub fn quiet(&self, next: Next) -> Step {
        Step {
            did: Did::Nothing,
            next,
            state: self.quiet_state(),
        }
    }

    pub fn second(&mut self, second: Second) -> Step {
        if self.resting {
            return self.rest_second(second);
        }
        if self.seconds.is_empty() && second.speed <= 10 {
            return self.quiet(Next::GoesOn);
        }
        self.seconds.push(second);
        self.judge(&[])
    }

    pub fn rest_second(&mut self, second: Second) -> Step {
        self.seconds.push(second);
        if rest_length(&self.seconds).is_some() {
            self.resting = false;
            self.seconds.clear();
            return self.quiet(Next::RestEnded);
        }
        if second.speed >= 10 {
            self.seconds.clear();
        }
        self.quiet(Next::GoesOn)
    }

    pub fn stop(&mut self, cause: u8) -> Step {
        if self.resting || self.seconds.is_empty() {
            return self.quiet(Next::GoesOn);
        }
        let past = self.seconds.len();
        self.judge(&[Stop { past, cause }])
    }

    /// Judges the attempt under way from its list.
    pub fn judge(&mut self, stops: &[Stop]) -> Step {
        let attempt = judge_attempt(&self.car, self.standing.mode, &self.seconds, stops, 0);
        let Some(end) = attempt.end else {
            let state = State::of(self.standing, &attempt);
            return Step {
                did: attempt.did,
                next: Next::GoesOn,
                state,
            };
        };
        let (standing, next) = after_end(self.standing, end);
        self.standing = standing;
        self.seconds.clear();
        self.resting = next == Next::Rests;
        self.ended = matches!(next, Next::Ends(_));
        let state = match self.ended {
            true => State::ended(standing, &attempt),
            false => self.quiet_state(),
        };
        Step {
            did: attempt.did,
            next,
            state,
        }
    }
}
