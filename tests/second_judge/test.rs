//! One test, attempt by attempt.

use crate::attempt::{judge_attempt, Attempt, End, Stop};
use crate::numbers::Second;
use crate::vehicle::Vehicle;
use crate::window::{engine_text, Averages};
use std::fmt;

#[derive(Clone, Copy, PartialEq, Eq, Debug)]
pub enum Word {
    Pass,
    Fail,
    Incomplete,
}

impl Word {
    pub fn text(self) -> &'static str {
        match self {
            Word::Pass => "pass",
            Word::Fail => "fail",
            Word::Incomplete => "incomplete",
        }
    }
}

/// What one attempt hands to the next.
#[derive(Clone, Copy, PartialEq, Eq, Debug)]
pub struct Standing {
    pub mode: u8,
    pub r: usize,
    pub q: usize,
}

pub const FRESH: Standing = Standing {
    mode: 1,
    r: 0,
    q: 0,
};

/// What follows a second or a stop.
#[derive(Clone, Copy, PartialEq, Eq, Debug)]
pub enum Next {
    GoesOn,
    Rests,
    RestEnded,
    Mode2,
    Ends(Word),
}

pub fn after_end(standing: Standing, end: End) -> (Standing, Next) {
    match end {
        End::Pass => (standing, Next::Ends(Word::Pass)),
        End::Failing => mode_2_or_fail(standing),
        End::Void(void) => after_void(standing, void),
    }
}

/// Mode 2 begins with r and q 0 too, or the test fails in mode 2.
fn mode_2_or_fail(standing: Standing) -> (Standing, Next) {
    match standing.mode {
        1 => (
            Standing {
                mode: 2,
                r: 0,
                q: 0,
            },
            Next::Mode2,
        ),
        _ => (standing, Next::Ends(Word::Fail)),
    }
}

pub fn after_void(standing: Standing, void: u8) -> (Standing, Next) {
    let r = standing.r + 1;
    let q = if void == 9 { standing.q + 1 } else { 0 };
    let voided = Standing {
        mode: standing.mode,
        r,
        q,
    };
    if q == 2 {
        mode_2_or_fail(voided)
    } else if r == 3 {
        (voided, Next::Ends(Word::Incomplete))
    } else {
        (voided, Next::Rests)
    }
}

/// Step 1: how many seconds the rest takes, or None if it is not over.
pub fn rest_length(seconds: &[Second]) -> Option<usize> {
    let mut rest = 0;
    for (i, second) in seconds.iter().enumerate() {
        rest = if second.speed < 10 { rest + 1 } else { 0 };
        if rest == 10 {
            return Some(i + 1);
        }
    }
    None
}

/// A whole test judged. No word: it is open.
pub struct Judged {
    pub word: Option<Word>,
    pub mode: u8,
    pub t: usize,
    pub passing: usize,
    pub failing: usize,
    pub invalid: usize,
    pub window: Option<Averages>,
    pub window_end: Option<usize>, // the second that ends it
    pub engine: Option<u128>,
    pub voids: Vec<u8>, // of all its attempts, in order
    pub seconds_used: usize,
    pub stops_used: usize,
}

impl fmt::Display for Judged {
    fn fmt(&self, f: &mut fmt::Formatter) -> fmt::Result {
        let word = self.word.map_or("open", Word::text);
        write!(
            f,
            "{} {} {} {} {} {} ",
            word, self.mode, self.t, self.passing, self.failing, self.invalid
        )?;
        match &self.window {
            Some(a) => write!(f, "{} {} {}", a.hc, a.co, a.no)?,
            None => write!(f, "- - -")?,
        }
        write!(f, " {}", engine_text(self.engine))
    }
}

pub fn judge_test(car: &Vehicle, seconds: &[Second], stops: &[Stop]) -> Judged {
    let mut standing = FRESH;
    let mut voids = Vec::new();
    let (mut from, mut past_stops) = (0, 0);
    loop {
        let attempt = judge_attempt(car, standing.mode, seconds, &stops[past_stops..], from);
        from = attempt.seconds_used;
        past_stops += attempt.stops_used;
        let Some(end) = attempt.end else {
            return judged(None, standing.mode, Some(&attempt), voids, from, past_stops);
        };
        if let End::Void(void) = end {
            voids.push(void);
        }
        let (next_standing, next) = after_end(standing, end);
        standing = next_standing;
        match next {
            Next::Ends(word) => {
                return judged(
                    Some(word),
                    standing.mode,
                    Some(&attempt),
                    voids,
                    from,
                    past_stops,
                )
            }
            Next::Rests => match rest_length(&seconds[from..]) {
                // Stops of the rest lie before the next attempt's first counted second.
                Some(length) => from += length,
                None => return judged(None, standing.mode, None, voids, seconds.len(), past_stops),
            },
            _ => {} // mode 2 begins with the next second
        }
    }
}

/// The outcome, with the counts of the attempt in which it fell (none in rest).
fn judged(
    word: Option<Word>,
    mode: u8,
    attempt: Option<&Attempt>,
    voids: Vec<u8>,
    seconds_used: usize,
    stops_used: usize,
) -> Judged {
    Judged {
        word,
        mode,
        t: attempt.map_or(0, |a| a.t),
        passing: attempt.map_or(0, |a| a.passing),
        failing: attempt.map_or(0, |a| a.failing),
        invalid: attempt.map_or(0, |a| a.invalid),
        window: attempt.and_then(|a| a.window),
        window_end: attempt.and_then(|a| a.window_end),
        engine: attempt.and_then(|a| a.engine),
        voids,
        seconds_used,
        stops_used,
    }
}
