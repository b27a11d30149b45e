//! One attempt, from its list of seconds.

use crate::numbers::Second;
use crate::vehicle::Vehicle;
use crate::window::{
    averages, engine_mean, measured_of, window_passes, window_sums, window_valid, Averages,
    Measured,
};

/// A stop: how many seconds are already past, and the cause.
#[derive(Clone, Copy, PartialEq, Eq, Debug)]
pub struct Stop {
    pub past: usize,
    pub cause: u8,
}

/// How an attempt ends.
#[derive(Clone, Copy, PartialEq, Eq, Debug)]
pub enum End {
    Void(u8),
    Pass,
    Failing, // failing ≥ 25 at t = 90
}

/// What the last second of the list did.
#[derive(Clone, Copy, PartialEq, Eq, Debug)]
pub enum Did {
    Nothing,
    Began,
    Measured,
    Restarted,
    Void(u8),
}

#[derive(Clone, Copy, PartialEq, Eq, Debug)]
pub enum Stage {
    Settling,
    Measuring,
    Rest,
    Ended,
}

/// An attempt as its list of seconds leaves it.
#[derive(Clone, Debug)]
pub struct Attempt {
    pub stage: Stage,
    pub c: usize,
    pub n: usize,
    pub g: usize,
    pub u: usize,
    pub w: usize,
    pub t: usize,
    pub passing: usize,
    pub failing: usize,
    pub invalid: usize,
    pub window: Option<Averages>,  // of the last valid window
    pub window_end: Option<usize>, // of the list, the second that ends that window
    pub engine: Option<u128>,      // the mean of that window, none with a speed missing
    pub did: Did,
    pub end: Option<End>,
    pub seconds_used: usize, // first second of the list not yet looked at
    pub stops_used: usize,
}

impl Attempt {
    /// A.8: from t = 9 on the three counts are t − 9 together, before it they are 0.
    fn accounted(&self) -> bool {
        self.passing + self.failing + self.invalid == self.t.saturating_sub(9)
    }
}

/// Judges the attempt that begins at second `from`. `stops` are those not yet
/// dealt with; a stop with k seconds past comes before second k + 1.
pub fn judge_attempt(
    car: &Vehicle,
    mode: u8,
    seconds: &[Second],
    stops: &[Stop],
    from: usize,
) -> Attempt {
    // Step 2: up to the first speed above 10, c = 0 and nothing changes. Stops
    // before the first counted second fell in the rest or at c = 0.
    let first = from + seconds[from..].iter().take_while(|s| s.speed <= 10).count();
    let idle_stops = stops.iter().take_while(|s| s.past <= first).count();
    let stop = stops.get(idle_stops).map(|s| Stop {
        past: s.past - first,
        cause: s.cause,
    });

    let (counted, cut) = cut_attempt(&seconds[first..], stop);
    let mut attempt = settle_and_measure(car, mode, counted);
    if attempt.end.is_none() {
        if let Some(cut) = cut {
            attempt.end = Some(End::Void(cut.void));
            attempt.did = Did::Void(cut.void);
            attempt.c += cut.seconds;
            attempt.seconds_used += cut.seconds;
            attempt.stops_used += cut.stops;
        }
    }
    attempt.window_end = attempt.window_end.map(|end| first + end);
    attempt.seconds_used += first;
    attempt.stops_used += idle_stops;
    assert!(attempt.accounted(), "a window is not accounted for");
    attempt
}

/// The void that ends the counted seconds if step 4 does not end them first,
/// and what it takes from the lists beside them.
struct Cut {
    void: u8,
    seconds: usize,
    stops: usize,
}

/// The counted seconds that reach step 4: up to the stop, the first second
/// voided by step 3, or c = 145.
fn cut_attempt(seconds: &[Second], stop: Option<Stop>) -> (&[Second], Option<Cut>) {
    let mut length = seconds.len().min(145);
    let mut cut = None;
    if length == 145 {
        cut = Some(Cut {
            void: 8,
            seconds: 0,
            stops: 0,
        });
    }
    if let Some(stop) = stop {
        // At c = 145 the second's own void comes before the stop.
        if stop.past < length || (stop.past == length && cut.is_none()) {
            length = stop.past;
            cut = Some(Cut {
                void: stop.cause,
                seconds: 0,
                stops: 1,
            });
        }
    }
    if let Some(i) = seconds[..length].iter().position(|s| gas_void(s).is_some()) {
        length = i;
        cut = gas_void(&seconds[i]).map(|void| Cut {
            void,
            seconds: 1,
            stops: 0,
        });
    }
    (&seconds[..length], cut)
}

/// Step 3.
fn gas_void(second: &Second) -> Option<u8> {
    match &second.gases {
        None => Some(6),
        Some(gases) if gases.sum() < 600 => Some(5),
        Some(_) => None,
    }
}

/// Step 4 over the counted seconds of one attempt.
fn settle_and_measure(car: &Vehicle, mode: u8, counted: &[Second]) -> Attempt {
    let g = ready_rows(car, mode, counted);
    let off = |s: &Second| car.off_target(mode, s.speed);
    let settled = if mode == 1 {
        let out: Vec<bool> = counted.iter().map(|s| off(s) > 50).collect();
        settle_mode_1(&out, &g)
    } else {
        let near: Vec<bool> = counted.iter().map(|s| off(s) <= 15).collect();
        settle_mode_2(&near, &g)
    };
    let mut attempt = Attempt {
        stage: Stage::Settling,
        c: counted.len(),
        n: 0,
        g: 0,
        u: 0,
        w: 0,
        t: 0,
        passing: 0,
        failing: 0,
        invalid: 0,
        window: None,
        window_end: None,
        engine: None,
        did: Did::Nothing,
        end: None,
        seconds_used: counted.len(),
        stops_used: 0,
    };
    match settled {
        Settled::Open { n, u, w } => {
            attempt.n = n;
            attempt.u = u;
            attempt.w = w;
            attempt.g = g.last().copied().unwrap_or(0);
        }
        Settled::Void { at, n, u, w } => {
            attempt.end = Some(End::Void(7));
            attempt.did = Did::Void(7);
            attempt.n = n;
            attempt.u = u;
            attempt.w = w;
            attempt.g = g[at];
            attempt.seconds_used = at + 1;
        }
        Settled::Begins { at } => measure(car, mode, counted, at + 1, &mut attempt),
    }
    attempt.c = attempt.seconds_used;
    attempt
}

/// g after each second: ready seconds in a row.
fn ready_rows(car: &Vehicle, mode: u8, counted: &[Second]) -> Vec<usize> {
    let mut g = 0;
    let mut rows = Vec::with_capacity(counted.len());
    for second in counted {
        g = if ready(car, mode, second) { g + 1 } else { 0 };
        rows.push(g);
    }
    rows
}

fn ready(car: &Vehicle, mode: u8, second: &Second) -> bool {
    car.off_target(mode, second.speed) <= 15
        && car.load_in_tolerance(mode, second.load)
        && car.engine_good(second.engine)
        && second.gases.is_some_and(|gases| gases.sum() > 600)
}

/// The first index at which `row` outs in a row or `all` outs in all are reached.
fn first_excess(out: &[bool], row: usize, all: usize) -> Option<usize> {
    let (mut u, mut w) = (0, 0);
    out.iter().position(|&o| {
        u = if o { u + 1 } else { 0 };
        w += o as usize;
        u == row || w == all
    })
}

/// u and w at the end of a list.
fn outs(out: &[bool]) -> (usize, usize) {
    let u = out.iter().rev().take_while(|&&o| o).count();
    let w = out.iter().filter(|&&o| o).count();
    (u, w)
}

/// How settling stands; `at` is the second that decides.
enum Settled {
    Open {
        n: usize,
        u: usize,
        w: usize,
    },
    Begins {
        at: usize,
    },
    Void {
        at: usize,
        n: usize,
        u: usize,
        w: usize,
    },
}

fn settle_mode_1(out: &[bool], g: &[usize]) -> Settled {
    let mut from = 0;
    loop {
        // n is 1 on the first second that is not out.
        let Some(skipped) = out[from..].iter().position(|&o| !o) else {
            return Settled::Open { n: 0, u: 0, w: 0 };
        };
        let start = from + skipped;
        let tried = &out[start..out.len().min(start + 25)]; // n = 1 to 25
        let early = &tried[..tried.len().min(20)]; // n = 1 to 20
        let reset = first_excess(early, 2, 5);
        let begins =
            (0..tried.len()).find(|&i| g[start + i] >= 11 || (i == 24 && g[start + i] >= 5));
        // A second that resets is out, so it is never one that begins.
        match (reset, begins) {
            (Some(r), None) => from = start + r + 1,
            (Some(r), Some(b)) if r < b => from = start + r + 1,
            (_, Some(b)) => return Settled::Begins { at: start + b },
            (None, None) => {
                let (n, (u, w)) = (tried.len(), outs(early));
                return match n {
                    25 => Settled::Void {
                        at: start + 24,
                        n,
                        u,
                        w,
                    },
                    _ => Settled::Open { n, u, w },
                };
            }
        }
    }
}

fn settle_mode_2(near: &[bool], g: &[usize]) -> Settled {
    // n is 1 on the first second within 15 of target.
    let Some(start) = near.iter().position(|&near| near) else {
        return Settled::Open { n: 0, u: 0, w: 0 };
    };
    let n = near.len().min(start + 15) - start;
    match (0..n).find(|&i| g[start + i] >= 5) {
        Some(i) => Settled::Begins { at: start + i },
        None if n == 15 => Settled::Void {
            at: start + 14,
            n,
            u: 0,
            w: 0,
        },
        None => Settled::Open { n, u: 0, w: 0 },
    }
}

/// Measuring, from counted second `begin` on: cut at the restarts, each piece
/// judged by itself.
fn measure(car: &Vehicle, mode: u8, counted: &[Second], begin: usize, attempt: &mut Attempt) {
    let list: Vec<Measured> = counted[begin..]
        .iter()
        .filter_map(|s| {
            s.gases
                .as_ref()
                .map(|gases| measured_of(car, mode, s, gases))
        })
        .collect();
    let out: Vec<bool> = list.iter().map(|s| s.out).collect();
    attempt.stage = Stage::Measuring;
    attempt.did = if list.is_empty() {
        Did::Began
    } else {
        Did::Measured
    };

    let mut start = 0;
    loop {
        let restart = first_excess(&out[start..], 3, 6);
        // On the second that restarts no window and no end is looked for.
        let stop = restart.map_or(list.len(), |i| start + i);
        let run = judge_run(car, &list[start..stop]);
        if run.end.is_some() || restart.is_none() {
            keep_run(&run, &list[start..start + run.t], attempt, car);
            attempt.window_end = run.last_valid.map(|i| begin + start + i);
            (attempt.u, attempt.w) = outs(&out[start..start + run.t]);
            attempt.seconds_used = begin + start + run.t;
            break;
        }
        start = stop + 1;
        if start == list.len() {
            attempt.did = Did::Restarted;
        }
    }
}

/// One run of measured seconds without a restart.
struct Run {
    t: usize,
    passing: usize,
    failing: usize,
    invalid: usize,
    last_valid: Option<usize>, // index of the second that ends it
    end: Option<End>,
}

fn judge_run(car: &Vehicle, run: &[Measured]) -> Run {
    let limits = car.limits();
    let mut judged = Run {
        t: run.len(),
        passing: 0,
        failing: 0,
        invalid: 0,
        last_valid: None,
        end: None,
    };
    for i in 9..run.len() {
        let window = &run[i - 9..=i];
        if window_valid(window) {
            judged.last_valid = Some(i);
            if window_passes(&limits, &window_sums(car, window)) {
                judged.passing += 1;
            } else {
                judged.failing += 1;
            }
        } else {
            judged.invalid += 1;
        }
        judged.end = ending(&run[..=i], judged.passing, judged.failing);
        if judged.end.is_some() {
            judged.t = i + 1;
            return judged;
        }
    }
    judged
}

/// The last paragraph of step 4, on the t seconds of this run (t ≥ 10).
fn ending(run: &[Measured], passing: usize, failing: usize) -> Option<End> {
    let t = run.len();
    let steady = run[..10].iter().all(|s| s.speed >= run[0].speed - 8);
    if t >= 25 && passing >= 15 && steady {
        return Some(End::Pass);
    }
    match t {
        90 if passing >= 15 => Some(End::Pass),
        90 if failing >= 25 => Some(End::Failing),
        90 => Some(End::Void(9)),
        _ => None,
    }
}

/// Takes the counts of a run, its last valid window and its end into the attempt.
fn keep_run(run: &Run, list: &[Measured], attempt: &mut Attempt, car: &Vehicle) {
    attempt.t = run.t;
    attempt.passing = run.passing;
    attempt.failing = run.failing;
    attempt.invalid = run.invalid;
    let window = run.last_valid.map(|i| &list[i - 9..=i]);
    attempt.window = window.map(|window| averages(&window_sums(car, window)));
    attempt.engine = window.and_then(engine_mean);
    attempt.end = run.end;
    match run.end {
        Some(End::Void(void)) => attempt.did = Did::Void(void),
        Some(_) => attempt.did = Did::Measured,
        None => {}
    }
}
