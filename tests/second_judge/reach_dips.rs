//! Reach: dips, seconds of a run that are below its second 1.

use crate::attempt::Did;
use crate::reach::names;
use crate::running::Step;
use crate::test::{Next, Word};

/// Where a dip lies in its attempt: in the first run, in a run that a restart ended, or in a run
/// after a restart.
#[derive(Clone, Copy, PartialEq)]
enum Place {
    First,
    Before,
    After,
}

/// A dip of 8 or 9 at one of seconds 2 to 10, the only one of them 8 or more below second 1.
#[derive(Clone, Copy)]
struct Dip {
    second: usize,
    depth: i64,
    place: Place,
    mode: u8,
}

impl Dip {
    /// The dip with what shows it: its run passes at t = 25 or is held back there, or a run after
    /// it passes at t = 25.
    fn name(&self) -> String {
        let place = match self.place {
            Place::First => "without a restart",
            Place::Before => "before a restart",
            Place::After => "after a restart",
        };
        let outcome = match (self.place, self.depth) {
            (Place::Before, _) => "forgotten",
            (_, 9) => "held back",
            _ => "pass",
        };
        let Dip { second, depth, .. } = self;
        let what = format!("dip of {depth} at second {second} {place}: {outcome}");
        in_mode(&what, self.mode)
    }

    /// In mode 2 a pass takes a test of its own, which only some dips have.
    fn in_tests(&self) -> bool {
        match (self.mode, self.place, self.depth) {
            (1, ..) | (_, Place::Before, _) | (_, Place::After, 9) => true,
            (_, Place::After, _) => self.second >= 8,
            _ => self.second == 6,
        }
    }

    /// One of each is enough on a bench.
    fn in_events(&self) -> bool {
        self.mode == 1 && self.place == Place::First && self.second == 6
    }
}

const RISING: &str = "pass with second 10 more than 8 above second 1";

const ELEVENTH: &str = "dip of 9 at second 11: pass";

const CUT_SHORT: &str = "dip of 9 or more in a run of fewer than ten seconds: forgotten";

const SLOW_FALL: &str = "fall of 1 a second to 9 below: held back";

const LATE: &str = "held back: pass at t = 90";

const OLD_HIGHER: &str = "9 or more below second 1 of a run before a restart: pass";

const OLD_LOWER: &str = "at most 8 below second 1 of each run before a restart: held back";

fn in_mode(what: &str, mode: u8) -> String {
    format!("{what} in mode {mode}")
}

/// The names of the dips that are wanted.
fn dip_names(wanted: fn(&Dip) -> bool) -> Vec<String> {
    let places = [Place::First, Place::Before, Place::After];
    let mut dips = Vec::new();
    for (mode, place) in [1, 2].iter().flat_map(|mode| places.map(|p| (*mode, p))) {
        for second in 2..=10 {
            dips.extend([8, 9].map(|depth| Dip {
                second,
                depth,
                place,
                mode,
            }));
        }
    }
    let wanted = dips.iter().filter(|dip| wanted(dip));
    wanted.map(Dip::name).collect()
}

/// What else is told of dips, in both modes.
fn other_names() -> Vec<String> {
    let others = [ELEVENTH, CUT_SHORT, SLOW_FALL, LATE, OLD_HIGHER, OLD_LOWER];
    others
        .iter()
        .flat_map(|what| names(&format!("{what} in mode "), 1..=2))
        .collect()
}

/// Required of records: every dip.
pub fn dips_in_records() -> Vec<String> {
    let mut required = dip_names(|_| true);
    required.extend(other_names());
    required.push(in_mode(RISING, 1));
    required
}

/// Required of tests.
pub fn dips_in_tests() -> Vec<String> {
    let mut required = dip_names(Dip::in_tests);
    required.extend(other_names());
    required.extend([1, 2].map(|mode| in_mode(RISING, mode)));
    required
}

/// Required of lists of events.
pub fn dips_in_events() -> Vec<String> {
    let mut required = dip_names(Dip::in_events);
    required.push(in_mode(LATE, 1));
    required
}

/// The speeds of the measured seconds of this run, and of the attempt's runs before it, as the
/// steps go by.
#[derive(Default)]
pub struct Runs {
    ended: Vec<Vec<i64>>, // each by a restart
    run: Vec<i64>,
    held: bool, // this one went on at t = 25 with 15 passing windows
}

impl Runs {
    /// Takes a step; names what it shows of dips.
    pub fn step(&mut self, speed: Option<i64>, step: &Step) -> Vec<String> {
        self.gather(speed, step);
        let (t, mode) = (step.state.t, step.state.standing.mode);
        match step.next {
            Next::GoesOn if t == 25 && step.state.passing >= 15 => {
                self.held = true;
                self.held_back(mode)
            }
            Next::Ends(Word::Pass) if t == 90 && self.held => vec![in_mode(LATE, mode)],
            Next::Ends(Word::Pass) => self.passed(t, mode),
            _ => Vec::new(),
        }
    }

    /// A restart begins another run of the attempt, all else at t = 0 another attempt.
    fn gather(&mut self, speed: Option<i64>, step: &Step) {
        if step.state.t > self.run.len() {
            self.run.extend(speed);
        }
        if step.state.t == 0 {
            let run = std::mem::take(&mut self.run);
            match (step.did, step.next) {
                (Did::Restarted, Next::GoesOn) => self.ended.push(run),
                _ => self.ended.clear(),
            }
            self.held = false;
        }
    }

    /// The dip of this run, where it has one.
    fn dip(&self, mode: u8) -> Option<Dip> {
        let place = match self.ended.is_empty() {
            true => Place::First,
            false => Place::After,
        };
        dip_of(&self.run, place, mode)
    }

    /// The ten speeds lie 9 or more below second 1 of a run before this one, as they would if a
    /// restart kept it.
    fn below_an_old_one(&self) -> bool {
        let lowest = self.run.iter().take(10).min();
        let old = self.ended.iter().filter_map(|run| run.first()).max();
        lowest
            .zip(old)
            .is_some_and(|(lowest, old)| *lowest < old - 8)
    }

    /// On the second at t = 25 that does not pass.
    fn held_back(&self, mode: u8) -> Vec<String> {
        let others = [
            (SLOW_FALL, falls_slowly(&self.run[..10])),
            (
                OLD_LOWER,
                !self.ended.is_empty() && !self.below_an_old_one(),
            ),
        ];
        let dip = self.dip(mode).filter(|dip| dip.depth == 9);
        dip.iter()
            .map(Dip::name)
            .chain(reached(&others, mode))
            .collect()
    }

    /// On the second that passes, at t = 25 or later.
    fn passed(&self, t: usize, mode: u8) -> Vec<String> {
        let (first, early) = (self.run[0], t == 25);
        let others = [
            (RISING, t < 90 && self.run[9] > first + 8),
            (ELEVENTH, early && self.run[10] == first - 9),
            (OLD_HIGHER, early && self.below_an_old_one()),
        ];
        let mut shown = reached(&others, mode);
        if early {
            let dip = self.dip(mode).filter(|dip| dip.depth == 8);
            shown.extend(dip.iter().map(Dip::name));
            shown.extend(self.forgotten(mode));
        }
        shown
    }

    /// The dips of the runs before this one.
    fn forgotten(&self, mode: u8) -> Vec<String> {
        let mut shown = Vec::new();
        for run in &self.ended {
            let dip = dip_of(run, Place::Before, mode);
            shown.extend(dip.iter().map(Dip::name));
            if run.len() < 10 && run.iter().any(|speed| *speed < run[0] - 8) {
                shown.push(in_mode(CUT_SHORT, mode));
            }
        }
        shown
    }
}

/// The names that hold.
fn reached(names: &[(&str, bool)], mode: u8) -> Vec<String> {
    let held = names.iter().filter(|(_, reached)| *reached);
    held.map(|(what, _)| in_mode(what, mode)).collect()
}

/// The one dip in seconds 2 to 10 of a run.
fn dip_of(run: &[i64], place: Place, mode: u8) -> Option<Dip> {
    let drops = run.iter().take(10).map(|speed| run[0] - speed);
    let mut deep = (1..).zip(drops).filter(|(_, drop)| *drop >= 8);
    match (deep.next(), deep.next()) {
        (Some((second, depth @ (8 | 9))), None) => Some(Dip {
            second,
            depth,
            place,
            mode,
        }),
        _ => None,
    }
}

/// Never more than 1 below the second before, and 9 below at the end.
fn falls_slowly(ten: &[i64]) -> bool {
    ten.windows(2).all(|two| two[0] - two[1] <= 1) && ten[0] - ten[9] == 9
}
