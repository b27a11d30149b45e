//! The bench: the plain history of accepted events, and the locks read from it.

use crate::coast_down::Run;
use crate::numbers::{judge_readings, refusal, second_of, Refusal};
use crate::prepare::Prepare;
use crate::record::cause_fits;
use crate::running::{Running, Step, Verdict};
use crate::vehicle::Vehicle;

#[derive(Clone, Copy, PartialEq, Eq, Debug)]
pub enum Event {
    PowerOn,
    ClockSetting(u32),
    WarmUp,
    Calibration(bool),
    Try(Option<u32>), // good with its expiry, or wrong
    AuthorityLock,
    AuthorityUnlock,
    Upload,
    Start([u16; 7], u16),
    Second([u32; 8]),
    Stop(u8),
    Run(Run),
    Prepare(Prepare),
}

/// What the history keeps of an accepted event: what the locks read.
#[derive(Clone, Copy, PartialEq, Eq, Debug)]
pub enum Kept {
    PowerOn,
    ClockSetting,
    WarmUp,
    Calibration(bool),
    Try(Option<u32>),
    AuthorityLock,
    AuthorityUnlock,
    Upload,
    Start,
    Second,
    Stop,
    Run(Run),
    Prepare(Prepare),
}

impl Event {
    pub fn kept(&self) -> Kept {
        match *self {
            Event::PowerOn => Kept::PowerOn,
            Event::ClockSetting(_) => Kept::ClockSetting,
            Event::WarmUp => Kept::WarmUp,
            Event::Calibration(passed) => Kept::Calibration(passed),
            Event::Try(outcome) => Kept::Try(outcome),
            Event::AuthorityLock => Kept::AuthorityLock,
            Event::AuthorityUnlock => Kept::AuthorityUnlock,
            Event::Upload => Kept::Upload,
            Event::Start(..) => Kept::Start,
            Event::Second(_) => Kept::Second,
            Event::Stop(_) => Kept::Stop,
            Event::Run(run) => Kept::Run(run),
            Event::Prepare(prepare) => Kept::Prepare(prepare),
        }
    }
}

/// An accepted event with its clock and its verdict, if it brought one.
#[derive(Clone, Copy, Debug)]
pub struct Accepted {
    pub clock: u32,
    pub kept: Kept,
    pub verdict: Option<Verdict>,
}

/// V, U, the accepted events, the last clock and a test or none.
pub struct Bench {
    pub v: u32,
    pub u: u16,
    pub accepted: Vec<Accepted>,
    pub last: u32,
    pub test: Option<Running>,
}

pub type Answer = Result<Option<Verdict>, Refusal>;

impl Bench {
    pub fn new(v: u32, u: u16) -> Result<Bench, Refusal> {
        if !(1..=2_592_000).contains(&v) || !(1..=255).contains(&u) {
            return Err(refusal(15, 0));
        }
        Ok(Bench {
            v,
            u,
            accepted: Vec::new(),
            last: 0,
            test: None,
        })
    }

    /// Judges one event; an accepted one is added.
    pub fn take(&mut self, clock: u32, event: &Event) -> Answer {
        if clock < self.last {
            return Err(refusal(11, self.last as usize));
        }
        self.check_running(event)?;
        let verdict = self.apply(clock, event)?;
        self.accepted.push(Accepted {
            clock,
            kept: event.kept(),
            verdict,
        });
        self.last = match event {
            Event::ClockSetting(new) => *new,
            _ => clock,
        };
        Ok(verdict)
    }

    /// Refusals 12 and 13.
    pub fn check_running(&self, event: &Event) -> Result<(), Refusal> {
        match (event, self.test.is_some()) {
            (Event::Second(_) | Event::Stop(_), false) => Err(refusal(13, 0)),
            (Event::Second(_) | Event::Stop(_) | Event::PowerOn, _) => Ok(()),
            (_, true) => Err(refusal(12, 0)),
            (_, false) => Ok(()),
        }
    }

    /// Refusals 4, 5, 15, 8, 16, 17, 18, then 14; what an accepted event does to the test.
    pub fn apply(&mut self, clock: u32, event: &Event) -> Answer {
        match event {
            Event::Start(settings, p) => {
                let car = Vehicle::from_start(settings, *p)?;
                if let Some(lock) = self.lock(clock) {
                    return Err(refusal(14, lock));
                }
                self.test = Some(Running::new(car));
            }
            Event::Second(_) | Event::Stop(_) => return self.step(event),
            Event::PowerOn => self.test = None,
            Event::Run(run) => run.check()?,
            Event::Prepare(prepare) => prepare.check()?,
            _ => {}
        }
        Ok(None)
    }

    pub fn step(&mut self, event: &Event) -> Answer {
        let Some(test) = self.test.as_mut() else {
            return Err(refusal(13, 0));
        };
        let verdict = step_of(test, event)?.verdict();
        if verdict.is_some() {
            self.test = None;
        }
        Ok(verdict)
    }

    /// The first standing lock of a start at `now`.
    pub fn lock(&self, now: u32) -> Option<usize> {
        let all = &self.accepted[..];
        let powered = since_power(all);
        let unlocked = after_last(all, |k| *k == Kept::AuthorityUnlock);
        let unsent = after_last(all, |k| *k == Kept::Upload);
        let standing = [
            !holds(powered, Kept::WarmUp),
            too_long_idle(powered, now),
            calibration_lacks(powered, now, self.v)
                || run_lacks(powered, true)
                || run_lacks(powered, false),
            sign_in_lacks(powered, now),
            wrong_row(unlocked) >= 4,
            holds(unlocked, Kept::AuthorityLock),
            verdicts(unsent) == self.u as usize,
            prepare_lacks(all, now),
        ];
        standing.iter().position(|stands| *stands).map(|i| i + 1)
    }
}

/// A second or stop on a running test: refusals 15 and 8, then the steps.
pub fn step_of(test: &mut Running, event: &Event) -> Result<Step, Refusal> {
    match event {
        Event::Stop(cause) if !cause_fits(*cause) => Err(refusal(15, 0)),
        Event::Stop(cause) => Ok(test.stop(*cause)),
        Event::Second(bits) => match judge_readings(test.car.automatic, bits) {
            Ok(readings) => Ok(test.second(second_of(&readings))),
            Err(code) => Err(refusal(8, code as usize)),
        },
        _ => Err(refusal(13, 0)),
    }
}

/// The accepted events after the last one of a kind.
pub fn after_last(list: &[Accepted], is: impl Fn(&Kept) -> bool) -> &[Accepted] {
    let from = list.iter().rposition(|a| is(&a.kept)).map_or(0, |i| i + 1);
    &list[from..]
}

/// The accepted events since the latest power-on or clock setting.
pub fn since_power(list: &[Accepted]) -> &[Accepted] {
    after_last(list, |k| matches!(k, Kept::PowerOn | Kept::ClockSetting))
}

pub fn holds(list: &[Accepted], kept: Kept) -> bool {
    list.iter().rev().any(|a| a.kept == kept)
}

/// Lock 2: over 1,800 s since the latest warm-up or second.
fn too_long_idle(powered: &[Accepted], now: u32) -> bool {
    let latest = powered
        .iter()
        .rev()
        .find(|a| matches!(a.kept, Kept::WarmUp | Kept::Second));
    latest.is_some_and(|a| now - a.clock > 1800)
}

/// Lock 3: no calibration, latest not passed, or older than V.
pub fn calibration_lacks(powered: &[Accepted], now: u32, v: u32) -> bool {
    match powered
        .iter()
        .rev()
        .find(|a| matches!(a.kept, Kept::Calibration(_)))
    {
        Some(a) => a.kept == Kept::Calibration(false) || now - a.clock > v,
        None => true,
    }
}

/// Lock 3: no run of this speed, or the latest not passed.
pub fn run_lacks(powered: &[Accepted], faster: bool) -> bool {
    !latest_run(powered, faster).is_some_and(|(_, run)| run.passes())
}

/// The latest run of a speed, and its place in the list.
pub fn latest_run(list: &[Accepted], faster: bool) -> Option<(usize, Run)> {
    let mut last_first = list.iter().enumerate().rev();
    last_first.find_map(|(i, a)| match a.kept {
        Kept::Run(run) if run.faster == faster => Some((i, run)),
        _ => None,
    })
}

/// Lock 4: no try, latest not good, or its expiry before now.
fn sign_in_lacks(powered: &[Accepted], now: u32) -> bool {
    match powered
        .iter()
        .rev()
        .find(|a| matches!(a.kept, Kept::Try(_)))
        .map(|a| a.kept)
    {
        Some(Kept::Try(Some(expiry))) => expiry < now,
        _ => true,
    }
}

/// Lock 5: the longest row of wrong tries; only a good try ends a row here.
pub fn wrong_row(unlocked: &[Accepted]) -> usize {
    let (mut row, mut longest) = (0, 0);
    for a in unlocked {
        match a.kept {
            Kept::Try(None) => row += 1,
            Kept::Try(Some(_)) => row = 0,
            _ => {}
        }
        longest = longest.max(row);
    }
    longest
}

/// Lock 7.
fn verdicts(unsent: &[Accepted]) -> usize {
    unsent.iter().filter(|a| a.verdict.is_some()).count()
}

/// What leaves no prepare in force: power-on and clock setting void it, a start uses it up.
pub fn takes_prepare(kept: &Kept) -> bool {
    matches!(kept, Kept::PowerOn | Kept::ClockSetting | Kept::Start)
}

/// Lock 8: no prepare in force, the latest does not stand, or is over 120 s old.
pub fn prepare_lacks(all: &[Accepted], now: u32) -> bool {
    let in_force = after_last(all, takes_prepare);
    match latest_prepare(in_force) {
        Some((i, prepare)) => !prepare.stands() || now - in_force[i].clock > 120,
        None => true,
    }
}

/// The latest prepare, and its place in the list.
pub fn latest_prepare(list: &[Accepted]) -> Option<(usize, Prepare)> {
    let mut last_first = list.iter().enumerate().rev();
    last_first.find_map(|(i, a)| match a.kept {
        Kept::Prepare(prepare) => Some((i, prepare)),
        _ => None,
    })
}
