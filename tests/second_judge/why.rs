//! Which event left a lock standing: a line for each locked start of a journal.
//!
//! No other judging room uses this one.

use crate::bench::{
    after_last, calibration_lacks, run_lacks, since_power, wrong_row, Accepted, Bench, Event, Kept,
};
use crate::journaling::{read_journal, Journal};
use crate::numbers::Refusal;
use std::fmt;

/// By number, from 1.
const LOCK_NAMES: [&str; 8] = [
    "not warm",
    "inactive",
    "not calibrated",
    "not signed in",
    "password lock",
    "authority lock",
    "unsent verdicts",
    "not prepared",
];

/// A locked start and the event that left its lock standing. Events are numbered from 1 through the
/// whole journal; each has its own clock.
pub struct Why {
    pub start: usize,
    pub clock: u32,
    pub lock: usize,
    pub by: Option<(usize, u32, Kept)>,
}

impl fmt::Display for Why {
    fn fmt(&self, f: &mut fmt::Formatter) -> fmt::Result {
        let name = LOCK_NAMES[self.lock - 1];
        write!(f, "start {} at {}: {name}: ", self.start, self.clock)?;
        match &self.by {
            Some((event, clock, kept)) => {
                write!(f, "event {event} at {clock}, {}", kind_name(kept))
            }
            None => write!(f, "none since the beginning"),
        }
    }
}

pub fn kind_name(kept: &Kept) -> &'static str {
    match kept {
        Kept::PowerOn => "power-on",
        Kept::ClockSetting => "clock setting",
        Kept::WarmUp => "warm-up finished",
        Kept::Calibration(_) => "calibration",
        Kept::Try(_) => "try",
        Kept::AuthorityLock => "authority lock",
        Kept::AuthorityUnlock => "authority unlock",
        Kept::Upload => "upload",
        Kept::Start => "start",
        Kept::Second => "second",
        Kept::Stop => "stop",
        Kept::Run(_) => "coast-down run",
        Kept::Prepare(_) => "prepare",
    }
}

/// A line for each locked start, or the refusal of an unfit journal.
pub fn why_lines(bytes: &[u8]) -> Vec<String> {
    match read_journal(bytes).and_then(|journal| whys(&journal)) {
        Ok(whys) => whys.iter().map(Why::to_string).collect(),
        Err(refusal) => vec![refusal.to_string()],
    }
}

fn whys(journal: &Journal) -> Result<Vec<Why>, Refusal> {
    let mut bench = Bench::new(journal.v, journal.u)?;
    let mut numbers = Vec::new(); // of the accepted events
    let mut whys = Vec::new();
    for (i, (clock, event)) in journal.events.iter().enumerate() {
        match bench.take(*clock, event) {
            Ok(_) => numbers.push(i + 1),
            Err(refusal) if refusal.number == 14 && matches!(event, Event::Start(..)) => {
                let lock = refusal.place as usize;
                let by = left_standing(&bench, lock, *clock);
                whys.push(Why {
                    start: i + 1,
                    clock: *clock,
                    lock,
                    by: by.map(|at| {
                        (
                            numbers[at],
                            bench.accepted[at].clock,
                            bench.accepted[at].kept,
                        )
                    }),
                });
            }
            Err(_) => {}
        }
    }
    Ok(whys)
}

/// The place among the accepted events of the one that left a lock standing at `now`.
pub fn left_standing(bench: &Bench, lock: usize, now: u32) -> Option<usize> {
    let all = &bench.accepted[..];
    match lock {
        1 => newest(all, voids),
        2 => newest(all, |k| matches!(k, Kept::WarmUp | Kept::Second)),
        3 => newest_of_part(all, wanting(bench, now)),
        4 => newest(all, |k| voids(k) || matches!(k, Kept::Try(_))),
        5 => fourth_wrong_try(all),
        6 => newest(all, |k| *k == Kept::AuthorityLock),
        7 => all.iter().rposition(|a| a.verdict.is_some()),
        _ => newest(all, |k| {
            voids(k) || matches!(k, Kept::Prepare(_) | Kept::Start)
        }),
    }
}

fn newest(list: &[Accepted], is: impl Fn(&Kept) -> bool) -> Option<usize> {
    list.iter().rposition(|a| is(&a.kept))
}

/// Power-on and clock setting void what came before them.
fn voids(kept: &Kept) -> bool {
    matches!(kept, Kept::PowerOn | Kept::ClockSetting)
}

/// The three parts of lock 3.
#[derive(Clone, Copy, PartialEq, Eq, Debug)]
pub enum Part {
    Calibration,
    FasterRun,
    SlowerRun,
}

/// The first part that is wanting, where lock 3 stands.
pub fn wanting(bench: &Bench, now: u32) -> Part {
    let powered = since_power(&bench.accepted);
    if calibration_lacks(powered, now, bench.v) {
        Part::Calibration
    } else if run_lacks(powered, true) {
        Part::FasterRun
    } else {
        Part::SlowerRun
    }
}

fn newest_of_part(all: &[Accepted], part: Part) -> Option<usize> {
    newest(all, |k| {
        voids(k)
            || match (part, k) {
                (Part::Calibration, Kept::Calibration(_)) => true,
                (Part::FasterRun, Kept::Run(run)) => run.faster,
                (Part::SlowerRun, Kept::Run(run)) => !run.faster,
                _ => false,
            }
    })
}

/// The newest wrong try before which lock 5 did not stand.
fn fourth_wrong_try(all: &[Accepted]) -> Option<usize> {
    let stood = |before: &[Accepted]| {
        let unlocked = after_last(before, |k| *k == Kept::AuthorityUnlock);
        wrong_row(unlocked) >= 4
    };
    (0..all.len())
        .rev()
        .find(|i| all[*i].kept == Kept::Try(None) && !stood(&all[..*i]))
}
