//! Reach: the events that left the locks of a journal's starts standing.

use crate::bench::{after_last, run_lacks, since_power, Accepted, Answer, Bench, Event, Kept};
use crate::journaling::Journal;
use crate::reach::{texts, Reach};
use crate::why::{kind_name, left_standing, wanting, Part};

/// Each lock with every kind of event that it can name, and those that may have none.
const NAMED: [(&str, &[&str]); 10] = [
    ("lock 1", &["power-on", "clock setting", "none"]),
    ("lock 2", &["warm-up finished", "second"]),
    (
        "calibration",
        &["calibration", "power-on", "clock setting", "none"],
    ),
    (
        "faster run",
        &["coast-down run", "power-on", "clock setting", "none"],
    ),
    (
        "slower run",
        &["coast-down run", "power-on", "clock setting", "none"],
    ),
    ("lock 4", &["try", "power-on", "clock setting", "none"]),
    ("lock 5", &["try"]),
    ("lock 6", &["authority lock"]),
    ("lock 7", &["second", "stop"]),
    (
        "lock 8",
        &["prepare", "start", "power-on", "clock setting", "none"],
    ),
];

/// What lies before or behind the event that is named, and might be named in its place.
const BESIDE: [&str; 26] = [
    "lock 2 at 1,801 s",
    "lock 2, a stop behind the second",
    "calibration older than V by 1 s",
    "calibration that did not pass",
    "calibration and both runs wanting",
    "both runs wanting, and calibrated",
    "faster run: a slower one behind it",
    "slower run: a faster one behind it",
    "lock 4 by a wrong try",
    "lock 4 a second after the expiry",
    "lock 5, a wrong try behind the fourth",
    "lock 5, a good try behind the fourth",
    "lock 5, a power-on behind the fourth",
    "lock 5, an unlock before the fourth",
    "lock 6, an authority lock before it",
    "lock 7 by pass",
    "lock 7 by fail",
    "lock 7 by incomplete",
    "lock 7, an unlock behind the verdict",
    "lock 7, a verdict before it",
    "lock 8 by a prepare that does not stand",
    "lock 8 at 121 s",
    "named with a later clock than the start's",
    "clock setting named, its new clock another",
    "a locked start behind the named start",
    "a test ended by the named power-on",
];

/// Kinds with a refused one behind the named one of the same kind.
const REFUSED_BEHIND: [&str; 5] = [
    "power-on",
    "clock setting",
    "coast-down run",
    "prepare",
    "start",
];

fn refused_name(kind: &str) -> String {
    format!("a refused {kind} behind the named one")
}

pub fn why_names() -> Vec<String> {
    let mut all = Vec::new();
    for (lock, kinds) in NAMED {
        all.extend(kinds.iter().map(|kind| format!("{lock}: {kind}")));
    }
    all.extend(REFUSED_BEHIND.map(refused_name));
    all.extend(texts(&BESIDE));
    all
}

/// A bench that took some events of a journal, and what it answered.
struct Past<'a> {
    bench: Bench,
    taken: Vec<(&'a Event, Answer)>,
    numbers: Vec<usize>, // from 0, of the accepted events
    in_test: Vec<bool>,  // whether a test was running before each accepted event
}

pub fn reach_whys(reach: &mut Reach, journal: &Journal) {
    let Ok(bench) = Bench::new(journal.v, journal.u) else {
        return;
    };
    let mut past = Past {
        bench,
        taken: Vec::new(),
        numbers: Vec::new(),
        in_test: Vec::new(),
    };
    for (clock, event) in &journal.events {
        let running = past.bench.test.is_some();
        let answer = past.bench.take(*clock, event);
        match answer {
            Ok(_) => {
                past.numbers.push(past.taken.len());
                past.in_test.push(running);
            }
            Err(refusal) if refusal.number == 14 => {
                past.locked(reach, refusal.place as usize, *clock)
            }
            Err(_) => {}
        }
        past.taken.push((event, answer));
    }
}

impl Past<'_> {
    /// A start locked at `now`.
    fn locked(&self, reach: &mut Reach, lock: usize, now: u32) {
        let by = left_standing(&self.bench, lock, now);
        let part = match wanting(&self.bench, now) {
            _ if lock != 3 => format!("lock {lock}"),
            Part::Calibration => "calibration".to_string(),
            Part::FasterRun => "faster run".to_string(),
            Part::SlowerRun => "slower run".to_string(),
        };
        let Some(at) = by else {
            return reach.count(format!("{part}: none"));
        };
        let named = &self.bench.accepted[at];
        reach.count(format!("{part}: {}", kind_name(&named.kept)));
        if self.bench.accepted[at].clock > now {
            reach.count("named with a later clock than the start's");
        }
        self.refused_behind(reach, at);
        self.named_event(reach, at);
        self.lock_3(reach, &part, at, now);
        self.other_locks(reach, lock, at, now);
    }

    /// Events of the same kind that were refused behind the one that is named.
    fn refused_behind(&self, reach: &mut Reach, at: usize) {
        let name = kind_name(&self.bench.accepted[at].kept);
        let behind = &self.taken[self.numbers[at] + 1..];
        let same = behind
            .iter()
            .filter(|(event, answer)| answer.is_err() && kind_name(&event.kept()) == name);
        for (_, answer) in same {
            if REFUSED_BEHIND.contains(&name) {
                reach.count(refused_name(name));
            }
            if name == "start" && answer.is_err_and(|refusal| refusal.number == 14) {
                reach.count("a locked start behind the named start");
            }
        }
    }

    fn named_event(&self, reach: &mut Reach, at: usize) {
        let clock = self.bench.accepted[at].clock;
        match self.taken[self.numbers[at]].0 {
            Event::ClockSetting(new) if *new != clock => {
                reach.count("clock setting named, its new clock another")
            }
            Event::PowerOn if self.in_test[at] => reach.count("a test ended by the named power-on"),
            _ => {}
        }
    }

    fn lock_3(&self, reach: &mut Reach, part: &str, at: usize, now: u32) {
        let behind = &self.bench.accepted[at + 1..];
        let named = &self.bench.accepted[at];
        let run_behind = |faster: bool| {
            let mut runs = behind.iter();
            runs.any(|a| matches!(a.kept, Kept::Run(run) if run.faster == faster))
        };
        match (part, named.kept) {
            ("calibration", Kept::Calibration(true)) if now - named.clock == self.bench.v + 1 => {
                reach.count("calibration older than V by 1 s")
            }
            ("calibration", Kept::Calibration(false)) => {
                reach.count("calibration that did not pass")
            }
            ("faster run", Kept::Run(_)) if run_behind(false) => {
                reach.count("faster run: a slower one behind it")
            }
            ("slower run", Kept::Run(_)) if run_behind(true) => {
                reach.count("slower run: a faster one behind it")
            }
            _ => {}
        }
        let powered = since_power(&self.bench.accepted);
        let lacks = |faster: bool| run_lacks(powered, faster);
        if lacks(true) && lacks(false) {
            match part {
                "calibration" => reach.count("calibration and both runs wanting"),
                "faster run" => reach.count("both runs wanting, and calibrated"),
                _ => {}
            }
        }
    }

    fn other_locks(&self, reach: &mut Reach, lock: usize, at: usize, now: u32) {
        let named = &self.bench.accepted[at];
        let behind = &self.bench.accepted[at + 1..];
        let before = &self.bench.accepted[..at];
        match (lock, named.kept) {
            (2, kept) => {
                if now - named.clock == 1801 {
                    reach.count("lock 2 at 1,801 s");
                }
                if kept == Kept::Second && has(behind, |k| *k == Kept::Stop) {
                    reach.count("lock 2, a stop behind the second");
                }
            }
            (4, Kept::Try(None)) => reach.count("lock 4 by a wrong try"),
            (4, Kept::Try(Some(expiry))) if now.checked_sub(1) == Some(expiry) => {
                reach.count("lock 4 a second after the expiry")
            }
            (5, _) => reach_fourth(reach, before, behind),
            (6, _) if has(before, |k| *k == Kept::AuthorityLock) => {
                reach.count("lock 6, an authority lock before it")
            }
            (7, _) => reach_verdict(reach, before, named, behind),
            (8, Kept::Prepare(prepare)) if !prepare.stands() => {
                reach.count("lock 8 by a prepare that does not stand")
            }
            (8, Kept::Prepare(_)) if now - named.clock == 121 => reach.count("lock 8 at 121 s"),
            _ => {}
        }
    }
}

fn has(list: &[Accepted], is: fn(&Kept) -> bool) -> bool {
    list.iter().any(|a| is(&a.kept))
}

/// What is around the wrong try that made four in a row.
fn reach_fourth(reach: &mut Reach, before: &[Accepted], behind: &[Accepted]) {
    let mut count = |what: &str, is: bool| {
        if is {
            reach.count(what);
        }
    };
    let wrong = has(behind, |k| *k == Kept::Try(None));
    count("lock 5, a wrong try behind the fourth", wrong);
    let good = has(behind, |k| matches!(k, Kept::Try(Some(_))));
    count("lock 5, a good try behind the fourth", good);
    let on = has(behind, |k| *k == Kept::PowerOn);
    count("lock 5, a power-on behind the fourth", on);
    let unlock = has(before, |k| *k == Kept::AuthorityUnlock);
    count("lock 5, an unlock before the fourth", unlock);
}

/// What is around the verdict that made them as many as U.
fn reach_verdict(reach: &mut Reach, before: &[Accepted], named: &Accepted, behind: &[Accepted]) {
    if let Some(verdict) = named.verdict {
        reach.count(format!("lock 7 by {}", verdict.word.text()));
    }
    if has(behind, |k| *k == Kept::AuthorityUnlock) {
        reach.count("lock 7, an unlock behind the verdict");
    }
    let unsent = after_last(before, |k| *k == Kept::Upload);
    if unsent.iter().any(|a| a.verdict.is_some()) {
        reach.count("lock 7, a verdict before it");
    }
}
