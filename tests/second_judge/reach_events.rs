//! Reach: lists of events.

use crate::bench::{
    after_last, holds, since_power, step_of, wrong_row, Accepted, Bench, Event, Kept,
};
use crate::items::Items;
use crate::make_tests::kind_of;
use crate::numbers::Refusal;
use crate::reach::{names, texts, Reach};
use crate::reach_dips::{dips_in_events, Runs};
use crate::reach_hundredths::{hundredths_in_events, unfit_co2_in, Twin};
use crate::reach_prepares::{prepare_names, Refused};
use crate::reach_runs::{reach_run_refused, reach_start, run_names};
use crate::reach_tests::{second_in, units_of};
use crate::reach_windows::{windows_in_events, Windows};
use crate::running::Running;

/// What of a list of events must be looked at with those before it.
#[derive(Default)]
struct Trail {
    refused: Vec<(u32, u8, u8)>, // clock, kind and number of those refused since the last accepted one
    unfit_second: Option<u32>,   // refused 8 since the latest warm-up or second
    failed_runs: Vec<u8>, // refusals of failed runs since the latest run, power-on or clock setting
    prepares: Refused,    // starts and prepares refused since the latest prepare
    quiet_stop: Option<(u32, &'static str)>, // the last event: a stop that changed only the clock, from this
}

const STOP_IN_REST: &str = "stop in rest with a later clock, then an earlier event";

const STOP_AT_0: &str = "stop at c = 0 with a later clock, then an earlier event";

const REFUSED_SECOND: &str = "second refused 8, then lock 2 at 1,801 s";

const FAILED_AFTER: &str = "calibration passed and then failed: lock 3";

const CALIBRATED_BEYOND: &str = "start admitted, calibration + V beyond 2^32";

const ACTIVE_BEYOND: &str = "start admitted, activity + 1,800 beyond 2^32";

const UNLOCKED_ROW: &str = "three wrong tries, an unlock, one more: start admitted";

const EXPIRED_ROW: &str = "three wrong tries, an expired good one, one more: start admitted";

const UPLOAD_REFUSED: &str = "upload refused 12 with a later clock, then a second";

const SPECIAL: [&str; 23] = [
    STOP_IN_REST,
    STOP_AT_0,
    REFUSED_SECOND,
    FAILED_AFTER,
    CALIBRATED_BEYOND,
    ACTIVE_BEYOND,
    UNLOCKED_ROW,
    EXPIRED_ROW,
    UPLOAD_REFUSED,
    "refused 8 with a later clock, then a second",
    "refused 15 with a later clock, then a second",
    "start admitted at 1,800 s",
    "start admitted at V",
    "start admitted at the expiry",
    "lock 2 at 1,801 s",
    "lock 2 within 1,800 s of a stop",
    "lock 3 at V + 1",
    "lock 4 a second after the expiry",
    "lock 5 by a row across power-on",
    "lock 5 by a row across a clock setting",
    "lock 7 after an unlock",
    "power-on in a test",
    "clock set back",
];

fn required_of_events() -> Vec<String> {
    let mut required = texts(&["pass", "fail", "incomplete", "start admitted"]);
    required.extend(names("lock ", 1..=8));
    required.extend(names("refused 4 ", 1..=7));
    required.extend(texts(&["refused 5 0", "refused 13 0", "refused 15 0"]));
    required.extend(names("refused 8 ", 1..=8));
    required.extend(names("refused 11 kind ", 1..=13));
    required.extend(names("refused 12 kind ", 2..=9));
    required.extend(names("refused 12 kind ", 12..=13));
    required.extend(texts(&SPECIAL));
    required.extend(run_names());
    required.extend(prepare_names());
    required.extend(dips_in_events());
    required.extend(windows_in_events());
    required.extend(hundredths_in_events());
    required
}

pub fn reach_events(data: &[u8]) -> Reach {
    let mut reach = Reach::new(required_of_events());
    let mut items = Items { data };
    let (v, u) = (items.u32().unwrap_or(0), items.u16().unwrap_or(0));
    let Ok(mut bench) = Bench::new(v, u) else {
        reach.count("refused 15 0");
        return reach;
    };
    let (mut trail, mut shown) = (Trail::default(), Shown::default());
    while let Some((clock, event)) = items.event() {
        let before = bench.last;
        let quiet = quiet_name(&bench);
        let running = bench.test.clone();
        match bench.take(clock, &event) {
            Err(refusal) => trail.refused(&mut reach, &bench, clock, &event, refusal),
            Ok(verdict) => {
                verdict.map(|verdict| reach.count(verdict.word.text()));
                reach_accepted(&mut reach, &event, running.is_some(), clock);
                running.map(|test| shown.step(&mut reach, test, &event));
                trail.accepted(&mut reach, &bench, clock, &event);
                trail.quiet_stop = match event {
                    Event::Stop(_) if clock > before => quiet.map(|name| (before, name)),
                    _ => None,
                };
            }
        }
    }
    reach
}

/// What the tests show of dips, of invalid windows and of CO2 in hundredths.
#[derive(Default)]
struct Shown {
    runs: Runs,
    windows: Windows,
    twin: Option<Twin>,
}

impl Shown {
    /// Takes an accepted event and the test that it came to.
    fn step(&mut self, reach: &mut Reach, mut test: Running, event: &Event) {
        let (car, automatic) = (test.car, test.car.automatic);
        if let Ok(step) = step_of(&mut test, event) {
            let dips = self.runs.step(units_of(event, 1, automatic), &step);
            let second = second_in(event, automatic);
            let windows = self.windows.step(&car, second, &step);
            let names = dips.into_iter().chain(windows);
            names.for_each(|name| reach.count(name));
            let twin = self.twin.get_or_insert_with(|| Twin::new(car));
            let apart = twin.step(event, &step).into_iter();
            apart.for_each(|name| reach.count(name));
        }
        if test.ended || *event == Event::PowerOn {
            self.windows = Windows::default();
            self.twin = None;
        }
    }
}

/// Where a stop would change only the clock.
fn quiet_name(bench: &Bench) -> Option<&'static str> {
    let test = bench.test.as_ref()?;
    match (test.resting, test.seconds.is_empty()) {
        (true, _) => Some(STOP_IN_REST),
        (false, true) => Some(STOP_AT_0),
        _ => None,
    }
}

fn reach_accepted(reach: &mut Reach, event: &Event, running: bool, clock: u32) {
    match event {
        Event::PowerOn if running => reach.count("power-on in a test"),
        Event::ClockSetting(new) if *new < clock => reach.count("clock set back"),
        Event::Start(..) => reach.count("start admitted"),
        _ => {}
    }
}

impl Trail {
    fn refused(
        &mut self,
        reach: &mut Reach,
        bench: &Bench,
        clock: u32,
        event: &Event,
        refusal: Refusal,
    ) {
        let kind = kind_of(event);
        match (refusal.number, refusal.place) {
            (11, _) => {
                reach.count(format!("refused 11 kind {kind}"));
                if let Some((_, name)) = self.quiet_stop.filter(|(from, _)| clock >= *from) {
                    reach.count(name);
                }
            }
            (12, _) => reach.count(format!("refused 12 kind {kind}")),
            (14, lock) => {
                reach.count(format!("lock {lock}"));
                self.locked(reach, bench, clock, lock);
                reach_start(reach, bench, clock, Some(lock));
                self.prepares.start(reach, bench, clock, Some(lock));
            }
            _ => reach.count(refusal.to_string()),
        }
        if refusal.number == 8 {
            self.unfit_second = Some(clock);
            let apart = unfit_co2_in(event).filter(|_| refusal.place == 7);
            apart.map(|name| reach.count(name));
        }
        if let Event::Run(run) = event {
            reach_run_refused(reach, run, refusal);
            if !run.passes() {
                self.failed_runs.push(refusal.number);
            }
        }
        self.prepares.refused(reach, event, refusal);
        self.refused.push((clock, kind, refusal.number));
    }

    /// A start locked at `now`.
    fn locked(&self, reach: &mut Reach, bench: &Bench, now: u32, lock: u64) {
        match lock {
            2 => self.locked_idle(reach, bench, now),
            3 => locked_by_calibration(reach, bench, now),
            4 if latest_try(bench).is_some_and(|expiry| now.checked_sub(1) == Some(expiry)) => {
                reach.count("lock 4 a second after the expiry")
            }
            5 => reach_rows(reach, &bench.accepted),
            7 => locked_unsent(reach, bench),
            _ => {}
        }
    }

    fn locked_idle(&self, reach: &mut Reach, bench: &Bench, now: u32) {
        let near = |clock: u32| now.checked_sub(clock).is_some_and(|idle| idle <= 1800);
        if latest_activity(bench).is_some_and(|clock| now - clock == 1801) {
            reach.count("lock 2 at 1,801 s");
            if self.unfit_second.is_some_and(near) {
                reach.count(REFUSED_SECOND);
            }
        }
        let recently = |is: fn(&Kept) -> bool| {
            let mut latest_first = powered(bench).iter().rev();
            latest_first.any(|a| is(&a.kept) && near(a.clock))
        };
        if recently(|k| *k == Kept::Stop) {
            reach.count("lock 2 within 1,800 s of a stop");
        }
        if recently(|k| matches!(k, Kept::Run(_))) {
            reach.count("lock 2 within 1,800 s of a run");
        }
        if recently(|k| matches!(k, Kept::Prepare(_))) {
            reach.count("lock 2 within 1,800 s of a prepare");
        }
    }

    fn accepted(&mut self, reach: &mut Reach, bench: &Bench, clock: u32, event: &Event) {
        match event {
            Event::Second(_) => self.second_taken(reach, clock),
            Event::Start(..) => self.start_admitted(reach, bench, clock),
            Event::Run(_) | Event::PowerOn | Event::ClockSetting(_) => self.failed_runs.clear(),
            Event::Prepare(_) => self.prepares.prepared(),
            _ => {}
        }
        if matches!(event, Event::Second(_) | Event::WarmUp) {
            self.unfit_second = None;
        }
        self.unfit_before(reach, clock);
        self.refused.clear();
    }

    fn start_admitted(&self, reach: &mut Reach, bench: &Bench, clock: u32) {
        reach_admitted(reach, bench, clock);
        reach_start(reach, bench, clock, None);
        self.prepares.start(reach, bench, clock, None);
        for number in &self.failed_runs {
            reach.count(format!("failed run refused {number}: start admitted"));
        }
    }

    /// An event earlier than a run or prepare that was refused for its fields.
    fn unfit_before(&self, reach: &mut Reach, clock: u32) {
        for (_, _, number) in self.refused.iter().filter(|(refused, ..)| *refused > clock) {
            if matches!(number, 16..=18) {
                reach.count(format!(
                    "refused {number} with a later clock, then an event"
                ));
            }
        }
    }

    /// A second earlier than what was refused since the last accepted event.
    fn second_taken(&self, reach: &mut Reach, clock: u32) {
        for (_, kind, number) in self.refused.iter().filter(|(refused, ..)| *refused > clock) {
            match (kind, number) {
                (8, 12) => reach.count(UPLOAD_REFUSED),
                (_, 8) => reach.count("refused 8 with a later clock, then a second"),
                (_, 15) => reach.count("refused 15 with a later clock, then a second"),
                _ => {}
            }
        }
    }
}

/// The accepted events since the latest power-on or clock setting.
fn powered(bench: &Bench) -> &[Accepted] {
    since_power(&bench.accepted)
}

/// The clock of the latest warm-up or second.
fn latest_activity(bench: &Bench) -> Option<u32> {
    let active = |a: &&Accepted| matches!(a.kept, Kept::WarmUp | Kept::Second);
    powered(bench).iter().rev().find(active).map(|a| a.clock)
}

/// The calibrations since power-on or clock setting: clock, and passed or not.
fn calibrations(bench: &Bench) -> Vec<(u32, bool)> {
    let calibration = |a: &Accepted| match a.kept {
        Kept::Calibration(passed) => Some((a.clock, passed)),
        _ => None,
    };
    powered(bench).iter().filter_map(calibration).collect()
}

/// The expiry of the latest try, if it was good.
fn latest_try(bench: &Bench) -> Option<u32> {
    let mut tries = powered(bench).iter().rev();
    tries.find_map(|a| match a.kept {
        Kept::Try(good) => Some(good),
        _ => None,
    })?
}

fn locked_by_calibration(reach: &mut Reach, bench: &Bench, now: u32) {
    match calibrations(bench)[..] {
        [.., (clock, true), (_, false)] if now - clock <= bench.v => reach.count(FAILED_AFTER),
        [.., (clock, true)] if now - clock == bench.v + 1 => reach.count("lock 3 at V + 1"),
        _ => {}
    }
}

fn locked_unsent(reach: &mut Reach, bench: &Bench) {
    let unsent = after_last(&bench.accepted, |k| *k == Kept::Upload);
    let verdict = unsent.iter().rposition(|a| a.verdict.is_some());
    if holds(&unsent[verdict.unwrap_or(0)..], Kept::AuthorityUnlock) {
        reach.count("lock 7 after an unlock");
    }
}

/// A start admitted at `now`: what it stands at the edge of, and rows of wrong
/// tries that another judge would have kept.
fn reach_admitted(reach: &mut Reach, bench: &Bench, now: u32) {
    let active = latest_activity(bench).unwrap_or(0);
    let calibrated = calibrations(bench).last().map_or(0, |(clock, _)| *clock);
    let beyond = |clock: u32, more: u32| clock.checked_add(more).is_none();
    let mut count = |what: &str, is: bool| {
        if is {
            reach.count(what);
        }
    };
    count("start admitted at 1,800 s", now - active == 1800);
    count("start admitted at V", now - calibrated == bench.v);
    let at_expiry = latest_try(bench) == Some(now) && now < u32::MAX;
    count("start admitted at the expiry", at_expiry);
    count(ACTIVE_BEYOND, beyond(active, 1800));
    count(CALIBRATED_BEYOND, beyond(calibrated, bench.v));
    count(UNLOCKED_ROW, row_kept(&bench.accepted, true, false));
    count(EXPIRED_ROW, row_kept(&bench.accepted, false, true));
}

/// Four wrong tries in a row since the last unlock, if an unlock left the row,
/// or a good try that was expired did not end it.
fn row_kept(list: &[Accepted], over_unlock: bool, over_expired: bool) -> bool {
    let (mut row, mut locked) = (0, false);
    for a in list {
        match a.kept {
            Kept::Try(None) => row += 1,
            Kept::Try(Some(expiry)) if !over_expired || expiry >= a.clock => row = 0,
            Kept::AuthorityUnlock => {
                locked = false;
                row = if over_unlock { row } else { 0 };
            }
            _ => {}
        }
        locked = locked || (a.kept == Kept::Try(None) && row >= 4);
    }
    locked
}

/// Lock 5 by a row that power-on, or a clock setting, would end in another judge.
fn reach_rows(reach: &mut Reach, accepted: &[Accepted]) {
    let unlocked = after_last(accepted, |k| *k == Kept::AuthorityUnlock);
    for (kind, what) in [
        (Kept::PowerOn, "lock 5 by a row across power-on"),
        (Kept::ClockSetting, "lock 5 by a row across a clock setting"),
    ] {
        let mut pieces = unlocked.split(|a| a.kept == kind);
        if pieces.all(|piece| wrong_row(piece) < 4) {
            reach.count(what);
        }
    }
}
