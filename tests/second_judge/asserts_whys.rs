//! Own asserts: the events that left the locks of a journal's starts standing.

use crate::asserts_bench::{GOOD, START};
use crate::asserts_starts::{bytes_of, ready_and};
use crate::bench::Event;
use crate::journaling::journal_lines;
use crate::make_prepares::{prepare, PREPARED};
use crate::make_runs::{run, PASSED_RUNS};
use crate::named_journals::named_journal;
use crate::own_asserts::Checks;
use crate::script::good_bits;
use crate::scripted_events::WRONG;
use crate::why::why_lines;

const ON: Event = Event::PowerOn;

/// The last start's line of why.
fn last_why(u: u16, events: &[(u32, Event)]) -> String {
    why_lines(&bytes_of(u, events)).pop().unwrap_or_default()
}

/// A bench that begins with nothing; the first event is number 1.
#[rustfmt::skip]
pub fn check_why_none(checks: &mut Checks) {
    let [faster, slower] = PASSED_RUNS;
    let lifts = [Event::WarmUp, Event::Calibration(true), faster, slower, GOOD, PREPARED];
    let names = ["not warm", "not calibrated", "not calibrated", "not calibrated", "not signed in", "not prepared"];
    for (i, name) in names.iter().enumerate() {
        let mut events: Vec<(u32, Event)> = lifts[..i].iter().map(|event| (7, *event)).collect();
        events.push((9, START));
        let want = format!("start {} at 9: {name}: none since the beginning", i + 1);
        checks.same("none", last_why(5, &events), want);
        for (by, kind) in [(ON, "power-on"), (Event::ClockSetting(7), "clock setting")] {
            events.insert(0, (6, by));
            events.insert(1, (5, by)); // refused 11
            let want = format!("start {} at 9: {name}: event 1 at 6, {kind}", i + 3);
            checks.same("voided", last_why(5, &events), want);
            events.drain(..2);
        }
    }
    checks.same("unfit", why_lines(&[2]), vec!["refused 1 1".to_string()]);
    let lines = why_lines(&bytes_of(5, &[(7, PREPARED), (7, GOOD)]));
    checks.same("no start", lines.len(), 0);
    let admitted = why_lines(&bytes_of(5, &ready_and(&[(100, START), (100, START), (99, START)])));
    checks.same("admitted, 12, 11", admitted.len(), 0);
}

/// Locks 1 to 4 and 8: the newest of several events. The first of those given is number 9.
#[rustfmt::skip]
pub fn check_why_newest(checks: &mut Checks) {
    let mut same = |events: &[(u32, Event)], want: &str| {
        checks.same("why", &last_why(5, &ready_and(events))[..], want);
    };
    let set = Event::ClockSetting(50);
    let (passed, failed) = (Event::Calibration(true), Event::Calibration(false));
    let (slow_failed, fast_failed) = (run(1200, 100, false, 9), run(1200, 100, true, 9));
    let [fast, slow] = PASSED_RUNS;
    same(&[(100, ON), (101, set), (60, START)], "start 11 at 60: not warm: event 10 at 101, clock setting");
    same(&[(100, set), (101, ON), (102, Event::Upload), (103, START)], "start 12 at 103: not warm: event 10 at 101, power-on");
    same(&[(1901, START)], "start 9 at 1901: inactive: event 3 at 100, warm-up finished");
    same(&[(900, Event::WarmUp), (2701, START)], "start 10 at 2701: inactive: event 9 at 900, warm-up finished");
    same(&[(100, START), (300, Event::Second(good_bits())), (400, Event::Stop(1)), (500, Event::Second([0; 8])),
        (500, Event::Stop(1)), (2400, START)], ""); // the test goes on: 12
    same(&[(1001, START)], "start 9 at 1001: not calibrated: event 4 at 100, calibration");
    same(&[(200, failed), (200, START)], "start 10 at 200: not calibrated: event 9 at 200, calibration");
    same(&[(200, failed), (201, fast_failed), (202, slow_failed), (203, START)], "start 12 at 203: not calibrated: event 9 at 200, calibration");
    same(&[(200, fast_failed), (201, passed), (202, slow_failed), (203, START)], "start 12 at 203: not calibrated: event 9 at 200, coast-down run");
    same(&[(200, fast_failed), (201, slow_failed), (202, fast), (203, START)], "start 12 at 203: not calibrated: event 10 at 201, coast-down run");
    same(&[(200, slow_failed), (201, fast), (202, START)], "start 11 at 202: not calibrated: event 9 at 200, coast-down run");
    same(&[(200, ON), (200, Event::WarmUp), (200, passed), (201, slow), (202, START)], "start 13 at 202: not calibrated: event 9 at 200, power-on");
    same(&[(200, ON), (200, Event::WarmUp), (200, passed), (201, fast), (202, START)], "start 13 at 202: not calibrated: event 9 at 200, power-on");
    same(&[(200, ON), (200, Event::WarmUp), (202, START)], "start 11 at 202: not calibrated: event 9 at 200, power-on");
    same(&[(200, WRONG), (201, START)], "start 10 at 201: not signed in: event 9 at 200, try");
    same(&[(200, WRONG), (200, GOOD), (200, Event::Try(Some(200))), (201, START)], "start 12 at 201: not signed in: event 11 at 200, try");
    same(&[(221, START)], "start 9 at 221: not prepared: event 6 at 100, prepare");
    same(&[(200, prepare([15, 0, 0], 0)), (200, START)], "start 10 at 200: not prepared: event 9 at 200, prepare");
    same(&[(200, prepare([10_000, 0, 0], 0)), (221, START)], "start 10 at 221: not prepared: event 6 at 100, prepare");
    same(&[(221, START), (222, START)], "start 10 at 222: not prepared: event 6 at 100, prepare");
}

/// Locks 5 and 6.
#[rustfmt::skip]
pub fn check_why_rows(checks: &mut Checks) {
    let mut same = |events: &[Event], want: &str| {
        let clocks = 101..;
        let events: Vec<(u32, Event)> = clocks.zip(events.iter().copied()).collect();
        checks.same("why", &last_why(5, &ready_and(&events))[..], want);
    };
    let (w, lock, unlock) = (WRONG, Event::AuthorityLock, Event::AuthorityUnlock);
    same(&[w, w, w, w, GOOD, START], "start 14 at 106: password lock: event 12 at 104, try");
    same(&[w, w, w, w, w, w, GOOD, START], "start 16 at 108: password lock: event 12 at 104, try");
    same(&[w, w, w, w, GOOD, w, w, w, w, GOOD, START], "start 19 at 111: password lock: event 12 at 104, try");
    same(&[w, w, w, GOOD, w, w, w, w, GOOD, START], "start 18 at 110: password lock: event 16 at 108, try");
    same(&[w, w, w, w, unlock, w, w, w, w, w, GOOD, START], "start 20 at 112: password lock: event 17 at 109, try");
    same(&[w, w, unlock, w, w, w, w, GOOD, START], "start 17 at 109: password lock: event 15 at 107, try");
    same(&[lock, START], "start 10 at 102: authority lock: event 9 at 101, authority lock");
    same(&[lock, lock, START], "start 11 at 103: authority lock: event 10 at 102, authority lock");
    same(&[lock, unlock, lock, Event::Upload, START], "start 13 at 105: authority lock: event 11 at 103, authority lock");
    same(&[w, w, w, w, GOOD, lock, START], "start 15 at 107: password lock: event 12 at 104, try");
}

/// A test that is incomplete: three brakes, each behind one second of driving.
fn incomplete(at: u32) -> Vec<(u32, Event)> {
    let mut standing = good_bits();
    standing[0] = 0;
    let driven = [Event::Second(good_bits()), Event::Stop(1)];
    let rest = [Event::Second(standing); 10];
    let items = [&[START][..], &driven, &rest, &driven, &rest, &driven].concat();
    (at..).zip(items).collect()
}

/// Locks 7, 8 by a used prepare, and 2 by a test's last second: 27 events from number 9 on.
#[rustfmt::skip]
pub fn check_why_tests(checks: &mut Checks) {
    let mut same = |u: u16, events: &[(u32, Event)], want: &str| {
        let all = [ready_and(&incomplete(100)), events.to_vec()].concat();
        checks.same("why", &last_why(u, &all)[..], want);
    };
    same(1, &[(126, START)], "start 36 at 126: unsent verdicts: event 35 at 126, stop");
    same(1, &[(126, Event::AuthorityUnlock), (126, PREPARED), (127, START)], "start 38 at 127: unsent verdicts: event 35 at 126, stop");
    same(2, &[(126, START)], "start 36 at 126: not prepared: event 9 at 100, start");
    same(2, &[(126, START), (127, START)], "start 37 at 127: not prepared: event 9 at 100, start");
    same(2, &[(126, ON), (126, START)], "start 37 at 126: not warm: event 36 at 126, power-on");
    same(2, &[(1925, Event::Calibration(true)), (1925, PREPARED), (1926, START)], "start 38 at 1926: inactive: event 34 at 125, second");
    let second = [vec![(126, PREPARED)], incomplete(126), vec![(160, START)]].concat();
    same(2, &second, "start 64 at 160: unsent verdicts: event 63 at 152, stop");
}

/// Document 02's question on the day by name: each lock at least once.
pub fn check_why_of_locks(checks: &mut Checks) {
    let bytes = named_journal("locks").unwrap_or_default();
    let lines = journal_lines(&bytes);
    for want in [
        "admitted",
        "refused 4",
        "refused 5",
        "refused 11",
        "refused 12",
    ] {
        checks.same(want, lines.iter().any(|line| line == want), true);
    }
    for lock in 1..=8 {
        let want = lock.to_string();
        checks.same("locks", lines.contains(&want), true);
    }
    let locked = lines.iter().filter(|line| line.len() == 1).count();
    checks.same(
        "a line of why a locked start",
        why_lines(&bytes).len(),
        locked,
    );
}
