//! Own asserts: tries, locks, the bench.

use crate::bench::{Bench, Event};
use crate::make_prepares::PREPARED;
use crate::make_runs::PASSED_RUNS;
use crate::modes::answer_line;
use crate::numbers::{MISSING, OVER};
use crate::own_asserts::{Checks, LISTED};
use crate::script::good_bits;
use crate::scripted_events::{ready_bench, WRONG};

/// The answers of a fresh bench to a list of events.
fn bench_lines(v: u32, u: u16, events: &[(u32, Event)]) -> Vec<String> {
    let Ok(mut bench) = Bench::new(v, u) else {
        return vec!["refused 15 0".to_string()];
    };
    events
        .iter()
        .map(|(clock, event)| answer_line(&bench.take(*clock, event)))
        .collect()
}

pub fn last_answer(v: u32, u: u16, events: &[(u32, Event)]) -> String {
    bench_lines(v, u, events).pop().unwrap_or_default()
}

pub const GOOD: Event = Event::Try(Some(1_000_000));

pub const START: Event = Event::Start(LISTED, 2339);

/// Tries, then all else, then a start.
pub fn after_tries(tries: &[Event]) -> Vec<(u32, Event)> {
    let mut events: Vec<(u32, Event)> = tries.iter().map(|event| (10, *event)).collect();
    events.extend([
        (10, Event::WarmUp),
        (10, Event::Calibration(true)),
        (10, PASSED_RUNS[0]),
        (10, PASSED_RUNS[1]),
        (10, PREPARED),
        (10, START),
    ]);
    events
}

#[rustfmt::skip]
pub fn check_tries(checks: &mut Checks) {
    let mut same = |name: &str, tries: &[Event], want: &str| {
        checks.same(name, last_answer(900, 5, &after_tries(tries)), want.to_string());
    };
    let (w, on) = (WRONG, Event::PowerOn);
    same("third wrong try", &[w, w, w, GOOD], "ok");
    same("third wrong, no good one", &[w, w, w], "refused 14 4");
    same("fourth wrong try, behind lock 4", &[w, w, w, w], "refused 14 4");
    same("fourth wrong try", &[w, w, w, w, GOOD], "refused 14 5");
    same("a good try lifts no lock", &[w, w, w, w, GOOD, GOOD], "refused 14 5");
    same("a good try ends a row", &[w, w, GOOD, w, w, GOOD], "ok");
    same("an expired good try ends a row", &[w, w, w, Event::Try(Some(0)), w, GOOD], "ok");
    same("tries survive power-on", &[w, w, on, w, w, GOOD], "refused 14 5");
    same("tries survive a clock setting", &[w, w, w, Event::ClockSetting(5), w, GOOD],
        "refused 14 5");
    same("unlock clears lock 5", &[w, w, w, w, Event::AuthorityUnlock, GOOD], "ok");
    same("unlock clears the row", &[w, w, w, Event::AuthorityUnlock, w, GOOD], "ok");
    same("authority lock", &[Event::AuthorityLock, GOOD], "refused 14 6");
    same("locks 5 and 6", &[w, w, w, w, Event::AuthorityLock, GOOD], "refused 14 5");
    same("unlock", &[Event::AuthorityLock, Event::AuthorityUnlock, GOOD], "ok");
}

#[rustfmt::skip]
pub fn check_locks(checks: &mut Checks) {
    let mut same = |name: &str, v: u32, late: &[(u32, Event)], want: &str| {
        let events = [ready_bench(100), late.to_vec()].concat();
        checks.same(name, last_answer(v, 5, &events), want.to_string());
    };
    let long = 2_592_000;
    same("admitted", long, &[(100, START)], "ok");
    same("lock 1", long, &[(100, Event::PowerOn), (100, START)], "refused 14 1");
    same("1,800 s", long, &[(1900, PREPARED), (1900, START)], "ok");
    same("lock 2", long, &[(1901, START)], "refused 14 2");
    same("V", 60, &[(160, START)], "ok");
    same("lock 3", 60, &[(161, START)], "refused 14 3");
    same("latest calibration", long, &[(100, Event::Calibration(false)), (100, START)],
        "refused 14 3");
    same("expiry now", long, &[(100, Event::Try(Some(150))), (150, START)], "ok");
    same("lock 4", long, &[(100, Event::Try(Some(150))), (151, START)], "refused 14 4");
    same("wrong try signs out", long, &[(100, WRONG), (100, START)], "refused 14 4");
    let back = [(100, Event::ClockSetting(7)), (7, Event::WarmUp), (7, START)];
    same("clock setting voids", long, &back, "refused 14 3");
    same("clock setting's own clock", long, &[(99, Event::ClockSetting(7))], "refused 11 100");
    same("clock from the setting", long, &[(100, Event::ClockSetting(7)), (6, START)],
        "refused 11 7");
    same("running", long, &[(100, START), (100, Event::Upload)], "refused 12 0");
    same("power-on in a test", long, &[(100, START), (100, Event::PowerOn)], "ok");
    let ended = [(100, START), (100, Event::PowerOn), (100, Event::Stop(1))];
    same("no test after power-on", long, &ended, "refused 13 0");
    same("no test", long, &[(100, Event::Stop(9))], "refused 13 0");
    same("cause", long, &[(100, START), (100, Event::Stop(5))], "refused 15 0");
    same("stop", long, &[(100, START), (100, Event::Stop(4))], "ok");
    let mut settings = LISTED;
    settings[6] = 799;
    same("setting", long, &[(100, Event::Start(settings, 1))], "refused 4 7");
    same("p", long, &[(100, Event::Start(LISTED, 499))], "refused 5 0");
    same("p before locks", long, &[(9999, Event::Start(LISTED, 4301))], "refused 5 0");
    let mut bits = good_bits();
    (bits[2], bits[6]) = (OVER, MISSING);
    same("reading", long, &[(100, START), (101, Event::Second(bits))], "refused 8 3");
    same("V unfit", 0, &[], "refused 15 0");
    same("V too great", 2_592_001, &[], "refused 15 0");
}

/// A whole pass on the bench: start and 36 seconds, one a second.
pub fn passing_test(at: u32) -> Vec<(u32, Event)> {
    let mut events = vec![(at, START)];
    events.extend((1..=36).map(|i| (at + i, Event::Second(good_bits()))));
    events
}

pub fn check_bench(checks: &mut Checks) {
    let first = [ready_bench(100), passing_test(100)].concat();
    checks.same(
        "pass",
        last_answer(900, 1, &first),
        "ok pass 25 16 0 0".to_string(),
    );
    let after = |events: &[(u32, Event)]| last_answer(9000, 1, &[&first[..], events].concat());
    checks.same(
        "second after",
        after(&[(200, Event::Second(good_bits()))]),
        "refused 13 0".into(),
    );
    checks.same("lock 7", after(&[(200, START)]), "refused 14 7".into());
    checks.same(
        "upload",
        after(&[(200, Event::Upload), (200, PREPARED), (200, START)]),
        "ok".into(),
    );
    let unlock = after(&[(200, Event::AuthorityUnlock), (200, START)]);
    checks.same("unlock leaves lock 7", unlock, "refused 14 7".into());
    let upload = (200, Event::Upload);
    checks.same(
        "seconds renew lock 2",
        after(&[upload, (1936, PREPARED), (1936, START)]),
        "ok".into(),
    );
    checks.same(
        "from the last second",
        after(&[upload, (1937, START)]),
        "refused 14 2".into(),
    );
    let stop = (200, Event::Stop(1));
    let begun = [ready_bench(100), vec![(100, START)]].concat();
    let mut renewed = ready_bench(300);
    renewed.retain(|(_, event)| *event != Event::Upload);
    let stopped = [&begun[..], &[stop, (300, Event::PowerOn)], &renewed].concat();
    checks.same(
        "power-on brings no verdict",
        last_answer(900, 1, &[&stopped[..], &[(300, START)]].concat()),
        "ok".into(),
    );
    checks.same(
        "U 0",
        bench_lines(1, 0, &[]),
        vec!["refused 15 0".to_string()],
    );
    checks.same(
        "U 256",
        bench_lines(1, 256, &[]),
        vec!["refused 15 0".to_string()],
    );
    checks.same("fit V and U", bench_lines(2_592_000, 255, &[]).len(), 0);
}
