//! Own asserts: coast-down runs, and lock 3 by them.

use crate::asserts_bench::{last_answer, START};
use crate::bench::Event;
use crate::coast_down::Run;
use crate::items::Items;
use crate::make_prepares::PREPARED;
use crate::make_runs::{passing_ms, run, PASSED_RUNS};
use crate::make_tests::put_event;
use crate::own_asserts::Checks;
use crate::scripted_events::ready_bench;

const FASTER: Event = PASSED_RUNS[0];

const SLOWER: Event = PASSED_RUNS[1];

const FAILED_FASTER: Event = run(1200, 100, true, 5511);

const FAILED_SLOWER: Event = run(1200, 100, false, 3963);

/// The least and the greatest milliseconds that pass.
pub fn check_run_ends(checks: &mut Checks) {
    for (inertia, power, faster, least, greatest) in [
        (1200, 100, true, 5512, 6340),
        (1200, 100, false, 3445, 3962),
        (1134, 50, true, 10_416, 11_984),
        (1134, 50, false, 6510, 7490),
    ] {
        for (ms, want) in [
            (least - 1, false),
            (least, true),
            (greatest, true),
            (greatest + 1, false),
            (0, false),
            (u32::MAX, false),
        ] {
            let run = Run {
                inertia,
                power,
                faster,
                ms,
            };
            checks.same(&format!("{run:?}"), run.passes(), want);
        }
    }
    checks.same("ends that differ", ends_that_differ(), 0);
}

/// Fit runs whose ends, divided out, are not those of the rule.
fn ends_that_differ() -> usize {
    let mut different = 0;
    for inertia in 1050..=1350 {
        for power in 50..=325 {
            for faster in [true, false] {
                let (least, greatest) = passing_ms(inertia, power, faster);
                let passes = |ms: u32| {
                    Run {
                        inertia,
                        power,
                        faster,
                        ms,
                    }
                    .passes()
                };
                let ends = [least - 1, least, greatest, greatest + 1].map(passes);
                different += (ends != [false, true, true, false]) as usize;
            }
        }
    }
    different
}

/// Events at their clocks on a bench that is ready but for the runs, then what the last answers.
fn after_ready(events: &[(u32, Event)]) -> String {
    let mut all = ready_bench(100);
    all.retain(|(_, event)| !matches!(event, Event::Run(_)));
    all.extend(events);
    last_answer(900, 5, &all)
}

/// Runs and what else there is, all at 100, then a start.
fn start_after(events: &[Event]) -> String {
    let mut all: Vec<(u32, Event)> = events.iter().map(|event| (100, *event)).collect();
    all.push((100, START));
    after_ready(&all)
}

#[rustfmt::skip]
pub fn check_run_locks(checks: &mut Checks) {
    let mut same = |name: &str, events: &[Event], want: &str| {
        checks.same(name, start_after(events), want.to_string());
    };
    let again = [Event::WarmUp, Event::Calibration(true), Event::Try(Some(1_000_000)), PREPARED];
    let voided = |by: Event, then: &[Event]| [&[FASTER, SLOWER, by], &again[..], then].concat();
    same("no run", &[], "refused 14 3");
    same("the faster run alone", &[FASTER], "refused 14 3");
    same("the slower run alone", &[SLOWER], "refused 14 3");
    same("both runs", &[FASTER, SLOWER], "ok");
    same("the slower run first", &[SLOWER, FASTER], "ok");
    same("a faster run twice", &[FASTER, FASTER], "refused 14 3");
    same("other inertia and power", &[run(1134, 50, true, 10_416), SLOWER], "ok");
    same("the faster run failed", &[FAILED_FASTER, SLOWER], "refused 14 3");
    same("the slower run failed", &[FASTER, FAILED_SLOWER], "refused 14 3");
    same("a later faster run failed", &[FASTER, SLOWER, FAILED_FASTER], "refused 14 3");
    same("a later slower run failed", &[FASTER, SLOWER, FAILED_SLOWER], "refused 14 3");
    same("the other speed's run", &[FASTER, SLOWER, FAILED_FASTER, SLOWER], "refused 14 3");
    same("failed and then passed", &[FAILED_FASTER, FASTER, SLOWER, FAILED_SLOWER, SLOWER], "ok");
    let clock = Event::ClockSetting(100);
    for by in [Event::PowerOn, clock] {
        same("runs before", &voided(by, &[]), "refused 14 3");
        same("the slower before", &voided(by, &[FASTER]), "refused 14 3");
        same("the faster before", &voided(by, &[SLOWER]), "refused 14 3");
        same("both runs again", &voided(by, &[SLOWER, FASTER]), "ok");
    }
    same("lock 1 first", &[Event::PowerOn], "refused 14 1");
    same("calibration still asked for", &[FASTER, SLOWER, Event::Calibration(false)], "refused 14 3");
    same("lock 4 behind the runs", &[Event::Try(None), FASTER, SLOWER], "refused 14 4");
    same("lock 3 before 4", &[Event::Try(None), FASTER], "refused 14 3");
    same("a refused run changes nothing", &[FASTER, SLOWER, run(1049, 100, true, 1)], "ok");
    let never_powered = [FASTER, SLOWER, START].map(|event| (0, event));
    let ready = [ready_bench(0), never_powered.to_vec()].concat();
    checks.same("never powered on", last_answer(900, 5, &ready), "ok".to_string());
}

#[rustfmt::skip]
pub fn check_run_ages(checks: &mut Checks) {
    let mut same = |name: &str, events: &[(u32, Event)], want: &str| {
        let all = [&[(100, FASTER), (100, SLOWER)], events].concat();
        checks.same(name, after_ready(&all), want.to_string());
    };
    let (warm, calibrated) = (Event::WarmUp, Event::Calibration(true));
    same("V counts from the calibration", &[(500, FASTER), (500, SLOWER), (1001, START)],
        "refused 14 3");
    let late = [warm, calibrated, PREPARED, START].map(|event| (1_000_000, event));
    same("runs do not age", &late, "ok");
    same("runs do not renew lock 2", &[(1000, FASTER), (1000, SLOWER), (1901, calibrated),
        (1901, START)], "refused 14 2");
}

#[rustfmt::skip]
pub fn check_run_refusals(checks: &mut Checks) {
    let mut same = |name: &str, events: &[(u32, Event)], want: &str| {
        checks.same(name, after_ready(events), want.to_string());
    };
    same("old clock", &[(99, FASTER)], "refused 11 100");
    same("old clock, unfit", &[(99, run(0, 0, true, 0))], "refused 11 100");
    let started = [(100, FASTER), (100, SLOWER), (100, START)];
    let in_test = |event: Event| [&started[..], &[(100, event)]].concat();
    same("in a test", &in_test(FASTER), "refused 12 0");
    same("in a test, unfit", &in_test(run(0, 0, true, 0)), "refused 12 0");
    same("in a test, old clock", &[&started[..], &[(99, FASTER)]].concat(), "refused 11 100");
    for (inertia, power, want) in [
        (1049, 100, "refused 16 0"), (1050, 100, "ok"), (1350, 100, "ok"), (1351, 100, "refused 16 0"),
        (1200, 49, "refused 17 0"), (1200, 50, "ok"), (1200, 325, "ok"), (1200, 326, "refused 17 0"),
        (1049, 49, "refused 16 0"), (1351, 326, "refused 16 0"), (0, 65535, "refused 16 0"),
    ] {
        for ms in [0, 5926, u32::MAX] {
            same("ranges", &[(100, run(inertia, power, ms == 0, ms))], want);
        }
    }
}

/// Kind 12 as bytes, and back: yes is 1, any other byte no.
pub fn check_run_items(checks: &mut Checks) {
    let bytes = [12, 1, 0, 0, 0, 0xB0, 4, 100, 0, 1, 0x26, 0x17, 0, 0];
    let mut made = Vec::new();
    put_event(&mut made, Some(1), &FASTER);
    checks.same("a run's bytes", &made[..], &bytes[..]);
    for (byte, faster) in [(1, true), (0, false), (2, false), (255, false)] {
        made[9] = byte;
        let item = Items { data: &made }.event();
        checks.same("a run read", item, Some((1, run(1200, 100, faster, 5926))));
    }
    made.pop();
    checks.same("a run cut off", Items { data: &made }.event(), None);
}
