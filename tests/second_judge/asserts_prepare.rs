//! Own asserts: prepares, and lock 8 by them.

use crate::asserts_bench::{last_answer, passing_test, GOOD, START};
use crate::bench::Event;
use crate::items::Items;
use crate::make_prepares::{prepare, PREPARED};
use crate::make_runs::PASSED_RUNS;
use crate::make_tests::put_event;
use crate::own_asserts::{Checks, LISTED};
use crate::prepare::Prepare;
use crate::scripted_events::{ready_bench, WRONG};

const FAILED: Event = prepare([15, 0, 0], 0);

const UNFIT: Event = prepare([10_000, 0, 0], 0);

/// Without the prepares.
fn but_prepares(mut events: Vec<(u32, Event)>) -> Vec<(u32, Event)> {
    events.retain(|(_, event)| !matches!(event, Event::Prepare(_)));
    events
}

/// Events at their clocks on a bench that is ready but for the prepare, then what the last answers.
fn after_ready(events: &[(u32, Event)]) -> String {
    let all = [&but_prepares(ready_bench(100)), events].concat();
    last_answer(2_592_000, 5, &all)
}

/// Prepares and what else there is, all at 100, then a start.
fn start_after(events: &[Event]) -> String {
    let start = [START];
    let all: Vec<(u32, Event)> = events
        .iter()
        .chain(&start)
        .map(|event| (100, *event))
        .collect();
    after_ready(&all)
}

/// Each end from both sides, the others inside.
pub fn check_prepare_ends(checks: &mut Checks) {
    for (background, residue, stands) in [
        ([0, 0, 0], 0, true),
        ([14, 1, 24], 0, true),
        ([14, 1, 24], 7, true),
        ([14, 0, 0], 0, true),
        ([15, 0, 0], 0, false),
        ([0, 1, 0], 0, true),
        ([0, 2, 0], 0, false),
        ([0, 0, 24], 0, true),
        ([0, 0, 25], 0, false),
        ([0, 0, 0], 7, true),
        ([0, 0, 0], 8, false),
        ([0, 0, 0], -1, false),
        ([0, 0, 0], i16::MIN, false),
        ([0, 0, 0], i16::MAX, false),
        ([0, 0, 0], 256, false),
        ([256, 0, 0], 0, false),
        ([0, 256, 0], 0, false),
        ([0, 0, 256], 0, false),
        ([9999, 2000, 5000], 0, false),
        ([15, 2, 25], 8, false),
    ] {
        let made = Prepare {
            background,
            residue,
        };
        checks.same(&format!("{made:?}"), made.stands(), stands);
        let want = if stands { "ok" } else { "refused 14 8" };
        let got = start_after(&[prepare(background, residue)]);
        checks.same(&format!("{made:?}, then a start"), &got[..], want);
    }
}

#[rustfmt::skip]
pub fn check_prepare_ages(checks: &mut Checks) {
    for (age, want) in [(0, "ok"), (119, "ok"), (120, "ok"), (121, "refused 14 8"), (122, "refused 14 8")] {
        let got = after_ready(&[(200, PREPARED), (200 + age, START)]);
        checks.same(&format!("a prepare of {age} s"), &got[..], want);
        let late = [ready_bench(u32::MAX - age), vec![(u32::MAX, START)]].concat();
        let got = last_answer(2_592_000, 5, &late);
        checks.same(&format!("a prepare of {age} s at the last clock"), &got[..], want);
    }
    let mut same = |name: &str, events: &[(u32, Event)], want: &str| {
        checks.same(name, &after_ready(events)[..], want);
    };
    same("from the latest", &[(100, PREPARED), (200, PREPARED), (320, START)], "ok");
    same("not from the first", &[(100, PREPARED), (200, FAILED), (210, START)], "refused 14 8");
    same("lock 2 at 1,800 s", &[(1900, PREPARED), (1900, START)], "ok");
    same("lock 2 is not renewed", &[(1000, PREPARED), (1900, PREPARED), (1901, START)], "refused 14 2");
}

#[rustfmt::skip]
pub fn check_prepare_order(checks: &mut Checks) {
    let mut same = |name: &str, events: &[Event], want: &str| {
        checks.same(name, &start_after(events)[..], want);
    };
    let again = [Event::WarmUp, Event::Calibration(true), GOOD, PASSED_RUNS[0], PASSED_RUNS[1]];
    let voided = |by: Event, then: &[Event]| [&[PREPARED, by], &again[..], then].concat();
    same("no prepare", &[], "refused 14 8");
    same("a prepare", &[PREPARED], "ok");
    same("a failed one after it", &[PREPARED, FAILED], "refused 14 8");
    same("one that stands after a failed one", &[FAILED, PREPARED], "ok");
    same("failed twice, then one that stands", &[FAILED, PREPARED, FAILED, PREPARED], "ok");
    for by in [Event::PowerOn, Event::ClockSetting(100), Event::ClockSetting(99), Event::ClockSetting(0)] {
        same("voided", &voided(by, &[]), "refused 14 8");
        same("voided, then failed", &voided(by, &[FAILED]), "refused 14 8");
        same("voided, then unfit", &voided(by, &[UNFIT]), "refused 14 8");
        same("prepared again", &voided(by, &[PREPARED]), "ok");
        same("prepared first", &[&[by, PREPARED], &again[..]].concat(), "ok");
    }
    for event in [Event::WarmUp, Event::Calibration(true), GOOD, Event::AuthorityUnlock, Event::Upload] {
        same("no other kind voids it", &[PREPARED, event], "ok");
    }
    same("runs leave it", &[PREPARED, PASSED_RUNS[1], PASSED_RUNS[0]], "ok");
    same("wrong tries leave it", &[PREPARED, WRONG, GOOD], "ok");
    same("authority lock leaves it", &[PREPARED, Event::AuthorityLock, Event::AuthorityUnlock], "ok");
    let first = |then: Event| [vec![(0, then)], but_prepares(ready_bench(0)), vec![(0, START)]].concat();
    checks.same("the first event ever", &last_answer(900, 5, &first(PREPARED))[..], "ok");
    checks.same("failed as the first event", &last_answer(900, 5, &first(FAILED))[..], "refused 14 8");
    checks.same("unfit as the first event", &last_answer(900, 5, &[(0, UNFIT)])[..], "refused 18 4");
    checks.same("none as yet", &last_answer(900, 5, &first(Event::WarmUp))[..], "refused 14 8");
}

#[rustfmt::skip]
pub fn check_prepare_use(checks: &mut Checks) {
    let tested = [vec![(100, PREPARED)], passing_test(100)].concat();
    let mut same = |name: &str, events: &[(u32, Event)], want: &str| {
        checks.same(name, &after_ready(events)[..], want);
    };
    let after = |then: &[(u32, Event)]| [&tested[..], then].concat();
    same("the test", &tested, "ok pass 25 16 0 0");
    same("used up", &after(&[(136, START)]), "refused 14 8");
    same("used up, failed", &after(&[(136, FAILED), (136, START)]), "refused 14 8");
    same("prepared again", &after(&[(136, PREPARED), (136, START)]), "ok");
    same("two before one start", &[&[(100, PREPARED)], &tested[..], &[(136, START)]].concat(), "refused 14 8");
    let on = [(100, PREPARED), (100, START), (101, Event::PowerOn)];
    let renewed = but_prepares(ready_bench(101));
    same("power-on gives nothing back", &[&on[..], &renewed, &[(101, START)]].concat(), "refused 14 8");
    same("prepared after it", &[&on[..], &renewed, &[(101, PREPARED), (101, START)]].concat(), "ok");
    let in_test = [(100, PREPARED), (100, START), (100, START), (100, PREPARED)];
    let tested = [&in_test, &passing_test(100)[1..]].concat();
    same("the test goes on", &tested, "ok pass 25 16 0 0");
    same("both refused 12", &[&tested[..], &[(136, START)]].concat(), "refused 14 8");
    let again = [(136, PREPARED), (136, START)];
    same("prepared after them", &[&tested[..], &again].concat(), "ok");
}

/// A refused start uses nothing, locked or refused otherwise.
#[rustfmt::skip]
pub fn check_refused_starts(checks: &mut Checks) {
    let mut same = |name: &str, events: &[(u32, Event)], want: &str| {
        checks.same(name, &after_ready(events)[..], want);
    };
    let mut settings = LISTED;
    settings[0] = 3;
    for (name, start, want) in [
        ("4", (100, Event::Start(settings, 2339)), "refused 4 1"),
        ("5", (100, Event::Start(LISTED, 499)), "refused 5 0"),
        ("11", (99, START), "refused 11 100"),
    ] {
        same(name, &[(100, PREPARED), start], want);
        same("uses nothing", &[(100, PREPARED), start, (100, START)], "ok");
    }
    for (lock, by, lift) in [
        ("refused 14 3", Event::Calibration(false), Event::Calibration(true)),
        ("refused 14 4", WRONG, GOOD),
        ("refused 14 6", Event::AuthorityLock, Event::AuthorityUnlock),
    ] {
        same("locked", &[(100, PREPARED), (100, by), (100, START)], lock);
        let lifted = [(100, PREPARED), (100, by), (100, START), (120, lift), (220, START)];
        same("a locked start uses nothing", &lifted, "ok");
    }
    same("a start locked by 8", &[(100, START), (100, PREPARED), (221, START), (221, PREPARED), (222, START)], "ok");
}

#[rustfmt::skip]
pub fn check_prepare_refusals(checks: &mut Checks) {
    let mut same = |name: &str, events: &[(u32, Event)], want: &str| {
        checks.same(name, &after_ready(events)[..], want);
    };
    for (background, want) in [
        ([9999, 0, 0], "ok"), ([10_000, 0, 0], "refused 18 4"), ([65535, 0, 0], "refused 18 4"),
        ([0, 2000, 0], "ok"), ([0, 2001, 0], "refused 18 5"), ([0, 65535, 0], "refused 18 5"),
        ([0, 0, 5000], "ok"), ([0, 0, 5001], "refused 18 6"), ([0, 0, 65535], "refused 18 6"),
        ([9999, 2000, 5000], "ok"), ([10_000, 2001, 0], "refused 18 4"), ([10_000, 0, 5001], "refused 18 4"),
        ([0, 2001, 5001], "refused 18 5"), ([9999, 2001, 5001], "refused 18 5"), ([9999, 2000, 5001], "refused 18 6"),
        ([10_000, 2001, 5001], "refused 18 4"), ([65535, 65535, 65535], "refused 18 4"),
    ] {
        for residue in [0, 7, -1, 8, i16::MIN, i16::MAX] {
            same("greatest", &[(100, prepare(background, residue))], want);
        }
        let kept = if want == "ok" { "refused 14 8" } else { "ok" };
        let event = prepare(background, 0);
        same("a standing one before it", &[(100, PREPARED), (100, event), (100, START)], kept);
        same("a failed one before it", &[(100, FAILED), (100, event), (100, START)], "refused 14 8");
    }
    same("18 moves no clock", &[(500, UNFIT), (100, PREPARED), (100, START)], "ok");
    let in_test = |then: (u32, Event)| vec![(100, PREPARED), (100, START), then];
    for event in [PREPARED, FAILED, UNFIT] {
        same("in a test", &in_test((100, event)), "refused 12 0");
        same("in a test, old clock", &in_test((99, event)), "refused 11 100");
        same("old clock", &[(99, event)], "refused 11 100");
    }
    same("refused 11 changes nothing", &[(100, PREPARED), (99, FAILED), (100, START)], "ok");
    same("refused 11 is none", &[(99, PREPARED), (100, START)], "refused 14 8");
}

/// Locks 1 to 7 go before lock 8.
#[rustfmt::skip]
pub fn check_lock_8_last(checks: &mut Checks) {
    let mut same = |name: &str, events: &[(u32, Event)], want: &str| {
        checks.same(name, &after_ready(events)[..], want);
    };
    same("lock 1 first", &[(100, Event::PowerOn), (100, START)], "refused 14 1");
    same("lock 2 first", &[(1901, START)], "refused 14 2");
    same("lock 3 first", &[(100, Event::Calibration(false)), (100, START)], "refused 14 3");
    same("lock 4 first", &[(100, WRONG), (100, START)], "refused 14 4");
    let wrong = [WRONG, WRONG, WRONG, WRONG, GOOD, START].map(|event| (100, event));
    same("lock 5 first", &wrong, "refused 14 5");
    same("lock 6 first", &[(100, Event::AuthorityLock), (100, START)], "refused 14 6");
    let unsent = [ready_bench(100), passing_test(100)].concat();
    for (then, want) in [
        (&[(136, START)][..], "refused 14 7"),
        (&[(136, PREPARED), (136, START)], "refused 14 7"),
        (&[(136, Event::Upload), (136, START)], "refused 14 8"),
        (&[(136, PREPARED), (136, START), (136, Event::Upload), (136, START)], "ok"),
    ] {
        let got = last_answer(900, 1, &[&unsent[..], then].concat());
        checks.same("lock 7 first", &got[..], want);
    }
}

/// Kind 13 as bytes, and back: HC, CO, NO, then the residue in two's complement.
pub fn check_prepare_items(checks: &mut Checks) {
    let bytes = [13, 1, 0, 0, 0, 0x0F, 0x27, 2, 1, 3, 0, 0xFE, 0xFF];
    let event = prepare([9999, 258, 3], -2);
    let mut made = Vec::new();
    put_event(&mut made, Some(1), &event);
    checks.same("a prepare's bytes", &made[..], &bytes[..]);
    let item = Items { data: &made }.event();
    checks.same("a prepare read", item, Some((1, event)));
    for (high, residue) in [(0, 254), (0x7F, 32766), (0x80, -32514)] {
        made[12] = high;
        let item = Items { data: &made }.event();
        let want = prepare([9999, 258, 3], residue);
        checks.same("a residue read", item, Some((1, want)));
    }
    made.pop();
    checks.same("a prepare cut off", Items { data: &made }.event(), None);
}
