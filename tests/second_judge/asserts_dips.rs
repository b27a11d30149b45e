//! Own asserts: an early pass needs each of seconds 1 to 10 at most 8 below second 1.

use crate::asserts_test::short;
use crate::bench::step_of;
use crate::own_asserts::{Checks, LISTED_MANUAL};
use crate::reach_dips::Runs;
use crate::reach_tests::units_of;
use crate::running::Running;
use crate::script::{bits_of, Item, Script};
use crate::vehicle::Vehicle;

/// How a run of the attempt stands in one mode, the script written behind its settling.
fn stands(mode: u8, write: impl Fn(&mut Script)) -> String {
    short(|s| {
        if mode == 2 {
            s.to_mode_2();
        }
        s.settle();
        write(s)
    })
}

/// A run of clean windows that ends, or goes on, at t.
fn pass(mode: u8, t: usize) -> String {
    format!("measured ends-pass {mode} {t} {} 0 0 0 0", t - 9)
}

fn goes_on(mode: u8, t: usize) -> String {
    format!("measured goes-on {mode} {t} {} 0 0 0 0", t - 9)
}

pub fn check_dips(checks: &mut Checks) {
    for mode in [1, 2] {
        check_second_6(checks, mode);
        for second in 2..=10 {
            check_dip_at(checks, mode, second);
        }
        check_slow_fall(checks, mode);
        check_other_runs(checks, mode);
        check_restarts(checks, mode);
        check_out_dips(checks, mode);
        check_unit_counts(checks, mode);
    }
    check_dip_names(checks);
}

/// A dip at second 6 alone keeps the test running to t = 90.
fn check_second_6(checks: &mut Checks, mode: u8) {
    for t in 25..=89 {
        let line = stands(mode, |s| s.dip(6, 9, t));
        checks.same("dip of 9 at second 6", line, goes_on(mode, t));
    }
    let line = stands(mode, |s| s.dip(6, 9, 90));
    checks.same("dip of 9 at t = 90", line, pass(mode, 90));
    let line = stands(mode, |s| s.dip(6, 8, 25));
    checks.same("dip of 8 at second 6", line, pass(mode, 25));
}

fn check_dip_at(checks: &mut Checks, mode: u8, second: usize) {
    let mut same = |name: &str, depth: i64, count: usize, want: String| {
        let line = stands(mode, |s| s.dip(second, depth, count));
        checks.same(&format!("{name} at second {second}"), line, want);
    };
    same("8", 8, 25, pass(mode, 25));
    same("9, t = 25", 9, 25, goes_on(mode, 25));
    same("9, t = 89", 9, 89, goes_on(mode, 89));
    same("9, t = 90", 9, 90, pass(mode, 90));
}

/// A fall of 1 a second counts from second 1, not from the second before.
fn check_slow_fall(checks: &mut Checks, mode: u8) {
    for (t, want) in [
        (25, goes_on(mode, 25)),
        (89, goes_on(mode, 89)),
        (90, pass(mode, 90)),
    ] {
        checks.same("slow fall", stands(mode, |s| s.slow_fall(t)), want);
    }
    let to_8 = |i: usize| if i <= 9 { 5 - i as i64 } else { 0 };
    let line = stands(mode, |s| s.speeds(25, to_8));
    checks.same("slow fall to 8", line, pass(mode, 25));
}

/// Only second 1 is compared with, and only seconds 2 to 10 with it.
#[rustfmt::skip]
fn check_other_runs(checks: &mut Checks, mode: u8) {
    let mut same = |name: &str, off: fn(usize) -> i64, want: String| {
        checks.same(name, stands(mode, |s| s.speeds(25, off)), want);
    };
    same("dip at second 11", |i| if i == 11 { -9 } else { 0 }, pass(mode, 25));
    same("dip at second 24", |i| if i == 24 { -15 } else { 0 }, pass(mode, 25));
    same("rise of 20, then 12 down", |i| match i { 1 => -10, 2..=5 => 10, _ => -2 }, pass(mode, 25));
    same("rise of 30", |i| if i == 1 { -15 } else { 15 }, pass(mode, 25));
    same("second 1 at 9 below", |i| if i == 1 { -9 } else { 0 }, pass(mode, 25));
    same("all but second 1 at 8", |i| if i == 1 { 8 } else { 0 }, pass(mode, 25));
    same("all but second 1 at 9", |i| if i == 1 { 9 } else { 0 }, goes_on(mode, 25));
    same("dips of 8", |i| if i % 2 == 0 { -4 } else { 4 }, pass(mode, 25));
}

/// A restart forgets a dip, and second 1 with it.
#[rustfmt::skip]
fn check_restarts(checks: &mut Checks, mode: u8) {
    let mut same = |name: &str, write: fn(&mut Script), want: String| {
        checks.same(name, stands(mode, write), want);
    };
    same("dip, restart", |s| { s.dip(6, 9, 12); s.out(3); s.clean(25) }, pass(mode, 25));
    same("dip, restart, t = 24", |s| { s.dip(6, 9, 12); s.out(3); s.clean(24) }, goes_on(mode, 24));
    same("dip, restart before second 10", |s| { s.dip(2, 9, 2); s.out(3); s.clean(25) }, pass(mode, 25));
    same("held back, restart", |s| { s.dip(6, 9, 26); s.out(3); s.clean(25) }, pass(mode, 25));
    same("dip, restart by w = 6", |s| {
        s.dip(6, 9, 8);
        for _ in 0..6 { s.clean(1); s.out(1) }
        s.clean(25);
    }, pass(mode, 25));
    same("two dips, two restarts", |s| { for i in [3, 9] { s.dip(i, 9, 10); s.out(3) } s.clean(25) }, pass(mode, 25));
    same("dip after a restart", |s| { s.clean(12); s.out(3); s.dip(6, 9, 89) }, goes_on(mode, 89));
    same("dip after a restart, t = 90", |s| { s.clean(12); s.out(3); s.dip(6, 9, 90) }, pass(mode, 90));
    same("dip of 8 after a restart", |s| { s.dip(6, 9, 12); s.out(3); s.dip(6, 8, 25) }, pass(mode, 25));
    same("below the old second 1", |s| { s.speeds(12, |_| 15); s.out(3); s.speeds(25, |_| -15) }, pass(mode, 25));
    same("above the old second 1", |s| { s.speeds(12, |_| -15); s.out(3); s.dip(6, 9, 25) }, goes_on(mode, 25));
    // A new attempt has its own seconds too.
    same("dip, rest", |s| { s.dip(6, 9, 25); s.stop(1); s.rest(); s.pass() },
        pass(mode, 25).replace(" 0 0 0 0", " 0 0 1 0"));
}

/// A second of the ten that is out counts in the drop, though in no window.
fn check_out_dips(checks: &mut Checks, mode: u8) {
    let mut same = |name: &str, count: usize, off: i64, want: &str| {
        let line = stands(mode, |s| s.speeds(count, |i| if i == 6 { off } else { 0 }));
        checks.same(name, line, want.replace('M', &mode.to_string()));
    };
    same("out above", 30, 16, "measured ends-pass M 30 15 0 6 0 0");
    same("out below", 30, -16, "measured goes-on M 30 15 0 6 0 0");
    same(
        "out below, t = 90",
        90,
        -16,
        "measured ends-pass M 90 75 0 6 0 0",
    );
}

/// The drop is one of unit counts: 25.04 to 24.16 is 8, 24.96 to 24.14 is 9.
fn check_unit_counts(checks: &mut Checks, mode: u8) {
    for (above, below, depth) in [(40, -40, 8), (-40, 40, 9)] {
        let line = stands(mode, |s| {
            let begin = s.items.len();
            s.clean(25);
            let target = s.car.target(s.mode);
            put_speed(&mut s.items[begin], target, above);
            put_speed(&mut s.items[begin + 5], target - depth, below);
        });
        let want = match depth {
            8 => pass(mode, 25),
            _ => goes_on(mode, 25),
        };
        checks.same("unit counts", line, want);
    }
}

/// The speed of a second, hundredths of a unit beside a number of units.
fn put_speed(item: &mut Item, units: i64, offset: i64) {
    if let Item::Second(bits) = item {
        bits[0] = bits_of(1, units, offset);
    }
}

/// What `reach` names of a script's dips.
fn named(write: fn(&mut Script)) -> String {
    let mut script = Script::new(Vehicle::new(&LISTED_MANUAL, 2339), 3);
    script.settle();
    write(&mut script);
    let mut test = Running::new(script.car);
    let mut runs = Runs::default();
    let mut shown = Vec::new();
    for event in script.items.iter().map(Item::event) {
        if let (false, Ok(step)) = (test.ended, step_of(&mut test, &event)) {
            shown.extend(runs.step(units_of(&event, 1, false), &step));
        }
    }
    shown.join("; ").replace(" in mode 1", "")
}

#[rustfmt::skip]
fn check_dip_names(checks: &mut Checks) {
    let mut same = |name: &str, write: fn(&mut Script), want: &str| {
        checks.same(name, named(write), want.to_string());
    };
    same("no dip named", |s| s.clean(25), "");
    same("8 named", |s| s.dip(6, 8, 25), "dip of 8 at second 6 without a restart: pass");
    same("9 named", |s| s.dip(6, 9, 25), "dip of 9 at second 6 without a restart: held back");
    same("not yet named", |s| s.dip(6, 9, 24), "");
    same("late named", |s| s.dip(10, 9, 90),
        "dip of 9 at second 10 without a restart: held back; held back: pass at t = 90");
    same("before and after named", |s| { s.dip(2, 9, 12); s.out(3); s.dip(3, 9, 26); s.out(3); s.dip(4, 8, 25) },
        "dip of 9 at second 3 after a restart: held back; \
         dip of 8 at second 4 after a restart: pass; \
         dip of 9 at second 2 before a restart: forgotten; dip of 9 at second 3 before a restart: forgotten");
    same("higher run before", |s| { s.speeds(11, |_| 9); s.out(3); s.clean(25) },
        "9 or more below second 1 of a run before a restart: pass");
    same("8 higher run before", |s| { s.speeds(11, |_| 8); s.out(3); s.clean(25) }, "");
    same("lower run before", |s| { s.clean(3); s.out(3); s.speeds(25, |i| if i == 1 { 9 } else { 0 }) },
        "at most 8 below second 1 of each run before a restart: held back");
    same("cut short named", |s| { s.dip(4, 9, 4); s.out(3); s.clean(25) },
        "dip of 9 at second 4 before a restart: forgotten; \
         dip of 9 or more in a run of fewer than ten seconds: forgotten");
    same("restart not behind", |s| { s.dip(4, 9, 12); s.stop(1); s.rest(); s.pass() }, "");
    same("two dips not named", |s| s.speeds(25, |i| if i == 3 || i == 6 { -9 } else { 0 }), "");
    same("eleventh named", |s| s.dip(11, 9, 25), "dip of 9 at second 11: pass");
    same("slow fall named", |s| s.slow_fall(25), "fall of 1 a second to 9 below: held back");
}
