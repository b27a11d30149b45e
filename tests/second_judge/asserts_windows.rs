//! Own asserts: invalid windows, what empties their count and which verdicts keep it.

use crate::asserts_bench::{last_answer, START};
use crate::asserts_test::{line_of, short};
use crate::bench::{step_of, Event};
use crate::named_records::listing;
use crate::own_asserts::{Checks, LISTED, LISTED_MANUAL};
use crate::reach_tests::second_in;
use crate::reach_windows::Windows;
use crate::rejudging::rejudge_line;
use crate::running::Running;
use crate::script::{good_bits, Item, Script};
use crate::scripted_events::ready_bench;
use crate::vehicle::Vehicle;

/// Measured seconds with a manual gearbox's engine speed just too low, and gas that fails.
fn slow(s: &mut Script, count: usize) {
    s.seconds(count, |w| (w.units[2], w.units[3]) = (2999, 9000));
}

/// Two attempts that end by stops, and the third's settling.
fn third(s: &mut Script) {
    s.void_and_rest(1);
    s.void_and_rest(2);
    s.settle();
}

/// What the last step of a script behind its settling did: did, next, mode, t, passing, failing, invalid, r, q.
fn measured(write: fn(&mut Script)) -> String {
    short(|s| {
        s.settle();
        write(s)
    })
}

/// How many windows a second leaves invalid.
#[rustfmt::skip]
pub fn check_invalid(checks: &mut Checks) {
    let mut same = |name: &str, write: fn(&mut Script), want: &str| {
        checks.same(name, measured(write), format!("measured goes-on 1 {want} 0 0"));
    };
    same("nothing at t = 9", |s| s.clean(9), "9 0 0 0");
    same("nothing at t = 9 with outs", |s| { s.out(2); s.clean(7) }, "9 0 0 0");
    same("valid at t = 10", |s| s.clean(10), "10 1 0 0");
    same("invalid at t = 10", |s| { s.clean(9); s.out(1) }, "10 0 0 1");
    same("all valid", |s| s.clean(24), "24 15 0 0");
    same("all valid and failing", |s| s.dirty(89), "89 0 80 0");
    // One out second takes ten windows.
    same("before an out second", |s| s.clean(15), "15 6 0 0");
    same("on an out second", |s| { s.clean(15); s.out(1) }, "16 6 0 1");
    same("the last one by it", |s| { s.clean(15); s.out(1); s.clean(9) }, "25 6 0 10");
    same("the first one past it", |s| { s.clean(15); s.out(1); s.clean(10) }, "26 7 0 10");
    same("out at t = 3, t = 9", |s| { s.clean(2); s.out(1); s.clean(6) }, "9 0 0 0");
    same("out at t = 3, t = 12", |s| { s.clean(2); s.out(1); s.clean(9) }, "12 0 0 3");
    same("out at t = 3, t = 13", |s| { s.clean(2); s.out(1); s.clean(10) }, "13 1 0 3");
    same("out at t = 1, t = 11", |s| { s.out(1); s.clean(10) }, "11 1 0 1");
    same("out at t = 10, t = 19", |s| { s.clean(9); s.out(1); s.clean(9) }, "19 0 0 10");
    same("out at t = 10, t = 20", |s| { s.clean(9); s.out(1); s.clean(10) }, "20 1 0 10");
    same("out by load", |s| { s.dirty(19); s.seconds(1, |w| w.units[1] = 0); s.dirty(10) }, "30 0 11 10");
    check_invalid_together(checks);
    check_invalid_engines(checks);
}

/// Two out seconds or more.
#[rustfmt::skip]
fn check_invalid_together(checks: &mut Checks) {
    let mut same = |name: &str, write: fn(&mut Script), want: &str| {
        checks.same(name, measured(write), format!("measured goes-on 1 {want} 0 0"));
    };
    same("apart", |s| { s.dirty(4); s.out(1); s.dirty(34); s.out(1); s.dirty(10) }, "50 0 26 15");
    same("11 apart", |s| { s.dirty(19); s.out(1); s.dirty(10); s.out(1); s.dirty(10) }, "41 0 12 20");
    same("10 apart", |s| { s.dirty(19); s.out(1); s.dirty(9); s.out(1); s.dirty(10) }, "40 0 11 20");
    same("overlapping", |s| { s.dirty(19); s.out(1); s.dirty(4); s.out(1); s.dirty(10) }, "35 0 11 15");
    same("u = 2", |s| { s.dirty(19); s.out(2); s.dirty(10) }, "31 0 11 11");
    same("w = 5", |s| { for _ in 0..5 { s.clean(1); s.out(1) } s.clean(9) }, "19 0 0 10");
    same("all three sorts", |s| { s.clean(12); s.dirty(3); s.out(1); s.dirty(10) }, "26 3 4 10");
}

/// Engine speed makes windows invalid without being out.
#[rustfmt::skip]
fn check_invalid_engines(checks: &mut Checks) {
    let mut same = |name: &str, write: fn(&mut Script), want: &str| {
        checks.same(name, measured(write), format!("measured goes-on 1 {want} 0 0"));
    };
    same("engine speed, ten windows", |s| { s.clean(12); slow(s, 1); s.clean(9) }, "22 3 0 10");
    same("engine speed, the next one", |s| { s.clean(12); s.engine(5001); s.clean(10) }, "23 4 0 10");
    same("engine speed and an out second", |s| { s.clean(11); slow(s, 1); s.clean(1); s.out(1); s.clean(10) },
        "24 3 0 12");
    same("good at its ends", |s| { s.engines(6, 3000); s.engines(6, 5000) }, "12 3 0 0");
    same("never good", |s| slow(s, 89), "89 0 0 80");
    same("three in a row restart nothing", |s| { slow(s, 3); s.clean(9) }, "12 0 0 3");
    let line = line_of(&LISTED, |s| {
        s.settle();
        s.clean(9);
        s.engine(0);
        s.no_engine();
    });
    let counts = line.contains(" t 11 u 0 w 0 passing 2 failing 0 invalid 0 rest ");
    checks.same("automatic gearbox", counts, true);
}

/// What empties the three counts.
#[rustfmt::skip]
pub fn check_emptied(checks: &mut Checks) {
    let mut same = |name: &str, write: fn(&mut Script), want: &str| {
        checks.same(name, measured(write), want.to_string());
    };
    same("before a restart", |s| { s.clean(20); s.out(2) }, "measured goes-on 1 22 11 0 2 0 0");
    same("u = 3", |s| { s.clean(20); s.out(3) }, "restarted goes-on 1 0 0 0 0 0 0");
    same("before w = 6", |s| { for _ in 0..5 { s.clean(1); s.out(1) } s.clean(1) }, "measured goes-on 1 11 0 0 2 0 0");
    same("w = 6", |s| for _ in 0..6 { s.clean(1); s.out(1) }, "restarted goes-on 1 0 0 0 0 0 0");
    same("restart at t = 10", |s| { s.clean(7); s.out(3) }, "restarted goes-on 1 0 0 0 0 0 0");
    same("t = 9 behind it", |s| { s.clean(20); s.out(3); s.clean(9) }, "measured goes-on 1 9 0 0 0 0 0");
    same("t = 10 behind it", |s| { s.clean(20); s.out(3); s.clean(10) }, "measured goes-on 1 10 1 0 0 0 0");
    same("invalid behind it", |s| { s.clean(20); s.out(4); s.clean(9) }, "measured goes-on 1 10 0 0 1 0 0");
    same("before another", |s| { s.clean(20); s.out(3); s.clean(8); s.out(2) }, "measured goes-on 1 10 0 0 1 0 0");
    same("another", |s| { s.clean(20); s.out(3); s.clean(8); s.out(3) }, "restarted goes-on 1 0 0 0 0 0 0");
    same("behind another", |s| { for _ in 0..2 { s.clean(12); s.out(3) } s.clean(9); s.out(1) },
        "measured goes-on 1 10 0 0 1 0 0");
    same("stop", |s| { s.clean(12); s.out(1); s.stop(1) }, "void-1 rests 1 0 0 0 0 1 0");
    same("diluted", |s| { s.clean(12); s.out(1); s.sum(599) }, "void-5 rests 1 0 0 0 0 1 0");
    same("void 9", |s| s.inconclusive(false), "void-9 rests 1 0 0 0 0 1 1");
    same("rest", |s| { s.clean(12); s.out(1); s.stop(1); s.idle(4, 9) }, "nothing goes-on 1 0 0 0 0 1 0");
    same("next attempt", |s| { s.clean(12); s.out(1); s.stop(1); s.rest(); s.settle(); s.clean(9) },
        "measured goes-on 1 9 0 0 0 1 0");
    same("mode 2 by failing", |s| { s.dirty(34); slow(s, 56) }, "measured mode-2 2 0 0 0 0 0 0");
    same("mode 2 by q = 2", |s| { slow(s, 90); s.rest(); s.void(9) }, "void-9 mode-2 2 0 0 0 0 0 0");
}

/// The verdicts that keep them.
#[rustfmt::skip]
pub fn check_kept_invalid(checks: &mut Checks) {
    let mut same = |name: &str, write: fn(&mut Script), want: &str| {
        checks.same(name, short(write), want.to_string());
    };
    same("pass at t = 25", |s| { s.settle(); s.clean(24); s.out(1) }, "measured ends-pass 1 25 15 0 1 0 0");
    same("pass, first window invalid", |s| { s.settle(); s.seconds(1, |w| w.units[1] = 0); s.clean(24) },
        "measured ends-pass 1 25 15 0 1 0 0");
    same("pass at t = 27", |s| { s.settle(); s.clean(2); s.out(1); s.clean(24) }, "measured ends-pass 1 27 15 0 3 0 0");
    same("pass at t = 34", |s| { s.settle(); s.clean(15); s.out(1); s.clean(18) }, "measured ends-pass 1 34 15 0 10 0 0");
    same("pass at t = 90", |s| { s.settle(); slow(s, 66); s.clean(24) }, "measured ends-pass 1 90 15 0 66 0 0");
    same("14 at t = 90", |s| { s.settle(); slow(s, 67); s.clean(23) }, "void-9 rests 1 0 0 0 0 1 1");
    same("pass in mode 2", |s| { s.to_mode_2(); s.settle(); s.clean(24); s.out(1) },
        "measured ends-pass 2 25 15 0 1 0 0");
    same("fail", |s| { s.to_mode_2(); s.settle(); s.dirty(34); slow(s, 56) }, "measured ends-fail 2 90 0 25 56 0 0");
    same("fail by void 9", |s| { s.to_mode_2(); s.void_and_rest(9); s.void(9) }, "void-9 ends-fail 2 90 14 24 43 2 2");
    same("stop", |s| { third(s); s.clean(12); s.out(1); s.stop(3) }, "void-3 ends-incomplete 1 13 3 0 1 3 0");
    // The second that voids takes no window.
    same("diluted", |s| { third(s); s.clean(12); s.out(1); s.sum(599) }, "void-5 ends-incomplete 1 13 3 0 1 3 0");
    same("over range", |s| { third(s); s.clean(12); s.out(1); s.seconds(1, |w| w.over = 4) },
        "void-6 ends-incomplete 1 13 3 0 1 3 0");
    same("void 5 at t = 9", |s| { third(s); s.out(1); s.clean(8); s.sum(599) }, "void-5 ends-incomplete 1 9 0 0 0 3 0");
    same("t = 8", |s| { third(s); s.out(1); s.clean(7); s.stop(3) }, "void-3 ends-incomplete 1 8 0 0 0 3 0");
    same("t = 10", |s| { third(s); s.out(1); s.clean(9); s.stop(3) }, "void-3 ends-incomplete 1 10 0 0 1 3 0");
    same("void 8", |s| { s.void_and_rest(1); s.void_and_rest(2); s.far(60); s.settle(); s.dirty(9); s.out(1); s.dirty(64) },
        "void-8 ends-incomplete 1 74 0 55 10 3 0");
    same("void 9", |s| { s.void_and_rest(1); s.void_and_rest(2); s.void(9) }, "void-9 ends-incomplete 1 90 14 24 43 3 1");
    same("as many as there are", |s| { third(s); slow(s, 90) }, "void-9 ends-incomplete 1 90 0 0 81 3 1");
    // Not an earlier attempt's.
    same("in settling", |s| { s.void_and_rest(9); s.void_and_rest(1); s.void(3) }, "void-3 ends-incomplete 1 0 0 0 0 3 0");
    same("on the first second", |s| { s.void_and_rest(9); s.void_and_rest(1); s.seconds(1, |w| w.over = 7) },
        "void-6 ends-incomplete 1 0 0 0 0 3 0");
    same("void 8 on a restart", |s| { s.void_and_rest(1); s.void_and_rest(2); s.far(119); s.settle(); s.clean(12); s.out(3) },
        "void-8 ends-incomplete 1 0 0 0 0 3 0");
}

/// The bench's answer and the line of a record.
pub fn check_invalid_printed(checks: &mut Checks) {
    let answer = |out: u32, last: u32, end: Event| {
        let mut events = ready_bench(100);
        events.push((100, START));
        for i in 1..=last {
            let mut bits = good_bits();
            bits[1] = if i == 11 + out { 0 } else { bits[1] };
            events.push((100 + i, Event::Second(bits)));
        }
        events.push((200, end));
        last_answer(900, 5, &events)
    };
    let second = Event::Second(good_bits());
    let early = answer(1, 35, second);
    checks.same("the bench's pass", &early[..], "ok pass 25 15 0 1");
    let later = answer(12, 44, second);
    checks.same("the bench's later pass", &later[..], "ok pass 34 15 0 10");
    let not_yet = answer(12, 43, second);
    checks.same("the bench's second before", &not_yet[..], "ok");
    let mut record = listing(45);
    record.cells[6 * 20 + 1] = 0;
    let mut line = |rows: usize, want: &str| {
        let mut cut = record.clone();
        cut.cells.truncate(6 * rows);
        checks.same("a record's line", &rejudge_line(&cut.bytes())[..], want);
    };
    line(20, "open 1 9 0 0 0 - - - -");
    line(21, "open 1 10 0 0 1 - - - -");
    line(30, "open 1 19 0 0 10 - - - -");
    line(31, "open 1 20 1 0 10 121 121 217 -");
    line(45, "pass 1 34 15 0 10 121 121 217 -");
}

/// What `reach` names on the last step of a script behind its settling.
fn named(write: fn(&mut Script)) -> String {
    let mut script = Script::new(Vehicle::new(&LISTED_MANUAL, 2339), 3);
    script.settle();
    write(&mut script);
    let mut test = Running::new(script.car);
    let mut windows = Windows::default();
    let mut shown = Vec::new();
    for event in script.items.iter().map(Item::event) {
        if let Ok(step) = step_of(&mut test, &event) {
            shown = windows.step(&script.car, second_in(&event, false), &step);
        }
    }
    shown.join("; ").replace(" in mode 1", "")
}

#[rustfmt::skip]
pub fn check_window_names(checks: &mut Checks) {
    let mut same = |name: &str, write: fn(&mut Script), want: &str| {
        checks.same(name, named(write), want.to_string());
    };
    same("valid, no name", |s| s.clean(20), "");
    same("the newest named", |s| { s.clean(12); s.out(1) },
        "window invalid by out seconds alone; window invalid by its newest second alone");
    same("neither newest nor oldest", |s| { s.clean(12); slow(s, 1); s.clean(1) }, "window invalid by engine speed alone");
    same("the oldest named", |s| { s.out(1); s.clean(9) }, "window invalid by out seconds alone; \
        window invalid by its oldest second alone; window invalid at t = 10");
    same("behind named", |s| { s.out(1); s.clean(10) }, "window valid right behind an invalid one");
    same("restart named", |s| { s.clean(9); s.out(3) }, "invalid windows, then a restart");
    same("another named", |s| for _ in 0..2 { s.clean(9); s.out(3) }, "invalid windows, then another restart");
    same("no invalid one emptied", |s| { s.clean(7); s.out(3) }, "");
}
