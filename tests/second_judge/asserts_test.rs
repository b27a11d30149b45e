//! Own asserts: settling, measuring, voids, what a verdict keeps.

use crate::attempt::{Did, Stop};
use crate::bench::{step_of, Event};
use crate::dice::Dice;
use crate::driver::driven_test;
use crate::make_records::{until_verdict, Site};
use crate::modes::{test_item, test_line};
use crate::numbers::{judge_readings, second_of, Second, OVER};
use crate::own_asserts::{Checks, LISTED, LISTED_MANUAL};
use crate::running::{Running, Step, Verdict};
use crate::script::{good_bits, Item, Script};
use crate::scripted_tests::{scripted_test, SCRIPTS};
use crate::test::judge_test;
use crate::vehicle::Vehicle;

/// Plays a script to its end and gives every step.
fn steps(script: &Script) -> Vec<Step> {
    let mut test = Running::new(script.car);
    let mut steps = Vec::new();
    for item in &script.items {
        if let (false, Ok(step)) = (test.ended, step_of(&mut test, &item.event())) {
            steps.push(step);
        }
    }
    steps
}

/// The last step of a script as a line.
fn last_line(write: impl Fn(&mut Script)) -> String {
    line_of(&LISTED_MANUAL, write)
}

/// The same with other settings.
pub fn line_of(settings: &[u16; 7], write: impl Fn(&mut Script)) -> String {
    let mut script = Script::new(Vehicle::new(settings, 2339), 3);
    write(&mut script);
    match steps(&script).pop() {
        Some(step) => test_line(&Ok(Some(step))),
        None => String::new(),
    }
}

#[rustfmt::skip]
pub fn check_settling(checks: &mut Checks) {
    let state = |did: &str, mode, stage, numbers: [usize; 11]| {
        let [c, n, g, t, u, w, passing, failing, rest, r, q] = numbers;
        format!(
            "{did} mode {mode} stage {stage} c {c} n {n} g {g} t {t} u {u} w {w} \
             passing {passing} failing {failing} invalid 0 rest {rest} r {r} q {q} engine -"
        )
    };
    let settling = |c, n, g, u, w| {
        state("nothing goes-on", 1, "settling", [c, n, g, 0, u, w, 0, 0, 0, 0, 0])
    };
    let sum = |s: &mut Script, co| s.seconds(1, |w| (w.units[4], w.units[6]) = (co, 500));
    let line = last_line(|s| { s.clean(4); sum(s, 100) });
    checks.same("sum 600 is not ready", line, settling(5, 5, 0, 0, 0));
    let line = last_line(|s| { s.clean(4); sum(s, 101) });
    checks.same("sum 601 is ready", line, settling(5, 5, 5, 0, 0));
    let line = last_line(|s| { s.clean(4); sum(s, 99) });
    let void_5 = state("void-5 rests", 1, "rest", [0, 0, 0, 0, 0, 0, 0, 0, 0, 1, 0]);
    checks.same("sum 599 is void 5", line, void_5);
    checks.same("idle at 10", last_line(|s| s.idle(3, 10)), settling(0, 0, 0, 0, 0));
    checks.same("out at n = 0", last_line(|s| s.far(5)), settling(5, 0, 0, 0, 0));
    let line = last_line(|s| { s.unready(1); s.far(1) });
    checks.same("one out", line, settling(2, 2, 0, 1, 1));
    let line = last_line(|s| { s.unready(1); s.far(2) });
    checks.same("u = 2 resets", line, settling(3, 0, 0, 0, 0));
    let line = last_line(|s| for _ in 0..4 { s.unready(1); s.far(1) });
    checks.same("w = 4 does not", line, settling(8, 8, 0, 1, 4));
    let line = last_line(|s| for _ in 0..5 { s.unready(1); s.far(1) });
    checks.same("w = 5 resets", line, settling(10, 0, 0, 0, 0));
    let line = last_line(|s| { s.unready(18); s.far(2) });
    checks.same("u = 2 at n = 20 resets", line, settling(20, 0, 0, 0, 0));
    let line = last_line(|s| { s.unready(19); s.far(2) });
    checks.same("u = 2 at n = 21 does not", line, settling(21, 21, 0, 1, 1));
    let line = last_line(|s| { s.unready(19); s.far(1); s.clean(2) });
    checks.same("u stays past n = 20", line, settling(22, 22, 2, 1, 1));
    let began = |c| state("began goes-on", 1, "measuring", [c, 0, 0, 0, 0, 0, 0, 0, 0, 0, 0]);
    checks.same("g = 10", last_line(|s| s.clean(10)), settling(10, 10, 10, 0, 0));
    checks.same("g = 11", last_line(|s| s.clean(11)), began(11));
    checks.same("n = 25, g = 5", last_line(|s| { s.unready(20); s.clean(5) }), began(25));
    let void_7 = state("void-7 rests", 1, "rest", [0, 0, 0, 0, 0, 0, 0, 0, 0, 1, 0]);
    checks.same("n = 25, g = 4", last_line(|s| { s.unready(21); s.clean(4) }), void_7);
    let void_8 = state("void-8 rests", 1, "rest", [0, 0, 0, 0, 0, 0, 0, 0, 0, 1, 0]);
    checks.same("c = 145 at n = 0", last_line(|s| s.far(145)), void_8.clone());
    checks.same("c = 144 at n = 0", last_line(|s| s.far(144)), settling(144, 0, 0, 0, 0));
    let line = last_line(|s| { s.far(134); s.clean(11) });
    checks.same("measuring begins at c = 145", line, void_8.clone());
    let line = last_line(|s| { s.far(131); s.clean(11); s.out(3) });
    checks.same("restart at c = 145", line, void_8);
    let mode_2 = |c, n, g| {
        state("nothing goes-on", 2, "settling", [c, n, g, 0, 0, 0, 0, 0, 0, 0, 0])
    };
    let line = last_line(|s| { s.to_mode_2(); s.far(3) });
    checks.same("mode 2, n = 0", line, mode_2(3, 0, 0));
    let line = last_line(|s| { s.to_mode_2(); s.far(3); s.clean(4); s.far(2) });
    checks.same("mode 2 counts all", line, mode_2(9, 6, 0));
    let line = last_line(|s| { s.to_mode_2(); s.unready(10); s.clean(5) });
    let began_2 = state("began goes-on", 2, "measuring", [15, 0, 0, 0, 0, 0, 0, 0, 0, 0, 0]);
    checks.same("mode 2, n = 15, g = 5", line, began_2);
    let line = last_line(|s| { s.to_mode_2(); s.unready(11); s.clean(4) });
    let void_7 = state("void-7 rests", 2, "rest", [0, 0, 0, 0, 0, 0, 0, 0, 0, 1, 0]);
    checks.same("mode 2, n = 15, g = 4", line, void_7);
}

/// did, next, mode, t, passing, failing, invalid, r, q of a script's last step.
pub fn short(write: impl Fn(&mut Script)) -> String {
    let line = last_line(write);
    let word: Vec<&str> = line.split(' ').collect();
    [0, 1, 3, 13, 19, 21, 23, 27, 29]
        .map(|i| word.get(i).copied().unwrap_or("?"))
        .join(" ")
}

#[rustfmt::skip]
pub fn check_measuring(checks: &mut Checks) {
    let mut same = |name: &str, write: fn(&mut Script), want: &str| {
        checks.same(name, short(write), want.to_string());
    };
    same("early pass", |s| s.pass(), "measured ends-pass 1 25 16 0 0 0 0");
    same("t = 24", |s| { s.settle(); s.clean(24) }, "measured goes-on 1 24 15 0 0 0 0");
    same("fall of 8", |s| { s.settle(); s.falling(25, 8) }, "measured ends-pass 1 25 16 0 0 0 0");
    same("fall of 9", |s| { s.settle(); s.falling(89, 9) }, "measured goes-on 1 89 80 0 0 0 0");
    same("late pass", |s| { s.settle(); s.falling(90, 9) }, "measured ends-pass 1 90 81 0 0 0 0");
    same("early pass when out", |s| { s.settle(); s.clean(24); s.out(1) },
        "measured ends-pass 1 25 15 0 1 0 0");
    same("failing", |s| { s.settle(); s.dirty(90) }, "measured mode-2 2 0 0 0 0 0 0");
    same("failing in mode 2", |s| { s.to_mode_2(); s.settle(); s.dirty(90) },
        "measured ends-fail 2 90 0 81 0 0 0");
    same("pass in mode 2", |s| { s.to_mode_2(); s.pass() }, "measured ends-pass 2 25 16 0 0 0 0");
    same("14 and 24", |s| { s.settle(); s.inconclusive(false) }, "void-9 rests 1 0 0 0 0 1 1");
    same("failing 25", |s| { s.settle(); s.inconclusive(true) }, "measured mode-2 2 0 0 0 0 0 0");
    same("u = 3", |s| { s.settle(); s.clean(20); s.out(3) }, "restarted goes-on 1 0 0 0 0 0 0");
    same("u = 2", |s| { s.settle(); s.clean(20); s.out(2) }, "measured goes-on 1 22 11 0 2 0 0");
    same("w = 6", |s| { s.settle(); for _ in 0..6 { s.clean(1); s.out(1) } },
        "restarted goes-on 1 0 0 0 0 0 0");
    same("after a restart", |s| { s.settle(); s.clean(20); s.out(3); s.clean(12) },
        "measured goes-on 1 12 3 0 0 0 0");
    same("engine never out", |s| { s.settle(); s.seconds(20, |w| w.units[2] = 2999) },
        "measured goes-on 1 20 0 0 11 0 0");
    same("t = 90 at c = 145", |s| { s.far(44); s.settle(); s.dirty(90) },
        "measured mode-2 2 0 0 0 0 0 0");
    same("c = 145 at t = 89", |s| { s.far(45); s.settle(); s.dirty(89) },
        "void-8 rests 1 0 0 0 0 1 0");
    same("void 9 at c = 145", |s| { s.far(44); s.settle(); s.inconclusive(false) },
        "void-9 rests 1 0 0 0 0 1 1");
}

#[rustfmt::skip]
pub fn check_voids(checks: &mut Checks) {
    let mut same = |name: &str, write: fn(&mut Script), want: &str| {
        checks.same(name, short(write), want.to_string());
    };
    same("void 6", |s| s.void(6), "void-6 rests 1 0 0 0 0 1 0");
    same("stop", |s| { s.clean(3); s.stop(4) }, "void-4 rests 1 0 0 0 0 1 0");
    same("stop at c = 0", |s| { s.idle(3, 10); s.stop(4) }, "nothing goes-on 1 0 0 0 0 0 0");
    same("stop in rest", |s| { s.void(1); s.idle(5, 9); s.stop(2); s.idle(5, 9) },
        "nothing rest-ended 1 0 0 0 0 1 0");
    same("rest broken", |s| { s.void(1); s.idle(9, 9); s.seconds(1, |w| w.units[0] = 10);
        s.idle(9, 9) }, "nothing goes-on 1 0 0 0 0 1 0");
    same("rest over", |s| { s.void(1); s.idle(9, 9); s.seconds(1, |w| w.units[0] = 10);
        s.idle(10, 9) }, "nothing rest-ended 1 0 0 0 0 1 0");
    same("three voids", |s| { s.void_and_rest(1); s.void_and_rest(2); s.settle(); s.clean(12);
        s.stop(3) }, "void-3 ends-incomplete 1 12 3 0 0 3 0");
    same("void not in t", |s| { s.void_and_rest(1); s.void_and_rest(2); s.void(5) },
        "void-5 ends-incomplete 1 3 0 0 0 3 0");
    same("void 8 keeps t", |s| { s.void_and_rest(1); s.void_and_rest(2); s.void(8) },
        "void-8 ends-incomplete 1 74 0 65 0 3 0");
    same("q = 2", |s| { s.void_and_rest(9); s.void(9) }, "void-9 mode-2 2 0 0 0 0 0 0");
    same("q = 2 in mode 2", |s| { s.to_mode_2(); s.void_and_rest(9); s.void(9) },
        "void-9 ends-fail 2 90 14 24 43 2 2");
    same("q reset", |s| { s.void_and_rest(9); s.void_and_rest(7); s.void(9) },
        "void-9 ends-incomplete 1 90 14 24 43 3 1");
    same("no restart of mode", |s| { s.to_mode_2(); s.void_and_rest(7) },
        "nothing rest-ended 2 0 0 0 0 1 0");
    same("idle is not looked at", |s| s.seconds(3, |w| {
        (w.units[0], w.units[4], w.units[6], w.over) = (10, 0, 0, 4)
    }), "nothing goes-on 1 0 0 0 0 0 0");
    same("speed 11 is looked at", |s| s.seconds(1, |w| (w.units[0], w.over) = (11, 4)),
        "void-6 rests 1 0 0 0 0 1 0");
    same("over before diluted", |s| s.seconds(1, |w| (w.units[6], w.over) = (0, 5)),
        "void-6 rests 1 0 0 0 0 1 0");
    same("stop after c = 145", |s| { s.far(145); s.stop(1) }, "nothing goes-on 1 0 0 0 0 1 0");
    let line = last_line(|s| { s.void(1); s.seconds(1, |w| w.units[0] = 10); s.idle(3, 9) });
    let rest = "nothing goes-on mode 1 stage rest c 0 n 0 g 0 t 0 u 0 w 0 \
        passing 0 failing 0 invalid 0 rest 3 r 1 q 0 engine -";
    checks.same("rest count", line, rest.to_string());
}

/// The state after a verdict: did, next, then the counts that it keeps.
#[rustfmt::skip]
pub fn check_kept(checks: &mut Checks) {
    let mut same = |name: &str, write: fn(&mut Script), want: &str| {
        let line = last_line(write);
        checks.same(name, line.replace(" stage ended", ""), want.to_string());
    };
    same("pass keeps", |s| s.pass(),
        "measured ends-pass mode 1 c 36 n 0 g 0 t 25 u 0 w 0 passing 16 failing 0 invalid 0 rest 0 r 0 q 0 engine 4000");
    same("out pass keeps", |s| { s.settle(); s.clean(22); s.out(1); s.clean(1); s.out(1) },
        "measured goes-on mode 1 stage measuring c 36 n 0 g 0 t 25 u 1 w 2 passing 13 failing 0 invalid 3 rest 0 r 0 q 0 \
         engine 4000");
    same("last second out", |s| { s.settle(); s.clean(24); s.out(1) },
        "measured ends-pass mode 1 c 36 n 0 g 0 t 25 u 1 w 1 passing 15 failing 0 invalid 1 rest 0 r 0 q 0 engine 4000");
    same("fail keeps", |s| { s.to_mode_2(); s.settle(); s.dirty(90) },
        "measured ends-fail mode 2 c 95 n 0 g 0 t 90 u 0 w 0 passing 0 failing 81 invalid 0 rest 0 r 0 q 0 engine 4000");
    same("void 7 keeps", |s| { s.void_and_rest(1); s.void_and_rest(2); s.unready(19); s.far(1);
            s.unready(1); s.clean(4) },
        "void-7 ends-incomplete mode 1 c 25 n 25 g 4 t 0 u 1 w 1 passing 0 failing 0 invalid 0 rest 0 r 3 q 0 engine -");
    same("void 7 in mode 2 keeps", |s| { s.to_mode_2(); s.void_and_rest(1); s.void_and_rest(2); s.far(2);
            s.unready(13); s.clean(2) },
        "void-7 ends-incomplete mode 2 c 17 n 15 g 2 t 0 u 0 w 0 passing 0 failing 0 invalid 0 rest 0 r 3 q 0 engine -");
    same("n = 25 on c = 145", |s| { s.void_and_rest(1); s.void_and_rest(2); s.far(120); s.unready(25) },
        "void-7 ends-incomplete mode 1 c 145 n 25 g 0 t 0 u 0 w 0 passing 0 failing 0 invalid 0 rest 0 r 3 q 0 engine -");
    same("void 5 in settling keeps", |s| { s.void_and_rest(1); s.void_and_rest(2); s.clean(3); s.far(1);
            s.sum(599) },
        "void-5 ends-incomplete mode 1 c 5 n 4 g 0 t 0 u 1 w 1 passing 0 failing 0 invalid 0 rest 0 r 3 q 0 engine -");
    same("void 6 on the first second", |s| { s.void_and_rest(1); s.void_and_rest(2);
            s.seconds(1, |w| w.over = 7) },
        "void-6 ends-incomplete mode 1 c 1 n 0 g 0 t 0 u 0 w 0 passing 0 failing 0 invalid 0 rest 0 r 3 q 0 engine -");
    same("stop in settling keeps", |s| { s.void_and_rest(1); s.void_and_rest(2); s.void(3) },
        "void-3 ends-incomplete mode 1 c 7 n 7 g 7 t 0 u 0 w 0 passing 0 failing 0 invalid 0 rest 0 r 3 q 0 engine -");
    same("void 8 in settling keeps", |s| { s.void_and_rest(1); s.void_and_rest(2); s.far(130); s.unready(13);
            s.clean(2) },
        "void-8 ends-incomplete mode 1 c 145 n 15 g 2 t 0 u 0 w 0 passing 0 failing 0 invalid 0 rest 0 r 3 q 0 engine -");
    same("void 8 where measuring begins", |s| { s.void_and_rest(1); s.void_and_rest(2); s.far(134); s.clean(11) },
        "void-8 ends-incomplete mode 1 c 145 n 0 g 0 t 0 u 0 w 0 passing 0 failing 0 invalid 0 rest 0 r 3 q 0 engine -");
    same("void 8 at a restart", |s| { s.void_and_rest(1); s.void_and_rest(2); s.far(131); s.clean(11); s.out(3) },
        "void-8 ends-incomplete mode 1 c 145 n 0 g 0 t 0 u 0 w 0 passing 0 failing 0 invalid 0 rest 0 r 3 q 0 engine -");
    same("void 6 in measuring keeps", |s| { s.void_and_rest(1); s.void_and_rest(2); s.settle(); s.clean(3);
            s.out(1); s.seconds(1, |w| w.over = 4) },
        "void-6 ends-incomplete mode 1 c 16 n 0 g 0 t 4 u 1 w 1 passing 0 failing 0 invalid 0 rest 0 r 3 q 0 engine -");
    same("stop in measuring keeps", |s| { s.void_and_rest(1); s.void_and_rest(2); s.settle(); s.out(2);
            s.clean(1); s.out(1); s.stop(2) },
        "void-2 ends-incomplete mode 1 c 15 n 0 g 0 t 4 u 1 w 3 passing 0 failing 0 invalid 0 rest 0 r 3 q 0 engine -");
}

/// Seconds and stops on an ended test are 13, before 8 and 15.
pub fn check_ended(checks: &mut Checks) {
    let mut script = Script::new(Vehicle::new(&LISTED_MANUAL, 2339), 3);
    script.pass();
    let mut test = None;
    let mut last = String::new();
    let begin = [Event::Start(LISTED_MANUAL, 2339)].into_iter();
    for event in begin.chain(script.items.iter().map(Item::event)) {
        last = test_line(&test_item(&mut test, &event));
    }
    checks.same("ended", last.starts_with("measured ends-pass"), true);
    for event in [
        Event::Second(good_bits()),
        Event::Second([OVER; 8]),
        Event::Stop(1),
        Event::Stop(0),
        Event::Stop(5),
    ] {
        let line = test_line(&test_item(&mut test, &event));
        checks.same("on an ended test", line, "refused 13 0".into());
    }
}

/// A whole test judged from its lists agrees with the same test growing.
pub fn check_growing(checks: &mut Checks) {
    let mut dice = Dice(21);
    let (mut differing, mut verdicts) = (0, 0);
    for _ in 0..60 {
        let car = Site::some(&mut dice).car();
        let items = driven_test(car, 1500, &mut dice);
        let (whole, growing) = both_ways(car, items);
        verdicts += whole.0.is_some() as usize;
        differing += (whole != growing) as usize;
    }
    checks.same("driven tests, whole and growing", differing, 0);
    checks.same("driven tests end", verdicts > 30, true);
    for settings in [LISTED, LISTED_MANUAL, [2, 2005, 50, 1, 50, 20, 1013]] {
        let car = Vehicle::new(&settings, 2339);
        for items in (0..SCRIPTS).filter_map(|i| scripted_test(car, 4, i)) {
            let (whole, growing) = both_ways(car, until_verdict(car, &items));
            checks.same("script, whole and growing", whole, growing);
        }
    }
}

/// Verdict, mode, voids and engine speed of a test, judged whole and growing.
type Outcome = (Option<Verdict>, u8, Vec<u8>, Option<u128>);

fn both_ways(car: Vehicle, items: Vec<Item>) -> (Outcome, Outcome) {
    let (seconds, stops) = lists_of(car.automatic, &items);
    let whole = judge_test(&car, &seconds, &stops);
    let verdict = whole.word.map(|word| Verdict {
        word,
        t: whole.t,
        passing: whole.passing,
        failing: whole.failing,
        invalid: whole.invalid,
    });
    let script = Script {
        items,
        ..Script::new(car, 0)
    };
    let mut growing = (None, 1, Vec::new(), None);
    for step in steps(&script) {
        growing.0 = step.verdict();
        growing.1 = step.state.standing.mode;
        if let Did::Void(void) = step.did {
            growing.2.push(void);
        }
        growing.3 = step.state.engine;
    }
    ((verdict, whole.mode, whole.voids, whole.engine), growing)
}

fn lists_of(automatic: bool, items: &[Item]) -> (Vec<Second>, Vec<Stop>) {
    let (mut seconds, mut stops) = (Vec::new(), Vec::new());
    for item in items {
        match item {
            Item::Stop(cause) => stops.push(Stop {
                past: seconds.len(),
                cause: *cause,
            }),
            Item::Second(bits) => {
                if let Ok(readings) = judge_readings(automatic, bits) {
                    seconds.push(second_of(&readings));
                }
            }
        }
    }
    (seconds, stops)
}
