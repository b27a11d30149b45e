//! Own asserts: the engine speed of the last valid window.

use crate::asserts_test::line_of;
use crate::bench::step_of;
use crate::dice::Dice;
use crate::driver::driven_test;
use crate::make_records::{until_verdict, Site};
use crate::named_records::{listing, sample};
use crate::numbers::{judge_readings, second_of, MISSING};
use crate::own_asserts::{Checks, LISTED, LISTED_MANUAL};
use crate::reach_engines::Engines;
use crate::rejudging::rejudge_line;
use crate::running::Running;
use crate::script::{bits_of, Item, Script};
use crate::scripted_tests::{scripted_test, SCRIPTS};
use crate::vehicle::Vehicle;
use crate::window::{engine_mean, Measured};

/// The mean of ten engine speeds.
fn mean(speeds: &[Option<u128>]) -> Option<u128> {
    let measured = |engine: &Option<u128>| Measured {
        speed: 250,
        out: false,
        engine: *engine,
        engine_good: true,
        hc: 0,
        co: 0,
        no: 0,
    };
    engine_mean(&speeds.iter().map(measured).collect::<Vec<_>>())
}

/// Nine of one speed and one more.
fn nine_and(speed: u128, last: u128) -> Vec<Option<u128>> {
    [vec![Some(speed); 9], vec![Some(last)]].concat()
}

pub fn check_means(checks: &mut Checks) {
    let half_each = [vec![Some(3999); 5], vec![Some(4000); 5]].concat();
    checks.same("3999 and 4000", mean(&half_each), Some(4000));
    checks.same("39995", mean(&nine_and(3999, 4004)), Some(4000));
    checks.same("39994", mean(&nine_and(3999, 4003)), Some(3999));
    checks.different("rounded down", mean(&half_each), Some(39995 / 10));
    checks.different("rounded up", mean(&nine_and(3999, 4003)), Some(4000));
    checks.same("all 0", mean(&nine_and(0, 0)), Some(0));
    checks.same("sum 4", mean(&nine_and(0, 4)), Some(0));
    checks.same("sum 5", mean(&nine_and(0, 5)), Some(1));
    checks.same("all 9999", mean(&nine_and(9999, 9999)), Some(9999));
    checks.same("all missing", mean(&[None; 10]), None);
    let mut turned = nine_and(3999, 4004);
    for i in 0..10 {
        turned.rotate_left(1);
        checks.same("in any order", mean(&turned), Some(4000));
        let mut one_missing = turned.clone();
        one_missing[i] = None;
        checks.same("one missing", mean(&one_missing), None);
    }
}

/// The engine speed after a script's last step.
fn shown(settings: &[u16; 7], write: fn(&mut Script)) -> String {
    let line = line_of(settings, |s| {
        s.missing = 0;
        write(s)
    });
    match line.split_once(" engine ") {
        Some((_, engine)) => engine.to_string(),
        None => line,
    }
}

#[rustfmt::skip]
pub fn check_engines(checks: &mut Checks) {
    let mut same = |name: &str, write: fn(&mut Script), want: &str| {
        checks.same(name, shown(&LISTED_MANUAL, write), want.to_string());
    };
    same("no window at t = 9", |s| { s.settle(); s.clean(9) }, "-");
    same("window at t = 10", |s| { s.settle(); s.clean(10) }, "4000");
    same("3999 and 4000 in a test", |s| { s.settle(); s.clean(3); s.engines(5, 3999); s.engines(5, 4000) },
        "4000");
    same("39995 in a test", |s| { s.settle(); s.clean(3); s.engines(9, 3999); s.engine(4004) }, "4000");
    same("39994 in a test", |s| { s.settle(); s.clean(3); s.engines(9, 3999); s.engine(4003) }, "3999");
    same("not settling's", |s| { s.engines(11, 3000); s.engines(10, 5000) }, "5000");
    same("the newest counts", |s| { s.settle(); s.engines(10, 3000); s.engine(5000) }, "3200");
    same("the oldest is gone", |s| { s.settle(); s.engine(5000); s.engines(10, 3000) }, "3000");
    same("of a failing window", |s| { s.settle(); s.seconds(10, |w| (w.units[2], w.units[3]) = (3333, 9000)) }, "3333");
    same("failing after passing", |s| { s.settle(); s.engines(10, 3000);
        s.seconds(1, |w| (w.units[2], w.units[3]) = (5000, 9000)) }, "3200");
    // An out second, or an engine speed that is not good, leaves the last valid window as it was.
    same("older by an out second", |s| { s.settle(); s.engines(12, 3500);
        s.seconds(2, |w| (w.units[0], w.units[2]) = (w.units[0] + 16, 4500)) }, "3500");
    same("still older", |s| { s.settle(); s.engines(12, 3500); s.out(2); s.engines(9, 4500) }, "3500");
    same("a new one", |s| { s.settle(); s.engines(12, 3500); s.out(2); s.engines(10, 4500) }, "4500");
    same("older by engine speed", |s| { s.settle(); s.engines(12, 3500); s.engine(5001); s.engines(9, 5000) }, "3500");
    same("new after engine speed", |s| { s.settle(); s.engines(12, 3500); s.engine(2999); s.engines(10, 3000) }, "3000");
    // Emptied with the window.
    same("restart by u = 3", |s| { s.settle(); s.clean(12); s.out(3) }, "-");
    same("restart by w = 6", |s| { s.settle(); s.clean(12); for _ in 0..6 { s.clean(1); s.out(1) } }, "-");
    same("nine after a restart", |s| { s.settle(); s.clean(12); s.out(3); s.clean(9) }, "-");
    same("ten after a restart", |s| { s.settle(); s.clean(12); s.out(3); s.engines(10, 3100) }, "3100");
    same("stop", |s| { s.settle(); s.clean(12); s.stop(1) }, "-");
    same("diluted", |s| { s.settle(); s.clean(12); s.sum(599) }, "-");
    same("void 9", |s| { s.settle(); s.inconclusive(false) }, "-");
    same("in rest", |s| { s.settle(); s.clean(12); s.stop(1); s.idle(5, 9) }, "-");
    same("after rest", |s| { s.settle(); s.clean(12); s.stop(1); s.rest(); s.settle(); s.clean(9) }, "-");
    same("mode 2 by failing", |s| s.to_mode_2(), "-");
    same("mode 2 by q = 2", |s| { s.void_and_rest(9); s.void(9) }, "-");
    same("settling in mode 2", |s| { s.to_mode_2(); s.clean(4) }, "-");
    // A verdict keeps the last attempt's.
    same("pass", |s| { s.settle(); s.engines(15, 3000); s.engines(10, 3210) }, "3210");
    same("pass when out", |s| { s.settle(); s.engines(24, 3210); s.out(1) }, "3210");
    same("fail", |s| { s.to_mode_2(); s.settle(); s.dirty(90) }, "4000");
    same("incomplete with a window", |s| { s.void_and_rest(1); s.void_and_rest(2); s.settle(); s.engines(12, 3456);
        s.stop(3) }, "3456");
    same("incomplete by void 8", |s| { s.void_and_rest(1); s.void_and_rest(2); s.void(8) }, "4000");
    same("incomplete, an earlier attempt's window", |s| { s.void_and_rest(1); s.settle(); s.clean(12); s.stop(2);
        s.rest(); s.void(3) }, "-");
    check_automatic(checks);
    check_engine_lines(checks);
}

#[rustfmt::skip]
fn check_automatic(checks: &mut Checks) {
    let mut same = |name: &str, write: fn(&mut Script), want: &str| {
        checks.same(name, shown(&LISTED, write), want.to_string());
    };
    same("automatic at 0", |s| { s.settle(); s.engines(10, 0) }, "0");
    same("automatic at 9999", |s| { s.settle(); s.engines(10, 9999) }, "9999");
    same("missing, the newest", |s| { s.settle(); s.clean(12); s.no_engine() }, "-");
    same("missing, the oldest", |s| { s.settle(); s.clean(3); s.no_engine(); s.clean(9) }, "-");
    same("missing before the window", |s| { s.settle(); s.clean(3); s.no_engine(); s.clean(10) }, "4000");
    same("missing in settling", |s| { s.clean(10); s.no_engine(); s.clean(10) }, "4000");
    same("missing in an out second", |s| { s.settle(); s.clean(12);
        s.seconds(1, |w| (w.units[1], w.missing) = (0, 100)) }, "4000");
}

/// The ninth field of the line.
fn check_engine_lines(checks: &mut Checks) {
    let mut same = |name: &str, bytes: &[u8], want: &str| {
        checks.same(name, rejudge_line(bytes), want.to_string());
    };
    // Document 01's car with a code 3 channel.
    let with_engine = |speed: fn(usize) -> u32| {
        let mut content = listing(36);
        content.codes.push(3);
        let rows = content.cells.chunks(6).enumerate();
        content.cells = rows
            .flat_map(|(row, cells)| [cells, &[speed(row)]].concat())
            .collect();
        content.bytes()
    };
    let line = |engine: &str| format!("pass 1 25 16 0 0 121 121 217 {engine}");
    let steady = with_engine(|_| bits_of(3, 4000, 0));
    same("listing with code 3", &steady, &line("4000"));
    let zeros = with_engine(|_| 0);
    same("listing at 0", &zeros, &line("0"));
    // The ten seconds of the last window are rows 27 to 36.
    let rising = with_engine(|row| bits_of(3, 100 * row as i64, 0));
    same("listing, rising", &rising, &line("3050"));
    let oldest = with_engine(|row| if row == 26 { MISSING } else { 0 });
    same("listing, row 27 missing", &oldest, &line("-"));
    let newest = with_engine(|row| if row == 35 { MISSING } else { 0 });
    same("listing, row 36 missing", &newest, &line("-"));
    let before = with_engine(|row| if row == 25 { MISSING } else { 0 });
    same("listing, row 26 missing", &before, &line("0"));
    let last_of = |name: &str| {
        let line = sample(name).map_or(String::new(), |bytes| rejudge_line(&bytes));
        line.rsplit(' ').next().map(str::to_string)
    };
    let number = last_of("engine_speed").and_then(|last| last.parse::<u32>().ok());
    let good = number.is_some_and(|speed| (3000..=5000).contains(&speed));
    checks.same("sample engine_speed", good, true);
}

/// The mean agrees with the engine speeds gathered as the steps go by.
pub fn check_gathered(checks: &mut Checks) {
    let mut dice = Dice(31);
    let mut shown = 0;
    for _ in 0..60 {
        let car = Site::some(&mut dice).car();
        let items = driven_test(car, 1500, &mut dice);
        let (differing, numbers) = gathered(car, &items);
        checks.same("driven test, engine speeds", differing, 0);
        shown += numbers;
    }
    checks.same("engine speeds shown", shown > 1000, true);
    for settings in [LISTED, LISTED_MANUAL] {
        let car = Vehicle::new(&settings, 2339);
        for items in (0..SCRIPTS).filter_map(|i| scripted_test(car, 5, i)) {
            let (differing, _) = gathered(car, &until_verdict(car, &items));
            checks.same("script, engine speeds", differing, 0);
        }
    }
}

/// The steps whose engine speed differs, and those that have one.
fn gathered(car: Vehicle, items: &[Item]) -> (usize, usize) {
    let mut test = Running::new(car);
    let mut engines = Engines::default();
    let (mut differing, mut numbers) = (0, 0);
    for item in items {
        let second = match item {
            Item::Second(bits) => judge_readings(car.automatic, bits).ok(),
            Item::Stop(_) => None,
        };
        let engine = second.and_then(|readings| second_of(&readings).engine);
        if let Ok(step) = step_of(&mut test, &item.event()) {
            engines.step(engine, &step);
            let gathered = engines.mean().map(|speed| speed as u128);
            differing += (gathered != step.state.engine) as usize;
            numbers += gathered.is_some() as usize;
        }
    }
    (differing, numbers)
}
