//! Reach: tests.

use crate::attempt::Did;
use crate::bench::Event;
use crate::items::Items;
use crate::modes::{did_text, next_text, test_item};
use crate::numbers::{judge_reading, judge_readings, second_of, Reading, Second};
use crate::reach::{names, texts, Reach};
use crate::reach_dips::{dips_in_tests, Runs};
use crate::reach_engines::{Engines, IN_A_TEST, ON_THE_SHEET};
use crate::reach_hundredths::{hundredths_in_tests, Twin};
use crate::reach_windows::{windows_in_tests, Windows};
use crate::record::cause_fits;
use crate::running::{Running, Step};
use crate::test::Next;
use crate::vehicle::Vehicle;

pub fn reach_tests(data: &[u8]) -> Reach {
    let mut reach = Reach::new(required_of_tests());
    let mut items = Items { data };
    let mut test: Option<Running> = None;
    let mut shown = Shown::default();
    while let Some(event) = items.u8().and_then(|kind| items.fields(kind)) {
        let mode = test.as_ref().map_or(0, |t| t.standing.mode);
        let c = test.as_ref().map_or(0, |t| t.seconds.len() + 1);
        let car = test.as_ref().map(|t| t.car);
        let automatic = car.is_some_and(|car| car.automatic);
        if test.as_ref().is_some_and(|t| t.ended) {
            reach_after_end(&mut reach, &event, automatic);
        }
        match test_item(&mut test, &event) {
            Ok(None) => {
                shown.windows = Windows::default();
                shown.twin = test.as_ref().map(|test| Twin::new(test.car));
                reach.count("begun")
            }
            Err(refusal) => reach.count(refusal.to_string()),
            Ok(Some(step)) => {
                let (did, next) = (did_text(step.did), next_text(step.next));
                reach.count(format!("{did} {next} in mode {mode}"));
                reach.count(did);
                reach.count(next);
                if step.did == Did::Void(7) && c == 145 {
                    reach.count(format!("void-7 at c = 145 in mode {mode}"));
                }
                let names = car.map(|car| shown.step(&car, &event, &step));
                names.iter().flatten().for_each(|name| reach.count(name));
                if let Next::Ends(_) = step.next {
                    reach_kept(&mut reach, &step);
                }
            }
        }
    }
    reach
}

/// What a test shows of dips, of invalid windows, of engine speeds and of CO2 in hundredths.
#[derive(Default)]
struct Shown {
    runs: Runs,
    windows: Windows,
    engines: Engines,
    twin: Option<Twin>,
}

impl Shown {
    fn step(&mut self, car: &Vehicle, event: &Event, step: &Step) -> Vec<String> {
        let second = second_in(event, car.automatic);
        let mut shown = self.runs.step(second.map(|s| s.speed), step);
        shown.extend(self.windows.step(car, second, step));
        let emptied = self.engines.step(second.and_then(|s| s.engine), step);
        let engines = self.engines.names(car.automatic).into_iter().chain(emptied);
        let twin = self.twin.iter_mut().flat_map(|twin| twin.step(event, step));
        shown.extend(engines.chain(twin).map(str::to_string));
        shown
    }
}

/// The units of a code in a second.
pub fn units_of(event: &Event, code: u8, automatic: bool) -> Option<i64> {
    match event {
        Event::Second(bits) => match judge_reading(code, automatic, bits[code as usize - 1]) {
            Some(Reading::Units(units)) => Some(units),
            _ => None,
        },
        _ => None,
    }
}

/// The second that an event brings, where it is fit.
pub fn second_in(event: &Event, automatic: bool) -> Option<Second> {
    match event {
        Event::Second(bits) => judge_readings(automatic, bits).ok().map(|r| second_of(&r)),
        _ => None,
    }
}

const KEPT: [&str; 6] = [
    "kept n",
    "kept g",
    "kept u, w in settling",
    "kept u, w in measuring",
    "kept c, t in measuring",
    "kept c in settling",
];

/// The counts that a verdict keeps, where they are not 0.
fn reach_kept(reach: &mut Reach, step: &Step) {
    let s = &step.state;
    let settling = s.n > 0;
    let held = [
        settling,
        s.g > 0,
        settling && s.u > 0 && s.w > 0,
        !settling && s.u > 0 && s.w > 0,
        s.t > 0 && s.c > s.t,
        settling && s.c > 0,
    ];
    for (what, held) in KEPT.iter().zip(held) {
        if held {
            reach.count(*what);
        }
    }
}

fn required_of_tests() -> Vec<String> {
    let mut required = texts(&["nothing", "began", "measured", "restarted"]);
    required.extend(texts(&["goes-on", "rests", "rest-ended", "mode-2"]));
    required.extend(texts(&["ends-pass", "ends-fail", "ends-incomplete"]));
    required.extend(texts(&["refused 5 0", "refused 13 0", "refused 15 0"]));
    required.extend(names("refused 4 ", 1..=7));
    required.extend(texts(&[
        "measured mode-2 in mode 1",
        "void-9 mode-2 in mode 1",
        "measured ends-pass in mode 1",
        "measured ends-pass in mode 2",
        "measured ends-fail in mode 2",
        "void-9 ends-fail in mode 2",
        "second after the end",
        "unfit second after the end",
        "stop after the end",
        "unfit stop after the end",
    ]));
    required.extend(texts(&KEPT));
    required.extend(texts(&ON_THE_SHEET));
    required.extend(texts(&IN_A_TEST));
    required.extend(dips_in_tests());
    required.extend(windows_in_tests());
    required.extend(hundredths_in_tests());
    required.extend(names("void-7 at c = 145 in mode ", 1..=2));
    for mode in 1..=2 {
        for void in 1..=9 {
            required.push(format!("void-{void} rests in mode {mode}"));
        }
    }
    required
}

/// What comes on a test that has ended.
fn reach_after_end(reach: &mut Reach, event: &Event, automatic: bool) {
    match event {
        Event::Second(bits) => match judge_readings(automatic, bits) {
            Ok(_) => reach.count("second after the end"),
            Err(_) => reach.count("unfit second after the end"),
        },
        Event::Stop(cause) if cause_fits(*cause) => reach.count("stop after the end"),
        Event::Stop(_) => reach.count("unfit stop after the end"),
        _ => {}
    }
}
