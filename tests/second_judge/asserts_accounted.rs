//! Own asserts: from t = 9 on each measured second ends a passing, a failing or an invalid window.

use crate::bench::step_of;
use crate::dice::Dice;
use crate::driver::driven_test;
use crate::make_events::make_events;
use crate::make_records::{make_records, until_verdict, Site};
use crate::make_tests::make_tests;
use crate::modes::{mode_events, mode_judge_many, mode_tests};
use crate::own_asserts::Checks;
use crate::reach_tests::second_in;
use crate::reach_windows::Windows;
use crate::running::Running;
use crate::script::Item;
use crate::scripted_tests::{scripted_gearbox, scripted_test, SCRIPTS};
use crate::vehicle::Vehicle;

/// Where a line has its t, passing, failing and invalid, in words from 0 on.
const IN_A_STATE: [usize; 4] = [13, 19, 21, 23];

const IN_A_VERDICT: [usize; 4] = [2, 3, 4, 5];

/// Looks at lines as they are printed.
struct Printed {
    places: [usize; 4],
    other: usize,   // in which the three counts are not t - 9 together, 0 before t = 10
    invalid: usize, // with invalid windows
}

impl Printed {
    fn at(places: [usize; 4]) -> Printed {
        Printed {
            places,
            other: 0,
            invalid: 0,
        }
    }

    fn line(&mut self, line: &str) {
        let words: Vec<&str> = line.split(' ').collect();
        let number = |place: usize| words.get(place)?.parse::<usize>().ok();
        if let [Some(t), Some(passing), Some(failing), Some(invalid)] = self.places.map(number) {
            self.other += (passing + failing + invalid != t.saturating_sub(9)) as usize;
            self.invalid += (invalid > 0) as usize;
        }
    }
}

/// In all that is printed of tests, of events and of records.
pub fn check_accounted(checks: &mut Checks) {
    let mut tests = Printed::at(IN_A_STATE);
    let mut events = Printed::at(IN_A_VERDICT);
    let mut records = Printed::at(IN_A_VERDICT);
    for seed in 1..=2 {
        mode_tests(&make_tests(seed, 80), &mut |line| tests.line(line));
        mode_events(&make_events(seed, 4000), &mut |line| events.line(line));
        mode_judge_many(&make_records(seed, 500), &mut |line| records.line(line));
    }
    for (what, printed) in [("tests", tests), ("events", events), ("records", records)] {
        checks.same(&format!("{what}: t - 9"), printed.other, 0);
        let shown = printed.invalid > 10;
        checks.same(&format!("{what} with invalid windows"), shown, true);
    }
}

/// The judge's count agrees with one by rows of good seconds, as the steps go by.
pub fn check_invalid_gathered(checks: &mut Checks) {
    let mut dice = Dice(41);
    let (mut differing, mut shown) = (0, 0);
    for _ in 0..60 {
        let car = Site::some(&mut dice).car();
        let (other, some) = gathered(car, &driven_test(car, 1500, &mut dice));
        differing += other;
        shown += some;
    }
    checks.same("driven tests, invalid windows", differing, 0);
    checks.same("invalid windows shown", shown > 1000, true);
    for index in 0..SCRIPTS {
        let settings = [
            1 + index as u16 % 2,
            2005,
            50,
            scripted_gearbox(index),
            50,
            20,
            1013,
        ];
        let car = Vehicle::new(&settings, 2339);
        let items = scripted_test(car, 6, index).unwrap_or_default();
        differing += gathered(car, &until_verdict(car, &items)).0;
    }
    checks.same("scripts, invalid windows", differing, 0);
}

/// The steps whose counts differ, and those that have some.
fn gathered(car: Vehicle, items: &[Item]) -> (usize, usize) {
    let (mut test, mut windows) = (Running::new(car), Windows::default());
    let (mut differing, mut some) = (0, 0);
    for event in items.iter().map(Item::event) {
        if let Ok(step) = step_of(&mut test, &event) {
            windows.step(&car, second_in(&event, car.automatic), &step);
            differing += (windows.invalid != step.state.invalid) as usize;
            some += (windows.invalid > 0) as usize;
        }
    }
    (differing, some)
}
