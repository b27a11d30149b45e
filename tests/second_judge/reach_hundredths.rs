//! Reach: where CO2 rounded to a tenth, as before hundredths, would give something else.

use crate::attempt::{Did, Stage};
use crate::bench::{step_of, Event};
use crate::journaling::{start_lines, Journal};
use crate::numbers::{judge_reading, unit_count, Second, MISSING};
use crate::reach::texts;
use crate::reach_tests::second_in;
use crate::record::{read_record, u32_at, Record};
use crate::rejudging::rejudge_line;
use crate::running::{Running, State, Step};
use crate::script::{bits_of, Item};
use crate::test::{Next, Word};
use crate::vehicle::Vehicle;
use crate::window::{measured_of, window_passes, window_sums, Measured};

const READY: &str = "sum 601, ready: by tenths not";

const NOT_READY: &str = "sum 600, not ready: by tenths ready";

const VOID_5: &str = "sum 599, void 5: by tenths none";

const NO_VOID: &str = "sum 600, no void: by tenths void 5";

const NO_VOID_601: &str = "sum 601, no void: by tenths void 5";

const PASSING: &str = "window passing: by tenths failing";

const FAILING: &str = "window failing: by tenths passing";

const PASS: &str = "pass: by tenths none";

const FAIL: &str = "fail: by tenths none";

const INCOMPLETE: &str = "incomplete: by tenths none";

const AVERAGES: &str = "averages: by tenths others";

const ABOVE: &str = "CO2 from 18.005 to under 18.05: refused 8";

const BELOW: &str = "CO2 from -0.05 to under -0.005: refused 8";

const LINES: &str = "lines of starts: by tenths others";

/// What second by second is told apart.
const SECONDS: [&str; 7] = [
    READY,
    NOT_READY,
    VOID_5,
    NO_VOID,
    NO_VOID_601,
    PASSING,
    FAILING,
];

/// Required of tests.
pub fn hundredths_in_tests() -> Vec<String> {
    [texts(&SECONDS), texts(&[PASS, FAIL, INCOMPLETE])].concat()
}

/// Required of records.
pub fn hundredths_in_records() -> Vec<String> {
    let whole = texts(&[PASS, INCOMPLETE, AVERAGES, ABOVE, BELOW]);
    [texts(&SECONDS), whole].concat()
}

/// Required of lists of events.
pub fn hundredths_in_events() -> Vec<String> {
    [hundredths_in_tests(), texts(&[ABOVE, BELOW])].concat()
}

/// Required of journals.
pub fn hundredths_in_journals() -> Vec<String> {
    texts(&[LINES])
}

/// A CO2 reading rounded to a tenth where it was fit in tenths; else as it is.
pub fn by_tenths(bits: u32) -> u32 {
    match unit_count(bits, 10) {
        Some(tenths @ 0..=180) => bits_of(7, 10 * tenths as i64, 0),
        _ => bits,
    }
}

pub fn event_by_tenths(event: &Event) -> Event {
    match *event {
        Event::Second(mut bits) => {
            bits[6] = by_tenths(bits[6]);
            Event::Second(bits)
        }
        other => other,
    }
}

/// A record with its CO2 rounded to tenths, none where it does not read.
pub fn record_by_tenths(bytes: &[u8]) -> Option<Vec<u8>> {
    let record = read_record(bytes).ok()?;
    let column = record.columns()[6]?;
    let mut rounded = bytes.to_vec();
    for row in 0..record.rows {
        let at = record.row_at(row) + 4 * column;
        let cell = by_tenths(u32_at(bytes, at)).to_le_bytes();
        rounded[at..at + 4].copy_from_slice(&cell);
    }
    Some(rounded)
}

/// Why an unfit CO2 is worth a name: it was fit in tenths.
pub fn unfit_co2(bits: u32) -> Option<&'static str> {
    let unfit = judge_reading(7, false, bits).is_none();
    match unit_count(bits, 10) {
        Some(0) if unfit => Some(BELOW),
        Some(180) if unfit => Some(ABOVE),
        _ => None,
    }
}

/// The same for an event that was refused 8 for its CO2.
pub fn unfit_co2_in(event: &Event) -> Option<&'static str> {
    match event {
        Event::Second(bits) => unfit_co2(bits[6]),
        _ => None,
    }
}

/// The same for a record that was refused 8 there.
pub fn unfit_co2_at(bytes: &[u8], place: usize) -> Option<&'static str> {
    let record = read_record(bytes).ok()?;
    let column = (place - record.rows_at) / 4 % record.codes.len();
    let cell = (record.codes[column] == 7).then(|| u32_at(bytes, place))?;
    unfit_co2(cell)
}

/// CO2 + CO of a second, and by tenths; none where a gas is over range.
fn sums(event: &Event, automatic: bool) -> Option<(u128, u128)> {
    let sum = |event: &Event| Some(second_in(event, automatic)?.gases?.sum());
    Some((sum(event)?, sum(&event_by_tenths(event))?))
}

/// Ready but for its sum.
fn else_ready(car: &Vehicle, mode: u8, second: &Second) -> bool {
    car.off_target(mode, second.speed) <= 15
        && car.load_in_tolerance(mode, second.load)
        && car.engine_good(second.engine)
}

/// A test beside the same one by tenths.
pub struct Twin {
    test: Running,
    run: Vec<Measured>,     // the measured seconds of the run under way, by tenths
    counts: (usize, usize), // its passing and failing windows, in hundredths
}

impl Twin {
    pub fn new(car: Vehicle) -> Twin {
        Twin {
            test: Running::new(car),
            run: Vec::new(),
            counts: (0, 0),
        }
    }

    /// Takes what the test took, and its step; names what tenths would make otherwise.
    pub fn step(&mut self, event: &Event, step: &Step) -> Vec<&'static str> {
        let other = match self.test.ended {
            true => None,
            false => step_of(&mut self.test, &event_by_tenths(event)).ok(),
        };
        let mut shown = self.second_names(event, step);
        self.gather(event, &step.state);
        shown.extend(self.window_name(&step.state));
        shown.extend(verdict_name(step.next, other.map(|other| other.next)));
        shown
    }

    fn second_names(&self, event: &Event, step: &Step) -> Vec<&'static str> {
        let (car, state) = (&self.test.car, &step.state);
        let Some((sum, tenths)) = sums(event, car.automatic) else {
            return Vec::new();
        };
        let second = second_in(event, car.automatic);
        let near = second.is_some_and(|s| else_ready(car, state.standing.mode, &s));
        let void = matches!(step.did, Did::Void(_));
        let settling = state.stage == Stage::Settling && state.c > 0;
        let ready = step.did == Did::Began || (settling && state.g > 0);
        let counted = state.c > 0 && !void;
        let names = [
            (READY, sum == 601 && ready && tenths <= 600),
            (NOT_READY, sum == 600 && settling && near && tenths > 600),
            (
                VOID_5,
                sum == 599 && step.did == Did::Void(5) && tenths >= 600,
            ),
            (NO_VOID, sum == 600 && counted && tenths < 600),
            (NO_VOID_601, sum == 601 && counted && tenths < 600),
        ];
        let held = names.iter().filter(|(_, held)| *held);
        held.map(|(what, _)| *what).collect()
    }

    /// A measured second more, or a run to begin.
    fn gather(&mut self, event: &Event, state: &State) {
        let car = &self.test.car;
        if state.t == 0 {
            self.run.clear();
        }
        if state.t > self.run.len() {
            let second = second_in(&event_by_tenths(event), car.automatic);
            let measured =
                second.and_then(|s| Some(measured_of(car, state.standing.mode, &s, &s.gases?)));
            self.run.extend(measured);
        }
    }

    /// Of a window that ends here, the same ten seconds by tenths.
    fn window_name(&mut self, state: &State) -> Option<&'static str> {
        let now = (state.passing, state.failing);
        let before = std::mem::replace(&mut self.counts, now);
        let car = &self.test.car;
        let window = &self.run[self.run.len().checked_sub(10)?..];
        let passes = window_passes(&car.limits(), &window_sums(car, window));
        match passes {
            false if now.0 > before.0 => Some(PASSING),
            true if now.1 > before.1 => Some(FAILING),
            _ => None,
        }
    }
}

/// Of a verdict that tenths do not give on the same second or stop.
fn verdict_name(ours: Next, other: Option<Next>) -> Option<&'static str> {
    match ours {
        Next::Ends(_) if other == Some(ours) => None,
        Next::Ends(Word::Pass) => Some(PASS),
        Next::Ends(Word::Fail) => Some(FAIL),
        Next::Ends(Word::Incomplete) => Some(INCOMPLETE),
        _ => None,
    }
}

/// The rows and stops of a record in their order; an absent channel reads as missing.
fn items_of(record: &Record) -> Vec<Item> {
    let columns = record.columns();
    let mut items = Vec::new();
    for row in 0..=record.rows {
        let stops = record.stops.iter().filter(|stop| stop.0 as usize == row);
        items.extend(stops.map(|stop| Item::Stop(stop.1)));
        if row < record.rows {
            let cell = |column: usize| u32_at(record.bytes, record.row_at(row) + 4 * column);
            items.push(Item::Second(columns.map(|c| c.map_or(MISSING, cell))));
        }
    }
    items
}

/// What a judged record shows.
pub fn names_in_record(bytes: &[u8], record: &Record) -> Vec<&'static str> {
    let car = record.vehicle();
    let (mut test, mut twin) = (Running::new(car), Twin::new(car));
    let mut shown = Vec::new();
    for event in items_of(record).iter().map(Item::event) {
        if test.ended {
            break;
        }
        if let Ok(step) = step_of(&mut test, &event) {
            shown.extend(twin.step(&event, &step));
        }
    }
    shown.extend(averages_name(bytes));
    shown
}

/// The same word, mode and counts, and other averages.
fn averages_name(bytes: &[u8]) -> Option<&'static str> {
    let lines = [bytes, &record_by_tenths(bytes)?].map(rejudge_line);
    let [ours, other] = [0, 1].map(|i| lines[i].split(' ').collect::<Vec<&str>>());
    let same = ours.len() == 10 && other.len() == 10 && ours[..6] == other[..6];
    (same && ours[6..9] != other[6..9]).then_some(AVERAGES)
}

/// What is printed for the starts of a fit journal.
pub fn lines_name(journal: &Journal) -> Option<&'static str> {
    let rounded = journal_by_tenths(journal);
    (start_lines(journal) != start_lines(&rounded)).then_some(LINES)
}

pub fn journal_by_tenths(journal: &Journal) -> Journal {
    let events = journal.events.iter();
    Journal {
        events: events.map(|(at, e)| (*at, event_by_tenths(e))).collect(),
        ..*journal
    }
}
