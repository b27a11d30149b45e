//! Making input: lists of events, scripted ones and then planned ones.

use crate::bench::{calibration_lacks, run_lacks, since_power, Bench, Event};
use crate::dice::{some_settings, Dice};
use crate::driver::Driver;
use crate::make_averages::REACHING_AVERAGES;
use crate::make_cuts::reaching_cuts;
use crate::make_journals::reaching_journals;
use crate::make_prepares::{any_prepare, failed_prepare, standing_prepare, unfit_prepare};
use crate::make_records::reaching_records;
use crate::make_runs::{any_run, failed_run, passed_run};
use crate::make_tests::{put_event, unfit_second, unfit_start};
use crate::running::Running;
use crate::scripted_events::scripted_events;
use crate::scripted_tests::REACHING;
use std::collections::VecDeque;

/// The greatest U of a seeded list.
const MOST_SEEDED_U: u16 = 20;

/// V and U by seed: corners from 1000 on, else seeded.
fn parameters(seed: u64, dice: &mut Dice) -> (u32, u16) {
    match seed {
        1000 => (0, 5),
        1001 => (2_592_001, 5),
        1002 => (u32::MAX, 5),
        1003 => (86_400, 0),
        1004 => (86_400, 256),
        1005 => (86_400, 65535),
        1006 => (1, 1),
        1007 => (2_592_000, 255),
        _ => {
            let v = dice.pick(&[1, 60, 900, 1800, 3600, 86_400, 2_592_000]);
            let u = dice.pick(&[1, 1, 2, 2, 3, 3, 4, 5, 8, MOST_SEEDED_U]);
            (v, u)
        }
    }
}

/// The least COUNT with which `make records`, `make tests`, `make events`,
/// `make journals`, `make cuts` and `make averages` reach everything.
pub fn least() -> [(&'static str, usize); 6] {
    let events = scripted_events(1, MOST_SEEDED_U, &mut Dice(1)).len();
    [
        ("records", reaching_records()),
        ("tests", REACHING),
        ("events", events),
        ("journals", reaching_journals()),
        ("cuts", reaching_cuts()),
        ("averages", REACHING_AVERAGES),
    ]
}

/// When a planned event happens.
#[derive(Clone, Copy)]
enum When {
    After(u32), // seconds after the last clock
    Before,     // earlier than the last clock
}

/// Plans events for a bench, looking at where it stands.
pub struct Planner {
    dice: Dice,
    planned: VecDeque<(When, Event)>,
    driver: Option<Driver>,
}

impl Planner {
    pub fn new(dice: Dice) -> Planner {
        Planner {
            dice,
            planned: VecDeque::new(),
            driver: None,
        }
    }

    pub fn next(&mut self, bench: &Bench) -> (u32, Event) {
        if bench.test.is_none() {
            self.driver = None;
        }
        while self.planned.is_empty() {
            match &bench.test {
                Some(test) => self.plan_running(test),
                None => self.plan_free(bench),
            }
        }
        match self.planned.pop_front() {
            Some((When::After(wait), event)) => (bench.last.saturating_add(wait), event),
            Some((When::Before, event)) => (self.earlier(bench.last), event),
            None => (bench.last, Event::PowerOn),
        }
    }

    pub fn earlier(&mut self, last: u32) -> u32 {
        let back = if self.dice.percent(50) {
            1
        } else {
            self.dice.below(100_000) as u32
        };
        last.saturating_sub(back)
    }

    pub fn plan(&mut self, wait: u32, event: Event) {
        self.planned.push_back((When::After(wait), event));
    }

    /// A test is running: mostly its next second.
    pub fn plan_running(&mut self, test: &Running) {
        let roll = self.dice.below(1000);
        match roll {
            0..=7 => {
                let event = unfit_second(test.car.automatic, &mut self.dice);
                self.plan(1, event);
            }
            8..=9 => {
                let cause = self.dice.pick(&[0, 5, 255]);
                self.plan(1, Event::Stop(cause));
            }
            10..=13 => {
                let event = self.any_event();
                self.plan(1, event);
            }
            14..=16 => {
                let event = self.any_event();
                self.planned.push_back((When::Before, event));
            }
            17 => self.plan(1, Event::PowerOn),
            _ => {
                let dice = &mut self.dice;
                let driver = self
                    .driver
                    .get_or_insert_with(|| Driver::new(test.car, dice));
                let event = driver.next(test).event();
                let wait = if self.dice.percent(2) {
                    self.dice.below(2000) as u32
                } else {
                    1
                };
                self.plan(wait, event);
            }
        }
    }

    /// Any kind of event, with any fit or unfit fields.
    pub fn any_event(&mut self) -> Event {
        let dice = &mut self.dice;
        match dice.below(15) {
            0 => Event::PowerOn,
            1 => Event::ClockSetting(dice.below(1_000_000) as u32),
            2 => Event::WarmUp,
            3 => Event::Calibration(dice.percent(80)),
            4 => Event::Try(Some(dice.below(2_000_000) as u32)),
            5 => Event::Try(None),
            6 => Event::AuthorityLock,
            7 => Event::AuthorityUnlock,
            8 => Event::Upload,
            9 => Event::Stop(dice.within(0, 5) as u8),
            10 => unfit_second(dice.percent(50), dice),
            11 => unfit_start(dice),
            12 => any_run(dice),
            13 => any_prepare(dice),
            _ => self.start(),
        }
    }

    pub fn start(&mut self) -> Event {
        let settings = some_settings(&mut self.dice);
        Event::Start(settings, self.dice.pick(&[500, 4300, 1705, 2339, 4243]))
    }

    /// No test is running.
    pub fn plan_free(&mut self, bench: &Bench) {
        if bench.last > u32::MAX - 10_000_000 {
            self.plan(0, Event::ClockSetting(1000));
        }
        match self.dice.below(100) {
            0..=39 => self.plan_start(bench),
            40..=49 => {
                let start = self.start();
                self.plan(1, start);
            }
            50..=57 => {
                let event = unfit_start(&mut self.dice);
                self.plan(1, event);
            }
            58..=67 => self.plan_wrong_tries(),
            68..=76 => self.plan_edge(bench),
            77..=80 => self.plan(1, Event::PowerOn),
            81..=83 => self.plan_clock(bench.last),
            84..=85 => self.plan(1, Event::AuthorityLock),
            86..=87 => {
                let event = self.any_event();
                self.planned.push_back((When::Before, event));
            }
            88 if bench.u < 20 => self.plan(1, Event::Upload),
            89 => self.plan(1, Event::AuthorityUnlock),
            90..=92 => self.plan_run(),
            93..=94 => self.plan_prepare(),
            _ => {
                let event = self.any_event();
                self.plan_unless_upload(event);
            }
        }
    }

    /// Uploads come mostly when the bench is locked for want of one.
    pub fn plan_unless_upload(&mut self, event: Event) {
        let wait = self.dice.below(200) as u32;
        if event != Event::Upload {
            self.plan(wait, event);
        }
    }

    /// Lifts what stands, then starts.
    pub fn plan_start(&mut self, bench: &Bench) {
        match bench.lock(bench.last) {
            Some(1 | 2) => self.plan(5, Event::WarmUp),
            Some(3) => self.plan_checks(bench),
            Some(4) => {
                let expiry = bench.last.saturating_add(self.dice.below(20_000) as u32);
                self.plan(0, Event::Try(Some(expiry)));
            }
            Some(5 | 6) if self.dice.percent(60) => self.plan(1, Event::AuthorityUnlock),
            Some(7) if self.dice.percent(60) => self.plan(1, Event::Upload),
            Some(8) => self.plan_prepared_start(),
            _ => {
                let start = self.start();
                self.plan(0, start);
            }
        }
    }

    /// What lock 3 asks for and lacks: the calibration, the runs; then perhaps a start.
    pub fn plan_checks(&mut self, bench: &Bench) {
        let powered = since_power(&bench.accepted);
        if calibration_lacks(powered, bench.last, bench.v) {
            let passed = self.dice.percent(85);
            self.plan(0, Event::Calibration(passed));
        }
        self.plan_lacking_runs(bench);
        if self.dice.percent(30) {
            self.plan_prepared_start();
        }
    }

    /// A prepare that mostly stands, now and then none; then a start.
    pub fn plan_prepared_start(&mut self) {
        match self.dice.below(100) {
            0..=4 => {}
            5..=9 => self.plan_of(0, failed_prepare),
            10..=12 => self.plan_of(0, unfit_prepare),
            _ => self.plan_of(0, standing_prepare),
        }
        let start = self.start();
        self.plan(0, start);
    }

    /// A seeded event of a sort.
    pub fn plan_of(&mut self, wait: u32, sort: fn(&mut Dice) -> Event) {
        let event = sort(&mut self.dice);
        self.plan(wait, event);
    }

    /// A prepare or two of any sort, then a start, which tells what they did.
    pub fn plan_prepare(&mut self) {
        for _ in 0..self.dice.within(1, 2) {
            self.plan_of(1, any_prepare);
        }
        let start = self.start();
        self.plan(0, start);
    }

    /// The runs that lack.
    pub fn plan_lacking_runs(&mut self, bench: &Bench) {
        let powered = since_power(&bench.accepted);
        for faster in self.either_first() {
            if run_lacks(powered, faster) {
                self.plan_check_run(faster);
            }
        }
    }

    /// The faster and the slower speed, either first.
    pub fn either_first(&mut self) -> [bool; 2] {
        let first = self.dice.percent(50);
        [first, !first]
    }

    /// A run that mostly passes; now and then none.
    pub fn plan_check_run(&mut self, faster: bool) {
        let event = match self.dice.below(100) {
            0..=4 => return,
            5..=14 => failed_run(faster, &mut self.dice),
            _ => passed_run(faster, &mut self.dice),
        };
        self.plan(0, event);
    }

    /// A run or two of any sort, then a start, which tells what they did.
    pub fn plan_run(&mut self) {
        self.plan_of(0, any_prepare);
        for _ in 0..self.dice.within(1, 2) {
            let event = any_run(&mut self.dice);
            self.plan(1, event);
        }
        let start = self.start();
        self.plan(0, start);
    }

    /// One to five wrong tries with other events between, then perhaps a good one.
    pub fn plan_wrong_tries(&mut self) {
        for _ in 0..self.dice.within(1, 5) {
            self.plan(1, Event::Try(None));
            if self.dice.percent(20) {
                let between = [Event::PowerOn, Event::WarmUp, Event::Calibration(true)];
                let event = self.dice.pick(&between);
                self.plan(1, event);
            }
        }
        self.plan(1, Event::WarmUp);
        self.plan(0, Event::Calibration(true));
        for faster in self.either_first() {
            self.plan_check_run(faster);
        }
        if self.dice.percent(70) {
            self.plan(0, Event::Try(Some(u32::MAX)));
        }
        self.plan_prepared_start();
    }

    /// A start exactly at, or one second after, the end of what admits it.
    pub fn plan_edge(&mut self, bench: &Bench) {
        let now = bench.last;
        let late = self.dice.below(2) as u32;
        let start = self.start();
        let expiry = |wait: u32| Event::Try(Some(now.saturating_add(wait)));
        self.plan_lacking_runs(bench);
        match self.dice.below(4) {
            0 => {
                self.plan(0, Event::WarmUp);
                self.plan(1800 - bench.v.min(1800), Event::Calibration(true));
                self.plan(0, Event::Try(Some(u32::MAX)));
                self.plan_of(bench.v.min(1800) + late, standing_prepare);
                self.plan(0, start);
            }
            1 => {
                self.plan(0, Event::Calibration(true));
                self.plan(bench.v - bench.v.min(10), Event::WarmUp);
                self.plan(0, Event::Try(Some(u32::MAX)));
                self.plan_of(bench.v.min(10) + late, standing_prepare);
                self.plan(0, start);
            }
            2 => {
                self.plan_of(0, standing_prepare);
                self.plan(120 + late, Event::WarmUp);
                self.plan(0, Event::Calibration(true));
                self.plan(0, Event::Try(Some(u32::MAX)));
                self.plan(0, start);
            }
            _ => {
                self.plan(0, Event::WarmUp);
                self.plan(30, Event::Calibration(true));
                self.plan(0, expiry(31));
                self.plan_of(1 + late, standing_prepare);
                self.plan(0, start);
            }
        }
    }

    pub fn plan_clock(&mut self, last: u32) {
        let new = match self.dice.below(4) {
            0 => last.saturating_sub(self.dice.below(5000) as u32),
            1 => last.saturating_add(self.dice.below(5000) as u32),
            2 => self.dice.pick(&[0, 1, u32::MAX, u32::MAX - 2000]),
            _ => self.dice.below(3_000_000) as u32,
        };
        self.plan(3, Event::ClockSetting(new));
    }
}

pub fn make_events(seed: u64, count: usize) -> Vec<u8> {
    let mut dice = Dice(seed ^ 0x6576_656E);
    let (v, u) = parameters(seed, &mut dice);
    let mut out = Vec::new();
    out.extend(v.to_le_bytes());
    out.extend(u.to_le_bytes());
    let mut bench = match Bench::new(v, u) {
        Ok(bench) => bench,
        Err(_) => {
            put_event(&mut out, Some(0), &Event::WarmUp);
            return out;
        }
    };
    let mut scripted = scripted_events(v, u, &mut dice).into_iter();
    let mut planner = Planner::new(dice);
    for _ in 0..count {
        let (clock, event) = match scripted.next() {
            Some(event) => event,
            None => planner.next(&bench),
        };
        put_event(&mut out, Some(clock), &event);
        let _ = bench.take(clock, &event);
    }
    out
}
