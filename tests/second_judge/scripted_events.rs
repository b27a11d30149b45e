//! Making input: scripted events, case by case from a ready bench.

use crate::bench::Event;
use crate::dice::{some_settings, Dice};
use crate::driver::unfit_bits;
use crate::make_prepares::{unfit_prepare, PREPARED};
use crate::make_runs::{failed_run, unfit_run, PASSED_RUNS};
use crate::make_tests::{kind_of, unfit_second, unfit_start_at};
use crate::script::{good_bits, Script};
use crate::vehicle::Vehicle;

pub const WRONG: Event = Event::Try(None);

pub const SIGN_IN: Event = Event::Try(Some(u32::MAX));

/// What leaves no lock standing where the coast-down runs are in order.
const RENEWALS: [Event; 6] = [
    Event::Upload,
    Event::AuthorityUnlock,
    Event::WarmUp,
    Event::Calibration(true),
    SIGN_IN,
    PREPARED,
];

/// What leaves no lock standing, at a clock, where no test is running.
pub fn ready_bench(at: u32) -> Vec<(u32, Event)> {
    let events = RENEWALS.iter().chain(&PASSED_RUNS);
    events.map(|event| (at, *event)).collect()
}

/// Writes a list of events case by case.
pub struct Story {
    pub v: u32,
    pub u: u16,
    pub now: u32,
    pub events: Vec<(u32, Event)>,
    pub dice: Dice,
}

impl Story {
    /// Nothing has happened yet.
    pub fn new(v: u32, u: u16, seed: u64) -> Story {
        Story {
            v,
            u,
            now: 0,
            events: Vec::new(),
            dice: Dice(seed),
        }
    }

    /// An event so many seconds after the last one.
    pub fn after(&mut self, wait: u32, event: Event) {
        self.now += wait;
        self.events.push((self.now, event));
    }

    pub fn add(&mut self, events: &[Event]) {
        events.iter().for_each(|event| self.after(0, *event));
    }

    /// An event that is to be refused, so many seconds ahead: the clock stays.
    pub fn ahead(&mut self, by: u32, event: Event) {
        self.events.push((self.now.saturating_add(by), event));
    }

    /// An event earlier than the last clock.
    pub fn earlier(&mut self, by: u32, event: Event) {
        self.events.push((self.now.saturating_sub(by), event));
    }

    /// No lock stands and no test is running.
    pub fn fresh(&mut self) {
        self.after(1, Event::PowerOn);
        self.events.extend(ready_bench(self.now));
    }

    /// Everything of `ready_bench` but the runs, which do not age, and one kind
    /// of event, so many seconds later.
    pub fn renew_but(&mut self, wait: u32, left_out: Event) {
        self.now += wait;
        let kind = kind_of(&left_out);
        for event in RENEWALS.iter().filter(|event| kind_of(event) != kind) {
            self.after(0, *event);
        }
    }

    /// As `renew_but`, after a power-on or clock setting: with the runs.
    pub fn ready_but(&mut self, wait: u32, left_out: Event) {
        self.renew_but(wait, left_out);
        self.add(&PASSED_RUNS);
    }

    pub fn set_clock(&mut self, new: u32) {
        self.after(0, Event::ClockSetting(new));
        self.now = new;
    }

    /// A start, admitted or not.
    pub fn start(&mut self) -> Script {
        let settings = some_settings(&mut self.dice);
        let p = self.dice.pick(&[500, 4300, 1705, 2339, 4243]);
        self.after(0, Event::Start(settings, p));
        Script::mixed(Vehicle::new(&settings, p), self.dice.next())
    }

    /// What a script has written so far, a second apart.
    pub fn play(&mut self, script: &mut Script) {
        for item in script.items.drain(..) {
            self.after(1, item.event());
        }
    }

    /// A second that stays in the attempt.
    pub fn good_second(&mut self, script: &mut Script) {
        script.clean(1);
        self.play(script);
    }

    /// Three attempts of one second, each ended by a stop: incomplete. The
    /// last stop comes `late` seconds after its second.
    pub fn incomplete(&mut self, script: &mut Script, late: u32) {
        for cause in [1, 2] {
            script.clean(1);
            script.stop(cause);
            script.rest();
        }
        script.clean(1);
        self.play(script);
        self.after(late, Event::Stop(3));
    }

    /// A fresh bench at clock 0: no test, then locks 1, 3, 4 and 8 until each is lifted, and a pass,
    /// none by tenths.
    pub fn first_events(&mut self) {
        let unfit = unfit_second(true, &mut self.dice);
        self.add(&[
            Event::Stop(1),
            Event::Stop(0),
            Event::Second(good_bits()),
            unfit,
        ]);
        self.start();
        let [faster, slower] = PASSED_RUNS;
        for event in [Event::WarmUp, Event::Calibration(true), faster, slower] {
            self.after(0, event);
            self.start();
        }
        self.add(&[WRONG, WRONG, WRONG, SIGN_IN]);
        self.start();
        self.after(0, PREPARED);
        let mut script = self.start();
        script.settle();
        script.narrow(25, false);
        self.play(&mut script);
    }

    pub fn fail(&mut self) {
        self.fresh();
        let mut script = self.start();
        script.to_mode_2();
        script.settle();
        script.dirty(90);
        self.play(&mut script);
    }

    /// A test with a dip at second 6: of 9, and the pass comes at t = 90, or of 8, and it comes at t = 25;
    /// its last second is out, so that its last window is invalid.
    pub fn dip(&mut self, depth: i64, count: usize) {
        self.fresh();
        let mut script = self.start();
        script.settle();
        script.dip(6, depth, count - 1);
        script.out(1);
        self.play(&mut script);
    }

    /// Lock 2 at 1,801 s, and none at 1,800 s: runs and prepares do not renew it.
    pub fn idle_lock(&mut self) {
        for wait in [800, 801] {
            self.fresh();
            self.now += 1000;
            self.add(&PASSED_RUNS);
            self.renew_but(wait, Event::WarmUp);
            self.start();
        }
    }

    /// Lock 3 at V + 1, none at V, nor with a new calibration and runs older than V;
    /// a failed calibration after a passed one, and a passed one again.
    pub fn calibration_lock(&mut self) {
        for wait in [self.v, self.v + 1] {
            self.fresh();
            self.renew_but(wait, Event::Calibration(true));
            self.start();
        }
        self.after(0, Event::Calibration(true));
        self.start();
        self.fresh();
        for passed in [false, true] {
            self.after(0, Event::Calibration(passed));
            self.start();
        }
    }

    /// Lock 4 a second after the expiry, none at it; a wrong try signs out.
    pub fn sign_in_lock(&mut self) {
        for wait in [10, 11] {
            self.fresh();
            self.after(0, Event::Try(Some(self.now + 10)));
            self.renew_but(wait, SIGN_IN);
            self.start();
        }
        self.fresh();
        self.after(0, WRONG);
        self.start();
    }

    /// Tries on a ready bench, then a start, a good try and a start.
    pub fn tries(&mut self, tries: &[Event]) {
        self.fresh();
        self.add(tries);
        self.start();
        self.after(0, SIGN_IN);
        self.start();
    }

    /// Lock 5: what makes a row of wrong tries, what ends it and what lifts the lock.
    pub fn password_lock(&mut self) {
        let expired = Event::Try(Some(self.now)); // before the tries' own clock
        self.tries(&[WRONG, WRONG, WRONG]);
        self.tries(&[Event::AuthorityUnlock, WRONG, WRONG, WRONG]);
        self.tries(&[WRONG, WRONG, SIGN_IN, WRONG, WRONG]);
        self.tries(&[WRONG, WRONG, WRONG, Event::AuthorityUnlock, WRONG]);
        self.tries(&[WRONG, WRONG, WRONG, expired, WRONG]);
        self.tries(&[WRONG, WRONG, WRONG, WRONG]);
        self.after(1, Event::PowerOn);
        self.ready_but(0, Event::AuthorityUnlock);
        self.start();
        self.after(0, Event::AuthorityUnlock);
        self.start();
        for between in [Event::PowerOn, Event::ClockSetting(self.now + 3)] {
            self.fresh();
            self.add(&[WRONG, WRONG, WRONG, between]);
            self.now += 3;
            self.after(0, WRONG);
            self.ready_but(0, Event::AuthorityUnlock);
            self.start();
        }
    }

    /// Lock 6, behind lock 5 too.
    pub fn authority_lock(&mut self) {
        self.fresh();
        self.locks_6_and_5();
    }

    /// A start under lock 6, one under both, and one behind the unlock.
    pub fn locks_6_and_5(&mut self) {
        self.after(0, Event::AuthorityLock);
        self.start();
        self.add(&[WRONG, WRONG, WRONG, WRONG, SIGN_IN]);
        self.start();
        self.after(0, Event::AuthorityUnlock);
        self.start();
    }

    /// In a test: each kind refused 12 or 11, unfit seconds and stops, all of
    /// them later than the seconds between them, which are taken.
    pub fn refused_in_a_test(&mut self) {
        self.fresh();
        let mut script = self.start();
        self.good_second(&mut script);
        for event in self.one_of_each() {
            if !matches!(event, Event::PowerOn | Event::Second(_) | Event::Stop(_)) {
                self.ahead(1000, event);
                self.good_second(&mut script);
            }
            self.earlier(1, event);
        }
        let automatic = script.car.automatic;
        for code in 1..=8 {
            let mut bits = good_bits();
            bits[code as usize - 1] = unfit_bits(code, automatic, &mut self.dice);
            bits[7] = unfit_bits(8, automatic, &mut self.dice);
            self.ahead(500, Event::Second(bits));
        }
        // Fit in tenths.
        for co2 in [18.04f32, -0.04] {
            let mut bits = good_bits();
            bits[6] = co2.to_bits();
            self.ahead(500, Event::Second(bits));
        }
        self.good_second(&mut script);
        for cause in [0, 5, 255] {
            self.ahead(500, Event::Stop(cause));
        }
        self.good_second(&mut script);
        self.after(1, Event::PowerOn);
        self.after(0, Event::Stop(1));
    }

    /// One event of each kind, and starts, a run and a prepare that are unfit.
    pub fn one_of_each(&mut self) -> Vec<Event> {
        let mut events = vec![
            Event::PowerOn,
            Event::ClockSetting(0),
            Event::WarmUp,
            Event::Calibration(false),
            WRONG,
            Event::AuthorityLock,
            Event::AuthorityUnlock,
            Event::Upload,
            Event::Start(some_settings(&mut self.dice), 2339),
            unfit_second(false, &mut self.dice),
            Event::Stop(0),
            failed_run(true, &mut self.dice),
            unfit_run(&mut self.dice),
            PREPARED,
            unfit_prepare(&mut self.dice),
        ];
        events.extend([1, 8].map(|place| unfit_start_at(place, &mut self.dice)));
        events
    }

    /// Starts with each setting unfit, and p: on a ready bench, whose prepare they leave, and before any lock.
    pub fn unfit_starts(&mut self) {
        self.fresh();
        for place in 1..=8 {
            let event = unfit_start_at(place, &mut self.dice);
            self.ahead(3, event);
        }
        self.start();
        self.after(1, Event::PowerOn);
        for place in [1, 7, 8] {
            let event = unfit_start_at(place, &mut self.dice);
            self.after(0, event);
        }
        self.earlier(1, Event::Start([0; 7], 0));
        self.earlier(1, Event::Stop(0));
    }

    /// Stops in rest and at c = 0 move the clock: what is earlier is refused 11.
    pub fn stops_and_clock(&mut self) {
        self.fresh();
        let mut script = self.start();
        script.clean(1);
        script.stop(1);
        self.play(&mut script);
        self.after(100, Event::Stop(2));
        self.earlier(50, Event::Second(good_bits()));
        script.rest();
        self.play(&mut script);
        self.after(100, Event::Stop(3));
        self.earlier(50, Event::Second(good_bits()));
        self.earlier(50, Event::PowerOn);
    }

    /// Neither a second refused 8 nor a stop renews lock 2: a start 1,801 s and
    /// one 1,800 s after the last accepted second.
    pub fn refused_second_and_lock_2(&mut self) {
        for wait in [1801, 1800] {
            self.fresh();
            let mut script = self.start();
            self.incomplete_after_refused(&mut script);
            self.renew_but(wait - 200, Event::WarmUp);
            self.start();
        }
    }

    /// As `incomplete`, with a second refused 8 and a run refused 12 before its
    /// last stop.
    pub fn incomplete_after_refused(&mut self, script: &mut Script) {
        self.incomplete(script, 200);
        let stop = self.events.pop();
        self.now -= 200;
        let unfit = unfit_second(script.car.automatic, &mut self.dice);
        self.ahead(100, unfit);
        let failed = failed_run(false, &mut self.dice);
        self.ahead(100, failed);
        self.events.extend(stop);
        self.now += 200;
    }

    /// Clocks near 2^32: nothing added to one may wrap.
    pub fn near_the_end(&mut self) {
        let end = u32::MAX;
        self.fresh();
        self.set_clock(end - 5);
        for wait in [4, 1] {
            self.now += wait;
            self.events.extend(ready_bench(self.now));
            self.now = end;
            let mut script = self.start();
            script.clean(1);
            let second = script.items[0].event();
            self.add(&[second, second]);
            self.earlier(1, second);
            self.after(0, Event::PowerOn);
            if wait == 4 {
                self.set_clock(end - 1);
            }
        }
        for wait in [1800, 1801] {
            self.set_clock(end - wait);
            self.after(0, Event::WarmUp);
            self.ready_but(wait, Event::WarmUp);
            self.start();
            self.after(0, Event::PowerOn);
        }
        for wait in [self.v, self.v + 1] {
            self.set_clock(end - wait);
            self.after(0, Event::Calibration(true));
            self.ready_but(wait, Event::Calibration(true));
            self.start();
            self.after(0, Event::PowerOn);
        }
        self.set_clock(1000);
    }

    /// Lock 7 after U verdicts, which no power-on in a test adds to and no
    /// refused upload sends; it goes before lock 8, and unlock and power-on leave it.
    pub fn unsent_lock(&mut self) {
        self.fresh();
        let mut script = self.start();
        self.good_second(&mut script);
        self.after(1, Event::PowerOn);
        self.ready_but(0, Event::Upload);
        for left in (0..self.u).rev() {
            self.add(&[Event::Calibration(true), PREPARED]);
            let mut script = self.start();
            if left == 0 {
                self.ahead(100, Event::Upload);
            }
            self.incomplete(&mut script, 1);
        }
        self.after(0, Event::Calibration(true));
        self.start();
        self.renew_but(0, Event::Upload);
        self.start();
        self.after(1, Event::PowerOn);
        self.ready_but(0, Event::Upload);
        self.start();
        self.after(0, Event::Upload);
        self.start();
    }
}

/// Every case that a list of events is made for, each from a ready bench.
pub fn scripted_events(v: u32, u: u16, dice: &mut Dice) -> Vec<(u32, Event)> {
    let mut story = Story::new(v, u, dice.next());
    story.first_events();
    story.idle_lock();
    story.calibration_lock();
    story.runs();
    story.sign_in_lock();
    story.password_lock();
    story.authority_lock();
    story.prepares();
    story.refused_in_a_test();
    story.unfit_starts();
    story.stops_and_clock();
    story.refused_second_and_lock_2();
    story.near_the_end();
    story.fail_with_invalid();
    story.unsent_lock();
    story.dip(9, 90);
    story.dip(8, 25);
    story.first_windows();
    story.events
}
