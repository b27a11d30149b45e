//! Making input: journals by name.

use crate::bench::Event;
use crate::journaling::{Journal, MOST_EVENTS};
use crate::make_prepares::prepare;
use crate::make_runs::run;
use crate::script::good_bits;
use crate::scripted_events::WRONG;

pub const JOURNALS: [&str; 6] = ["locks", "unfit", "quiet", "empty", "longest", "too_many"];

/// Document 01's car.
const CAR: [u16; 7] = [1, 2005, 125, 2, 50, 20, 1013];

const START: Event = Event::Start(CAR, 2339);

const STANDS: Event = prepare([6, 0, 11], 3);

/// V and U of the journals by name.
const STATION: (u32, u16) = (86_400, 2);

/// So many times the same event, a second apart.
pub fn repeated(event: Event, times: usize) -> Journal {
    let (v, u) = STATION;
    let events = (1..=times as u32).map(|clock| (clock, event)).collect();
    Journal { v, u, events }
}

/// A station's day, written down event by event.
struct Day {
    now: u32,
    events: Vec<(u32, Event)>,
}

impl Day {
    /// An event at an hour and a minute of the day.
    fn at(&mut self, hour: u32, minute: u32, event: Event) {
        self.now = 3600 * hour + 60 * minute;
        self.events.push((self.now, event));
    }

    /// Events a second apart from each other and from what came before.
    fn then(&mut self, events: &[Event]) {
        for event in events {
            self.now += 1;
            self.events.push((self.now, *event));
        }
    }

    /// Three attempts, the first two cut short by the brake and a stall, the last one as it is told.
    fn test(&mut self, last: &[Event]) {
        let mut standing = good_bits();
        standing[0] = 0.0f32.to_bits();
        for cause in [1, 2] {
            self.then(&[Event::Second(good_bits()), Event::Stop(cause)]);
            self.then(&[Event::Second(standing); 10]);
        }
        self.then(last);
    }

    /// From the morning's power-on to the first admitted start.
    fn morning(&mut self) {
        self.at(7, 50, Event::PowerOn);
        self.at(7, 55, START);
        self.at(8, 0, Event::WarmUp);
        self.then(&[START, Event::Calibration(false), START]);
        self.at(8, 5, Event::Calibration(true));
        self.then(&[START, run(1200, 100, true, 5926), START]);
        self.then(&[run(1200, 100, false, 4000), START]);
        self.at(8, 15, run(1200, 100, false, 3704));
        self.then(&[START, WRONG, START, Event::Try(Some(12 * 3600)), START]);
        self.at(8, 20, prepare([6, 0, 11], 9));
        self.then(&[START, STANDS]);
        let mut humid = CAR;
        humid[4] = 101;
        self.then(&[Event::Start(humid, 2339), Event::Start(CAR, 499), START]);
    }

    /// Two tests, and U verdicts that are not sent.
    fn tests(&mut self) {
        self.then(&[START]);
        self.test(&[Event::Second(good_bits()), Event::Stop(3)]);
        let before = self.now - 30;
        self.events.push((before, START));
        self.then(&[START, STANDS, START]);
        let mut diluted = good_bits();
        diluted[6] = 0.5f32.to_bits();
        self.test(&[Event::Second(diluted)]);
        self.then(&[STANDS, START, Event::Upload]);
    }

    /// The clock is put right; a break; passwords; the authority; the next morning.
    fn noon(&mut self) {
        self.at(9, 0, Event::ClockSetting(8 * 3600));
        self.at(8, 0, START);
        self.then(&[Event::WarmUp, START, Event::Calibration(true)]);
        self.then(&[run(1200, 100, true, 5926), run(1200, 100, false, 3704)]);
        self.then(&[START, Event::Try(Some(12 * 3600)), START]);
        self.at(9, 0, START);
        self.then(&[Event::WarmUp, WRONG, WRONG, WRONG, WRONG, WRONG]);
        self.then(&[START, Event::Try(Some(12 * 3600)), START]);
        self.then(&[Event::AuthorityUnlock, Event::AuthorityLock, START]);
        self.then(&[Event::AuthorityUnlock, STANDS]);
        self.at(9, 5, START);
        self.at(12, 0, Event::WarmUp);
        self.then(&[START]);
        self.at(32, 30, Event::WarmUp);
        self.then(&[START]);
    }
}

/// A day with a start locked by each lock, refused in each way, and admitted.
fn locks() -> Journal {
    let mut day = Day {
        now: 0,
        events: Vec::new(),
    };
    day.morning();
    day.tests();
    day.noon();
    let (v, u) = STATION;
    Journal {
        v,
        u,
        events: day.events,
    }
}

/// A morning whose calibration has neither passed nor not: its byte is 2.
fn unfit() -> Vec<u8> {
    let mut journal = locks();
    journal.events.truncate(8);
    let mut bytes = journal.bytes();
    let at = 11 + 5 + 21 + 5 + 21 + 5; // behind a power-on, a start, a warm-up, a start and the calibration's clock
    bytes[at] = 2;
    bytes
}

/// A morning without a start.
fn quiet() -> Journal {
    let mut journal = locks();
    journal
        .events
        .retain(|(_, event)| !matches!(event, Event::Start(..)));
    journal.events.truncate(8);
    journal
}

pub fn named_journal(name: &str) -> Option<Vec<u8>> {
    Some(match name {
        "locks" => locks().bytes(),
        "unfit" => unfit(),
        "quiet" => quiet().bytes(),
        "empty" => repeated(Event::PowerOn, 0).bytes(),
        "longest" => repeated(Event::Second(good_bits()), MOST_EVENTS).bytes(),
        "too_many" => repeated(Event::WarmUp, MOST_EVENTS + 1).bytes(),
        _ => return None,
    })
}
