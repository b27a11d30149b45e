//! Reach: prepares. Whether one stands shows only in a start behind it.

use crate::bench::{latest_prepare, prepare_lacks, takes_prepare, Accepted, Bench, Event, Kept};
use crate::numbers::Refusal;
use crate::prepare::Prepare;
use crate::reach::{names, texts, Reach};

const GASES: [&str; 3] = ["HC", "CO", "NO"];

/// Values of a prepare right before the start that it admits.
const ADMITTED: [(&str, i64); 5] = [
    ("HC", 14),
    ("CO", 1),
    ("NO", 24),
    ("residue", 0),
    ("residue", 7),
];

/// Values that alone keep a prepare from standing, right before a start.
const LOCKED: [(&str, i64); 14] = [
    ("HC", 15),
    ("HC", 256),
    ("HC", 9999),
    ("CO", 2),
    ("CO", 256),
    ("CO", 2000),
    ("NO", 25),
    ("NO", 256),
    ("NO", 5000),
    ("residue", -1),
    ("residue", 8),
    ("residue", -32768),
    ("residue", 32767),
    ("residue", 256),
];

/// Values that alone are above their greatest.
const UNFIT: [(&str, i64); 6] = [
    ("HC", 10_000),
    ("HC", 65535),
    ("CO", 2001),
    ("CO", 65535),
    ("NO", 5001),
    ("NO", 65535),
];

const STOOD: &str = "prepare that stood, then one that does not: lock 8";

const STANDS_AFTER: &str = "prepare that does not stand, then one that does: start admitted";

const KINDS_BETWEEN: &str = "prepare, then kinds 3 to 8 and 12: start admitted";

const BEYOND: &str = "start admitted, prepare + 120 beyond 2^32";

const OTHERS: [&str; 30] = [
    STOOD,
    STANDS_AFTER,
    KINDS_BETWEEN,
    BEYOND,
    "refused 18 4",
    "refused 18 5",
    "refused 18 6",
    "prepare above in HC and CO: refused 18 4",
    "prepare above in HC and NO: refused 18 4",
    "prepare above in CO and NO: refused 18 5",
    "prepare above in HC and CO and NO: refused 18 4",
    "unfit prepare refused 11",
    "unfit prepare refused 12",
    "refused 18 with a later clock, then an event",
    "prepare that fails refused 11: start admitted",
    "prepare that fails refused 18: start admitted",
    "prepare that would stand refused 11: lock 8",
    "prepare that would stand refused 12: lock 8",
    "start refused 4, then admitted on the same prepare",
    "start refused 5, then admitted on the same prepare",
    "start refused 11, then admitted on the same prepare",
    "start refused 14, then admitted on the same prepare",
    "prepare 120 s old: start admitted",
    "prepare 121 s old: lock 8",
    "no prepare yet: lock 8",
    "prepare used up, its test ended by a verdict: lock 8",
    "prepare used up, its test ended by power-on: lock 8",
    "prepare before a power-on: lock 8",
    "prepare before a clock setting: lock 8",
    "prepare before the clock was set back: lock 8",
];

pub fn prepare_names() -> Vec<String> {
    let mut all = texts(&OTHERS);
    for (values, answer) in [
        (&ADMITTED[..], "start admitted"),
        (&LOCKED, "lock 8"),
        (&UNFIT, "refused 18"),
    ] {
        let of = |(what, value): &(&str, i64)| format!("prepare of {what} {value}: {answer}");
        all.extend(values.iter().map(of));
    }
    all.extend(names("lock 8 behind lock ", 1..=7));
    all.push("lock 2 within 1,800 s of a prepare".to_string());
    all
}

/// The numbers that refused starts and prepares since the latest accepted
/// prepare; of a prepare also whether it would stand.
#[derive(Default)]
pub struct Refused {
    starts: Vec<u8>,
    prepares: Vec<(u8, bool)>,
}

impl Refused {
    pub fn refused(&mut self, reach: &mut Reach, event: &Event, refusal: Refusal) {
        match event {
            Event::Start(..) => self.starts.push(refusal.number),
            Event::Prepare(prepare) => {
                reach_prepare_refused(reach, prepare, refusal);
                self.prepares.push((refusal.number, prepare.stands()));
            }
            _ => {}
        }
    }

    pub fn prepared(&mut self) {
        *self = Refused::default();
    }

    /// A start: locked, or admitted and then the last of the accepted events.
    pub fn start(&self, reach: &mut Reach, bench: &Bench, now: u32, lock: Option<u64>) {
        let all = &bench.accepted[..];
        match lock {
            None => self.admitted(reach, &all[..all.len() - 1], now),
            Some(8) => self.locked(reach, all, now),
            Some(lock) if prepare_lacks(all, now) => {
                reach.count(format!("lock 8 behind lock {lock}"))
            }
            _ => {}
        }
    }

    fn admitted(&self, reach: &mut Reach, all: &[Accepted], now: u32) {
        for number in &self.starts {
            reach.count(format!(
                "start refused {number}, then admitted on the same prepare"
            ));
        }
        for (number, _) in self.prepares.iter().filter(|(_, stands)| !stands) {
            reach.count(format!(
                "prepare that fails refused {number}: start admitted"
            ));
        }
        let Some((i, prepare)) = latest_prepare(all) else {
            return;
        };
        let (clock, since) = (all[i].clock, &all[i + 1..]);
        if since.is_empty() {
            of_values(reach, &ADMITTED, &values_of(&prepare), "start admitted");
        }
        let failed_before = before(all, i).is_some_and(|before| !before.stands());
        for (is, what) in [
            (now - clock == 120, "prepare 120 s old: start admitted"),
            (clock.checked_add(120).is_none(), BEYOND),
            (failed_before, STANDS_AFTER),
            (every_other_kind(since), KINDS_BETWEEN),
        ] {
            if is {
                reach.count(what);
            }
        }
    }

    fn locked(&self, reach: &mut Reach, all: &[Accepted], now: u32) {
        for (number, _) in self.prepares.iter().filter(|(_, stands)| *stands) {
            reach.count(format!("prepare that would stand refused {number}: lock 8"));
        }
        let Some((i, prepare)) = latest_prepare(all) else {
            reach.count("no prepare yet: lock 8");
            return;
        };
        if prepare.stands() {
            stood_once(reach, all[i].clock, &all[i + 1..], now);
            return;
        }
        if i + 1 == all.len() {
            let out: Vec<_> = values_of(&prepare).into_iter().filter(fails).collect();
            if out.len() == 1 {
                of_values(reach, &LOCKED, &out, "lock 8");
            }
        }
        if before(all, i).is_some_and(|before| before.stands()) {
            reach.count(STOOD);
        }
    }
}

/// Lock 8 though the latest prepare stood: what took it, and that alone.
fn stood_once(reach: &mut Reach, clock: u32, since: &[Accepted], now: u32) {
    let taken: Vec<Kept> = since.iter().map(|a| a.kept).filter(takes_prepare).collect();
    let verdict = since.iter().any(|a| a.verdict.is_some());
    let what = match taken[..] {
        [Kept::ClockSetting] if now < clock => "before the clock was set back",
        [] if now - clock == 121 => "121 s old",
        _ if now < clock || now - clock > 120 => return,
        [Kept::PowerOn] => "before a power-on",
        [Kept::ClockSetting] => "before a clock setting",
        [Kept::Start] => "used up, its test ended by a verdict",
        [Kept::Start, Kept::PowerOn] if !verdict => "used up, its test ended by power-on",
        _ => return,
    };
    reach.count(format!("prepare {what}: lock 8"));
}

/// The prepare before the one at a place, with nothing between that takes it.
fn before(all: &[Accepted], place: usize) -> Option<Prepare> {
    let (i, prepare) = latest_prepare(&all[..place])?;
    let taken = all[i..place].iter().any(|a| takes_prepare(&a.kept));
    (!taken).then_some(prepare)
}

/// All that neither takes a prepare nor belongs to a test.
fn every_other_kind(since: &[Accepted]) -> bool {
    let kinds: [fn(&Kept) -> bool; 7] = [
        |k| *k == Kept::WarmUp,
        |k| matches!(k, Kept::Calibration(_)),
        |k| matches!(k, Kept::Try(_)),
        |k| *k == Kept::AuthorityLock,
        |k| *k == Kept::AuthorityUnlock,
        |k| *k == Kept::Upload,
        |k| matches!(k, Kept::Run(_)),
    ];
    let mut all = kinds.iter();
    all.all(|is| since.iter().any(|a| is(&a.kept)))
}

fn values_of(prepare: &Prepare) -> Vec<(&'static str, i64)> {
    let backgrounds = prepare.background.map(i64::from);
    let mut values: Vec<_> = GASES.into_iter().zip(backgrounds).collect();
    values.push(("residue", prepare.residue.into()));
    values
}

/// A value with which nothing else makes a prepare stand.
fn fails(value: &(&str, i64)) -> bool {
    !alone(value).stands()
}

/// A prepare of this value and else of zeros.
fn alone(&(what, value): &(&str, i64)) -> Prepare {
    let of = |gas: &str| if gas == what { value as u16 } else { 0 };
    Prepare {
        background: GASES.map(of),
        residue: if what == "residue" { value as i16 } else { 0 },
    }
}

/// Counts those of a prepare's values that have a name.
fn of_values(reach: &mut Reach, named: &[(&str, i64)], values: &[(&str, i64)], answer: &str) {
    for (what, value) in values.iter().filter(|value| named.contains(value)) {
        reach.count(format!("prepare of {what} {value}: {answer}"));
    }
}

/// A refused prepare: what is above, or refused for something else first.
fn reach_prepare_refused(reach: &mut Reach, prepare: &Prepare, refusal: Refusal) {
    let number = refusal.number;
    let mut above = values_of(prepare);
    above.retain(|value| alone(value).check().is_err());
    match above.len() {
        0 => {}
        _ if number != 18 => reach.count(format!("unfit prepare refused {number}")),
        1 => of_values(reach, &UNFIT, &above, "refused 18"),
        _ => {
            let gases: Vec<&str> = above.iter().map(|(gas, _)| *gas).collect();
            let gases = gases.join(" and ");
            reach.count(format!("prepare above in {gases}: {refusal}"));
        }
    }
}
