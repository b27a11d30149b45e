//! Reach: coast-down runs. Whether one passed shows only in a start behind it.

use crate::bench::{calibration_lacks, latest_run, run_lacks, since_power, Accepted, Bench, Kept};
use crate::coast_down::Run;
use crate::numbers::Refusal;
use crate::reach::{texts, Reach};

const LONE: [&str; 26] = [
    "refused 16 0",
    "refused 17 0",
    "refused 16 with a later clock, then an event",
    "refused 17 with a later clock, then an event",
    "run of inertia 1049 refused 16",
    "run of inertia 1351 refused 16",
    "run of power 49 refused 17",
    "run of power 326 refused 17",
    "run unfit in both refused 16",
    "unfit run refused 11",
    "unfit run refused 12",
    "failed run refused 11: start admitted",
    "failed run refused 12: start admitted",
    "failed run refused 16: start admitted",
    "failed run refused 17: start admitted",
    "lock 2 within 1,800 s of a run",
    "run of inertia 1050, then a start",
    "run of inertia 1350, then a start",
    "run of power 50, then a start",
    "run of power 325, then a start",
    "run of 0 ms, then a start",
    "run of 2^32 - 1 ms, then a start",
    "lock 3 by the calibration alone",
    "start admitted, no power-on or clock setting yet",
    "start admitted, runs older than V",
    "start admitted, runs of different inertia and power",
];

/// Behind the word of each speed.
const OF_A_SPEED: [&str; 14] = [
    "run passed, then a start",
    "run failed, then a start",
    "run 1 ms below the least, then a start",
    "run of the least ms, then a start",
    "run of the greatest ms, then a start",
    "run 1 ms above the greatest, then a start",
    "run of just 93 percent, then a start",
    "run of just 107 percent, then a start",
    "run alone: lock 3",
    "run passed and then failed: lock 3",
    "run failed, the other then passed: lock 3",
    "run failed and then passed: start admitted",
    "run passed before a power-on: lock 3",
    "run passed before a clock setting: lock 3",
];

/// What the two runs together are there for.
const OF_BOTH: [&str; 5] = [
    "both runs alone: lock 3",
    "both runs passed before a power-on: lock 3",
    "both runs passed before a clock setting: lock 3",
    "faster run first: start admitted",
    "slower run first: start admitted",
];

pub fn run_names() -> Vec<String> {
    let mut names = texts(&LONE);
    names.extend(texts(&OF_BOTH));
    for faster in [true, false] {
        let speed = speed_text(faster);
        names.extend(OF_A_SPEED.map(|what| format!("{speed} {what}")));
    }
    names
}

fn speed_text(faster: bool) -> &'static str {
    if faster {
        "faster"
    } else {
        "slower"
    }
}

/// A refused run: beside which end, or refused for something else first.
pub fn reach_run_refused(reach: &mut Reach, run: &Run, refusal: Refusal) {
    let Run { inertia, power, .. } = *run;
    let number = refusal.number;
    match number {
        16 if Run {
            inertia: 1200,
            ..*run
        }
        .check()
        .is_err() =>
        {
            reach.count("run unfit in both refused 16")
        }
        16 => reach.count(format!("run of inertia {inertia} refused 16")),
        17 => reach.count(format!("run of power {power} refused 17")),
        _ if run.check().is_err() => reach.count(format!("unfit run refused {number}")),
        _ => {}
    }
}

/// A start that locks 1 and 2 leave: locked by a later one, or admitted.
pub fn reach_start(reach: &mut Reach, bench: &Bench, now: u32, lock: Option<u64>) {
    let all = match lock {
        Some(1 | 2) => return,
        Some(_) => &bench.accepted[..],
        None => &bench.accepted[..bench.accepted.len() - 1],
    };
    let powered = since_power(all);
    let lacking = [true, false].map(|faster| run_lacks(powered, faster));
    if calibration_lacks(powered, now, bench.v) {
        if lacking == [false, false] {
            reach.count("lock 3 by the calibration alone");
        }
        return;
    }
    last_run(reach, all);
    match lacking {
        [true, true] => both_lack(reach, all),
        [true, false] => one_lacks(reach, all, true),
        [false, true] => one_lacks(reach, all, false),
        [false, false] if lock.is_none() => admitted(reach, bench, all, now),
        _ => {}
    }
}

/// The start comes right behind a run, and the other speed's passed.
fn last_run(reach: &mut Reach, all: &[Accepted]) {
    let Some(Kept::Run(run)) = all.last().map(|a| a.kept) else {
        return;
    };
    if run_lacks(since_power(all), !run.faster) {
        return;
    }
    for what in run_texts(&run) {
        reach.count(format!(
            "{} run {what}, then a start",
            speed_text(run.faster)
        ));
    }
    for (is, what) in [
        (run.inertia == 1050, "inertia 1050"),
        (run.inertia == 1350, "inertia 1350"),
        (run.power == 50, "power 50"),
        (run.power == 325, "power 325"),
        (run.ms == 0, "0 ms"),
        (run.ms == u32::MAX, "2^32 - 1 ms"),
    ] {
        if is {
            reach.count(format!("run of {what}, then a start"));
        }
    }
}

/// Passed or failed, and where a run stands at or beside an end.
fn run_texts(run: &Run) -> Vec<&'static str> {
    let with = |ms: Option<u32>| ms.is_some_and(|ms| Run { ms, ..*run }.passes());
    let below = with(run.ms.checked_sub(1));
    let above = with(run.ms.checked_add(1));
    let passes = run.passes();
    let texts = [
        (passes, "passed"),
        (!passes, "failed"),
        (!passes && above, "1 ms below the least"),
        (passes && !below, "of the least ms"),
        (passes && !above, "of the greatest ms"),
        (!passes && below, "1 ms above the greatest"),
        (
            100 * run.measured() == 93 * run.nominal(),
            "of just 93 percent",
        ),
        (
            100 * run.measured() == 107 * run.nominal(),
            "of just 107 percent",
        ),
    ];
    let reached = texts.into_iter().filter(|(is, _)| *is);
    reached.map(|(_, what)| what).collect()
}

/// The latest run of a speed passed, but came before a power-on or clock setting: which.
fn voided_by(all: &[Accepted], faster: bool) -> Option<&'static str> {
    let powered = since_power(all);
    let (_, run) = latest_run(all, faster)?;
    if latest_run(powered, faster).is_some() || !run.passes() {
        return None;
    }
    match all[all.len() - powered.len() - 1].kept {
        Kept::PowerOn => Some("a power-on"),
        _ => Some("a clock setting"),
    }
}

fn both_lack(reach: &mut Reach, all: &[Accepted]) {
    reach.count("both runs alone: lock 3");
    if let (Some(what), Some(_)) = (voided_by(all, true), voided_by(all, false)) {
        reach.count(format!("both runs passed before {what}: lock 3"));
    }
}

/// The run of one speed alone leaves lock 3 standing.
fn one_lacks(reach: &mut Reach, all: &[Accepted], faster: bool) {
    let speed = speed_text(faster);
    reach.count(format!("{speed} run alone: lock 3"));
    if let Some(what) = voided_by(all, faster) {
        reach.count(format!("{speed} run passed before {what}: lock 3"));
    }
    let powered = since_power(all);
    if passes_of(powered, faster).ends_with(&[true, false]) {
        reach.count(format!("{speed} run passed and then failed: lock 3"));
    }
    let place = |faster: bool| latest_run(powered, faster).map(|(place, _)| place);
    if place(faster).is_some() && place(faster) < place(!faster) {
        reach.count(format!("{speed} run failed, the other then passed: lock 3"));
    }
}

/// Passed or not, run by run of a speed.
fn passes_of(list: &[Accepted], faster: bool) -> Vec<bool> {
    let passes = |a: &Accepted| match a.kept {
        Kept::Run(run) if run.faster == faster => Some(run.passes()),
        _ => None,
    };
    list.iter().filter_map(passes).collect()
}

fn admitted(reach: &mut Reach, bench: &Bench, all: &[Accepted], now: u32) {
    let powered = since_power(all);
    for faster in [true, false] {
        if passes_of(powered, faster).ends_with(&[false, true]) {
            let speed = speed_text(faster);
            reach.count(format!(
                "{speed} run failed and then passed: start admitted"
            ));
        }
    }
    let (Some((f, fast)), Some((s, slow))) =
        (latest_run(powered, true), latest_run(powered, false))
    else {
        return;
    };
    let first = speed_text(f < s);
    reach.count(format!("{first} run first: start admitted"));
    if powered.len() == all.len() {
        reach.count("start admitted, no power-on or clock setting yet");
    }
    if now - powered[f.max(s)].clock > bench.v {
        reach.count("start admitted, runs older than V");
    }
    if fast.inertia != slow.inertia && fast.power != slow.power {
        reach.count("start admitted, runs of different inertia and power");
    }
}
