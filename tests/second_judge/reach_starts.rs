//! Reach: the starts of a journal, and what is printed for them.

use crate::bench::{since_power, Bench, Event, Kept};
use crate::journaling::{start_line, Journal};
use crate::reach::{names, texts, Reach};

pub fn start_names() -> Vec<String> {
    let mut all = texts(&[
        "line admitted",
        "journal without a start",
        "admitted at 1,800 s",
        "admitted at V",
        "admitted at the expiry",
        "admitted at 120 s",
    ]);
    all.extend(names("line ", 1..=8));
    all.extend([4, 5, 11, 12].map(|n| format!("line refused {n}")));
    all
}

pub fn reach_starts(reach: &mut Reach, journal: &Journal) {
    let Ok(mut bench) = Bench::new(journal.v, journal.u) else {
        return;
    };
    let mut starts = 0;
    for (clock, event) in &journal.events {
        let answer = bench.take(*clock, event);
        if let Event::Start(..) = event {
            starts += 1;
            reach.count(format!("line {}", start_line(&answer)));
            if answer.is_ok() {
                reach_admitted(reach, &bench, *clock);
            }
        }
    }
    if starts == 0 {
        reach.count("journal without a start");
    }
}

/// What an admitted start is just in time for.
fn reach_admitted(reach: &mut Reach, bench: &Bench, now: u32) {
    let before = bench.accepted.len() - 1;
    let list = since_power(&bench.accepted[..before]);
    let newest = |is: fn(&Kept) -> bool| list.iter().rev().find(|a| is(&a.kept));
    let age = |is: fn(&Kept) -> bool| newest(is).map(|a| now - a.clock);
    let mut count = |what: &str, is: bool| {
        if is {
            reach.count(what);
        }
    };
    let active = age(|k| matches!(k, Kept::WarmUp | Kept::Second));
    count("admitted at 1,800 s", active == Some(1800));
    let calibrated = age(|k| matches!(k, Kept::Calibration(_)));
    count("admitted at V", calibrated == Some(bench.v));
    let signed = newest(|k| matches!(k, Kept::Try(_))).map(|a| a.kept);
    count(
        "admitted at the expiry",
        signed == Some(Kept::Try(Some(now))),
    );
    let prepared = age(|k| matches!(k, Kept::Prepare(_)));
    count("admitted at 120 s", prepared == Some(120));
}
