//! Reach: records.

use crate::attempt::{Did, Stage};
use crate::items::Items;
use crate::numbers::{Refusal, Second};
use crate::reach::{names, texts, Reach};
use crate::reach_channels::{read_names, Seen};
use crate::reach_dips::{dips_in_records, Runs};
use crate::reach_engines::{Engines, ON_THE_SHEET};
use crate::reach_hundredths::{hundredths_in_records, names_in_record, unfit_co2_at};
use crate::reach_windows::{windows_in_records, Windows};
use crate::record::{read_record, u16_at, Record};
use crate::rejudging::rejudge;
use crate::running::{Running, Step};
use crate::test::{Judged, Word};

/// What a record's rows and stops do, each with its second, up to the first unfit row.
fn record_steps(record: &Record) -> Vec<(Option<Second>, Step)> {
    let seconds = record.seconds().0;
    let mut test = Running::new(record.vehicle());
    let mut steps = Vec::new();
    for row in 0..=seconds.len() {
        for (_, cause) in record.stops.iter().filter(|s| s.0 as usize == row) {
            if !test.ended {
                steps.push((None, test.stop(*cause)));
            }
        }
        if let (false, Some(second)) = (test.ended, seconds.get(row)) {
            steps.push((Some(*second), test.second(*second)));
        }
    }
    steps
}

const LEFT_OVER: &str = "refused 6 with a byte left over";

/// An open record that prints no window although there was one: why.
fn open_without_window(steps: &[(Option<Second>, Step)]) -> Option<String> {
    let windows = |step: &Step| step.state.passing + step.state.failing > 0;
    let last = &steps.last()?.1;
    if windows(last) || !steps.iter().any(|(_, step)| windows(step)) {
        return None;
    }
    let mode = last.state.standing.mode;
    let restart = steps
        .iter()
        .rposition(|(_, step)| step.did == Did::Restarted);
    let lost = restart.is_some_and(|i| {
        let after = steps[i + 1..].iter();
        i > 0 && windows(&steps[i - 1].1) && after.map(|s| s.1.did).all(|did| did == Did::Measured)
    });
    match last.state.stage {
        Stage::Rest => Some(format!("open in rest, no window, mode {mode}")),
        Stage::Measuring if lost => Some(format!("open after a restart, no window, mode {mode}")),
        _ if mode == 2 => Some("open in mode 2, no window".to_string()),
        _ => None,
    }
}

/// Bytes after the last stop's entry, in a record whose counts are allowed.
fn bytes_left(bytes: &[u8]) -> bool {
    let (channels, settings_at) = match bytes[0] {
        0 => (u16_at(bytes, 1) as usize, 3 + 2 * u16_at(bytes, 1) as usize),
        channels => (channels as usize, 1 + channels as usize),
    };
    let rows_at = settings_at + 76;
    let stops_at = rows_at + 4 * channels * u16_at(bytes, rows_at - 2) as usize;
    stops_at + 1 + 3 * (bytes[stops_at] as usize) < bytes.len()
}

pub fn reach_records(data: &[u8]) -> Reach {
    let mut required = texts(&["open 1", "open 2", "pass 1", "pass 2", "fail 2"]);
    required.extend(texts(&["incomplete 1", "incomplete 2"]));
    required.extend(texts(&["window printed", "window none", LEFT_OVER]));
    required.extend(names("open in rest, no window, mode ", 1..=2));
    required.extend(names("open after a restart, no window, mode ", 1..=2));
    required.extend(texts(&["open in mode 2, no window"]));
    required.extend(texts(&ON_THE_SHEET));
    required.extend(dips_in_records());
    required.extend(windows_in_records());
    required.extend(hundredths_in_records());
    required.extend(names("void ", 1..=9));
    required.extend(names("refused ", 1..=9));
    required.extend(texts(&["refused 19"]));
    required.extend(wide_endings());
    required.extend(read_names());
    let mut reach = Reach::new(required);
    let mut items = Items { data };
    while let Some(record) = items.record() {
        let judged = rejudge(record);
        let ending = match &judged {
            Err(refusal) => format!("refused {}", refusal.number),
            Ok(judged) => format!("{} {}", judged.word.map_or("open", Word::text), judged.mode),
        };
        if record.first() == Some(&0) {
            reach.count(format!("wide, {ending}"));
        }
        reach.count(ending);
        match judged {
            Err(refusal) => reach_refused(&mut reach, record, refusal),
            Ok(judged) => reach_judged(&mut reach, record, &judged),
        }
        let seen = Seen::read(record).names();
        seen.into_iter().for_each(|name| reach.count(name));
    }
    reach
}

const WIDE_LEFT_OVER: &str = "wide, refused 6 with a byte left over";

const WIDE_ABSENT: &str = "wide, refused 8 where a channel is absent";

/// How records in the wide form end.
fn wide_endings() -> Vec<String> {
    let mut endings = texts(&[
        "wide, open 1",
        "wide, open 2",
        "wide, pass 1",
        "wide, pass 2",
    ]);
    endings.extend(texts(&[
        "wide, fail 2",
        "wide, incomplete 1",
        "wide, incomplete 2",
    ]));
    endings.extend(names("wide, refused ", 1..=9));
    endings.extend(texts(&["wide, refused 19", WIDE_LEFT_OVER, WIDE_ABSENT]));
    endings
}

fn reach_refused(reach: &mut Reach, record: &[u8], refusal: Refusal) {
    let wide = record.first() == Some(&0);
    if refusal.number == 6 && bytes_left(record) {
        reach.count(if wide { WIDE_LEFT_OVER } else { LEFT_OVER });
    }
    if refusal.number == 8 {
        unfit_co2_at(record, refusal.place as usize).map(|what| reach.count(what));
    }
    if wide && refusal.number == 8 && absent_at(record, refusal.place as usize) {
        reach.count(WIDE_ABSENT);
    }
}

/// A row's start at which none of codes 1 to 8 stands.
fn absent_at(record: &[u8], place: usize) -> bool {
    read_record(record).is_ok_and(|read| {
        let starts = (place - read.rows_at) % (4 * read.codes.len()) == 0;
        starts && read.codes[0] > 8
    })
}

fn reach_judged(reach: &mut Reach, bytes: &[u8], judged: &Judged) {
    let printed = judged.window.is_some();
    reach.count(if printed {
        "window printed"
    } else {
        "window none"
    });
    let voids = judged.voids.iter();
    voids.for_each(|void| reach.count(format!("void {void}")));
    let Ok(record) = read_record(bytes) else {
        return;
    };
    let apart = names_in_record(bytes, &record);
    apart.iter().for_each(|name| reach.count(*name));
    let steps = record_steps(&record);
    if judged.word.is_none() {
        open_without_window(&steps).map(|what| reach.count(what));
    }
    let (mut runs, mut engines) = (Runs::default(), Engines::default());
    let (car, mut windows) = (record.vehicle(), Windows::default());
    for (second, step) in &steps {
        let shown = windows.step(&car, *second, step);
        shown.into_iter().for_each(|name| reach.count(name));
        let shown = runs.step(second.map(|s| s.speed), step);
        shown.into_iter().for_each(|name| reach.count(name));
        engines.step(second.and_then(|s| s.engine), step);
    }
    if judged.word.is_none() {
        windows.open_name(judged.mode).map(|what| reach.count(what));
    }
    let sheet = engines.names(record.settings[3] == 2);
    sheet.iter().for_each(|name| reach.count(*name));
}
