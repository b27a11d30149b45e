//! Reach: journals, read.

use crate::bench::{Bench, Event};
use crate::items::Items;
use crate::journal_walk::{length_of, refusal_of, walk, walk_event, End};
use crate::journaling::{read_journal, Journal, COUNT_AT, EVENTS_AT, MOST_EVENTS};
use crate::make_tests::kind_of;
use crate::numbers::{Refusal, MISSING, OVER};
use crate::reach::{names, texts, Reach};
use crate::reach_hundredths::{hundredths_in_journals, lines_name};
use crate::reach_starts::{reach_starts, start_names};
use crate::reach_whys::{reach_whys, why_names};
use crate::record::{u16_at, u32_at};

const SPECIAL: [&str; 33] = [
    "empty journal",
    "cut at every byte before the events",
    "cut before an event's kind",
    "one byte left",
    "many bytes left",
    "a byte left behind no events",
    "a whole event left",
    "bytes left that begin no event",
    "a first count alone that is not allowed",
    "events' count not allowed, and no events",
    "events' count not allowed before an unknown kind",
    "events' count 1701, and 1701 events",
    "events' count with a small low half",
    "V and U unfit",
    "15 before 1",
    "15 before 2",
    "15 before 7",
    "15 before 20",
    "first count before 15",
    "unknown kind as the last byte",
    "unknown kind of the first event",
    "unknown kind behind other events",
    "20 before 1",
    "20 before 7",
    "20 before another 20",
    "no events",
    "1700 events of the shortest kind",
    "62911 bytes",
    "expiry 0",
    "expiry 4294967295",
    "milliseconds 0",
    "milliseconds 4294967295",
    "new clock 4294967295",
];

const ABOVE_64_KIB: &str = "more than 65536 bytes";

/// Readings that no reader judges.
const READINGS: [(&str, fn(u32) -> bool); 8] = [
    ("missing", |b| b == MISSING),
    ("over range", |b| b == OVER),
    ("another quiet NaN", |b| {
        b << 1 > 0xFF80_0000 && b != MISSING
    }),
    ("signalling NaN", |b| {
        (0x7F80_0001..0x7FC0_0000).contains(&b)
    }),
    ("negative NaN", |b| b > 0xFF80_0000),
    ("negative infinity", |b| b == 0xFF80_0000),
    ("minus zero", |b| b == 0x8000_0000),
    ("below the normal numbers", |b| {
        (1..0x0080_0000).contains(&b)
    }),
];

/// What of all journals together is reached: the bytes at which each kind was cut.
struct Cuts {
    first: [usize; EVENTS_AT],
    of_kind: [[usize; 37]; 15], // 0 a wrong try, 5 a good one
}

fn cut_name(kind: usize) -> String {
    match kind {
        0 => "a wrong try cut at every byte".to_string(),
        5 => "a good try cut at every byte".to_string(),
        _ => format!("kind {kind} cut at every byte"),
    }
}

impl Cuts {
    /// An event cut behind its kind.
    fn event(&mut self, bytes: &[u8], start: usize) {
        let (kind, taken) = (bytes[start] as usize, bytes.len() - start);
        let known = kind != 5 || taken > 5;
        self.of_kind[kind][taken] += 1;
        if !known {
            self.of_kind[0][taken] += 1;
        }
    }

    fn report(&self, reach: &mut Reach) {
        let least = |counts: &[usize]| counts.iter().min().copied().unwrap_or(0);
        let mut put = |name: String, count: usize| {
            if count > 0 {
                reach.counts.insert(name, count);
            }
        };
        put(SPECIAL[1].to_string(), least(&self.first));
        for kind in 0..=13 {
            let counts = &self.of_kind[kind][1..length_of(kind)];
            put(cut_name(kind), least(counts));
        }
    }
}

/// What reading alone can reach.
pub fn reading_names() -> Vec<String> {
    let mut required = texts(&SPECIAL);
    required.extend((0..=13).map(cut_name));
    required.extend(
        names("kind ", 1..=13)
            .iter()
            .map(|k| format!("{k} in a fit journal")),
    );
    required.extend([0, 1, 3, 255].map(|n| format!("first count {n}")));
    required.extend([1701, u32::MAX].map(|n| format!("events' count {n}")));
    required.extend([0, 2_592_001, u32::MAX].map(|v| format!("unfit V {v}")));
    required.extend([0, 256, 65535].map(|u| format!("unfit U {u}")));
    required.extend([1, 2_592_000].map(|v| format!("fit V {v}")));
    required.extend([1, 255].map(|u| format!("fit U {u}")));
    required.extend([0, 14, 255].map(|k| format!("unknown kind {k}")));
    for kind in [4, 5, 12] {
        for byte in [2, 255] {
            required.push(format!("yes-or-no {byte} in kind {kind}"));
            required.push(format!("yes-or-no {byte} in kind {kind}, the last byte"));
        }
        required.extend([0, 1].map(|b| format!("yes-or-no {b} in kind {kind}")));
    }
    required.extend(READINGS.map(|(name, _)| format!("reading {name}")));
    required.extend([-1, i16::MIN].map(|residue| format!("residue {residue}")));
    required.extend([0, 5, 255].map(|cause| format!("cause {cause}")));
    required
}

fn required() -> Vec<String> {
    let mut required = reading_names();
    required.push(ABOVE_64_KIB.to_string());
    required.extend(
        [4, 5, 8]
            .iter()
            .chain(&[11, 12, 13, 14, 15, 16, 17, 18])
            .map(bench_refused),
    );
    required.extend(start_names());
    required.extend(why_names());
    required.extend(hundredths_in_journals());
    required
}

fn bench_refused(number: &u8) -> String {
    format!("fit, and an event refused {number} by the bench")
}

pub fn reach_journals(data: &[u8]) -> Reach {
    let mut reach = Reach::new(required());
    let mut cuts = Cuts {
        first: [0; EVENTS_AT],
        of_kind: [[0; 37]; 15],
    };
    let mut items = Items { data };
    while let Some(bytes) = items.record() {
        match read_journal(bytes) {
            Ok(journal) => reach_fit(&mut reach, bytes, &journal),
            Err(refusal) => reach_unfit(&mut reach, &mut cuts, bytes, refusal),
        }
        if bytes.len() > 65_536 {
            reach.count(ABOVE_64_KIB);
        }
    }
    cuts.report(&mut reach);
    reach
}

fn reach_fit(reach: &mut Reach, bytes: &[u8], journal: &Journal) {
    let Journal { v, u, events } = journal;
    reach.count(format!("fit V {v}"));
    reach.count(format!("fit U {u}"));
    if events.is_empty() {
        reach.count("no events");
    }
    if events.len() == MOST_EVENTS && bytes.len() == EVENTS_AT + 5 * MOST_EVENTS {
        reach.count("1700 events of the shortest kind");
    }
    if bytes.len() == 62_911 {
        reach.count("62911 bytes");
    }
    for (_, event) in events {
        reach.count(format!("kind {} in a fit journal", kind_of(event)));
        reach_fields(reach, event);
    }
    reach_bench(reach, journal);
    reach_starts(reach, journal);
    reach_whys(reach, journal);
    lines_name(journal).map(|name| reach.count(name));
}

fn reach_fields(reach: &mut Reach, event: &Event) {
    let mut yes_or_no = |yes: bool| {
        reach.count(format!(
            "yes-or-no {} in kind {}",
            yes as u8,
            kind_of(event)
        ))
    };
    match event {
        Event::Calibration(passed) => yes_or_no(*passed),
        Event::Try(outcome) => yes_or_no(outcome.is_some()),
        Event::Run(run) => yes_or_no(run.faster),
        _ => {}
    }
    match event {
        Event::Try(Some(expiry @ (0 | u32::MAX))) => reach.count(format!("expiry {expiry}")),
        Event::ClockSetting(u32::MAX) => reach.count("new clock 4294967295"),
        Event::Stop(cause @ (0 | 5 | 255)) => reach.count(format!("cause {cause}")),
        Event::Run(run) if matches!(run.ms, 0 | u32::MAX) => {
            reach.count(format!("milliseconds {}", run.ms))
        }
        Event::Prepare(p) if matches!(p.residue, -1 | i16::MIN) => {
            reach.count(format!("residue {}", p.residue))
        }
        Event::Second(bits) => {
            for (name, is) in READINGS {
                if bits.iter().any(|b| is(*b)) {
                    reach.count(format!("reading {name}"));
                }
            }
        }
        _ => {}
    }
}

fn reach_bench(reach: &mut Reach, journal: &Journal) {
    let Ok(mut bench) = Bench::new(journal.v, journal.u) else {
        return;
    };
    for (clock, event) in &journal.events {
        if let Err(refusal) = bench.take(*clock, event) {
            reach.count(bench_refused(&refusal.number));
        }
    }
}

/// V, U and the events' count, as far as they are there.
fn parameters(bytes: &[u8]) -> (Option<u32>, Option<u16>, Option<u32>) {
    let whole = |to: usize| bytes.len() >= to;
    (
        whole(5).then(|| u32_at(bytes, 1)),
        whole(7).then(|| u16_at(bytes, 5)),
        whole(EVENTS_AT).then(|| u32_at(bytes, COUNT_AT)),
    )
}

fn reach_unfit(reach: &mut Reach, cuts: &mut Cuts, bytes: &[u8], refusal: Refusal) {
    match (refusal.number, refusal.place) {
        (1, _) if bytes.len() < EVENTS_AT => {
            cuts.first[bytes.len()] += 1;
            if bytes.is_empty() {
                reach.count("empty journal");
            }
        }
        (2, 0) => reach_first_count(reach, bytes),
        (2, _) => reach_count(reach, bytes),
        (15, _) => reach_parameters(reach, bytes),
        _ => reach_events_end(reach, cuts, bytes),
    }
}

fn reach_first_count(reach: &mut Reach, bytes: &[u8]) {
    reach.count(format!("first count {}", bytes[0]));
    if bytes.len() == 1 {
        reach.count("a first count alone that is not allowed");
    }
    if let (Some(0), Some(0), _) = parameters(bytes) {
        reach.count("first count before 15");
    }
}

fn reach_count(reach: &mut Reach, bytes: &[u8]) {
    let count = u32_at(bytes, COUNT_AT);
    reach.count(format!("events' count {count}"));
    if bytes.len() == EVENTS_AT {
        reach.count("events' count not allowed, and no events");
    }
    if count as u16 <= 1700 {
        reach.count("events' count with a small low half");
    }
    match walk(bytes, 1701).end {
        End::Whole if count == 1701 => reach.count("events' count 1701, and 1701 events"),
        End::UnknownKind(_) => reach.count("events' count not allowed before an unknown kind"),
        _ => {}
    }
}

fn reach_parameters(reach: &mut Reach, bytes: &[u8]) {
    let (v, u, count) = parameters(bytes);
    let (v, u) = (v.unwrap_or(0), u.unwrap_or(0));
    let (unfit_v, unfit_u) = (v == 0 || v > 2_592_000, u == 0 || u > 255);
    match (unfit_v, unfit_u) {
        (true, true) => reach.count("V and U unfit"),
        (true, false) => reach.count(format!("unfit V {v}")),
        _ => reach.count(format!("unfit U {u}")),
    }
    match count {
        None => reach.count("15 before 1"),
        Some(count) if count > 1700 => reach.count("15 before 2"),
        Some(count) => match refusal_of(bytes, &walk(bytes, count as usize)) {
            Some(refusal) => reach.count(format!("15 before {}", refusal.number)),
            None => {}
        },
    }
}

/// Refused 1, 7 or 20 in the events.
fn reach_events_end(reach: &mut Reach, cuts: &mut Cuts, bytes: &[u8]) {
    let count = u32_at(bytes, COUNT_AT) as usize;
    let end = walk(bytes, count);
    let last = end.at + 1 == bytes.len();
    match end.end {
        End::Whole => reach_left(reach, bytes, end.at),
        End::Cut if end.start == bytes.len() => reach.count("cut before an event's kind"),
        End::Cut => cuts.event(bytes, end.start),
        End::UnknownKind(kind) => {
            reach.count(format!("unknown kind {kind}"));
            reach.count(match end.whole {
                0 => "unknown kind of the first event",
                _ => "unknown kind behind other events",
            });
            if last {
                reach.count("unknown kind as the last byte");
            }
        }
        End::NeitherYesNorNo(byte) => {
            let name = format!("yes-or-no {byte} in kind {}", bytes[end.start]);
            reach.count(name.clone());
            if last {
                reach.count(name + ", the last byte");
            }
            reach_behind(reach, bytes, count, end.at);
        }
    }
}

fn reach_left(reach: &mut Reach, bytes: &[u8], at: usize) {
    match bytes.len() - at {
        1 => reach.count("one byte left"),
        _ => reach.count("many bytes left"),
    }
    if at == EVENTS_AT {
        reach.count("a byte left behind no events");
    }
    match walk_event(bytes, at) {
        Ok(_) => reach.count("a whole event left"),
        Err((_, End::UnknownKind(_))) => reach.count("bytes left that begin no event"),
        _ => {}
    }
}

/// What would be refused if the byte that is neither yes nor no were no.
fn reach_behind(reach: &mut Reach, bytes: &[u8], count: usize, at: usize) {
    let mut mended = bytes.to_vec();
    mended[at] = 0;
    match refusal_of(&mended, &walk(&mended, count)).map(|r| r.number) {
        Some(1) => reach.count("20 before 1"),
        Some(7) => reach.count("20 before 7"),
        Some(_) => reach.count("20 before another 20"),
        None => {}
    }
}
