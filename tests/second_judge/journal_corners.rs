//! Making input: journals at the corners of reading, fit and not.

use crate::bench::Event;
use crate::journaling::{event_bytes, Journal, COUNT_AT, EVENTS_AT, MOST_EVENTS};
use crate::make_prepares::prepare;
use crate::make_runs::{run, PASSED_RUNS};
use crate::named_journals::repeated;
use crate::numbers::{MISSING, OVER};
use crate::script::good_bits;

const SETTINGS: [u16; 7] = [1, 2005, 125, 2, 50, 20, 1013];

/// Every kind of event, and every yes-or-no both ways; nothing of it need be fit for a bench.
pub const ALL_KINDS: [Event; 16] = [
    Event::PowerOn,
    Event::ClockSetting(0x0102_0304),
    Event::WarmUp,
    Event::Calibration(true),
    Event::Calibration(false),
    Event::Try(Some(0x0506_0708)),
    Event::Try(None),
    Event::AuthorityLock,
    Event::AuthorityUnlock,
    Event::Upload,
    Event::Start(SETTINGS, 2339),
    Event::Second([1, 2, 3, 4, 5, 6, 7, 8]),
    Event::Stop(3),
    PASSED_RUNS[0],
    PASSED_RUNS[1],
    prepare([0x0102, 0x0304, 0x0506], -2),
];

fn journal_of(events: &[Event]) -> Journal {
    let clocks = (0..).map(|i| 0x0A0B_0C00 + i);
    Journal {
        v: 86_400,
        u: 2,
        events: clocks.zip(events.iter().copied()).collect(),
    }
}

pub fn all_kinds() -> Journal {
    journal_of(&ALL_KINDS)
}

/// With V and U put in their places.
fn with_parameters(bytes: &[u8], v: u32, u: u16) -> Vec<u8> {
    let mut out = bytes.to_vec();
    out[1..5].copy_from_slice(&v.to_le_bytes());
    out[5..7].copy_from_slice(&u.to_le_bytes());
    out
}

/// With the events' count as it is given.
fn counted(bytes: &[u8], count: u32) -> Vec<u8> {
    let mut out = bytes.to_vec();
    out[COUNT_AT..EVENTS_AT].copy_from_slice(&count.to_le_bytes());
    out
}

/// With a byte put at a place.
fn with_byte(bytes: &[u8], at: usize, byte: u8) -> Vec<u8> {
    let mut out = bytes.to_vec();
    out[at] = byte;
    out
}

/// The longest journal and so many bytes that it is longer than 64 KiB.
pub fn too_long() -> Vec<u8> {
    let mut bytes = repeated(Event::Second(good_bits()), MOST_EVENTS).bytes();
    bytes.resize(65_540, 1);
    bytes
}

pub fn reading_corners() -> Vec<Vec<u8>> {
    let mut list = cuts();
    list.extend(ends());
    list.extend(first_counts());
    list.extend(event_counts());
    list.extend(parameters());
    list.extend(unknown_kinds());
    list.extend(neither_yes_nor_no());
    list.extend(two_faults());
    list.push(unjudged().bytes());
    list.push(repeated(Event::WarmUp, MOST_EVENTS).bytes());
    list
}

/// Cut off at every byte.
fn cuts() -> Vec<Vec<u8>> {
    let whole = all_kinds().bytes();
    (0..=whole.len()).map(|n| whole[..n].to_vec()).collect()
}

/// Bytes left: one, many, an event more than was counted; and an event less than was counted.
fn ends() -> Vec<Vec<u8>> {
    let (whole, empty) = (all_kinds().bytes(), journal_of(&[]).bytes());
    let count = ALL_KINDS.len() as u32;
    let mut list = Vec::new();
    for more in [&[0][..], &[1], &[14], &[255; 100]] {
        list.push([&whole[..], more].concat());
        list.push([&empty[..], more].concat());
    }
    for less in [0, 1, count - 1] {
        list.push(counted(&whole, less));
    }
    for more in [count + 1, 256 + count, MOST_EVENTS as u32] {
        list.push(counted(&whole, more));
    }
    list.push(counted(&empty, 1));
    list
}

fn first_counts() -> Vec<Vec<u8>> {
    let whole = all_kinds().bytes();
    let mut list = vec![with_parameters(&with_byte(&whole, 0, 1), 0, 0)];
    for count in [0, 1, 3, 7, 255] {
        list.push(vec![count]);
        list.push(with_byte(&whole, 0, count));
    }
    list
}

/// Events' counts that are not allowed, alone and with events behind them; just allowed, and cut off.
fn event_counts() -> Vec<Vec<u8>> {
    let whole = all_kinds().bytes();
    let unfit = with_byte(&whole, EVENTS_AT, 14);
    let mut list = Vec::new();
    for count in [1701, 0x0001_0010, 0x0100_0010, 0x8000_0010, u32::MAX] {
        list.push(counted(&whole, count));
        list.push(counted(&whole[..EVENTS_AT], count));
        list.push(counted(&unfit, count));
    }
    list.push(counted(&whole[..EVENTS_AT], 1700));
    list.push(counted(&unfit, 1700));
    list
}

/// V and U of which one is unfit, or both.
pub const UNFIT_PARAMETERS: [(u32, u16); 10] = [
    (0, 2),
    (2_592_001, 2),
    (0x0100_0001, 2),
    (u32::MAX, 2),
    (86_400, 0),
    (86_400, 256),
    (86_400, 257),
    (86_400, 65535),
    (0, 0),
    (u32::MAX, 65535),
];

/// V and U at and beside their ends, before everything that is wrong behind them.
fn parameters() -> Vec<Vec<u8>> {
    let whole = all_kinds().bytes();
    let unfit = with_byte(&whole, EVENTS_AT, 0);
    let mut list = Vec::new();
    for (v, u) in [(1, 1), (2_592_000, 255), (1, 255), (2_592_000, 1)] {
        list.push(with_parameters(&whole, v, u));
        list.push(with_parameters(&journal_of(&[]).bytes(), v, u));
    }
    for (v, u) in UNFIT_PARAMETERS {
        list.push(with_parameters(&whole, v, u));
        list.push(with_parameters(&counted(&whole, 1701), v, u));
        list.push(with_parameters(&whole[..COUNT_AT], v, u));
        list.push(with_parameters(&whole[..COUNT_AT + 3], v, u));
        list.push(with_parameters(&unfit, v, u));
        list.push(with_parameters(&[&whole[..], &[9]].concat(), v, u));
    }
    list
}

/// Kinds that there are none of: of the first event, one in the middle and the last, with what follows and without.
fn unknown_kinds() -> Vec<Vec<u8>> {
    let whole = all_kinds().bytes();
    let starts = event_starts();
    let mut list = Vec::new();
    for kind in [0, 14, 128, 255] {
        for at in [starts[0], starts[8], starts[15]] {
            let bytes = with_byte(&whole, at, kind);
            list.push(bytes[..=at].to_vec());
            list.push(bytes[..at + 3].to_vec());
            list.push(bytes);
        }
    }
    list
}

/// The offset of each event of `ALL_KINDS`.
fn event_starts() -> Vec<usize> {
    let mut at = EVENTS_AT;
    let mut starts = Vec::new();
    for event in &ALL_KINDS {
        starts.push(at);
        at += event_bytes(0, event).len();
    }
    starts
}

/// The offset of each yes-or-no of `ALL_KINDS`.
fn yes_or_no_places() -> Vec<usize> {
    let places = event_starts().into_iter().zip(&ALL_KINDS);
    let of = |(at, event): (usize, &Event)| match event {
        Event::Calibration(_) | Event::Try(_) => Some(at + 5),
        Event::Run(_) => Some(at + 9),
        _ => None,
    };
    places.filter_map(of).collect()
}

/// Bytes that are neither yes nor no, with what follows and without.
fn neither_yes_nor_no() -> Vec<Vec<u8>> {
    let whole = all_kinds().bytes();
    let mut list = Vec::new();
    for at in yes_or_no_places() {
        for byte in [2, 3, 128, 255] {
            let bytes = with_byte(&whole, at, byte);
            list.push(bytes[..=at].to_vec());
            list.push(bytes[..at + 3].to_vec());
            list.push(bytes);
        }
    }
    list
}

/// Two faults: the earlier one is told, and bytes left and a missing event come last.
fn two_faults() -> Vec<Vec<u8>> {
    let whole = all_kinds().bytes();
    let (starts, places) = (event_starts(), yes_or_no_places());
    let first = with_byte(&whole, places[0], 2);
    let mut list = vec![
        with_byte(&first, starts[6], 14),
        with_byte(&first, places[5], 255),
        first[..whole.len() - 1].to_vec(),
        first[..starts[5] + 2].to_vec(),
        [&first[..], &[0]].concat(),
        counted(&first, 1700),
        with_byte(&with_byte(&whole, starts[5], 0), places[5], 2),
        with_byte(&with_byte(&whole, starts[3], 99), places[0], 2),
        counted(&with_byte(&whole, starts[2], 14), 2),
        counted(&with_byte(&whole, starts[2], 14), 3),
    ];
    let end = with_byte(&whole, places[5], 2);
    list.push(counted(&end, 14));
    list.push(counted(&end, 15));
    list
}

/// Readings of every sort, none of which a reader judges.
pub const PATTERNS: [u32; 16] = [
    MISSING,
    OVER,
    0x7FC0_0001, // quiet, signalling and negative NaN
    0x7F80_0001,
    0x7FBF_FFFF,
    0x7FFF_FFFF,
    0xFFC0_0000,
    0xFFFF_FFFF,
    0xFF80_0001,
    0xFF80_0000, // negative infinity
    0x8000_0000, // minus zero
    0x8000_0001, // the least below it
    0x0000_0001,
    0x7F7F_FFFF, // the greatest
    0xFF7F_FFFF,
    0xBF80_0000,
];

/// What only a bench would refuse, in a test and without one.
pub fn unjudged() -> Journal {
    let mut events = vec![(u32::MAX, Event::Stop(0)), (0, Event::Stop(255))];
    events.extend([
        (5, Event::Start([0; 7], 0)),
        (5, Event::Start([65535; 7], 65535)),
        (5, Event::Start(SETTINGS, 4301)),
        (6, Event::Try(Some(0))),
        (6, Event::Try(Some(u32::MAX))),
        (7, run(0, 65535, true, 0)),
        (7, run(1200, 65535, false, u32::MAX)),
        (8, prepare([65535; 3], -1)),
        (8, prepare([0, 2001, 5001], i16::MIN)),
        (8, prepare([0, 0, 5001], i16::MAX)),
        (8, prepare([0, 0, 0], -1)),
        (8, prepare([0, 0, 0], i16::MIN)),
        (7, Event::ClockSetting(u32::MAX)),
        (9, Event::ClockSetting(0)),
        (3, Event::WarmUp),
        (3, Event::Calibration(true)),
    ]);
    events.extend(PASSED_RUNS.map(|event| (3, event)));
    events.extend([
        (3, prepare([0, 0, 0], 0)),
        (3, Event::Start(SETTINGS, 2339)),
    ]);
    for pattern in PATTERNS {
        for place in 0..8 {
            let mut bits = good_bits();
            bits[place] = pattern;
            events.push((4, Event::Second(bits)));
        }
        events.push((4, Event::Second([pattern; 8])));
    }
    events.extend([0, 5, 255].map(|cause| (4, Event::Stop(cause))));
    Journal {
        v: 86_400,
        u: 2,
        events,
    }
}
