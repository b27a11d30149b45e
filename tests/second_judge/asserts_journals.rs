//! Own asserts: journals, read and written.

use crate::bench::Event;
use crate::items::Items;
use crate::journal_modes::{mode_journal_read, mode_journal_vectors, mode_journal_write};
use crate::journal_walk::walk_agrees;
use crate::journaling::{
    event_bytes, events_of, journal_lines, read_journal, write_journal, Journal,
};
use crate::make_journal_vectors::make_journal_vectors;
use crate::make_journals::make_journals;
use crate::make_prepares::prepare;
use crate::make_records::put_item;
use crate::make_runs::run;
use crate::make_tests::put_event;
use crate::modes::mode_events;
use crate::named_journals::{named_journal, JOURNALS};
use crate::numbers::Refusal;
use crate::own_asserts::Checks;
use crate::reach_journals::{reach_journals, reading_names};

/// 2, V 86,400, U 2 and a count of events.
const HEAD: [u8; 11] = [2, 0x80, 0x51, 1, 0, 2, 0, 0, 0, 0, 0];

/// Each kind at clock 258, written out.
#[rustfmt::skip]
const WRITTEN: [(Event, &[u8]); 17] = [
    (Event::PowerOn, &[1, 2, 1, 0, 0]),
    (Event::ClockSetting(0x0403_0201), &[2, 2, 1, 0, 0, 1, 2, 3, 4]),
    (Event::WarmUp, &[3, 2, 1, 0, 0]),
    (Event::Calibration(true), &[4, 2, 1, 0, 0, 1]),
    (Event::Calibration(false), &[4, 2, 1, 0, 0, 0]),
    (Event::Try(Some(0x0807_0605)), &[5, 2, 1, 0, 0, 1, 5, 6, 7, 8]),
    (Event::Try(None), &[5, 2, 1, 0, 0, 0]),
    (Event::AuthorityLock, &[6, 2, 1, 0, 0]),
    (Event::AuthorityUnlock, &[7, 2, 1, 0, 0]),
    (Event::Upload, &[8, 2, 1, 0, 0]),
    (Event::Start([1, 2005, 125, 2, 50, 20, 1013], 2339),
        &[9, 2, 1, 0, 0, 1, 0, 0xD5, 7, 125, 0, 2, 0, 50, 0, 20, 0, 0xF5, 3, 0x23, 9]),
    (Event::Second([1, 0x7FC0_0000, 0x7F80_0000, 0xFFFF_FFFF, 0x8000_0000, 0x7FA0_0001, 0, 0x3F80_A3D7]),
        &[10, 2, 1, 0, 0, 1, 0, 0, 0, 0, 0, 0xC0, 0x7F, 0, 0, 0x80, 0x7F, 255, 255, 255, 255,
          0, 0, 0, 0x80, 1, 0, 0xA0, 0x7F, 0, 0, 0, 0, 0xD7, 0xA3, 0x80, 0x3F]),
    (Event::Stop(4), &[11, 2, 1, 0, 0, 4]),
    (Event::Stop(0), &[11, 2, 1, 0, 0, 0]),
    (run(1200, 100, true, 5926), &[12, 2, 1, 0, 0, 0xB0, 4, 100, 0, 1, 0x26, 0x17, 0, 0]),
    (run(65535, 256, false, u32::MAX), &[12, 2, 1, 0, 0, 255, 255, 0, 1, 0, 255, 255, 255, 255]),
    (prepare([9999, 258, 3], -2), &[13, 2, 1, 0, 0, 0x0F, 0x27, 2, 1, 3, 0, 0xFE, 0xFF]),
];

/// A journal of some events' bytes, counted as so many.
fn counted(count: u8, events: &[&[u8]]) -> Vec<u8> {
    let mut bytes = HEAD.to_vec();
    bytes[7] = count;
    events.iter().for_each(|event| bytes.extend(*event));
    bytes
}

fn answer(bytes: &[u8]) -> String {
    match read_journal(bytes) {
        Ok(journal) => format!("fit {}", journal.events.len()),
        Err(refusal) => refusal.to_string(),
    }
}

/// Each kind's bytes, and back; and what they are in the other list of events.
pub fn check_journal_bytes(checks: &mut Checks) {
    for (event, bytes) in WRITTEN {
        checks.same("an event's bytes", &event_bytes(258, &event)[..], bytes);
        let mut item = Vec::new();
        put_event(&mut item, Some(258), &event);
        checks.same("the item of it", &item[..], bytes);
        let one = counted(1, &[bytes]);
        let journal = Journal {
            v: 86_400,
            u: 2,
            events: vec![(258, event)],
        };
        checks.same("a journal of one", &journal.bytes(), &one);
        checks.same("a journal of one, read", read_journal(&one), Ok(journal));
        for cut in 0..one.len() {
            let want = format!("refused 1 {cut}");
            checks.same("cut", answer(&one[..cut]), want);
        }
    }
    let all: Vec<&[u8]> = WRITTEN.iter().map(|(_, bytes)| *bytes).collect();
    let events: Vec<(u32, Event)> = WRITTEN.iter().map(|(event, _)| (258, *event)).collect();
    let read = read_journal(&counted(17, &all)).map(|journal| journal.events);
    checks.same("all of them", read.as_ref(), Ok(&events));
    checks.same("the events of bytes", &events_of(&all.concat()), &events);
}

/// Refusals and their places, on journals of a few bytes.
#[rustfmt::skip]
pub fn check_journal_reading(checks: &mut Checks) {
    let mut same = |bytes: &[u8], want: &str| checks.same("a journal", &answer(bytes)[..], want);
    same(&[], "refused 1 0");
    for first in [0, 1, 3, 255] {
        same(&[first], "refused 2 0");
        same(&[&[first], &HEAD[1..]].concat(), "refused 2 0");
    }
    same(&HEAD, "fit 0");
    same(&[&HEAD[..], &[1]].concat(), "refused 7 11");
    same(&[&HEAD[..], &[1; 70_000]].concat(), "refused 7 11");
    let (on, on_and) = (&[1, 9, 0, 0, 0][..], |more: &[u8]| [&[1, 9, 0, 0, 0], more].concat());
    same(&counted(1, &[on]), "fit 1");
    same(&counted(1, &[&on_and(&[0])]), "refused 7 16");
    same(&counted(1, &[on, on]), "refused 7 16");
    same(&counted(2, &[on]), "refused 1 16");
    same(&counted(0, &[on]), "refused 7 11");
    // An unknown kind, then whatever there is.
    for kind in [0, 14, 128, 255] {
        same(&counted(1, &[&[kind]]), "refused 20 11");
        same(&counted(1, &[&[kind, 9, 0, 0, 0]]), "refused 20 11");
        same(&counted(2, &[&on_and(&[kind])]), "refused 20 16");
        same(&counted(1, &[&on_and(&[kind])]), "refused 7 16");
        same(&counted(0, &[&[kind]]), "refused 7 11");
    }
    // A yes-or-no above 1: a calibration's, a try's, a run's.
    for byte in [2, 3, 128, 255] {
        same(&counted(1, &[&[4, 9, 0, 0, 0, byte]]), "refused 20 16");
        same(&counted(9, &[&[4, 9, 0, 0, 0, byte]]), "refused 20 16");
        same(&counted(1, &[&[5, 9, 0, 0, 0, byte]]), "refused 20 16");
        same(&counted(1, &[&[5, 9, 0, 0, 0, byte, 1, 1, 1, 1]]), "refused 20 16");
        same(&counted(1, &[&[12, 9, 0, 0, 0, 7, 7, 8, 8, byte]]), "refused 20 20");
        same(&counted(1, &[&[12, 9, 0, 0, 0, 7, 7, 8, 8, byte, 1, 1, 1, 1]]), "refused 20 20");
        same(&counted(1, &[&[4, 9, 0, 0, 0, byte, 77]]), "refused 20 16");
        same(&counted(2, &[&[4, 9, 0, 0, 0, byte, 14]]), "refused 20 16");
        same(&counted(2, &[&[4, 9, 0, 0, 0, 1, 5, 9, 0, 0, 0, byte]]), "refused 20 22");
        same(&counted(1, &[&[11, 9, 0, 0, 0, byte]]), "fit 1");
    }
    same(&counted(1, &[&[12, 9, 0, 0, 0, 7, 7, 8, 8]]), "refused 1 20");
    same(&counted(1, &[&[12, 9, 0, 0, 0, 7, 7, 8]]), "refused 1 19");
    same(&counted(1, &[&[5, 9, 0, 0, 0]]), "refused 1 16");
    same(&counted(1, &[&[5, 9, 0, 0]]), "refused 1 15");
    same(&counted(1, &[&[5, 9, 0, 0, 0, 1, 1, 1, 1]]), "refused 1 20");
    same(&counted(1, &[&[5, 9, 0, 0, 0, 0, 1, 1, 1, 1]]), "refused 7 17");
    same(&counted(2, &[&[5, 9, 0, 0, 0, 0, 0, 1, 1, 1, 1]]), "refused 20 17");
}

/// V, U and the events' count, in the order in which they are judged.
#[rustfmt::skip]
pub fn check_journal_parameters(checks: &mut Checks) {
    let mut same = |v: u32, u: u16, behind: &[u8], want: &str| {
        let bytes = [&[2], &v.to_le_bytes()[..], &u.to_le_bytes(), behind].concat();
        checks.same("V and U", &answer(&bytes)[..], want);
    };
    let (none, one) = ([0, 0, 0, 0], [1, 0, 0, 0, 1, 9, 0, 0, 0]);
    for (v, u) in [(1, 1), (1, 255), (2_592_000, 1), (2_592_000, 255)] {
        same(v, u, &none, "fit 0");
        same(v, u, &one, "fit 1");
        same(v, u, &[], "refused 1 7");
        same(v, u, &[1], "refused 1 8");
        same(v, u, &[0xA5, 6, 0], "refused 1 10");
        same(v, u, &[0xA5, 6, 0, 0], "refused 2 7"); // 1,701
        same(v, u, &[0xA4, 6, 0, 0], "refused 1 11"); // 1,700
        same(v, u, &[0xA4, 6, 0, 0, 14], "refused 20 11");
        same(v, u, &[0xA5, 6, 0, 0, 14], "refused 2 7");
        same(v, u, &[0, 0, 1, 0, 1], "refused 2 7");
        same(v, u, &[1, 0, 0, 1, 1, 9, 0, 0, 0], "refused 2 7");
        same(v, u, &[255; 9], "refused 2 7");
    }
    for (v, u) in [(0, 1), (2_592_001, 1), (1 << 24, 1), (u32::MAX, 1), (1, 0), (1, 256), (1, 257), (1, 65535), (0, 0)] {
        for behind in [&none[..], &one, &[], &[1], &[255; 4], &[0xA5, 6, 0, 0], &[1, 0, 0, 0, 14], &[0, 0, 0, 0, 9]] {
            same(v, u, behind, "refused 15 0");
        }
    }
    let unfit = [2, 0, 0, 0, 0, 0, 0];
    for cut in 1..7 {
        checks.same("before 15", answer(&unfit[..cut]), format!("refused 1 {cut}"));
    }
    checks.same("15", &answer(&unfit)[..], "refused 15 0");
}

/// What a writer answers, and that a refusal leaves the output.
pub fn check_journal_writer(checks: &mut Checks) {
    let journal = |v: u32, u: u16, count: usize| Journal {
        v,
        u,
        events: vec![(258, Event::Stop(9)); count],
    };
    let mut same = |journal: &Journal, length: usize, want: Result<usize, (u8, u64)>| {
        let mut out = vec![0x5A; length];
        let got = write_journal(journal, &mut out);
        let pair = |refusal: Refusal| (refusal.number, refusal.place);
        checks.same("written", got.map_err(pair), want);
        let left = got.unwrap_or(0);
        checks.same("what is written", &out[..left], &journal.bytes()[..left]);
        checks.same("the rest", out[left..].iter().all(|b| *b == 0x5A), true);
    };
    for (count, needed) in [(0, 11), (1, 17), (2, 23), (1700, 10_211)] {
        let fit = journal(86_400, 2, count);
        same(&fit, needed, Ok(needed));
        same(&fit, needed + 1, Ok(needed));
        same(&fit, needed + 100, Ok(needed));
        same(&fit, needed - 1, Err((10, needed as u64)));
        same(&fit, 0, Err((10, needed as u64)));
    }
    for length in [0, 20_000] {
        same(&journal(1, 255, 1701), length, Err((2, 7)));
        same(&journal(2_592_000, 1, 65_536), length, Err((2, 7)));
        for (v, u) in [(0, 1), (2_592_001, 1), (1, 0), (1, 256), (0, 0)] {
            same(&journal(v, u, 1701), length, Err((15, 0)));
            same(&journal(v, u, 1), length, Err((15, 0)));
        }
    }
}

fn lines_of(mode: impl Fn(&mut dyn FnMut(&str))) -> Vec<String> {
    let mut lines = Vec::new();
    mode(&mut |line: &str| lines.push(line.to_string()));
    lines
}

/// The items of the modes, byte by byte.
pub fn check_journal_items(checks: &mut Checks) {
    let read = |data: &[u8]| lines_of(|out| mode_journal_read(data, &mut |line| out(line)));
    let write = |data: &[u8]| lines_of(|out| mode_journal_write(data, &mut |line| out(line)));
    let mut items = vec![11, 0, 0, 0];
    items.extend(HEAD);
    items.extend([2, 0, 0, 0, 2, 0]);
    let want = ["fit 86400 2 0 same", "refused 1 2"].map(String::from);
    checks.same("journal_read", read(&items), want.to_vec());
    // Output 17, fill 0xA5, V 86,400, U 2, then a stop and what is no event.
    let stop = [11, 2, 1, 0, 0, 9];
    let item = |length: u8, u: u8| {
        let head = [length, 0, 0, 0, 0xA5, 0x80, 0x51, 1, 0, u, 0, 7, 0, 0, 0];
        [&head[..], &stop, &[14]].concat()
    };
    let fnv = |bytes: &[u8]| {
        bytes.iter().fold(2_166_136_261u32, |hash, b| {
            (hash ^ *b as u32).wrapping_mul(16_777_619)
        })
    };
    let written = fnv(&counted(1, &[&stop]));
    let filled = fnv(&[0xA5; 16]);
    let items = [item(17, 2), item(16, 2), item(16, 0)].concat();
    let want = [
        format!("written 17 {written} same"),
        format!("refused 10 17 {filled}"),
        format!("refused 15 0 {filled}"),
    ];
    checks.same("journal_write", write(&items), want.to_vec());
}

/// Named journals: their sizes and answers.
pub fn check_named_journals(checks: &mut Checks) {
    let mut same = |name: &str, size: usize, want: &str| {
        let bytes = named_journal(name).unwrap_or_default();
        checks.same(name, bytes.len(), size);
        checks.same(name, &answer(&bytes)[..], want);
    };
    same("unfit", 117, "refused 20 68");
    same("empty", 11, "fit 0");
    same("longest", 62_911, "fit 1700");
    same("too_many", 8_516, "refused 2 7");
    same("none of this name", 0, "refused 1 0");
    for name in JOURNALS {
        checks.same(name, named_journal(name).is_some(), true);
    }
    let quiet = named_journal("quiet").unwrap_or_default();
    checks.same("quiet", journal_lines(&quiet).len(), 0);
}

/// The answers to the starts in the other list of events.
fn lines_of_events(journal: &Journal) -> Vec<String> {
    let mut data = journal.v.to_le_bytes().to_vec();
    data.extend(journal.u.to_le_bytes());
    for (clock, event) in &journal.events {
        put_event(&mut data, Some(*clock), event);
    }
    let mut answers = Vec::new();
    mode_events(&data, &mut |line| answers.push(line.to_string()));
    let mut lines = Vec::new();
    for ((_, event), answer) in journal.events.iter().zip(answers) {
        let words: Vec<&str> = answer.split(' ').collect();
        match (event, &words[..]) {
            (Event::Start(..), ["ok"]) => lines.push("admitted".to_string()),
            (Event::Start(..), ["refused", "14", lock]) => lines.push(lock.to_string()),
            (Event::Start(..), _) => lines.push(words[..2].join(" ")),
            _ => {}
        }
    }
    lines
}

/// Both round trips over made journals; the reader beside a walk, the lines beside mode `events`.
pub fn check_journal_round_trips(checks: &mut Checks) {
    let made = make_journals(3, 900);
    let mut items = Items { data: &made };
    while let Some(bytes) = items.record() {
        checks.same("the walk", walk_agrees(bytes), true);
        let Ok(journal) = read_journal(bytes) else {
            checks.same(
                "an unfit journal's line",
                journal_lines(bytes),
                vec![answer(bytes)],
            );
            continue;
        };
        let mut out = vec![0x5A; bytes.len()];
        checks.same(
            "written again",
            write_journal(&journal, &mut out),
            Ok(bytes.len()),
        );
        checks.same("the same bytes", out == bytes, true);
        checks.same(
            "its events",
            &events_of(&bytes[11..]) == &journal.events,
            true,
        );
        checks.same(
            "a live bench",
            journal_lines(bytes),
            lines_of_events(&journal),
        );
    }
}

/// No journal, entries or output of the vectors is above 65,536 bytes, and every item is understood.
pub fn check_journal_vectors(checks: &mut Checks) {
    for seed in 1..=3 {
        let made = make_journal_vectors(seed, 40);
        let mut items = Items { data: &made };
        let (mut longest, mut count, mut reads) = (0, 0, Vec::new());
        while let Some(topic) = items.u8() {
            if topic == 2 {
                longest = longest.max(items.u32().unwrap_or(u32::MAX));
                items.take(7);
            }
            let bytes = items.record().unwrap_or_default();
            longest = longest.max(bytes.len() as u32);
            if topic == 1 {
                put_item(&mut reads, bytes);
            }
            count += 1;
        }
        checks.same("the longest", longest, 62_911);
        let lines = lines_of(|out| mode_journal_vectors(&made, &mut |line| out(line)));
        checks.same("a line an item", lines.len(), count);
        let other = lines.iter().filter(|line| line.ends_with("other"));
        checks.same("each the same again", other.count(), 0);
        let mut missing = reach_journals(&reads).missing();
        missing.retain(|name| reading_names().contains(name));
        checks.same("what reading reaches", missing, Vec::new());
        for want in [
            "written 11 ",
            "written 8511 ",
            "written 62911 ",
            "refused 10 8511 ",
            "refused 2 7 ",
            "refused 15 0 ",
        ] {
            let found = lines.iter().any(|line| line.starts_with(want));
            checks.same(want, found, true);
        }
    }
}
