//! Making input: journals, those with a reason first, then planned and damaged ones.

use crate::bench::{Bench, Event};
use crate::dice::Dice;
use crate::journal_corners::{reading_corners, too_long};
use crate::journaling::{event_bytes, Journal, EVENTS_AT, MOST_EVENTS};
use crate::make_events::Planner;
use crate::make_records::put_item;
use crate::named_journals::{named_journal, JOURNALS};
use crate::script::Script;
use crate::scripted_events::ready_bench;
use crate::scripted_journals::scripted_journals;
use std::collections::VecDeque;

/// Every journal with a reason, whatever the seed: by name, at the corners of reading, then the stories.
pub fn journals_with_reason(dice: &mut Dice) -> Vec<Vec<u8>> {
    let mut list: Vec<Vec<u8>> = JOURNALS.iter().filter_map(|n| named_journal(n)).collect();
    list.extend(reading_corners());
    list.push(too_long());
    list.extend(scripted_journals(dice).iter().map(Journal::bytes));
    list
}

/// How many journals reach everything.
pub fn reaching_journals() -> usize {
    journals_with_reason(&mut Dice(1)).len()
}

/// Events planned on a bench of V and U. With `brief` its tests end soon, by stops or a power-on.
fn planned_events(v: u32, u: u16, count: usize, brief: bool, dice: &mut Dice) -> Vec<(u32, Event)> {
    let Ok(mut bench) = Bench::new(v, u) else {
        return Vec::new();
    };
    let mut planner = Planner::new(Dice(dice.next()));
    let mut queue: VecDeque<(u32, Event)> = VecDeque::new();
    if dice.percent(60) {
        queue.extend(ready_bench(dice.below(100_000) as u32));
    }
    let mut events = Vec::new();
    while events.len() < count {
        if let (true, true, Some(test)) = (brief, queue.is_empty(), &bench.test) {
            let script = Script::mixed(test.car, dice.next());
            queue.extend(brief_test(script, bench.last, dice));
            if dice.percent(20) {
                let wait = dice.pick(&[1800, 1801, 1802]);
                let clock = queue.back().map_or(0, |(clock, _)| *clock);
                queue.push_back((clock.saturating_add(wait), planner.start()));
            }
        }
        let next = queue.pop_front();
        let (clock, event) = next.unwrap_or_else(|| planner.next(&bench));
        let _ = bench.take(clock, &event);
        events.push((clock, event));
    }
    events
}

/// Three voids, each soon; now and then a power-on in the second attempt.
fn brief_test(mut script: Script, last: u32, dice: &mut Dice) -> Vec<(u32, Event)> {
    for rest in [true, true, false] {
        script.clean(1);
        match dice.below(3) {
            0 => script.stop(dice.within(1, 4) as u8),
            1 => script.seconds(1, |w| w.over = 4),
            _ => script.diluted(),
        }
        if rest {
            script.rest();
        }
    }
    let clocks = (1..).map(|i| last.saturating_add(i));
    let items = script.items.iter().map(|item| item.event());
    let mut events: Vec<(u32, Event)> = clocks.zip(items).collect();
    if dice.percent(15) {
        events.truncate(16);
        events.push((last.saturating_add(20), Event::PowerOn));
    }
    events
}

/// A fit journal of at most so many events.
pub fn planned_journal(most: usize, dice: &mut Dice) -> Journal {
    let v = dice.pick(&[1, 60, 900, 1800, 3600, 86_400, 2_592_000]);
    let u = dice.pick(&[1, 1, 1, 2, 2, 3, 5, 20, 255]);
    let count = dice.below(most as u64 + 1) as usize;
    let brief = dice.percent(70);
    let events = planned_events(v, u, count, brief, dice);
    Journal { v, u, events }
}

/// A journal planned and perhaps damaged: some of 200 events at most, few up to the most there may be.
fn seeded_journal(dice: &mut Dice) -> Vec<u8> {
    let most = match dice.below(40) {
        0 => MOST_EVENTS,
        1..=4 => 5,
        _ => 200,
    };
    let journal = planned_journal(most, dice);
    if dice.percent(75) {
        journal.bytes()
    } else {
        damaged_journal(&journal, dice)
    }
}

/// One damage: a byte anywhere, a kind, a yes-or-no, a count, a cut, or bytes more.
pub fn damaged_journal(journal: &Journal, dice: &mut Dice) -> Vec<u8> {
    let mut bytes = journal.bytes();
    let length = bytes.len() as u64;
    match dice.below(7) {
        0 => bytes[dice.below(length) as usize] = dice.next() as u8,
        1 => bytes[dice.below(EVENTS_AT as u64) as usize] = dice.next() as u8,
        2 => bytes[7] = bytes[7].wrapping_add(dice.pick(&[1, 255])),
        3 => bytes.truncate(dice.below(length) as usize),
        4 => (0..dice.within(1, 40)).for_each(|_| bytes.push(dice.below(14) as u8)),
        way => {
            let at = damaged_place(journal, way == 5, dice);
            if at < bytes.len() {
                bytes[at] = dice.pick(&[2, 255, 0, 1, 14]);
            }
        }
    }
    bytes
}

/// The offset of some event's kind, or of its first field, which may be a yes-or-no.
fn damaged_place(journal: &Journal, kind: bool, dice: &mut Dice) -> usize {
    let before = dice.below(journal.events.len() as u64 + 1) as usize;
    let lengths = journal.events[..before]
        .iter()
        .map(|(clock, event)| event_bytes(*clock, event).len());
    EVENTS_AT + lengths.sum::<usize>() + if kind { 0 } else { 5 }
}

/// Items of a length and a journal each.
pub fn make_journals(seed: u64, count: usize) -> Vec<u8> {
    let mut dice = Dice(seed ^ 0x6A6F_7572);
    let mut list = journals_with_reason(&mut dice);
    list.truncate(count);
    while list.len() < count {
        list.push(seeded_journal(&mut dice));
    }
    let mut out = Vec::new();
    list.iter().for_each(|journal| put_item(&mut out, journal));
    out
}
