//! Making input: reading and writing journals.

use crate::bench::Event;
use crate::dice::Dice;
use crate::journal_corners::{all_kinds, reading_corners, unjudged, ALL_KINDS, UNFIT_PARAMETERS};
use crate::journaling::{event_bytes, Journal, COUNT_AT, EVENTS_AT, MOST_EVENTS};
use crate::make_journals::{damaged_journal, planned_journal};
use crate::make_records::put_item;
use crate::named_journals::{named_journal, repeated, JOURNALS};
use crate::script::good_bits;

/// The most events of a seeded journal, but for few.
const MOST_SEEDED: usize = 40;

fn put_read(out: &mut Vec<u8>, journal: &[u8]) {
    out.push(1);
    put_item(out, journal);
}

/// What is to be written: an output, V and U, and bytes that begin with the events.
struct Write {
    length: usize,
    fill: u8,
    v: u32,
    u: u16,
    entries: Vec<u8>,
}

impl Write {
    /// A journal into an output that is so much longer than needed.
    fn of(journal: &Journal, longer: i64) -> Write {
        let entries = journal.bytes()[EVENTS_AT..].to_vec();
        let needed = (EVENTS_AT + entries.len()) as i64;
        Write {
            length: (needed + longer).max(0) as usize,
            fill: 0xA5,
            v: journal.v,
            u: journal.u,
            entries,
        }
    }

    fn put(&self, out: &mut Vec<u8>) {
        out.push(2);
        out.extend((self.length as u32).to_le_bytes());
        out.push(self.fill);
        out.extend(self.v.to_le_bytes());
        out.extend(self.u.to_le_bytes());
        put_item(out, &self.entries);
    }
}

/// Outputs of every length that may matter.
fn outputs(journal: &Journal) -> Vec<Write> {
    let mut list: Vec<Write> = [0, -1, 1, 100].map(|by| Write::of(journal, by)).into();
    for length in [0, 1, COUNT_AT, EVENTS_AT - 1, EVENTS_AT] {
        let mut write = Write::of(journal, 0);
        write.length = length;
        list.push(write);
    }
    list
}

/// Journals of each kind of event alone, of all, and of none.
fn small_journals() -> Vec<Journal> {
    let one = |event: &Event| Journal {
        v: 1,
        u: 255,
        events: vec![(0xF0E0_D0C0, *event)],
    };
    let mut list: Vec<Journal> = ALL_KINDS.iter().map(one).collect();
    list.extend([repeated(Event::PowerOn, 0), all_kinds()]);
    list
}

/// V and U at and beside their ends, each with events that are allowed, and too many, and with an output
/// that is long enough, and too short.
fn write_parameters() -> Vec<Write> {
    let (few, many) = (all_kinds(), repeated(Event::Upload, MOST_EVENTS + 1));
    let mut list = Vec::new();
    for (v, u) in [(1, 1), (2_592_000, 255)]
        .into_iter()
        .chain(UNFIT_PARAMETERS)
    {
        for longer in [0, -1] {
            list.push(Write {
                v,
                u,
                ..Write::of(&few, longer)
            });
        }
        if matches!((v, u), (0, 2) | (86_400, 256)) {
            list.push(Write {
                v,
                u,
                length: 5,
                ..Write::of(&many, 0)
            });
        }
    }
    list
}

/// 1,700 and 1,701 events, and the longest journal.
fn long_writes() -> Vec<Write> {
    let most = repeated(Event::AuthorityLock, MOST_EVENTS);
    let more = repeated(Event::AuthorityLock, MOST_EVENTS + 1);
    let longest = repeated(Event::Second(good_bits()), MOST_EVENTS);
    vec![
        Write::of(&most, 0),
        Write::of(&most, -1),
        Write::of(&more, 0),
        Write {
            length: 3,
            ..Write::of(&more, 0)
        },
        Write::of(&longest, 0),
    ]
}

/// Bytes whose events end early: at an event that is cut off, at an unknown kind, at a byte that is neither yes nor no.
fn early_ends() -> Vec<Write> {
    let mut list = Vec::new();
    let bytes_of = |event: &Event| event_bytes(1, event);
    for event in &ALL_KINDS {
        let mut write = Write::of(&all_kinds(), 20);
        write.entries.extend(bytes_of(event));
        write.entries.pop();
        list.push(write);
    }
    for unfit in [
        &[0, 1, 1, 1, 1][..],
        &[14, 1, 1, 1, 1],
        &[255],
        &[4, 1, 1, 1, 1, 2],
        &[5, 1, 1, 1, 1, 255, 1, 1, 1, 1],
    ] {
        let mut write = Write::of(&all_kinds(), 0);
        write.entries.extend(unfit);
        write.entries.extend(bytes_of(&Event::Upload));
        list.push(write);
        list.push(Write {
            entries: unfit.to_vec(),
            ..Write::of(&all_kinds(), 0)
        });
    }
    list
}

fn scripted_writes() -> Vec<Write> {
    let mut list: Vec<Write> = small_journals().iter().flat_map(outputs).collect();
    list.push(Write::of(&unjudged(), 0));
    list.extend(write_parameters());
    list.extend(early_ends());
    list.extend(long_writes());
    list
}

fn seeded_read(dice: &mut Dice) -> Vec<u8> {
    let journal = planned_journal(MOST_SEEDED, dice);
    if dice.percent(50) {
        journal.bytes()
    } else {
        damaged_journal(&journal, dice)
    }
}

fn seeded_write(dice: &mut Dice) -> Write {
    let mut journal = planned_journal(MOST_SEEDED, dice);
    if dice.percent(15) {
        journal.v = dice.pick(&[0, 2_592_001, u32::MAX]);
    }
    if dice.percent(15) {
        journal.u = dice.pick(&[0, 256, 65535]);
    }
    let by = dice.pick(&[0, 0, 0, 1, -1, -7, 300]);
    let mut write = Write::of(&journal, by);
    write.fill = dice.next() as u8;
    if dice.percent(20) && !write.entries.is_empty() {
        let at = dice.below(write.entries.len() as u64) as usize;
        write.entries[at] = dice.pick(&[0, 2, 14, 255]);
    }
    write
}

/// All corners of reading and of writing, then COUNT seeded items of each.
pub fn make_journal_vectors(seed: u64, count: usize) -> Vec<u8> {
    let mut dice = Dice(seed ^ 0x6A76_6563);
    let mut out = Vec::new();
    for journal in JOURNALS.iter().filter_map(|name| named_journal(name)) {
        put_read(&mut out, &journal);
    }
    for journal in reading_corners() {
        put_read(&mut out, &journal);
    }
    for write in scripted_writes() {
        write.put(&mut out);
    }
    for _ in 0..count {
        put_read(&mut out, &seeded_read(&mut dice));
        seeded_write(&mut dice).put(&mut out);
    }
    out
}
