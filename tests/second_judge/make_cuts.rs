//! Making input: records cut by a full card.

use crate::channels::Form;
use crate::cut_corners::{
    count_at, cut_at_every_length, cut_corners, every_length, small, with_behind, with_count,
    ONE_STOP,
};
use crate::dice::Dice;
use crate::make_channels::{longest_narrow, longest_wide, required_up_to, with_channel};
use crate::make_record_vectors::{put_line_item, some_length};
use crate::make_records::{
    damaged_record, put_item, scripted_content, short_content, shuffle, Site, READING_DAMAGES,
};
use crate::reach_cuts::met_by_record;
use crate::record::Content;
use crate::salvage_modes::ENOUGH;
use crate::salvaging::salvage;
use crate::scripted_tests::SCRIPTS;
use std::collections::HashSet;

const FORMS: [Form; 2] = [Form::Narrow, Form::Wide];

/// Codes of a form: above 255 in the wide one, or more than 32.
fn some_codes(form: Form, dice: &mut Dice) -> Vec<u16> {
    let mut codes = match form {
        Form::Narrow => required_up_to(dice.within(6, 10) as usize, dice.pick(&[8, 100, 240])),
        Form::Wide if dice.percent(40) => {
            required_up_to(dice.within(33, 64) as usize, dice.pick(&[9, 100, 1000]))
        }
        Form::Wide => {
            let above = dice.within(256, 65535) as u16;
            let mut codes = required_up_to(dice.within(6, 9) as usize, 100);
            codes.push(above);
            codes
        }
    };
    shuffle(&mut codes, dice);
    codes
}

/// A fit content of one to six rows and one to five stops; most of its cells are no readings.
fn some_content(form: Form, dice: &mut Dice) -> Content {
    let site = Site::some(dice);
    let codes = some_codes(form, dice);
    let (rows, stops) = (dice.within(1, 6), dice.within(1, 5));
    let mut content = Content {
        cells: (0..rows * codes.len() as i64)
            .map(|_| dice.next() as u32)
            .collect(),
        codes,
        settings: site.settings.to_vec(),
        saturation: site.saturation,
        stop_rows: (0..stops).map(|_| dice.within(0, rows) as u16).collect(),
        stop_causes: (0..stops).map(|_| dice.within(1, 4) as u8).collect(),
    };
    content.stop_rows.sort_unstable();
    content
}

/// A scripted test in a form, with a stop at least.
fn some_test(form: Form, dice: &mut Dice) -> Content {
    let mut content = scripted_content(dice.below(SCRIPTS as u64) as usize, dice);
    match (form, Form::of(&content.codes)) {
        (Form::Narrow, Form::Wide) => return some_test(form, dice),
        (Form::Wide, Form::Narrow) => {
            content = with_channel(&content, 2, 300, |row| row as u32);
        }
        _ => {}
    }
    if content.stop_rows.is_empty() {
        content.stop_rows.push(0);
        content.stop_causes.push(dice.within(1, 4) as u8);
    }
    content
}

/// The longest content of a form, its cells as the dice say.
fn some_longest(form: Form, dice: &mut Dice) -> Content {
    let mut content = match form {
        Form::Narrow => longest_narrow(),
        Form::Wide => longest_wide(),
    };
    let cells = content.cells.iter_mut();
    cells.for_each(|cell| *cell = dice.next() as u32);
    content
}

/// A length at which each section is cut: channels, settings, saturation, row count, inside a row, between
/// rows, behind the rows, behind the stops count, inside the stops.
fn cut_lengths(content: &Content, dice: &mut Dice) -> Vec<usize> {
    let (at, row) = (content.settings_at(), 4 * content.codes.len());
    let rows = content.cells.len() / content.codes.len();
    let (rows_at, stops_at) = (at + 76, at + 76 + rows * row);
    let mut inside = |start: usize, length: usize| start + dice.below(length as u64) as usize;
    let in_a_row = rows_at + inside(0, rows) * row + inside(1, row - 1);
    let between_rows = rows_at + inside(0, rows) * row;
    vec![
        inside(1, at - 1),
        inside(at + 1, 14),
        inside(at + 16, 58),
        at + 75,
        in_a_row,
        between_rows,
        stops_at,
        stops_at + 1,
        inside(stops_at + 2, 3 * content.stop_rows.len() - 1),
    ]
}

/// Seeded contents of each kind and form, each cut in every section.
fn cuts_of_sections(dice: &mut Dice) -> Vec<Vec<u8>> {
    let mut list = Vec::new();
    for kind in [some_content, some_test, some_longest] {
        for form in FORMS {
            let content = kind(form, dice);
            let bytes = content.bytes();
            let lengths = cut_lengths(&content, dice);
            list.extend(lengths.iter().map(|length| bytes[..*length].to_vec()));
            list.push(bytes);
        }
    }
    list
}

/// Bytes that are no stops section and hold none.
fn filling(length: usize) -> Vec<u8> {
    (0..length).map(|i| 0xC0 | i as u8).collect()
}

fn filled_up(mut bytes: Vec<u8>, length: usize) -> Vec<u8> {
    let more = length.saturating_sub(bytes.len());
    bytes.extend(filling(more));
    bytes
}

/// The longest records whole, and with so many bytes behind.
fn longest_records(form: Form) -> Vec<Vec<u8>> {
    let content = match form {
        Form::Narrow => longest_narrow(),
        Form::Wide => longest_wide(),
    };
    let bytes = content.bytes();
    let longer = |more: usize| filled_up(bytes.clone(), bytes.len() + more);
    let mut list: Vec<Vec<u8>> = [0, 1, 2, 10_000, 200_000].map(longer).into();
    list.extend([60_965, 60_966, 60_967].map(|length| filled_up(bytes.clone(), length)));
    // Without the last byte, in its last row, and with a row less.
    let (end, row) = (bytes.len() - 766, 4 * content.codes.len());
    for length in [
        bytes.len() - 1,
        end + 1,
        end,
        end - 1,
        end - row,
        end - row - 1,
    ] {
        list.push(bytes[..length].to_vec());
    }
    let rows = content.cells.len() / content.codes.len();
    for count in [rows + 1, rows - 1] {
        list.push(filled_up(with_count(&content, count), 80_000));
    }
    let mut unfit = content;
    unfit.stop_causes[254] = 5;
    list.push(filled_up(unfit.bytes(), 260_000));
    list
}

/// Short records with so many bytes behind that they are longer than any fit one.
fn long_short_records(form: Form) -> Vec<Vec<u8>> {
    let content = small(form, 2, &[(1, 1), (2, 3)]);
    let bytes = content.bytes();
    let mut list: Vec<Vec<u8>> = [60_965, 60_966, 60_967]
        .map(|length| filled_up(bytes.clone(), length))
        .into();
    let (mut unfit, mut early) = (content.clone(), content.clone());
    unfit.stop_causes[1] = 0;
    early.settings[3] = 3;
    let none = small(form, 2, &[]);
    for start in [
        bytes,
        unfit.bytes(),
        with_behind(&none, &[0]),
        with_behind(&none, &ONE_STOP),
        with_behind(&small(form, 0, &[]), &[0]),
        // All rows of the count come from what is behind, and then stops by luck, or none.
        with_count(&none, 1500),
        with_count(&none, 1501),
        early.bytes(),
    ] {
        let longer = start.len() + 70_000;
        list.push(filled_up(start, longer));
    }
    let mut lucky = filled_up(with_count(&none, 1500), 70_000);
    let end = count_at(&none) + 2 + 1500 * 4 * none.codes.len();
    lucky[end..end + 7].copy_from_slice(&[2, 0, 0, 1, 220, 5, 4]);
    list.push(lucky);
    list
}

/// Cuts that have a reason: short ones first.
fn scripted_cuts(dice: &mut Dice) -> Vec<Vec<u8>> {
    let mut list = Vec::new();
    for (_, content) in cut_at_every_length() {
        list.extend(every_length(&content));
    }
    list.extend(cut_corners());
    list.extend(cuts_of_sections(dice));
    for form in FORMS {
        list.extend(long_short_records(form));
        list.extend(longest_records(form));
    }
    list
}

/// How many cuts reach everything: the scripted ones.
pub fn reaching_cuts() -> usize {
    scripted_cuts(&mut Dice(1)).len()
}

fn some_bytes(length: usize, dice: &mut Dice) -> Vec<u8> {
    (0..length).map(|_| dice.next() as u8).collect()
}

/// A stops section of few entries, many of them unfit, cut or not, and bytes behind it.
fn some_stops(rows: usize, dice: &mut Dice) -> Vec<u8> {
    let stops = dice.below(4) as usize;
    let mut section = vec![stops as u8];
    let mut past = 0;
    for _ in 0..stops {
        let falls = past > 0 && dice.percent(15);
        past = match dice.below(8) {
            0 if falls => past - 1,
            1 => rows as i64 + dice.within(0, 1),
            _ => dice.within(past, past.max(rows as i64)),
        };
        let cause = match dice.percent(15) {
            true => dice.pick(&[0, 5, 255]),
            false => dice.within(1, 4) as u8,
        };
        section.extend((past as u16).to_le_bytes());
        section.push(cause);
    }
    if dice.percent(25) {
        section.truncate(dice.below(section.len() as u64 + 1) as usize);
    }
    let more = dice.pick(&[0, 0, 1, 3, 4, 30]);
    section.extend(some_bytes(more, dice));
    section
}

/// Another row count: beside the rows that are there, far above, or above what is allowed.
fn some_count(content: &Content, dice: &mut Dice) -> Vec<u8> {
    let rows = content.cells.len() / content.codes.len();
    let most = (15_000 / content.codes.len()).min(1500);
    let count = match dice.below(6) {
        0 => rows + 1,
        1 => rows.saturating_sub(1),
        2 => dice.below(rows as u64 + 1) as usize,
        3 => most,
        4 => most + 1,
        _ => dice.below(most as u64 + 100) as usize,
    };
    with_count(content, count)
}

/// What is done to a content's record.
fn some_change(content: &Content, dice: &mut Dice) -> Vec<u8> {
    let bytes = content.bytes();
    match dice.below(10) {
        0 | 1 if !content.cells.is_empty() && !content.stop_rows.is_empty() => {
            let lengths = cut_lengths(content, dice);
            bytes[..dice.pick(&lengths)].to_vec()
        }
        0..=3 => bytes[..dice.below(bytes.len() as u64 + 1) as usize].to_vec(),
        4 => {
            let more = dice.within(1, 300) as usize;
            [bytes, some_bytes(more, dice)].concat()
        }
        5 | 6 => {
            let rows = content.cells.len() / content.codes.len();
            with_behind(content, &some_stops(rows, dice))
        }
        7 => some_count(content, dice),
        8 => {
            let mut bytes = some_count(content, dice);
            bytes.truncate(dice.below(bytes.len() as u64 + 1) as usize);
            bytes
        }
        _ => bytes,
    }
}

fn some_form(dice: &mut Dice) -> Form {
    match dice.percent(40) {
        true => Form::Wide,
        false => Form::Narrow,
    }
}

/// A short record changed, or one that is refused, cut or not.
fn some_short_cut(dice: &mut Dice) -> Vec<u8> {
    if dice.percent(20) {
        let mut bytes = damaged_record(dice.below(READING_DAMAGES as u64) as usize, dice);
        // Some of them are whole tests.
        bytes.truncate(dice.pick(&[100, 150, 400, 1000]));
        return bytes;
    }
    let content = match dice.percent(50) {
        true => some_content(some_form(dice), dice),
        false => short_content(dice),
    };
    some_change(&content, dice)
}

/// A seeded cut: short, or of a test, or few of the longest.
fn some_cut(dice: &mut Dice) -> Vec<u8> {
    match dice.below(50) {
        0 => some_change(&some_longest(some_form(dice), dice), dice),
        1..=20 => some_change(&some_test(some_form(dice), dice), dice),
        _ => some_short_cut(dice),
    }
}

/// The scripted cuts first.
pub fn make_cuts(seed: u64, count: usize) -> Vec<u8> {
    let mut dice = Dice(seed ^ 0x6375_7473);
    let scripted = scripted_cuts(&mut dice);
    let mut out = Vec::new();
    for i in 0..count {
        match scripted.get(i) {
            Some(record) => put_item(&mut out, record),
            None => put_item(&mut out, &some_cut(&mut dice)),
        }
    }
    out
}

/// The length of what is written, none where the record is refused.
fn written_length(record: &[u8]) -> Option<usize> {
    let salvaged = salvage(record, ENOUGH);
    salvaged.ok().map(|salvaged| salvaged.bytes.len())
}

/// The corners that meet a case which those before them do not.
fn few_corners() -> Vec<Vec<u8>> {
    let mut met = HashSet::new();
    let mut few = cut_corners();
    few.retain(|record| {
        let names = met_by_record(record).into_iter();
        names.fold(false, |new, name| met.insert(name) || new)
    });
    few
}

/// Outputs that are exact, longer, one byte short and empty, for a long record an exact one alone; for a refused
/// record one that is long enough, and an empty one.
fn output_lengths(record: &[u8]) -> Vec<usize> {
    match written_length(record) {
        Some(needed) if record.len() > 300 => vec![needed],
        Some(needed) => vec![needed, needed + 9, needed - 1, 0],
        None => vec![record.len() + 2, 0],
    }
}

/// Few corners with their outputs, then COUNT seeded records.
pub fn make_salvages(seed: u64, count: usize) -> Vec<u8> {
    let mut dice = Dice(seed ^ 0x736C_7667);
    let mut out = Vec::new();
    for record in few_corners() {
        for (i, length) in output_lengths(&record).into_iter().enumerate() {
            put_line_item(&mut out, length, 0xA5 + i as u8, &record);
        }
    }
    for _ in 0..count {
        let record = some_short_cut(&mut dice);
        let needed = written_length(&record).unwrap_or(120);
        let length = some_length(&mut dice, needed);
        put_line_item(&mut out, length, dice.next() as u8, &record);
    }
    out
}
