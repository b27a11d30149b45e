//! Making input: reading, writing and the line, at the corners of the record; and all vectors about records.

use crate::channels::Form;
use crate::dice::Dice;
use crate::items::Items;
use crate::make_channels::{
    channel_corners, channel_records, longest_narrow, sized_content, wide_base, with_channel,
};
use crate::make_cuts::make_salvages;
use crate::make_records::{
    damage_entry, damaged_record, put_item, raise_code, scripted_content, short_content, DAMAGES,
    READING_DAMAGES,
};
use crate::make_tests::put_topic;
use crate::modes::write_item;
use crate::named_records::{listing, small_record, BEFORE_WIDE, PAST_WIDE, RECORDS};
use crate::numbers::{refusal, MISSING};
use crate::record::Content;
use crate::rejudging::rejudge_line;
use crate::salvage_modes::salvage_item;
use crate::scripted_tests::SCRIPTS;

/// Fit and unfit contents at the corners of the record.
pub fn corner_contents() -> Vec<Content> {
    let mut list = vec![
        sized_content(6, 0, 0),
        sized_content(6, 2, 2),
        sized_content(8, 1, 1),
        sized_content(32, 2, 3),
        sized_content(33, 1, 0),
        sized_content(6, 1500, 1), // the most rows
        sized_content(6, 1501, 0),
        sized_content(13, 1154, 0), // 15,002 cells: the least above 15,000 that rows fill
        longest_narrow(),
    ];
    list.extend(code_corners());
    list.extend(value_corners());
    list.extend(stop_corners());
    list.extend(channel_corners());
    list
}

fn changed(change: impl Fn(&mut Content)) -> Content {
    let mut content = sized_content(8, 2, 3);
    change(&mut content);
    content
}

/// First and last code 0, twice, or a required one absent; codes above 8.
fn code_corners() -> Vec<Content> {
    let mut list = Vec::new();
    for i in [0, 7] {
        list.push(changed(|c| c.codes[i] = 0));
        list.push(changed(|c| c.codes[i] = c.codes[3]));
        list.push(changed(|c| c.codes[i] = 255));
    }
    for i in 0..6 {
        list.push(changed(|c| c.codes[i] = 99));
    }
    list.push(changed(|c| (c.codes[2], c.codes[5]) = (0, 0)));
    list.push(changed(|c| (c.codes[6], c.codes[7]) = (3, 8)));
    list
}

/// Each setting and saturation value at and beside its ends.
fn value_corners() -> Vec<Content> {
    let mut list = Vec::new();
    let ends: [&[u16]; 7] = [
        &[0, 1, 2, 3],
        &[1899, 1900, 2100, 2101],
        &[0, 1, 50, 51, 2000, 2001],
        &[0, 1, 2, 3],
        &[0, 100, 101],
        &[1, 2, 43, 44],
        &[799, 800, 1100, 1101],
    ];
    for (i, values) in ends.iter().enumerate() {
        for value in *values {
            list.push(changed(|c| c.settings[i] = *value));
        }
    }
    for displacement in [0, 1, 50, 51] {
        list.push(changed(|c| {
            (c.settings[0], c.settings[2]) = (2, displacement)
        }));
    }
    for i in [0, 1, 28] {
        for value in [0, 499, 500, 4300, 4301] {
            list.push(changed(|c| c.saturation[i] = value));
        }
        if i > 0 {
            list.push(changed(|c| c.saturation[i] = c.saturation[i - 1]));
            list.push(changed(|c| c.saturation[i] = c.saturation[i - 1] + 1));
        }
    }
    list
}

/// First and last stop falling, past the rows, or of an unfit cause.
fn stop_corners() -> Vec<Content> {
    let mut list = Vec::new();
    for i in [0, 1, 2] {
        for cause in [0, 1, 4, 5, 255] {
            list.push(changed(|c| c.stop_causes[i] = cause));
        }
        for past in [0, 1, 2, 3, 65535] {
            list.push(changed(|c| c.stop_rows[i] = past));
        }
    }
    list
}

pub fn make_read(seed: u64, count: usize) -> Vec<u8> {
    let mut dice = Dice(seed ^ 0x7265_6164);
    let mut out = Vec::new();
    for small in [sized_content(6, 2, 2), wide_base()] {
        put_lengths(&mut out, &small.bytes());
        put_counts(&mut out, &small);
    }
    for content in corner_contents() {
        let mut bytes = content.bytes();
        let rows_at = content.settings_at() + 74;
        if content.check() == Err(refusal(2, rows_at)) {
            bytes.truncate(rows_at + 2); // the count of rows is judged before they are there
        }
        put_item(&mut out, &bytes);
    }
    for record in channel_records() {
        put_item(&mut out, &record);
    }
    put_two_faults(&mut out, &sized_content(8, 2, 3));
    put_two_faults(&mut out, &wide_base());
    for _ in 0..count {
        let way = dice.below(READING_DAMAGES as u64) as usize;
        let mut record = damaged_record(way, &mut dice);
        if dice.percent(30) && !record.is_empty() {
            let i = dice.below(record.len() as u64) as usize;
            record[i] = dice.next() as u8;
        }
        put_item(&mut out, &record);
    }
    out
}

/// A record cut at every length, and with bytes left.
fn put_lengths(out: &mut Vec<u8>, record: &[u8]) {
    for length in 0..=record.len() {
        put_item(out, &record[..length]);
    }
    for extra in 1..=3 {
        put_item(out, &[record, &vec![9; extra][..]].concat());
    }
}

/// The count of each section at and beside what is allowed or fits.
fn put_counts(out: &mut Vec<u8>, content: &Content) {
    let (bytes, at) = (content.bytes(), content.settings_at());
    let stops_at = at + 76 + 4 * content.cells.len();
    let channels: (usize, &[u8]) = match Form::of(&content.codes) {
        Form::Narrow => (0, &[0, 1, 33]),
        Form::Wide => (1, &[0, 1, 65]),
    };
    let others: [(usize, &[u8]); 4] = [
        (at, &[6, 8]),
        (at + 15, &[28, 30]),
        (at + 74, &[1, 3]),
        (stops_at, &[1, 2, 4]),
    ];
    for (at, values) in std::iter::once(channels).chain(others) {
        for value in values {
            let mut record = bytes.clone();
            record[at] = *value;
            put_item(out, &record);
            // The count alone, and the count with nothing after it, are judged first.
            put_item(out, &record[..at + 1]);
        }
    }
}

/// Two faults in one record: the section that comes first decides, in it the
/// count, then whether it is whole, then its entries.
fn put_two_faults(out: &mut Vec<u8>, content: &Content) {
    let faults: [fn(&mut Content); 5] = [
        |c| *c.codes.last_mut().expect("a code") = 0,
        |c| c.codes[2] = 99,
        |c| c.settings[1] = 1899,
        |c| c.saturation[0] = 499,
        |c| c.stop_causes[2] = 5,
    ];
    for (i, first) in faults.iter().enumerate() {
        let mut one = content.clone();
        first(&mut one);
        let bytes = one.bytes();
        put_item(out, &[&bytes[..], &[0]].concat());
        put_item(out, &bytes[..bytes.len() - 1]);
        for second in &faults[i + 1..] {
            let mut both = one.clone();
            second(&mut both);
            put_item(out, &both.bytes());
        }
    }
    let mut last = content.clone();
    last.saturation[28] = 4301;
    let (mut bytes, at) = (last.bytes(), last.settings_at() + 74);
    bytes[at..at + 2].copy_from_slice(&1501u16.to_le_bytes());
    put_item(out, &bytes);
    bytes[at - 2..at].copy_from_slice(&4300u16.to_le_bytes());
    put_item(out, &bytes);
}

pub fn put_content(out: &mut Vec<u8>, length: usize, fill: u8, content: &Content) {
    out.extend((length as u32).to_le_bytes());
    out.push(fill);
    for section in [&content.codes, &content.settings, &content.saturation] {
        out.extend((section.len() as u16).to_le_bytes());
        section
            .iter()
            .for_each(|value| out.extend(value.to_le_bytes()));
    }
    out.extend((content.cells.len() as u32).to_le_bytes());
    content
        .cells
        .iter()
        .for_each(|bits| out.extend(bits.to_le_bytes()));
    out.extend((content.stop_rows.len() as u16).to_le_bytes());
    content
        .stop_rows
        .iter()
        .for_each(|past| out.extend(past.to_le_bytes()));
    out.extend((content.stop_causes.len() as u16).to_le_bytes());
    out.extend(&content.stop_causes);
}

/// Contents that no record can hold: counts that are not allowed.
fn unwritable_contents() -> Vec<Content> {
    let mut list = vec![
        Content::default(),
        changed(|c| c.codes.clear()),
        changed(|c| c.codes = (1..=33).collect()),
        changed(|c| c.codes = (0..300).collect()),
        changed(|c| c.codes = vec![0; 65]),
        changed(|c| (c.codes[7], c.stop_causes) = (300, Vec::new())),
        changed(|c| (c.codes[7], c.stop_rows) = (300, vec![1; 256])),
        changed(|c| (c.codes[7], c.cells) = (300, vec![5; 17])),
        changed(|c| c.stop_rows = vec![1; 256]),
        changed(|c| (c.stop_rows, c.stop_causes) = (vec![1; 256], vec![1; 256])),
        changed(|c| (c.stop_rows, c.stop_causes) = (vec![1; 255], vec![1; 255])),
        changed(|c| (c.stop_rows, c.stop_causes) = (vec![9; 4], vec![0; 3])),
        changed(|c| c.stop_causes.clear()),
        changed(|c| c.stop_rows.clear()),
    ];
    for count in [0, 6, 8, 263] {
        list.push(changed(|c| c.settings.resize(count, 1)));
    }
    for count in [0, 28, 30, 285] {
        list.push(changed(|c| c.saturation.resize(count, 4299)));
    }
    for cells in [1, 7, 9, 15, 17, 524_288] {
        list.push(changed(|c| c.cells.resize(cells, 5)));
    }
    list
}

pub fn make_write(seed: u64, count: usize) -> Vec<u8> {
    let mut dice = Dice(seed ^ 0x7772_6974);
    let mut out = Vec::new();
    for content in corner_contents() {
        let needed = content.bytes().len();
        // Of an unfit content too: 10 comes last.
        put_content(&mut out, needed - 1, 0x5A, &content);
        if content.check().is_ok() {
            put_content(&mut out, needed, 0xA5, &content);
            put_content(&mut out, needed + 9, 0xFF, &content);
        }
    }
    for content in unwritable_contents() {
        put_content(&mut out, 600, 0x11, &content);
        put_content(&mut out, 0, 0x11, &content);
    }
    for _ in 0..count {
        let content = random_content(&mut dice);
        let needed = content.bytes().len();
        let length = some_length(&mut dice, needed);
        put_content(&mut out, length, dice.next() as u8, &content);
    }
    out
}

/// An output's length: mostly what is needed, else less or more.
pub fn some_length(dice: &mut Dice, needed: usize) -> usize {
    match dice.below(4) {
        0 => dice.below(needed as u64 + 1) as usize,
        1 => needed + dice.below(40) as usize,
        _ => needed,
    }
}

pub fn put_line_item(out: &mut Vec<u8>, length: usize, fill: u8, record: &[u8]) {
    out.extend((length as u32).to_le_bytes());
    out.push(fill);
    put_item(out, record);
}

/// Records for the line: a verdict, open ones with a window and its engine speed and without,
/// and refused ones.
fn line_records() -> Vec<Vec<u8>> {
    let short = listing(0).bytes();
    vec![
        listing(36).bytes(),
        small_record("engine_half_up").unwrap_or_default(),
        short.clone(),
        short[..20].to_vec(),
        Vec::new(),
    ]
}

/// Wide records for the line: verdicts, an open one with channels whose codes only look like 7, and
/// refused ones.
fn wide_line_records() -> Vec<Vec<u8>> {
    let more = [263, 519, 32775].into_iter();
    let open = more.fold(listing(2), |c, code| with_channel(&c, 0, code, |_| MISSING));
    let open = open.bytes();
    let named = RECORDS[BEFORE_WIDE..PAST_WIDE].iter();
    let mut records: Vec<Vec<u8>> = named.filter_map(|name| small_record(name)).collect();
    records.extend([open[..15].to_vec(), open]);
    records
}

/// Each record into outputs of every length up to 3 above its line's, and long ones, the wide ones
/// and one with invalid windows only into those about as long as their lines; then COUNT seeded records into outputs so.
pub fn make_line(seed: u64, count: usize) -> Vec<u8> {
    let mut dice = Dice(seed ^ 0x6C69_6E65);
    let mut out = Vec::new();
    for record in line_records() {
        let needed = rejudge_line(&record).len() + 1;
        for length in 0..=needed + 3 {
            let fill = 0x30 + length as u8;
            put_line_item(&mut out, length, fill, &record);
        }
        for length in [100, 1000, 60_000] {
            put_line_item(&mut out, length, 0xA5, &record);
        }
    }
    let invalid = small_record("invalid");
    for record in wide_line_records().into_iter().chain(invalid) {
        let needed = rejudge_line(&record).len() + 1;
        for length in [needed - 1, needed, needed + 1] {
            put_line_item(&mut out, length, 0x5A, &record);
        }
    }
    for _ in 0..count {
        let record = match dice.below(4) {
            0 => damaged_record(dice.below(DAMAGES as u64) as usize, &mut dice),
            1 => scripted_content(dice.below(SCRIPTS as u64) as usize, &mut dice).bytes(),
            _ => short_content(&mut dice).bytes(),
        };
        let needed = rejudge_line(&record).len() as i64 + 1;
        let length = (needed + dice.within(-3, 3)) as usize;
        put_line_item(&mut out, length, dice.next() as u8, &record);
    }
    out
}

/// A small content with none to three faults.
fn random_content(dice: &mut Dice) -> Content {
    let mut content = short_content(dice);
    for _ in 0..dice.pick(&[0, 0, 1, 1, 2, 3]) {
        match dice.below(12) {
            0 => content.cells.push(dice.next() as u32),
            1 => {
                content.settings.pop();
            }
            2 => content.saturation.push(4300),
            3 => content.stop_rows.push(0),
            4 => raise_code(&mut content, dice),
            5 => crowd(&mut content, dice),
            way if content.settings.len() == 7 && content.saturation.len() >= 29 => {
                damage_entry(way as usize + 1, &mut content, dice)
            }
            _ => {}
        }
    }
    content
}

/// More channels, up to and above what is allowed.
fn crowd(content: &mut Content, dice: &mut Dice) {
    let rows = content.cells.len() / content.codes.len();
    let channels: usize = dice.pick(&[32, 33, 63, 64, 65, 66]);
    let first = dice.pick(&[9, 100, 190, 250, 1000]);
    let spare = (first..).filter(|code| !content.codes.contains(code));
    let more = channels.saturating_sub(content.codes.len());
    let spare: Vec<u16> = spare.take(more).collect();
    content.codes.extend(spare);
    content.cells.resize(rows * content.codes.len(), 5);
}

/// The items of `read`, `write`, `line` and `salvages`.
pub fn make_record_vectors(seed: u64, count: usize) -> Vec<u8> {
    let mut out = Vec::new();
    put_topic(&mut out, 1, &make_read(seed, count), |items| {
        items.record().is_some()
    });
    put_writes(&mut out, &make_write(seed, count));
    put_topic(&mut out, 3, &make_line(seed, count), |items| {
        items.take(5).is_some() && items.record().is_some()
    });
    put_topic(&mut out, 4, &make_salvages(seed, count), |items| {
        salvage_item(items).is_some()
    });
    out
}

/// Of writes of more than 4,000 bytes each content comes once, with an output
/// that is long enough, and none that has more cells than 16,384.
fn put_writes(out: &mut Vec<u8>, data: &[u8]) {
    let mut items = Items { data };
    loop {
        let start = items.data;
        let Some((length, _, content)) = write_item(&mut items) else {
            return;
        };
        let item = &start[..start.len() - items.data.len()];
        let fit = content.check().is_ok();
        let again = item.len() > 4000 && fit && length != content.bytes().len();
        if !again && content.cells.len() <= 16384 && item.len() <= 70_000 {
            out.push(2);
            out.extend(item);
        }
    }
}
