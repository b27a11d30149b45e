//! Making input: channels in both forms, each case for a reason.

use crate::channels::Form;
use crate::named_records::{listing, small_bytes, small_content, BEFORE_WIDE, RECORDS};
use crate::record::Content;

pub const REQUIRED: [u16; 6] = [1, 2, 4, 5, 6, 7];

/// Channels, so many rows and so many stops.
pub fn filled(codes: Vec<u16>, rows: usize, stops: usize) -> Content {
    let mut content = listing(0);
    content.cells = (0..rows * codes.len())
        .map(|i| (i as u32).wrapping_mul(2_654_435_761))
        .collect();
    content.codes = codes;
    content.stop_rows = (0..stops).map(|i| (i.min(rows)) as u16).collect();
    content.stop_causes = (0..stops).map(|i| 1 + (i % 4) as u8).collect();
    content
}

/// A record of so many channels, rows and stops.
pub fn sized_content(channels: usize, rows: usize, stops: usize) -> Content {
    filled(required_up_to(channels, 206), rows, stops)
}

/// The longest records: 15,000 cells and 255 stops.
pub fn longest_narrow() -> Content {
    sized_content(30, 500, 255)
}

pub fn longest_wide() -> Content {
    sized_content(60, 250, 255)
}

/// The required codes and those from `first` on, up to a number of channels.
pub fn required_up_to(channels: usize, first: u16) -> Vec<u16> {
    REQUIRED.into_iter().chain(first..).take(channels).collect()
}

fn required_and(more: &[u16]) -> Vec<u16> {
    [&REQUIRED[..], more].concat()
}

fn required_but(code: u16, other: u16) -> Vec<u16> {
    let swap = |c| if c == code { other } else { c };
    REQUIRED.into_iter().map(swap).collect()
}

/// A content with one channel more at a column; its cells by row.
pub fn with_channel(
    content: &Content,
    column: usize,
    code: u16,
    cell: impl Fn(usize) -> u32,
) -> Content {
    let mut more = content.clone();
    more.codes.insert(column, code);
    let rows = content.cells.chunks(content.codes.len()).enumerate();
    more.cells = rows
        .flat_map(|(row, cells)| [&cells[..column], &[cell(row)], &cells[column..]].concat())
        .collect();
    more
}

fn joined(codes: &[u16], more: &[u16]) -> Vec<u16> {
    [codes, more].concat()
}

/// Codes for a writer: counts at and beside their ends, with bad codes among them too.
fn counted_lists() -> Vec<Vec<u16>> {
    let upwards = |channels| required_up_to(channels, 100);
    let mut last = required_up_to(64, 100);
    last.rotate_left(6);
    vec![
        vec![1],
        vec![300],
        upwards(32),
        joined(&upwards(31), &[300]),
        required_up_to(32, 250),
        upwards(33),
        joined(&upwards(32), &[0]),
        joined(&upwards(32), &[7]),
        (9..42).collect(), // 33, and no required one
        upwards(64),
        last, // the required ones are the last
        required_up_to(64, 1000),
        joined(&upwards(63), &[0]),
        joined(&upwards(62), &[300, 300]),
        upwards(65),
        required_up_to(65, 1000),
        joined(&upwards(64), &[0]),
        joined(&upwards(64), &[7]),
        (0..65).collect(),
        required_up_to(256, 1000),
        required_up_to(320, 1000),
    ]
}

/// Codes for a writer: at the ends, with bits in common, bad ones, and ones that only look required.
fn coded_lists() -> Vec<Vec<u16>> {
    let mut list = vec![
        required_and(&[255]),
        required_and(&[256]),
        required_and(&[65535]),
        required_and(&[256, 512, 4096, 32768]),
        required_and(&[9, 265]),
        required_and(&[300, 812, 1324, 4396, 33068]),
        required_and(&[3, 259]),
        required_and(&[8, 264]),
        required_and(&[300, 9, 300]),
        required_and(&[300, 300, 300, 0]),
        required_and(&[300, 6]),
        required_and(&[300, 0]),
        joined(&[0, 300], &REQUIRED),
    ];
    list.extend((1..=8).map(|code| required_and(&[256 + code])));
    for code in REQUIRED {
        list.push(required_but(code, 256 + code));
        list.push(joined(&[256 + code], &required_but(code, 9)));
    }
    list.extend([519, 4103, 32775].map(|code| required_but(7, code)));
    list
}

/// Contents for a writer about the form of their channels.
pub fn channel_corners() -> Vec<Content> {
    let lists = counted_lists().into_iter().chain(coded_lists());
    let mut list: Vec<Content> = lists.map(|codes| filled(codes, 1, 1)).collect();
    list.extend([
        filled(required_up_to(64, 100), 0, 0),
        filled(required_up_to(64, 1000), 2, 3),
        sized_content(60, 251, 0), // 15,060 cells: the least above 15,000 that rows of 60 fill
        longest_wide(),
    ]);
    let faults = faults_behind();
    list.extend(faults.iter().map(|fault| fault_in(&wide_base(), fault)));
    list
}

/// Seven channels in the wide form.
pub fn wide_base() -> Content {
    filled(vec![7, 300, 6, 5, 4, 2, 1], 2, 3)
}

type Fault = fn(&mut Content);

fn fault_in(content: &Content, fault: &Fault) -> Content {
    let mut content = content.clone();
    fault(&mut content);
    content
}

/// One fault in a section behind the channels each, at its ends.
fn faults_behind() -> [Fault; 11] {
    [
        |c| c.settings[0] = 3,
        |c| c.settings[6] = 1101,
        |c| c.settings.truncate(6),
        |c| c.settings.push(1),
        |c| c.saturation[0] = 499,
        |c| c.saturation[28] = c.saturation[27],
        |c| c.saturation.truncate(28),
        |c| c.saturation.push(4300),
        |c| c.stop_rows[0] = 3,
        |c| c.stop_rows[2] = 0,
        |c| c.stop_causes[2] = 5,
    ]
}

/// Records that no writer makes: counts that are not allowed, cuts, and the wide form not needed.
pub fn channel_records() -> Vec<Vec<u8>> {
    let mut list = vec![vec![0], vec![0, 0], vec![0, 7], vec![0, 255]];
    for count in [33, 64, 65, 255] {
        let content = filled(required_up_to(count, 300), 1, 1);
        list.extend([vec![count as u8], content.bytes_in(Form::Narrow)]);
    }
    let wide = wide_base().bytes();
    for count in [0, 1, 8, 64, 65, 256, 263, 320, 65535u16] {
        let start = [&[0][..], &count.to_le_bytes()].concat();
        list.extend([[&start, &wide[3..]].concat(), start]);
    }
    let needless = filled(required_and(&[9, 3]), 1, 1).bytes_in(Form::Wide);
    let bad = filled(vec![300, 0, 300, 5, 5, 6, 7], 1, 1).bytes();
    for (record, channels) in [(&wide, 7), (&needless, 8), (&bad, 7)] {
        let end = Form::Wide.code_at(channels);
        list.extend((1..=end + 1).map(|length| record[..length].to_vec()));
        list.push([&record[..], &[0]].concat());
    }
    list.extend(needless_records());
    list
}

/// The wide form not needed, with all that may be wrong beside it.
fn needless_records() -> Vec<Vec<u8>> {
    let mut lists = vec![
        vec![1],
        REQUIRED.to_vec(),
        required_and(&[255]),
        required_up_to(32, 100),
        required_and(&[0]),
        joined(&[0], &REQUIRED),
        required_and(&[9, 9]),
        required_and(&[7]),
        (9..41).collect(), // 32, and no required one
    ];
    lists.extend(REQUIRED.map(|code| required_but(code, 9)));
    let lists = lists.into_iter();
    let mut list: Vec<Content> = lists.map(|codes| filled(codes, 1, 1)).collect();
    let base = filled(required_and(&[9, 3]), 2, 3);
    list.extend(faults_behind().iter().map(|fault| fault_in(&base, fault)));
    list.iter().map(|c| c.bytes_in(Form::Wide)).collect()
}

/// The codes of the channels that are added to the records by name.
const ADDED: [u16; 14] = [
    263, 257, 258, 260, 261, 262, 259, 264, 256, 300, 65535, 519, 4097, 32774,
];

/// The records by name from before the wide form, each with a code above 255 besides.
pub fn widened_records() -> Vec<Vec<u8>> {
    let before = RECORDS.iter().take(BEFORE_WIDE).enumerate();
    before
        .filter_map(|(i, name)| {
            let content = small_content(name)?;
            let (column, code) = (i % (content.codes.len() + 1), ADDED[i % ADDED.len()]);
            let cell = |row: usize| (row as u32).wrapping_mul(2_654_435_761);
            let widened = with_channel(&content, column, code, cell);
            Some(small_bytes(name, &widened))
        })
        .collect()
}

/// Records for judging about the form of their channels.
pub fn records_of_channels() -> Vec<Vec<u8>> {
    let corners = channel_corners();
    let mut list: Vec<Vec<u8>> = corners.iter().map(Content::bytes).collect();
    list.push(longest_narrow().bytes());
    list.extend(channel_records());
    list.extend(widened_records());
    list
}
