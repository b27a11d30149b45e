//! Making input: small records at the corners of salvaging.

use crate::channels::Form;
use crate::make_channels::{filled, required_up_to, REQUIRED};
use crate::named_records::listing;
use crate::record::Content;

type Stop = (u16, u8);

/// A cell of a small record: no number in some. None begins a stops section that is complete.
fn small_cell(i: usize) -> u32 {
    let high = if i % 5 == 4 { 0xFFC1_0000 } else { 0x4142_4300 };
    high + 0xC0 + i as u32
}

/// A record of few rows: the six required channels, in the wide form one of code 300 besides.
pub fn small(form: Form, rows: usize, stops: &[Stop]) -> Content {
    let mut codes = REQUIRED.to_vec();
    if form == Form::Wide {
        codes.insert(3, 300);
    }
    Content {
        cells: (0..rows * codes.len()).map(small_cell).collect(),
        codes,
        stop_rows: stops.iter().map(|(past, _)| *past).collect(),
        stop_causes: stops.iter().map(|(_, cause)| *cause).collect(),
        ..listing(0)
    }
}

pub fn count_at(content: &Content) -> usize {
    content.settings_at() + 74
}

/// A record with another row count.
pub fn with_count(content: &Content, count: usize) -> Vec<u8> {
    let (mut bytes, at) = (content.bytes(), count_at(content));
    bytes[at..at + 2].copy_from_slice(&(count as u16).to_le_bytes());
    bytes
}

/// The bytes up to the last row's end, and others behind them.
pub fn with_behind(content: &Content, behind: &[u8]) -> Vec<u8> {
    let end = count_at(content) + 2 + 4 * content.cells.len();
    [&content.bytes()[..end], behind].concat()
}

/// A stops section of one entry, fit behind any row.
pub const ONE_STOP: [u8; 4] = [1, 0, 0, 1];

/// A record cut at the ends of each section and inside it, and with bytes behind.
fn cut_records(form: Form) -> Vec<Vec<u8>> {
    let content = small(form, 3, &[(1, 1), (2, 2), (3, 4)]);
    let (bytes, at) = (content.bytes(), content.settings_at());
    let (rows_at, row) = (at + 76, 4 * content.codes.len());
    let stops_at = rows_at + 3 * row;
    let mut lengths = vec![0, 1, 2, 3, at - 1];
    lengths.extend([0, 1, 2, 14, 15, 16, 40, 73, 74, 75, 76].map(|more| at + more));
    lengths.extend([1, 4, 6, row - 1].map(|more| rows_at + more));
    lengths.extend([0, 1, 8, row - 1].map(|more| rows_at + row + more));
    lengths.extend([0, row - 1].map(|more| rows_at + 2 * row + more));
    lengths.extend((0..=10).map(|more| stops_at + more));
    let cuts = lengths.iter().map(|length| bytes[..*length].to_vec());
    let mut list: Vec<Vec<u8>> = cuts.collect();
    for more in [&[0][..], &[9, 9, 9], &ONE_STOP, &[0; 9]] {
        list.push([&bytes, more].concat());
    }
    list
}

/// Stops sections behind the last row: fit, unfit and cut ones.
fn stops_sections() -> Vec<Vec<u8>> {
    vec![
        vec![0],
        ONE_STOP.to_vec(),
        vec![2, 0, 0, 2, 2, 0, 4],          // the count itself
        vec![1, 0, 0, 0],                   // cause 0
        vec![1, 2, 0, 5],                   // cause 5
        vec![1, 0, 0, 255],                 // cause 255
        vec![1, 3, 0, 1],                   // past the count
        vec![1, 1, 1, 1],                   // 257, whose low byte is not past the count
        vec![2, 2, 0, 1, 1, 0, 1],          // a fall
        vec![3, 1, 0, 1, 0, 0, 1, 1, 0, 1], // a fall between
        vec![2, 1, 0, 5, 2, 0, 1],          // the first cause unfit
        vec![2, 1, 0, 1, 2, 0, 5],          // the last cause unfit
        vec![2, 1, 0, 1, 3, 0, 1],          // the last past the count
        vec![2],                            // cut behind the count
        vec![2, 1, 0],                      // in an entry
        vec![2, 1, 0, 1],                   // between entries
        vec![2, 1, 0, 1, 2, 0],             // one byte short
        vec![2, 1, 0, 5, 2],                // behind an unfit entry
        vec![255, 0, 0, 1],
    ]
}

/// Each of them alone, and with a fit stops section behind.
fn stops_records(form: Form) -> Vec<Vec<u8>> {
    let content = small(form, 2, &[]);
    let mut list = Vec::new();
    for section in stops_sections() {
        list.push(with_behind(&content, &section));
        if section[0] < 255 && section.len() == 1 + 3 * section[0] as usize {
            list.push(with_behind(&content, &[&section, &ONE_STOP[..]].concat()));
        }
    }
    list
}

/// 255 stops: fit, with bytes behind, the last unfit, and one byte short.
fn most_stops(form: Form) -> Vec<Vec<u8>> {
    let bytes = small(form, 1, &[(1, 3); 255]).bytes();
    let mut unfit = bytes.clone();
    *unfit.last_mut().expect("a cause") = 0;
    vec![
        bytes[..bytes.len() - 1].to_vec(),
        unfit,
        [&bytes[..], &[0]].concat(),
        bytes,
    ]
}

/// What stands in a row behind the last one that is counted: stops by luck, or none.
fn lucky_starts() -> [&'static [u8]; 6] {
    [
        &[0],
        &ONE_STOP,
        &[2, 0, 0, 1, 0, 0, 4],
        &[1, 0, 0, 5],
        &[1, 9, 0, 1],
        &[200],
    ]
}

/// Row counts below, at and above the rows that are there.
fn count_records(form: Form) -> Vec<Vec<u8>> {
    let mut list = Vec::new();
    for count in [0, 1] {
        for start in lucky_starts() {
            let content = small(form, 2, &[(2, 1)]);
            let mut bytes = with_count(&content, count);
            let at = count_at(&content) + 2 + 4 * content.codes.len() * count;
            bytes[at..at + start.len()].copy_from_slice(start);
            list.push(bytes);
        }
    }
    // So many stops that they fill a row of six channels with a byte left, or just one of seven.
    for stops in [0, 1, 8, 9] {
        let content = small(form, 1, &[(0, 2); 9][..stops]);
        list.extend([1, 2, 300].map(|count| with_count(&content, count)));
    }
    let none = small(form, 0, &[]);
    let bytes = none.bytes();
    list.push(bytes[..bytes.len() - 1].to_vec());
    list.extend([0, 1, 2, 256].map(|count| with_count(&none, count)));
    list.push(small(form, 0, &[(0, 1)]).bytes());
    for behind in [
        &[1, 1, 0, 1][..],
        &[1, 0, 0, 0],
        &[3, 0, 0, 1],
        &[0, 0],
        &[1, 0, 0, 1, 7],
    ] {
        list.push(with_behind(&none, behind));
    }
    list
}

/// The codes of so many channels in a form.
fn codes_of(form: Form, channels: usize) -> Vec<u16> {
    match form {
        Form::Narrow => required_up_to(channels, 100),
        Form::Wide => {
            let mut codes = required_up_to(channels - 1, 100);
            codes.insert(2, 400);
            codes
        }
    }
}

/// Row counts at the greatest that is allowed and above it, by rows and by cells, with nothing behind,
/// with rows, and with the half of one.
fn great_counts(form: Form) -> Vec<Vec<u8>> {
    let most = match form {
        Form::Narrow => (30, 500),
        Form::Wide => (60, 250),
    };
    let counts = [
        (7, 1500),
        (10, 1500),
        most,
        (7, 1501),
        (7, 1536),  // its low byte is 0
        (13, 1154), // 15,002 cells, the least above 15,000 by at most 1,500 rows
        (7, 2143),  // 15,001 cells
        (most.0, most.1 + 1),
        (10, 65535),
    ];
    let mut list = Vec::new();
    for (channels, count) in counts {
        let content = filled(codes_of(form, channels), 1, 0);
        let bytes = with_count(&content, count);
        let rows_at = count_at(&content) + 2;
        list.extend([rows_at, rows_at + 6, bytes.len() - 1].map(|length| bytes[..length].to_vec()));
    }
    list
}

type Fault = fn(&mut Content);

/// One fault in a section before the rows each.
fn faults() -> [Fault; 12] {
    [
        |c| c.codes[5] = 0,
        |c| c.codes[5] = c.codes[1],
        |c| c.codes[1] = 77,
        |c| c.settings.truncate(6),
        |c| c.settings.push(1),
        |c| c.settings[0] = 0,
        |c| c.settings[6] = 799,
        |c| c.saturation.truncate(28),
        |c| c.saturation.push(4300),
        |c| c.saturation[0] = 499,
        |c| c.saturation[28] = 4301,
        |c| c.saturation[14] = c.saturation[13],
    ]
}

/// A record with a fault: whole, with a row count above what is allowed, and cut around the row count's
/// start.
fn ways_to_refuse(record: &[u8], count_at: usize) -> Vec<Vec<u8>> {
    let mut too_many = record.to_vec();
    too_many[count_at..count_at + 2].copy_from_slice(&1501u16.to_le_bytes());
    let lengths = [count_at - 1, count_at, count_at + 1];
    let cuts = lengths.map(|length| record[..length].to_vec());
    [record.to_vec(), too_many]
        .into_iter()
        .chain(cuts)
        .collect()
}

/// Each refusal of an earlier section.
fn refused_records(form: Form) -> Vec<Vec<u8>> {
    let content = small(form, 1, &[]);
    let mut list = Vec::new();
    for fault in faults() {
        let mut unfit = content.clone();
        fault(&mut unfit);
        let count_at = unfit.bytes().len() - 4 * unfit.cells.len() - 3;
        list.extend(ways_to_refuse(&unfit.bytes_in(form), count_at));
    }
    let (counts_at, counts): (usize, [u8; 2]) = match form {
        Form::Narrow => (0, [33, 255]),
        Form::Wide => (1, [0, 65]),
    };
    for count in counts {
        let mut bytes = content.bytes();
        bytes[counts_at] = count;
        list.extend([bytes[..counts_at + 4].to_vec(), bytes]);
    }
    // The count is as great as the bytes have channels for, so that a row count stands behind them.
    let channels = match form {
        Form::Narrow => 33,
        Form::Wide => 65,
    };
    let crowded = filled(required_up_to(channels, 100), 1, 0).bytes_in(form);
    let at = form.code_at(channels) + 74;
    list.extend(ways_to_refuse(&crowded, at));
    if form == Form::Wide {
        list.extend(needless_records());
    }
    list
}

/// The wide form not needed, also with a fault behind the channels and cut there.
fn needless_records() -> Vec<Vec<u8>> {
    let needless = small(Form::Narrow, 1, &[(1, 1)]);
    let at = Form::Wide.code_at(6);
    let bytes = needless.bytes_in(Form::Wide);
    let mut unfit = bytes.clone();
    unfit[at] = 6;
    let mut list = ways_to_refuse(&bytes, at + 74);
    list.extend([unfit, bytes[..at].to_vec()]);
    list
}

/// The most channels of each form, and the fewest that need the wide one by their number.
fn crowded_records() -> Vec<Vec<u8>> {
    let mut list = Vec::new();
    for channels in [32, 33, 64] {
        let bytes = filled(required_up_to(channels, 100), 2, 1).bytes();
        let half = bytes.len() - 10;
        list.extend([bytes[..half].to_vec(), bytes]);
    }
    list
}

/// Small records of each kind, whatever the seed; cells that are no readings are among them.
pub fn cut_corners() -> Vec<Vec<u8>> {
    let mut list = Vec::new();
    for form in [Form::Narrow, Form::Wide] {
        list.extend(cut_records(form));
        list.extend(stops_records(form));
        list.extend(most_stops(form));
        list.extend(count_records(form));
        list.extend(great_counts(form));
        list.extend(refused_records(form));
    }
    list.extend(crowded_records());
    list
}

/// Small records that are cut at every length: their names and contents.
pub fn cut_at_every_length() -> [(&'static str, Content); 4] {
    [
        ("narrow, stops", small(Form::Narrow, 2, &[(0, 1), (2, 4)])),
        ("wide, stops", small(Form::Wide, 2, &[(1, 2), (1, 3)])),
        ("no rows", small(Form::Narrow, 0, &[(0, 4)])),
        ("narrow, no stops", small(Form::Narrow, 3, &[])),
    ]
}

/// What follows a record that is cut at every length.
const MORE: [u8; 4] = [0, 1, 0, 9];

/// Every length of a content's record, and a few bytes more.
pub fn every_length(content: &Content) -> Vec<Vec<u8>> {
    let bytes = [&content.bytes()[..], &MORE].concat();
    (0..=bytes.len())
        .map(|length| bytes[..length].to_vec())
        .collect()
}
