//! Making input: records from tests, and damaged ones.

use crate::bench::step_of;
use crate::channels::Form;
use crate::dice::{some_saturation, some_settings, spoil_setting, Dice};
use crate::driver::{driven_test, unfit_bits};
use crate::make_channels::{records_of_channels, REQUIRED};
use crate::named_records::{small_record, RECORDS};
use crate::numbers::OVER;
use crate::record::Content;
use crate::running::Running;
use crate::script::{encode, Item, Script};
use crate::scripted_tests::{scripted_gearbox, scripted_test, FIRST_DIP, PAST_DIPS, SCRIPTS};
use crate::vehicle::Vehicle;

pub fn put_item(out: &mut Vec<u8>, record: &[u8]) {
    out.extend((record.len() as u32).to_le_bytes());
    out.extend(record);
}

pub fn shuffle<T>(list: &mut [T], dice: &mut Dice) {
    for i in (1..list.len()).rev() {
        list.swap(i, dice.below(i as u64 + 1) as usize);
    }
}

/// Codes for a record of at most so many rows: the required ones, 3 and 8 or not, some above 8. A
/// fifth of them take the wide form, half of those by their number, half by codes above 255.
fn some_codes(automatic: bool, rows: usize, dice: &mut Dice) -> Vec<u16> {
    let mut codes = REQUIRED.to_vec();
    if !automatic || dice.percent(50) {
        codes.push(3);
    }
    if dice.percent(50) {
        codes.push(8);
    }
    let (kind, most) = (dice.below(10), 15_000 / rows.max(1));
    let channels = match kind {
        0 => dice.within(33, 64),
        _ if dice.percent(5) => 6 + dice.below(24) as i64,
        _ => 6 + dice.pick(&[0, 0, 1, 2]),
    };
    if kind == 1 {
        (0..dice.within(1, 3)).for_each(|_| put_code(&mut codes, true, dice));
    }
    while codes.len() < most.min(channels as usize) {
        let above = kind == 0 && dice.percent(30);
        put_code(&mut codes, above, dice);
    }
    if dice.percent(60) {
        shuffle(&mut codes, dice);
    }
    codes
}

/// One code more, from 9 to 255 or above.
fn put_code(codes: &mut Vec<u16>, above: bool, dice: &mut Dice) {
    let raised = [257, 258, 259, 260, 261, 262, 263, 264];
    loop {
        let code = match above {
            true if dice.percent(60) => dice.pick(&raised),
            true if dice.percent(30) => dice.pick(&[256, 65535]),
            true => dice.within(256, 65535) as u16,
            false => dice.within(9, 255) as u16,
        };
        if !codes.contains(&code) {
            return codes.push(code);
        }
    }
}

/// The greatest row count of a record with so many channels.
fn most_rows(channels: usize) -> usize {
    (15_000 / channels).min(1500)
}

/// Fit settings and a fit saturation table.
pub struct Site {
    pub settings: [u16; 7],
    pub saturation: Vec<u16>,
}

impl Site {
    pub fn some(dice: &mut Dice) -> Site {
        Site {
            settings: some_settings(dice),
            saturation: some_saturation(dice),
        }
    }

    pub fn automatic(&self) -> bool {
        self.settings[3] == 2
    }

    pub fn car(&self) -> Vehicle {
        let entry = self.settings[5].min(30) as usize - 2;
        Vehicle::new(&self.settings, self.saturation[entry])
    }
}

pub fn content_of(site: &Site, codes: Vec<u16>, items: &[Item], dice: &mut Dice) -> Content {
    let mut content = Content {
        codes,
        settings: site.settings.to_vec(),
        ..Content::default()
    };
    content.saturation = site.saturation.clone();
    let mut rows = 0;
    for item in items {
        match item {
            Item::Second(_) if rows == most_rows(content.codes.len()) => return content,
            Item::Second(bits) => {
                put_row(&mut content, bits, dice);
                rows += 1;
            }
            Item::Stop(cause) if content.stop_rows.len() < 255 => {
                content.stop_rows.push(rows as u16);
                content.stop_causes.push(*cause);
            }
            Item::Stop(_) => {}
        }
    }
    content
}

fn put_row(content: &mut Content, bits: &[u32; 8], dice: &mut Dice) {
    for code in content.codes.clone() {
        content.cells.push(match code {
            1..=8 => bits[code as usize - 1],
            _ => dice.next() as u32,
        });
    }
}

fn seconds_in(items: &[Item]) -> usize {
    let seconds = items.iter().filter(|item| matches!(item, Item::Second(_)));
    seconds.count()
}

/// The items of a test up to its verdict.
pub fn until_verdict(car: Vehicle, items: &[Item]) -> Vec<Item> {
    let mut test = Running::new(car);
    let mut kept = Vec::new();
    for item in items {
        if test.ended {
            break;
        }
        let _ = step_of(&mut test, &item.event());
        kept.push(*item);
    }
    kept
}

/// A whole driven test as a record's content.
fn driven_content(dice: &mut Dice) -> Content {
    let site = Site::some(dice);
    let codes = some_codes(site.automatic(), 0, dice);
    let most = most_rows(codes.len());
    let most = if dice.percent(15) {
        dice.within(0, most as i64) as usize
    } else {
        most
    };
    let items = driven_test(site.car(), most, dice);
    content_of(&site, codes, &items, dice)
}

pub fn scripted_content(index: usize, dice: &mut Dice) -> Content {
    let mut site = Site::some(dice);
    site.settings[3] = scripted_gearbox(index);
    let car = site.car();
    let items = scripted_test(car, index as u64, index % SCRIPTS).unwrap_or_default();
    let items = until_verdict(car, &items);
    let codes = some_codes(site.automatic(), seconds_in(&items), dice);
    content_of(&site, codes, &items, dice)
}

/// The ways to damage a record that reading it shows.
pub const READING_DAMAGES: usize = 16;

/// Those and the ways that only judging shows.
pub const DAMAGES: usize = 23;

/// A record damaged in one of DAMAGES ways.
pub fn damaged_record(way: usize, dice: &mut Dice) -> Vec<u8> {
    let mut content = if way < 15 && dice.percent(80) {
        short_content(dice)
    } else {
        scripted_content(dice.below(SCRIPTS as u64) as usize, dice)
    };
    match way {
        0..=6 => return damage_bytes(way, &content, dice),
        7..=12 => damage_entry(way, &mut content, dice),
        13 => raise_code(&mut content, dice),
        14..=15 => return damage_form(way, content, dice),
        16..=18 => damage_cells(way - 15, &mut content, dice),
        _ => content = after_verdict(way, dice),
    }
    content.bytes()
}

/// A small fit record: few rows, few stops.
pub fn short_content(dice: &mut Dice) -> Content {
    let site = Site::some(dice);
    let mut script = Script::mixed(site.car(), dice.next());
    let rows = dice.below(5) as usize;
    script.clean(rows);
    for cause in 1..=dice.below(4) as u8 {
        script.stop(cause);
    }
    let codes = some_codes(site.automatic(), 0, dice);
    content_of(&site, codes, &script.items, dice)
}

/// Truncation, counts that are not allowed, bytes left, any byte changed.
fn damage_bytes(way: usize, content: &Content, dice: &mut Dice) -> Vec<u8> {
    let (mut bytes, at) = (content.bytes(), content.settings_at());
    match way {
        0 => {
            let length = if dice.percent(50) {
                bytes.len().min(at + 80)
            } else {
                bytes.len()
            };
            bytes.truncate(dice.below(length as u64) as usize);
        }
        1 if bytes[0] == 0 => {
            let channels: u16 = dice.pick(&[0, 65, 256, 320, 65535]);
            bytes[1..3].copy_from_slice(&channels.to_le_bytes());
        }
        1 => bytes[0] = dice.pick(&[0, 33, 255]),
        2 => bytes[at] = dice.pick(&[0, 6, 8, 255]),
        3 => bytes[at + 15] = dice.pick(&[0, 28, 30, 255]),
        4 => {
            let most = most_rows(content.codes.len()) as u16;
            let rows = dice.pick(&[1501, 65535, most + 1]);
            bytes[at + 74..at + 76].copy_from_slice(&rows.to_le_bytes());
        }
        5 => (0..dice.within(1, 5)).for_each(|i| bytes.push(i as u8)),
        _ => {
            let i = dice.below(bytes.len() as u64) as usize;
            bytes[i] = dice.next() as u8;
        }
    }
    bytes
}

/// The channels in the form that they do not take, or a wide record cut in its channels.
fn damage_form(way: usize, content: Content, dice: &mut Dice) -> Vec<u8> {
    if way == 14 {
        return content.bytes_in(match Form::of(&content.codes) {
            Form::Narrow => Form::Wide,
            Form::Wide => Form::Narrow,
        });
    }
    let end = Form::Wide.code_at(content.codes.len());
    let mut bytes = content.bytes_in(Form::Wide);
    bytes.truncate(dice.within(1, end as i64) as usize);
    bytes
}

/// Puts one code 256 higher.
pub fn raise_code(content: &mut Content, dice: &mut Dice) {
    let column = dice.below(content.codes.len() as u64) as usize;
    content.codes[column] = content.codes[column].wrapping_add(256);
}

/// A code that is none of these, half of the time above 255.
fn spare_code(codes: &[u16], code: u16, dice: &mut Dice) -> u16 {
    let first = if dice.percent(50) { 256 + code } else { 200 };
    let mut spare = (first..).filter(|code| !codes.contains(code));
    spare.next().unwrap_or(first)
}

/// A bad code, setting, saturation value or stop.
pub fn damage_entry(way: usize, content: &mut Content, dice: &mut Dice) {
    let column = dice.below(content.codes.len() as u64) as usize;
    match way {
        7 => content.codes[column] = 0,
        8 => content.codes[column] = content.codes[(column + 1) % content.codes.len()],
        9 => {
            let gone = dice.pick(&REQUIRED);
            let other = spare_code(&content.codes, gone, dice);
            for code in &mut content.codes {
                if *code == gone {
                    *code = other;
                }
            }
        }
        10 => {
            let mut settings = some_settings(dice);
            let place = dice.within(1, 7) as usize;
            spoil_setting(&mut settings, place, dice);
            content.settings = settings.to_vec();
        }
        11 => {
            let i = dice.pick(&[0, 1, 14, 27, 28]);
            let equal = content.saturation[if i == 0 { 0 } else { i - 1 }];
            content.saturation[i] = dice.pick(&[0, 499, 4301, 65535, equal]);
        }
        _ => damage_stop(content, dice),
    }
}

fn damage_stop(content: &mut Content, dice: &mut Dice) {
    let rows = (content.cells.len() / content.codes.len()) as u16;
    content.stop_rows.extend([rows, rows]);
    content.stop_causes.extend([1, 4]);
    let last = content.stop_rows.len().min(content.stop_causes.len()) - 1;
    let i = if dice.percent(50) {
        last
    } else {
        dice.below(last as u64 + 1) as usize
    };
    match dice.below(3) {
        0 => content.stop_rows[i] = rows + 1 + dice.below(3) as u16,
        1 if rows > 0 => content.stop_rows[last] = rows - 1,
        _ => content.stop_causes[i] = dice.pick(&[0, 5, 255]),
    }
}

/// One or two unfit cells; at 3 engine speed absent with a manual gearbox.
fn damage_cells(way: usize, content: &mut Content, dice: &mut Dice) {
    let channels = content.codes.len();
    let rows = content.cells.len() / channels;
    if way == 3 || rows == 0 {
        content.settings[3] = 1;
        if let Some(column) = content.codes.iter().position(|code| *code == 3) {
            content.codes[column] = spare_code(&content.codes, 3, dice);
        }
        return;
    }
    let row = if dice.percent(30) {
        rows - 1
    } else {
        dice.below(rows as u64) as usize
    };
    for _ in 0..way {
        let column = dice.below(channels as u64) as usize;
        if content.codes[column] <= 8 {
            let code = content.codes[column] as u8;
            let bits = unfit_bits(code, content.settings[3] == 2, dice);
            content.cells[row * channels + column] = bits;
        }
    }
}

/// A test with a verdict and something after it; some of it unfit.
fn after_verdict(way: usize, dice: &mut Dice) -> Content {
    let site = Site::some(dice);
    let car = site.car();
    let mut script = Script::mixed(car, dice.next());
    match dice.below(3) {
        0 => script.pass(),
        1 => [1, 2, 3]
            .iter()
            .for_each(|void| script.void_and_rest(*void)),
        _ => {
            script.to_mode_2();
            script.settle();
            script.dirty(90);
        }
    }
    let mut items = until_verdict(car, &script.items);
    let mut bits = encode(&script.next_good(), car.automatic, dice);
    match way {
        19 => items.push(Item::Second(bits)),
        20 => items.push(Item::Stop(dice.within(1, 4) as u8)),
        21 => {
            bits[0] = 0xFFC0_0000;
            items.push(Item::Second(bits));
        }
        _ => items.extend([Item::Second(bits), Item::Stop(1), Item::Second([OVER; 8])]),
    }
    let codes = some_codes(car.automatic, seconds_in(&items), dice);
    content_of(&site, codes, &items, dice)
}

/// How many records reach everything: the named ones, those about channels and those about dips.
pub fn reaching_records() -> usize {
    RECORDS.len() + records_of_channels().len() + PAST_DIPS - FIRST_DIP
}

/// The named records first, those about channels, then the scripted tests, those about dips
/// before the others.
pub fn make_records(seed: u64, count: usize) -> Vec<u8> {
    let mut dice = Dice(seed ^ 0x7265_636F);
    let mut out = Vec::new();
    let named = RECORDS.iter().filter_map(|name| small_record(name));
    let first: Vec<Vec<u8>> = named.chain(records_of_channels()).collect();
    for i in 0..count {
        let record = match i {
            _ if i < first.len() => first[i].clone(),
            _ if i < first.len() + SCRIPTS => {
                scripted_content(FIRST_DIP + i - first.len(), &mut dice).bytes()
            }
            _ if i % 4 == 3 => damaged_record(i / 4 % DAMAGES, &mut dice),
            _ if i % 16 == 2 => scripted_content(dice.below(1000) as usize, &mut dice).bytes(),
            _ => driven_content(&mut dice).bytes(),
        };
        put_item(&mut out, &record);
    }
    out
}
