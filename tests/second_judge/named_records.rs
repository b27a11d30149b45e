//! Making input: records by name.

use crate::channels::Form;
use crate::dice::Dice;
use crate::make_channels::{longest_narrow, longest_wide, with_channel};
use crate::make_records::{content_of, until_verdict, Site};
use crate::numbers::{MISSING, OVER};
use crate::record::Content;
use crate::salvage_modes::salvage_outputs;
use crate::script::Script;

/// Document 01's record: 36 rows of 25.0, 0.85, 100, 1.00, 200, 12.0.
pub fn listing(rows: usize) -> Content {
    let row = [25.0f32, 0.85, 100.0, 1.0, 200.0, 12.0].map(f32::to_bits);
    Content {
        codes: vec![1, 2, 4, 5, 6, 7],
        settings: vec![1, 2005, 125, 2, 50, 20, 1013],
        saturation: (2..=30)
            .map(|t: i32| (2339 + 60 * (t - 20)) as u16)
            .collect(),
        cells: row.repeat(rows),
        ..Content::default()
    }
}

/// The listing with the load of measured second 6 out: six windows are invalid, and the pass comes at t = 30.
fn invalid_listing() -> Content {
    let mut content = listing(41);
    content.cells[6 * 16 + 1] = 0.88f32.to_bits();
    content
}

/// A record from before hundredths. Its CO2 is 12.04 %, so that the averages are 120 120 216, not 121 121 217.
/// On its last row CO2 is 5.46 % and CO 0.53 %, a sum of 599: the third void, and so
/// `incomplete 1 24 15 0 0 120 120 216 -`. By tenths, 12.0 % and 5.5 %, the sum was 603, and the line
/// `pass 1 25 16 0 0 135 122 242 -`.
fn hundredths_listing() -> Content {
    let row =
        |speed: f32, co: f32, co2: f32| [speed, 0.85, 100.0, co, 200.0, co2].map(f32::to_bits);
    let (moving, standing) = (row(25.0, 1.0, 12.04), row(0.0, 1.0, 12.04));
    let attempt = [&moving[..], &standing.repeat(10)].concat();
    Content {
        cells: [
            attempt.repeat(2),
            moving.repeat(35),
            row(25.0, 0.53, 5.46).to_vec(),
        ]
        .concat(),
        stop_rows: vec![1, 12],
        stop_causes: vec![1, 2],
        ..listing(0)
    }
}

/// Small records by name: each ends in another way, or has its engine speed, its dip, its channels,
/// its invalid windows or its CO2 for another reason.
pub const RECORDS: [&str; 55] = [
    "pass_rising",
    "pass_out",
    "pass_ninety",
    "pass_two",
    "fail_two",
    "fail_inconclusive",
    "incomplete_stop",
    "incomplete_void7",
    "incomplete_void8",
    "incomplete_two",
    "open_settling",
    "open_measuring",
    "open_rest",
    "open_restart",
    "open_two",
    "open_two_rest",
    "open_two_restart",
    "refused_1",
    "refused_2",
    "refused_3",
    "refused_4",
    "refused_5",
    "refused_6",
    "refused_6_left",
    "refused_7",
    "refused_8",
    "refused_8_absent",
    "refused_9",
    "refused_9_stop",
    "refused_9_unfit",
    "refused_9_stopped",
    "engine_half_each",
    "engine_half_up",
    "engine_half_down",
    "engine_older",
    "engine_one_missing",
    "engine_last_missing",
    "engine_zero",
    "dip_eight",
    "dip_nine",
    "dip_eleventh",
    "dip_forgotten",
    "slow_fall",
    "wide_beside",
    "wide_many",
    "refused_1_zero",
    "refused_3_wide",
    "refused_8_wide",
    "refused_19",
    "invalid",
    "hundredths",
    "hundredths_ready",
    "hundredths_pass",
    "refused_8_above",
    "refused_8_below",
];

/// How many of RECORDS come before those about the wide form.
pub const BEFORE_WIDE: usize = 43;

/// How many come before those behind them.
pub const PAST_WIDE: usize = 49;

/// The records of the engine speed that have an automatic gearbox.
const AUTOMATIC: [&str; 4] = [
    "engine_older",
    "engine_one_missing",
    "engine_last_missing",
    "engine_zero",
];

/// A record of RECORDS.
pub fn small_record(name: &str) -> Option<Vec<u8>> {
    Some(small_bytes(name, &small_content(name)?))
}

/// The content of a record of RECORDS, unfit where its name says so.
pub fn small_content(name: &str) -> Option<Content> {
    match name {
        "invalid" => return Some(invalid_listing()),
        "hundredths" => return Some(hundredths_listing()),
        _ => {}
    }
    let place = RECORDS.iter().position(|known| *known == name)?;
    let moped = name.contains("two") || name.ends_with("inconclusive");
    let engine = name.starts_with("engine_");
    let layout = match engine {
        true => 1,
        false if name.ends_with("void8") => 0,
        false => place % 3,
    };
    let automatic = layout == 0 || AUTOMATIC.contains(&name);
    let site = Site {
        settings: match moped {
            true => [2, 2003, 50, 2, 40, 18, 990],
            false => [1, 1998, 180, 1 + automatic as u16, 70, 24, 1020],
        },
        saturation: listing(0).saturation,
    };
    let codes = small_codes(name, moped, layout);
    let mut script = Script::new(site.car(), place as u64);
    script.tenths = true;
    match name.strip_prefix("refused_") {
        Some(_) => small_refused(name, &mut script),
        None if engine => small_engine(name, &mut script),
        None if name.starts_with("hundredths") => small_hundredths(name, &mut script),
        None => small_test(name, &mut script),
    }
    let mut content = content_of(&site, codes, &script.items, &mut Dice(place as u64));
    damage_small(name, &mut content);
    Some(content)
}

fn small_codes(name: &str, moped: bool, layout: usize) -> Vec<u16> {
    match name {
        "wide_beside" => vec![3, 2, 263, 1, 7, 5, 6, 4],
        "wide_many" => forty_codes(),
        "refused_1_zero" | "refused_8_wide" => vec![9, 300, 7, 6, 5, 4, 3, 2, 1, 65535],
        "refused_3_wide" => vec![1, 2, 3, 4, 5, 6, 263],
        "refused_19" => vec![1, 2, 3, 4, 5, 6, 7],
        _ if moped => vec![7, 1, 2, 4, 6, 5],
        _ if layout == 0 => vec![1, 2, 4, 5, 6, 7],
        _ if layout == 1 => vec![7, 6, 5, 4, 3, 2, 1],
        _ => vec![9, 8, 1, 3, 2, 5, 4, 7, 6, 200],
    }
}

/// Forty codes below 256, with 1 to 7 far from each other.
pub fn forty_codes() -> Vec<u16> {
    let mut codes: Vec<u16> = (20..60).collect();
    for (i, column) in [33, 2, 17, 39, 9, 26, 5].into_iter().enumerate() {
        codes[column] = i as u16 + 1;
    }
    codes
}

/// The bytes of a content under a name of RECORDS.
pub fn small_bytes(name: &str, content: &Content) -> Vec<u8> {
    let mut bytes = match name {
        "refused_19" => content.bytes_in(Form::Wide),
        _ => content.bytes(),
    };
    match name {
        "refused_1" => bytes.truncate(60),
        "refused_1_zero" => bytes.truncate(1),
        "refused_6_left" | "refused_7" => bytes.push(0),
        _ => {}
    }
    bytes
}

/// The tests that are judged to their end or left open.
#[rustfmt::skip]
fn small_test(name: &str, s: &mut Script) {
    match name {
        "pass_rising" => { s.idle_at_10(); s.settle(); s.falling(25, -9) }
        "pass_out" => { s.clean(3); s.far(2); s.settle(); s.clean(24); s.out(1) }
        "pass_ninety" => { s.settle(); s.falling(90, 9) }
        "pass_two" => { s.to_mode_2(); s.pass() }
        "wide_beside" | "wide_many" => s.pass(),
        "fail_two" => { s.to_mode_2(); s.settle(); s.dirty(90) }
        "fail_inconclusive" => { s.to_mode_2(); s.void_and_rest(9); s.void(9) }
        "incomplete_stop" => { s.void_and_rest(7); s.void_and_rest(2); s.settle(); s.clean(12); s.stop(3) }
        "incomplete_void7" => { s.void_and_rest(4); s.void_and_rest(5); s.void(7) }
        "incomplete_void8" => { s.void_and_rest(8); s.void_and_rest(1); s.void(8) }
        "incomplete_two" => { s.to_mode_2(); s.void_and_rest(7); s.void_and_rest(6); s.settle(); s.dirty(11); s.stop(1) }
        "open_settling" => { s.idle(2, 10); s.clean(4) }
        "open_measuring" => { s.settle(); s.clean(9); s.dirty(3); s.out(1) }
        // A rest broken by speed 10, and then nine seconds: it is not over.
        "open_rest" => {
            s.settle(); s.clean(12); s.stop(2);
            s.idle(9, 9); s.at_speed(10); s.idle(9, 9); s.stop(3); s.clean(22);
        }
        "open_restart" => { s.settle(); s.clean(12); s.out(3); s.clean(4) }
        "open_two" => s.to_mode_2(),
        "open_two_rest" => { s.to_mode_2(); s.settle(); s.clean(12); s.stop(2); s.idle(3, 9) }
        "dip_eight" => { s.settle(); s.dip(6, 8, 25) }
        "dip_nine" => { s.settle(); s.dip(6, 9, 90) }
        "dip_eleventh" => { s.settle(); s.dip(11, 9, 25) }
        "dip_forgotten" => { s.settle(); s.dip(6, 9, 12); s.out(3); s.clean(25) }
        // Held back at t = 25, and left open there.
        "slow_fall" => { s.settle(); s.slow_fall(25) }
        _ => { s.to_mode_2(); s.settle(); s.clean(12); s.out(3); s.clean(4) }
    }
}

/// The tests whose last field is in question, left open.
#[rustfmt::skip]
fn small_engine(name: &str, s: &mut Script) {
    s.vary();
    s.missing = 0;
    s.settle();
    match name {
        "engine_half_each" => { s.clean(3); s.engines(5, 3999); s.engines(5, 4000) }
        "engine_half_up" => { s.clean(3); s.engines(9, 3999); s.engine(4004) }
        "engine_half_down" => { s.clean(3); s.engines(9, 3999); s.engine(4003) }
        "engine_older" => { s.clean(12); s.out(2) }
        // The oldest of the window's ten is missing, or the newest.
        "engine_one_missing" => { s.clean(3); s.no_engine(); s.clean(9) }
        "engine_last_missing" => { s.clean(12); s.no_engine() }
        _ => { s.clean(3); s.engines(10, 0) }
    }
}

/// The tests that tenths would judge otherwise.
fn small_hundredths(name: &str, s: &mut Script) {
    s.tenths = false;
    match name {
        // Left open while measuring: by tenths void 5 on row 5, and so in rest.
        "hundredths_ready" => {
            s.settle_by_hundredths();
            s.sum_with(601, 553);
        }
        _ => {
            s.pass_by_hundredths();
            s.items = until_verdict(s.car, &s.items);
        }
    }
}

/// The seconds and stops of a record that is refused.
#[rustfmt::skip]
fn small_refused(name: &str, s: &mut Script) {
    match name {
        "refused_9" => { s.pass(); s.clean(1) }
        "refused_9_stop" => { s.stop(2); s.pass(); s.stop(1); s.clean(1) }
        "refused_9_unfit" => { s.pass(); s.clean(1) }
        // A row after the stop that brings the verdict.
        "refused_9_stopped" => { for void in [1, 2, 3] { s.clean(1); s.stop(void); s.rest() } s.clean(1) }
        _ => { s.clean(2); s.stop(1); s.stop(2) }
    }
}

/// What makes a record unfit, by its name.
fn damage_small(name: &str, content: &mut Content) {
    let channels = content.codes.len();
    let column = |code: u16| content.codes.iter().position(|c| *c == code);
    let (load, engine, co2) = (column(2), column(3), column(7));
    let row_2 = |column: Option<usize>| channels + column.unwrap_or(0);
    match name {
        "refused_2" => content.saturation.truncate(28),
        "refused_3" => content.codes[channels - 1] = content.codes[0],
        "refused_4" => content.settings[6] = 1101,
        "refused_5" => content.saturation[28] = content.saturation[27],
        "refused_6" => content.stop_rows[1] = 1,
        "refused_6_left" => content.stop_causes[1] = 5,
        "refused_8" | "refused_8_wide" => content.cells[row_2(load)] = OVER,
        // A CO2 that was fit in tenths.
        "refused_8_above" => content.cells[row_2(co2)] = 18.04f32.to_bits(),
        "refused_8_below" => content.cells[row_2(co2)] = (-0.04f32).to_bits(),
        "refused_8_absent" => {
            content.settings[3] = 1;
            engine.map(|column| content.codes[column] = 77);
        }
        "refused_9_unfit" => {
            let last = content.cells.len() - channels;
            content.cells[last..].fill(MISSING);
        }
        _ => {}
    }
}

/// A test of 60 rows with a stop before it moved, cut by a full card in the middle of row 41 and so without its
/// stops. A dip at second 6 of measuring held its pass back, and it was still measuring.
fn cut_record() -> Vec<u8> {
    let site = Site {
        settings: [1, 1999, 150, 1, 60, 25, 1005],
        saturation: listing(0).saturation,
    };
    let mut script = Script::new(site.car(), 8);
    script.vary();
    script.idle(3, 10);
    script.stop(3);
    script.settle();
    script.dip(6, 9, 60 - 3 - script.settling());
    let codes = vec![1, 2, 3, 4, 5, 6, 7];
    let content = content_of(&site, codes, &script.items, &mut Dice(8));
    let (mut bytes, row) = (content.bytes(), 4 * content.codes.len());
    bytes.truncate(content.settings_at() + 76 + 40 * row + row / 2);
    bytes
}

/// The listing with one gas at zero, or with all three.
pub const ZERO_RECORDS: [&str; 4] = ["zero_hc", "zero_co", "zero_no", "zeros"];

fn zero_listing(name: &str) -> Content {
    let columns = match name {
        "zero_hc" => 2..3,
        "zero_co" => 3..4,
        "zero_no" => 4..5,
        _ => 2..5,
    };
    let mut content = listing(36);
    let rows = content.cells.chunks_mut(6);
    rows.for_each(|row| row[columns.clone()].fill(0));
    content
}

/// The named records that no script writes, or not to their end.
fn listed_sample(name: &str) -> Option<Vec<u8>> {
    Some(match name {
        "listing" => listing(36).bytes(),
        "empty" => listing(0).bytes(),
        // Hotter than 30 °C, and so humid that another p gives another NO.
        "hot" => {
            let mut content = listing(36);
            (content.settings[4], content.settings[5]) = (100, 31);
            content.bytes()
        }
        _ if ZERO_RECORDS.contains(&name) => zero_listing(name).bytes(),
        // The listing with a channel of code 263 before that of code 7; its number is unfit for code 7.
        "wide" => with_channel(&listing(36), 5, 263, |_| (-1.0f32).to_bits()).bytes(),
        "cut" => cut_record(),
        "salvaged" => salvage_outputs(&cut_record()).0,
        // The longest record in each form, and one byte more.
        "too_long" => [longest_narrow().bytes(), vec![0]].concat(),
        "too_long_wide" => [longest_wide().bytes(), vec![0]].concat(),
        _ => return None,
    })
}

/// A named record.
pub fn sample(name: &str) -> Option<Vec<u8>> {
    if let Some(record) = small_record(name).or_else(|| listed_sample(name)) {
        return Some(record);
    }
    let gearbox = if name == "engine_missing" { 2 } else { 1 };
    let site = Site {
        settings: [1, 1999, 150, gearbox, 60, 25, 1005],
        saturation: listing(0).saturation,
    };
    let mut script = Script::new(site.car(), 7);
    script.tenths = true;
    match name {
        "pass" | "unfit" => script.pass(),
        // As "pass", but for second 6: the pass comes at t = 90.
        "dip" => {
            script.settle();
            script.speeds(90, |i| if i == 6 { -9 } else { 0 });
        }
        "fail2" => {
            script.to_mode_2();
            script.settle();
            script.dirty(90);
        }
        "incomplete" => {
            script.void_and_rest(5);
            script.void_and_rest(6);
            script.settle();
            script.clean(20);
            script.stop(1);
        }
        // Three attempts, each ended by a stop.
        "stops" => {
            script.void_and_rest(1);
            script.void_and_rest(2);
            script.void(3);
        }
        "refused" => {
            script.pass();
            script.clean(1);
        }
        // Engine speeds that vary, and one of them missing.
        "engine_speed" => {
            script.vary();
            script.pass();
        }
        "engine_missing" => {
            script.vary();
            script.missing = 0;
            script.settle();
            script.clean(20);
            script.no_engine();
            script.clean(4);
        }
        // 1,500 rows at rest, and the test with the most measured seconds.
        "rest" => script.idle(1500, 0),
        "long" => script.inconclusive_twice_in_each_mode(),
        _ => return None,
    }
    let mut dice = Dice(7);
    let codes = vec![1, 2, 3, 4, 5, 6, 7, 8];
    let mut content = content_of(&site, codes, &script.items, &mut dice);
    if name == "unfit" {
        content.cells[3 * 8 + 7] = (-1.0f32).to_bits(); // O2 of row 4, which no step uses
    }
    Some(content.bytes())
}
