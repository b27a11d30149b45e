//! Own asserts: CO2 in hundredths, beside what CO2 in tenths gave.

use crate::bench::{step_of, Event};
use crate::items::Items;
use crate::journaling::{read_journal, start_lines};
use crate::make_corrections::{air_of, gas_of, make_corrections, FACTORS};
use crate::make_journals::make_journals;
use crate::make_records::make_records;
use crate::make_tests::make_tests;
use crate::modes::{correction_item, test_item, test_line};
use crate::named_records::sample;
use crate::numbers::{dilution_factor, half_up, judge_reading, Reading, GREATEST, OVER, SCALE};
use crate::own_asserts::{Checks, LISTED_MANUAL};
use crate::reach_hundredths::{
    by_tenths, event_by_tenths, journal_by_tenths, record_by_tenths, Twin,
};
use crate::rejudging::rejudge_line;
use crate::running::Running;
use crate::script::{bits_of, Item, Script};
use crate::vehicle::Vehicle;

/// Readings of code 7, at the greatest and at nothing too.
pub fn check_co2(checks: &mut Checks) {
    let units = |bits| judge_reading(7, false, bits);
    let number = |n| Some(Reading::Units(n));
    checks.same("scale and greatest", (SCALE[6], GREATEST[6]), (100, 1800));
    checks.same("18.004999", units(0x4190_0A3D), number(1800));
    checks.same("18.005001", units(0x4190_0A3E), None);
    let at = |v: f32| units(v.to_bits());
    checks.same("18.0", at(18.0), number(1800));
    checks.same("17.99", at(17.99), number(1799));
    for beyond in [18.01, 18.04, 18.05, 18.1] {
        checks.same("above 18.00", at(beyond), None);
    }
    checks.same("12.0", at(12.0), number(1200));
    checks.same("12.04", at(12.04), number(1204));
    checks.same("5.46", at(5.46), number(546));
    checks.same("0.006", at(0.006), number(1));
    checks.same("0.004", at(0.004), number(0));
    checks.same("-0.004", at(-0.004), number(0));
    checks.same("-0.006", at(-0.006), None);
    checks.same("-0.04", at(-0.04), None);
    checks.same("over range", units(OVER), Some(Reading::Over));
    let scales = [0, 1, 2, 3, 4, 5, 7].map(|i: usize| SCALE[i]);
    checks.same("the other scales", scales, [10, 100, 1, 1, 100, 1, 10]);
    for (bits, tenths) in [(12.04f32, 120), (5.46, 55), (18.04, 180), (-0.04, 0)] {
        let rounded = by_tenths(bits.to_bits());
        checks.same("by tenths", rounded, bits_of(7, 10 * tenths, 0));
    }
    checks.same("over range by tenths", by_tenths(OVER), OVER);
}

/// DCF by hundredths; a whole tenth gives what it gave.
pub fn check_dcf(checks: &mut Checks) {
    let cases = [
        (510, 0, 3_000_000), // held
        (511, 0, 2_999_612),
        (0, 717, 3_000_000), // held
        (0, 718, 2_999_048),
        (1532, 0, 1_000_523),
        (1533, 0, 1_000_000), // held
        (0, 2153, 1_000_147),
        (0, 2154, 1_000_000), // held
        (1204, 100, 1_202_025),
        (1196, 100, 1_209_613),
        (546, 53, 2_625_888),
        (1, 1, 3_000_000),
        (65_535, 65_535, 1_000_000),
    ];
    for (a, b, want) in cases {
        checks.same(&format!("DCF {a} {b}"), dilution_factor(a, b), want);
    }
    check_d(checks);
    for (dcf, k) in FACTORS {
        let between = gas_of(dcf).is_some_and(|(co2, _)| co2 % 10 != 0);
        checks.same(&format!("gas for {dcf}"), between, true);
        checks.same(&format!("air for {k}"), air_of(k).is_some(), true);
    }
}

/// DCF from D, and from D as it was in tenths.
fn check_d(checks: &mut Checks) {
    let mut other = 0;
    for a in (0..=1900u128).step_by(7) {
        for b in (0..=2200u128).step_by(13) {
            let d = 6_524 * a + 4_644 * b;
            let free = (d > 0).then(|| half_up(10u128.pow(13), d));
            let held = free.map_or(3_000_000, |dcf| dcf.clamp(1_000_000, 3_000_000));
            other += (dilution_factor(a, b) != held) as usize;
        }
    }
    checks.same("DCF by D", other, 0);
    let mut other = 0;
    for tenths in 1..=180u128 {
        for b in [0, 1, 53, 100, 600, 2000] {
            let d = 65_240 * tenths + 4_644 * b;
            let held = half_up(10u128.pow(13), d).clamp(1_000_000, 3_000_000);
            other += (dilution_factor(10 * tenths, b) != held) as usize;
        }
    }
    checks.same("DCF of whole tenths", other, 0);
}

/// An item of corrections with its CO2 rounded to tenths.
fn correction_by_tenths(item: &[u8]) -> Vec<u8> {
    let mut rounded = item.to_vec();
    match item[0] {
        1 => {
            let a = u16::from_le_bytes([item[1], item[2]]);
            let tenths = (a / 10 + (a % 10 >= 5) as u16).saturating_mul(10);
            rounded[1..3].copy_from_slice(&tenths.to_le_bytes());
        }
        3 => {
            for at in (0..10).map(|i| 18 + 32 * i + 24) {
                let bits = [item[at], item[at + 1], item[at + 2], item[at + 3]];
                let bits = by_tenths(u32::from_le_bytes(bits));
                rounded[at..at + 4].copy_from_slice(&bits.to_le_bytes());
            }
        }
        _ => {}
    }
    rounded
}

/// What an item of corrections is made for, by its line and the one by tenths.
fn correction_name(item: &[u8], line: &str, tenths: &str) -> Option<&'static str> {
    let words: Vec<&str> = line.split(' ').collect();
    let others: Vec<&str> = tenths.split(' ').collect();
    match words[..] {
        _ if line == tenths => None,
        ["dcf", "3000000"] => Some("DCF held at 3, by tenths not"),
        ["dcf", "1000000"] => Some("DCF held at 1, by tenths not"),
        ["dcf", _] if others[1] == "3000000" => Some("DCF not held, by tenths at 3"),
        ["dcf", _] if others[1] == "1000000" => Some("DCF not held, by tenths at 1"),
        ["dcf", _] => Some("another DCF"),
        ["refused", "8", _] if item[0] == 3 => Some("refused 8"),
        ["window", _, "passing", ..] if others[2] == "failing" => Some("passing, by tenths not"),
        ["window", _, "failing", ..] if others[2] == "passing" => Some("failing, by tenths not"),
        _ => Some("other averages"),
    }
}

/// What is made of corrections tells tenths apart, whatever the seed.
pub fn check_corrections_made(checks: &mut Checks) {
    let wanted = [
        "DCF held at 3, by tenths not",
        "DCF held at 1, by tenths not",
        "DCF not held, by tenths at 3",
        "DCF not held, by tenths at 1",
        "another DCF",
        "passing, by tenths not",
        "failing, by tenths not",
        "other averages",
    ];
    for seed in 1..=3 {
        let data = make_corrections(seed, 54);
        let mut items = Items { data: &data };
        let mut shown = Vec::new();
        loop {
            let before = items.data;
            let Some(line) = correction_item(&mut items) else {
                break;
            };
            let item = &before[..before.len() - items.data.len()];
            let rounded = correction_by_tenths(item);
            let tenths = correction_item(&mut Items { data: &rounded }).unwrap_or_default();
            shown.extend(correction_name(item, &line, &tenths));
        }
        for what in wanted {
            checks.same(what, shown.contains(&what), true);
        }
    }
}

/// did, next, mode, t, passing, failing, n, g of a script's last step, by its seconds as they are
/// and by tenths.
fn both(write: fn(&mut Script)) -> [String; 2] {
    let mut script = Script::new(Vehicle::new(&LISTED_MANUAL, 2339), 3);
    write(&mut script);
    let last = |tenths: bool| {
        let mut test = Some(Running::new(script.car));
        let mut line = String::new();
        for event in script.items.iter().map(Item::event) {
            let event = if tenths {
                event_by_tenths(&event)
            } else {
                event
            };
            match test_item(&mut test, &event) {
                Ok(step) => line = test_line(&Ok(step)),
                Err(_) => break,
            }
        }
        let words: Vec<&str> = line.split(' ').collect();
        let shown = [0, 1, 3, 13, 19, 21, 9, 11].map(|i| words.get(i).copied().unwrap_or("?"));
        shown.join(" ")
    };
    [last(false), last(true)]
}

#[rustfmt::skip]
pub fn check_hundredths(checks: &mut Checks) {
    let mut same = |name: &str, write: fn(&mut Script), ours: &str, tenths: &str| {
        checks.same(name, both(write), [ours, tenths].map(str::to_string));
    };
    same("500 + 100", |s| { s.clean(4); s.sum_with(600, 500) }, "nothing goes-on 1 0 0 0 5 0", "nothing goes-on 1 0 0 0 5 0");
    same("499 + 100", |s| { s.clean(4); s.sum_with(599, 499) }, "void-5 rests 1 0 0 0 0 0", "nothing goes-on 1 0 0 0 5 0");
    same("501 + 100", |s| { s.clean(4); s.sum_with(601, 501) }, "nothing goes-on 1 0 0 0 5 5", "nothing goes-on 1 0 0 0 5 0");
    same("599, by tenths 603", |s| { s.clean(4); s.sum_with(599, 546) }, "void-5 rests 1 0 0 0 0 0", "nothing goes-on 1 0 0 0 5 5");
    same("600, by tenths 603", |s| { s.clean(4); s.sum_with(600, 547) }, "nothing goes-on 1 0 0 0 5 0", "nothing goes-on 1 0 0 0 5 5");
    same("600, by tenths 597", |s| { s.clean(4); s.sum_with(600, 543) }, "nothing goes-on 1 0 0 0 5 0", "void-5 rests 1 0 0 0 0 0");
    same("601, by tenths 600", |s| { s.clean(10); s.sum_with(601, 541) }, "began goes-on 1 0 0 0 0 0", "nothing goes-on 1 0 0 0 11 0");
    same("601, by tenths 598", |s| { s.clean(10); s.sum_with(601, 543) }, "began goes-on 1 0 0 0 0 0", "void-5 rests 1 0 0 0 0 0");
    same("599 by CO2 alone", |s| { s.clean(1); s.sum_with(599, 599) }, "void-5 rests 1 0 0 0 0 0", "nothing goes-on 1 0 0 0 2 0");
    same("600 by CO alone", |s| { s.clean(1); s.sum_with(600, 0) }, "nothing goes-on 1 0 0 0 2 0", "nothing goes-on 1 0 0 0 2 0");
    same("10 is not ten times as much", |s| { s.clean(1); s.sum_with(599, 60) }, "void-5 rests 1 0 0 0 0 0", "void-5 rests 1 0 0 0 0 0");
    same("a window passes", |s| { s.settle(); s.narrow(10, false) }, "measured goes-on 1 10 1 0 0 0", "measured goes-on 1 10 0 1 0 0");
    same("a window fails", |s| { s.settle(); s.narrow(10, true) }, "measured goes-on 1 10 0 1 0 0", "measured goes-on 1 10 1 0 0 0");
    same("a pass", |s| { s.settle(); s.narrow(25, false) }, "measured ends-pass 1 25 16 0 0 0", "measured goes-on 1 25 0 16 0 0");
    same("no pass", |s| { s.settle(); s.narrow(25, true) }, "measured goes-on 1 25 0 16 0 0", "measured ends-pass 1 25 16 0 0 0");
    same("a fail", |s| { s.to_mode_2(); s.settle(); s.narrow(90, true) }, "measured ends-fail 2 90 0 81 0 0", "measured ends-pass 2 25 16 0 0 0");
    same("incomplete", |s| { s.void_and_rest(1); s.void_and_rest(2); s.settle(); s.clean(12); s.sum_with(599, 547) },
        "void-5 ends-incomplete 1 12 3 0 0 0", "measured goes-on 1 13 4 0 0 0");
    same("whole tenths", |s| { s.settle(); s.clean(25) }, "measured ends-pass 1 25 16 0 0 0", "measured ends-pass 1 25 16 0 0 0");
}

/// Records by name, their lines, and what tenths gave.
const OLDER: [(&str, &str, &str); 8] = [
    (
        "hundredths",
        "incomplete 1 24 15 0 0 120 120 216 -",
        "pass 1 25 16 0 0 135 122 242 -",
    ),
    (
        "listing",
        "pass 1 25 16 0 0 121 121 217 -",
        "pass 1 25 16 0 0 121 121 217 -",
    ),
    (
        "pass_out",
        "pass 1 25 15 0 1 120 120 24 4000",
        "pass 1 25 15 0 1 121 121 25 4000",
    ),
    (
        "fail_two",
        "fail 2 90 0 81 0 10851 121 21 -",
        "fail 2 90 0 81 0 10852 121 21 -",
    ),
    (
        "fail2",
        "fail 2 90 0 81 0 10862 121 24 4000",
        "fail 2 90 0 81 0 10852 121 24 4000",
    ),
    (
        "hundredths_ready",
        "open 1 1 0 0 0 - - - -",
        "open 1 0 0 0 0 - - - -",
    ),
    ("refused_8_above", "refused 8 155", "open 1 0 0 0 0 - - - -"),
    ("refused_8_below", "refused 8 127", "open 1 0 0 0 0 - - - -"),
];

/// What older records give now, and what tenths gave.
pub fn check_older(checks: &mut Checks) {
    for (name, ours, tenths) in OLDER {
        let bytes = sample(name).unwrap_or_default();
        let rounded = record_by_tenths(&bytes).unwrap_or_default();
        checks.same(name, rejudge_line(&bytes), ours.to_string());
        let line = rejudge_line(&rounded);
        checks.same(&format!("{name} by tenths"), line, tenths.to_string());
    }
}

/// Tenths are told apart in a good part of what is made.
pub fn check_apart(checks: &mut Checks) {
    let data = make_records(1, 1000);
    let (mut items, mut apart) = (Items { data: &data }, 0);
    while let Some(record) = items.record() {
        let line = record_by_tenths(record).map(|rounded| rejudge_line(&rounded));
        apart += line.is_some_and(|line| line != rejudge_line(record)) as usize;
    }
    checks.same("records apart", apart >= 300, true);
    checks.same("tests apart", tests_apart(&make_tests(1, 54)) >= 40, true);
    let data = make_journals(1, 1000);
    let (mut items, mut apart) = (Items { data: &data }, 0);
    while let Some(bytes) = items.record() {
        let journal = read_journal(bytes);
        apart +=
            journal.is_ok_and(|j| start_lines(&j) != start_lines(&journal_by_tenths(&j))) as usize;
    }
    checks.same("journals apart", apart >= 100, true);
}

/// The tests of a list with a line that is another by tenths.
fn tests_apart(data: &[u8]) -> usize {
    let mut items = Items { data };
    let (mut ours, mut other) = (None, None);
    let mut apart = vec![false];
    while let Some(event) = items.u8().and_then(|kind| items.fields(kind)) {
        if let Event::Start(..) = event {
            apart.push(false);
        }
        let line = test_line(&test_item(&mut ours, &event));
        let tenths = test_line(&test_item(&mut other, &event_by_tenths(&event)));
        let last = apart.len() - 1;
        apart[last] |= line != tenths;
    }
    apart.iter().filter(|apart| **apart).count()
}

/// What `reach` names on the last step of a script.
fn named(write: fn(&mut Script)) -> String {
    let mut script = Script::new(Vehicle::new(&LISTED_MANUAL, 2339), 3);
    write(&mut script);
    let (mut test, mut twin) = (Running::new(script.car), Twin::new(script.car));
    let mut shown = Vec::new();
    for event in script.items.iter().map(Item::event) {
        if let Ok(step) = step_of(&mut test, &event) {
            shown = twin.step(&event, &step);
        }
    }
    shown.join("; ")
}

#[rustfmt::skip]
pub fn check_hundredths_names(checks: &mut Checks) {
    let mut same = |name: &str, write: fn(&mut Script), want: &str| {
        checks.same(name, named(write), want.to_string());
    };
    same("whole tenths, no name", |s| { s.settle(); s.clean(25) }, "");
    same("601 and 600 alike by tenths", |s| { s.clean(3); s.sum_with(601, 550) }, "");
    same("ready named", |s| { s.clean(10); s.sum_with(601, 541) }, "sum 601, ready: by tenths not");
    same("not ready named", |s| { s.clean(3); s.sum_with(600, 547) }, "sum 600, not ready: by tenths ready");
    same("unready anyhow", |s| { s.clean(3); s.seconds(1, |w| (w.units[2], w.units[4], w.units[6]) = (2999, 53, 547)) }, "");
    same("void 5 named", |s| { s.clean(3); s.sum_with(599, 546) }, "sum 599, void 5: by tenths none");
    same("void 5 anyhow", |s| { s.clean(3); s.sum_with(599, 543) }, "");
    same("no void named", |s| { s.clean(3); s.sum_with(600, 543) }, "sum 600, no void: by tenths void 5");
    same("no void at 601 named", |s| { s.settle(); s.sum_with(601, 543) }, "sum 601, no void: by tenths void 5");
    same("in a rest, no name", |s| { s.void_and_rest(1); s.void(1); s.sum_with(600, 543) }, "");
    same("passing named", |s| { s.settle(); s.narrow(10, false) }, "window passing: by tenths failing");
    same("failing named", |s| { s.settle(); s.narrow(10, true) }, "window failing: by tenths passing");
    same("pass named", |s| { s.settle(); s.narrow(25, false) }, "window passing: by tenths failing; pass: by tenths none");
    same("incomplete named", |s| { s.void_and_rest(1); s.void_and_rest(2); s.clean(3); s.sum_with(599, 547) },
        "sum 599, void 5: by tenths none; incomplete: by tenths none");
}
