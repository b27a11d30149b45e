//! Reach: windows for averages before rounding, told from their bytes.

use crate::averages_corners::pairs_about;
use crate::averages_seen::{Fault, Seen, ZEROS};
use crate::items::Items;
use crate::numbers::{unit_count, GREATEST, MISSING, OVER, SCALE};
use crate::reach::{names, texts, Reach};
use crate::vehicle::setting_ranges;

type Name = (&'static str, fn(&Seen) -> bool);

/// Cases inside the premise.
#[rustfmt::skip]
const INSIDE: [Name; 47] = [
    ("inside, manual", |s| !s.automatic),
    ("inside, automatic", |s| s.automatic),
    ("sum of 600 in all seconds", |s| s.all(|i| s.sum(i) == Some(600))),
    ("sum of 600 by readings just rounded up", |s| s.any(|i| s.sum_at_edges(i, 600, -1))),
    ("oxygen missing in one second", |s| s.count_bits(8, MISSING) == 1),
    ("oxygen missing in all seconds", |s| s.count_bits(8, MISSING) == 10),
    ("oxygen over range in one second", |s| s.count_bits(8, OVER) == 1),
    ("oxygen over range in all seconds", |s| s.count_bits(8, OVER) == 10),
    ("engine speed missing in one second, automatic", |s| s.count_bits(3, MISSING) == 1),
    ("engine speed missing in all seconds, automatic", |s| s.count_bits(3, MISSING) == 10),
    ("moped of 50 ml", |s| s.case.settings[0] == 2 && s.case.settings[2] == 50),
    ("p of 500", |s| s.case.p == 500),
    ("p of 4300", |s| s.case.p == 4300),
    ("HC zero in nine seconds", |s| s.zeros(4) == 9),
    ("CO zero in nine seconds", |s| s.zeros(5) == 9),
    ("NO zero in nine seconds", |s| s.zeros(6) == 9),
    ("all three zero in nine seconds", |s| (4..=6).all(|code| s.zeros(code) == 9)),
    ("least HC above zero", |s| s.is(0, 1, 10)),
    ("least CO above zero", |s| s.is(1, 1, 10)),
    ("least NO above zero", |s| s.is(2, 100_000, 1_352_359)),
    ("all zero by minus zero", |s| (4..=6).all(|code| s.count_bits(code, 0x8000_0000) == 10)),
    ("all zero by readings below zero", |s| s.all(|i| (4..=6).all(|code| s.bits(i, code) > 0x8000_0000))),
    ("CO2 zero in all seconds, DCF held at 3", |s| s.all_units(7, 0) && s.all(|i| s.held_at(i, 3))),
    ("CO2 zero in all seconds, DCF not held", |s| s.all_units(7, 0) && s.all(|i| s.held_at(i, 0))),
    ("CO2 zero in one second", |s| s.zeros(7) == 1),
    ("D of 10^7 in all seconds", |s| s.all(|i| s.d(i) == 10_000_000)),
    ("D of 10^7 in one second", |s| (0..10).filter(|i| s.d(*i) == 10_000_000).count() == 1),
    ("greatest D in all seconds", |s| s.all(|i| s.pair(i) == (1800, 2000))),
    ("least D in all seconds", |s| s.all(|i| s.pair(i) == (0, 600))),
    ("DCF held at 1, at 3 and not held in one window", |s| [0, 1, 3].iter().all(|end| s.any(|i| s.held_at(i, *end)))),
    ("DCF held at 1 and at 3 in one window", |s| s.all(|i| !s.held_at(i, 0)) && [1, 3].iter().all(|end| s.any(|i| s.held_at(i, *end)))),
    ("least k", |s| s.case.settings[4] == 0),
    ("greatest k", |s| s.air_is(100, 4300, 800)),
    ("least humidity above 0", |s| s.air_is(1, 500, 1100)),
    ("HC 9999 in all seconds", |s| s.all_units(4, 9999)),
    ("CO 2000 in all seconds", |s| s.all_units(5, 2000)),
    ("NO 5000 in all seconds", |s| s.all_units(6, 5000)),
    ("CO2 1800 in all seconds", |s| s.all_units(7, 1800)),
    ("HC 1 in all seconds", |s| s.all_units(4, 1)),
    ("CO 1 in all seconds", |s| s.all_units(5, 1)),
    ("NO 1 in all seconds", |s| s.all_units(6, 1)),
    ("greatest HC", |s| s.is(0, 29_997, 1)),
    ("greatest CO", |s| s.is(1, 10_000_000, 4644)),
    ("greatest NO", |s| s.all_units(6, 5000) && s.all(|i| s.held_at(i, 3)) && s.air_is(100, 4300, 800)),
    ("all above zero with the least k", |s| s.case.settings[4] == 0 && s.all_above_zero()),
    ("all above zero with the greatest k", |s| s.air_is(100, 4300, 800) && s.all_above_zero()),
    ("CO of the bits 0x3F80A3D7", |s| s.count_bits(5, 0x3F80_A3D7) > 0),
];

/// Pairs of CO2 and CO by name.
type Pairs = [(&'static str, (i64, i64)); 4];

/// The pairs nearest to where DCF begins to be held.
fn nearest_pairs() -> Pairs {
    let ([below_one, above_one], [below_three, above_three]) = (pairs_about(1), pairs_about(3));
    [
        ("D nearest below 10^7", below_one),
        ("D nearest above 10^7", above_one),
        ("3D nearest below 10^7", below_three),
        ("3D nearest above 10^7", above_three),
    ]
}

/// The names of a case inside the premise.
fn inside_names(seen: &Seen, nearest: &Pairs) -> Vec<String> {
    let holding = INSIDE.iter().filter(|(_, holds)| holds(seen));
    let mut list: Vec<String> = holding.map(|(name, _)| name.to_string()).collect();
    list.push(seen.zero_names().to_string());
    for (name, pair) in nearest {
        match (0..10).filter(|i| seen.pair(*i) == *pair).count() {
            0 => {}
            10 => list.push(format!("{name} in all seconds")),
            _ => list.push(format!("{name} in some seconds")),
        }
    }
    let least: Vec<usize> = (0..10).filter(|i| seen.sum(*i) == Some(600)).collect();
    if let [i] = least[..] {
        list.push(format!("sum of 600 in second {}", i + 1));
    }
    let ranges = setting_ranges(seen.case.settings[0]);
    for (i, (least, greatest)) in ranges.into_iter().enumerate() {
        match seen.case.settings[i] {
            value if value == least => list.push(format!("least setting {}", i + 1)),
            value if value == greatest => list.push(format!("greatest setting {}", i + 1)),
            _ => {}
        }
    }
    for code in 1..=8 {
        list.extend(edge_names(seen, code));
    }
    list
}

type EdgeName = (&'static str, fn(&Seen, usize, u8) -> bool);

/// Bits of a code in a second.
#[rustfmt::skip]
const EDGES: [EdgeName; 6] = [
    ("minus zero", |s, i, code| s.bits(i, code) == 0x8000_0000),
    ("farthest below zero", |s, i, code| s.at_zero_edge(i, code)),
    ("greatest bits of zero", |s, i, code| s.units(i, code) == Some(0) && s.at_edge(i, code, 1)),
    ("least bits of a count", |s, i, code| s.at_edge(i, code, -1)),
    ("greatest bits of a count", |s, i, code| s.units(i, code) > Some(0) && s.at_edge(i, code, 1)),
    ("greatest bits of all", |s, i, code| s.at_edge(i, code, 1) && s.units(i, code) == Some(GREATEST[code as usize - 1] as i64)),
];

fn edge_names(seen: &Seen, code: u8) -> Vec<String> {
    let holding = EDGES
        .iter()
        .filter(|(_, holds)| seen.any(|i| holds(seen, i, code)));
    let named = holding.map(|(what, _)| format!("code {code} {what}"));
    named.collect()
}

/// How a reading is unfit.
fn unfit_text(code: u8, bits: u32) -> &'static str {
    let count = unit_count(bits, SCALE[code as usize - 1]);
    match bits {
        MISSING => "missing",
        OVER => "over range",
        _ if bits & OVER == OVER => "no number",
        _ if bits >> 31 == 1 => "below 0",
        _ if count == Some(GREATEST[code as usize - 1] + 1) => "one above its greatest",
        _ => "far above its greatest",
    }
}

/// The names of a case outside the premise by one fault alone.
fn fault_names(seen: &Seen, fault: Fault) -> Vec<String> {
    let case = &seen.case;
    match fault {
        Fault::Setting(place) => {
            let (least, greatest) = setting_ranges(case.settings[0])[place - 1];
            match case.settings[place - 1] {
                51 if case.settings[0] == 2 => texts(&["moped of 51 ml"]),
                value if value == greatest + 1 => vec![format!("setting {place} one above")],
                value if value + 1 == least => vec![format!("setting {place} one below")],
                _ => Vec::new(),
            }
        }
        Fault::Saturation => vec![format!("p of {}", case.p)],
        Fault::Reading(i, code) => {
            let how = unfit_text(code, seen.bits(i, code));
            let mut list = vec![format!("unfit reading in second {}", i + 1)];
            list.push(format!("code {code} {how}"));
            if seen.just_unfit(i, code) {
                list.push(format!("code {code} just {how}"));
            }
            list
        }
        Fault::Over(i, code) => vec![format!("code {code} over range in second {}", i + 1)],
        Fault::Diluted(i) if seen.sum(i) == Some(599) => {
            let mut list = vec![format!("sum of 599 in second {}", i + 1)];
            if seen.sum_at_edges(i, 599, 1) {
                list.extend(texts(&["sum of 599 by readings just rounded down"]));
            }
            list
        }
        Fault::Diluted(_) => Vec::new(),
    }
}

/// All the names of faults that must be reached.
fn required_faults() -> Vec<String> {
    let mut list = texts(&["moped of 51 ml", "p of 499", "p of 4301", "several faults"]);
    for place in 1..=7 {
        list.push(format!("setting {place} one above"));
        if place != 5 {
            list.push(format!("setting {place} one below"));
        }
    }
    for code in 1..=8u8 {
        let mut ways = vec!["no number", "below 0"];
        ways.extend(["one above its greatest", "far above its greatest"]);
        ways.extend(["just one above its greatest", "just below 0"]);
        if code != 8 {
            ways.push("missing");
        }
        if code < 4 {
            ways.push("over range");
        }
        list.extend(ways.iter().map(|way| format!("code {code} {way}")));
    }
    for what in ["a setting", "p", "a reading", "a gas over range", "a sum"] {
        list.push(format!("zeros outside by {what}"));
    }
    list.extend(names("unfit reading in second ", 1..=10));
    for code in 4..=7 {
        list.extend(names(&format!("code {code} over range in second "), 1..=10));
    }
    list.extend(names("sum of 599 in second ", 1..=10));
    list.extend(texts(&["sum of 599 by readings just rounded down"]));
    list
}

fn required_inside() -> Vec<String> {
    let mut list: Vec<String> = INSIDE.iter().map(|(name, _)| name.to_string()).collect();
    list.extend(texts(&ZEROS));
    for (name, _) in nearest_pairs() {
        list.extend(["all", "some"].map(|how| format!("{name} in {how} seconds")));
    }
    list.extend(names("sum of 600 in second ", 1..=10));
    list.extend(names("least setting ", 1..=7));
    list.extend(names("greatest setting ", 1..=7));
    for code in 1..=8 {
        list.extend(EDGES.iter().map(|(what, _)| format!("code {code} {what}")));
    }
    list
}

/// What windows for averages before rounding reach.
pub fn reach_averages(data: &[u8]) -> Reach {
    let mut reach = Reach::new([required_inside(), required_faults()].concat());
    let (mut items, nearest) = (Items { data }, nearest_pairs());
    while let Some(case) = items.case() {
        let seen = Seen::of(case);
        let list = match seen.faults()[..] {
            [] => inside_names(&seen, &nearest),
            [fault] if seen.zero_gases() => vec![format!("zeros outside by {}", fault.text())],
            [fault] => fault_names(&seen, fault),
            _ => texts(&["several faults"]),
        };
        list.into_iter().for_each(|name| reach.count(name));
    }
    reach
}
