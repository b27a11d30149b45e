//! Reach: records cut by a full card, and what is salvaged of them.

use crate::cut_corners::{cut_at_every_length, every_length};
use crate::cut_seen::Seen;
use crate::items::Items;
use crate::reach::{texts, Reach};
use crate::salvage_modes::{salvage_item, ENOUGH};
use std::collections::HashSet;

type Case = (&'static str, fn(&Seen) -> bool);

/// Cases of each form: how a record is refused.
#[rustfmt::skip]
const REFUSED: [Case; 38] = [
    ("refused 1 in the channels", |s| s.refused(1) && s.len() < s.settings_at),
    ("refused 1 behind the channels", |s| s.refused(1) && s.len() == s.settings_at),
    ("refused 1 in the settings", |s| s.refused(1) && s.ends_within(1, 15)),
    ("refused 1 behind the settings", |s| s.refused(1) && s.ends_within(15, 16)),
    ("refused 1 in the saturation", |s| s.refused(1) && s.ends_within(16, 74)),
    ("refused 1 behind the saturation", |s| s.refused(1) && s.ends_within(74, 75)),
    ("refused 1 in the row count", |s| s.refused(1) && s.ends_within(75, 76)),
    ("refused 2 at the channels", |s| s.refused(2) && s.place() < 2),
    ("refused 2 at the channels, cut", |s| s.refused(2) && s.place() < 2 && s.cut()),
    ("refused 2 at the channels before 21", |s| s.refused(2) && s.place() < 2 && s.too_many()),
    ("refused 2 at the settings", |s| s.refused_at(2, 0)),
    ("refused 2 at the settings, cut", |s| s.refused_at(2, 0) && s.cut()),
    ("refused 2 at the settings before 21", |s| s.refused_at(2, 0) && s.high_count()),
    ("refused 2 at the saturation", |s| s.refused_at(2, 15)),
    ("refused 2 at the saturation, cut", |s| s.refused_at(2, 15) && s.cut()),
    ("refused 2 at the saturation before 21", |s| s.refused_at(2, 15) && s.high_count()),
    ("refused 3 at a code", |s| s.refused(3) && s.place() > 1),
    ("refused 3 at the count", |s| s.refused(3) && s.place() < 2),
    ("refused 3, cut", |s| s.refused(3) && s.cut()),
    ("refused 3 before 21", |s| s.refused(3) && s.too_many()),
    ("refused 4", |s| s.refused(4) && !s.cut()),
    ("refused 4, cut in the saturation", |s| s.refused(4) && s.ends_within(16, 74)),
    ("refused 4, no byte of a row count", |s| s.refused(4) && s.ends_within(74, 75)),
    ("refused 4, one byte of a row count", |s| s.refused(4) && s.ends_within(75, 76)),
    ("refused 4 before 21", |s| s.refused(4) && s.too_many()),
    ("refused 5", |s| s.refused(5) && !s.cut()),
    ("refused 5, no byte of a row count", |s| s.refused(5) && s.ends_within(74, 75)),
    ("refused 5, one byte of a row count", |s| s.refused(5) && s.ends_within(75, 76)),
    ("refused 5 before 21", |s| s.refused(5) && s.too_many()),
    ("refused 21 by rows", |s| s.refused(21) && s.count() > 1500 && s.cells() <= 15_000),
    ("refused 21 by cells", |s| s.refused(21) && s.count() <= 1500),
    ("refused 21 by both", |s| s.refused(21) && s.count() > 1500 && s.cells() > 15_000),
    ("refused 21 at 1,501 rows", |s| s.refused(21) && s.count() == 1501),
    ("refused 21 at 15,001 cells", |s| s.refused(21) && s.cells() == 15_001),
    ("refused 21 at 65,535 rows", |s| s.refused(21) && s.count() == 65_535),
    ("refused 21 with a low byte of 0", |s| s.refused(21) && s.count() % 256 == 0),
    ("refused 21, nothing behind", |s| s.refused(21) && s.ends_within(76, 77)),
    ("refused 21, a row behind", |s| s.refused(21) && s.len() >= s.settings_at + 76 + 4 * s.channels),
];

/// Cases of each form: what rows are kept.
#[rustfmt::skip]
const ROWS: [Case; 25] = [
    ("intact, stops", |s| s.intact() && s.count() > 0 && s.stops_length() > 1),
    ("intact, no stops", |s| s.intact() && s.count() > 0 && s.stops_length() == 1),
    ("intact, no rows, stops", |s| s.intact() && s.count() == 0 && s.stops_length() > 1),
    ("intact, no rows, no stops", |s| s.intact() && s.count() == 0 && s.stops_length() == 1),
    ("1,500 rows, not refused", |s| s.kept().is_some() && s.count() == 1500),
    ("15,000 cells, not refused", |s| s.kept().is_some() && s.cells() == 15_000 && s.count() < 1500),
    ("1,500 rows and 15,000 cells, not refused", |s| s.kept().is_some() && s.cells() == 15_000 && s.count() == 1500),
    ("no byte behind the row count, rows lost", |s| s.kept() == Some(0) && s.count() > 0 && s.behind().is_empty()),
    ("no byte behind a row count of 0", |s| s.kept().is_some() && s.count() == 0 && s.behind().is_empty()),
    ("no byte after the rows", |s| s.complete() && s.count() > 0 && s.behind().is_empty()),
    ("cut between rows", |s| s.rows_lost() && s.kept() > Some(0) && s.behind().is_empty()),
    ("half row dropped", |s| s.rows_lost() && s.kept() > Some(0) && !s.behind().is_empty()),
    ("half row dropped, none kept", |s| s.rows_lost() && s.kept() == Some(0) && !s.behind().is_empty()),
    ("one byte of a row dropped", |s| s.rows_lost() && s.behind().len() == 1),
    ("a row but one byte dropped", |s| s.rows_lost() && s.behind().len() + 1 == s.row()),
    ("cut between cells", |s| s.rows_lost() && s.behind().len() % 4 == 0 && !s.behind().is_empty()),
    ("cut in a cell", |s| s.rows_lost() && s.behind().len() % 4 != 0),
    ("cut in the last row", |s| s.rows_lost() && s.kept() == Some(s.count() - 1) && !s.behind().is_empty()),
    ("byte 0 in place of a row dropped", |s| s.rows_lost() && s.behind() == [0]),
    ("fit stops in place of a row dropped", |s| s.rows_lost() && s.would_fit() && s.behind().len() > 1),
    ("fit stops and more in place of a row dropped", |s| s.rows_lost() && s.luck() && s.behind().len() > s.luck_length()),
    ("row count lowered below 256", |s| s.rows_lost() && s.count() >= 256 && s.kept() < Some(256)),
    ("row count of 1 lowered to 0", |s| s.rows_lost() && s.count() == 1),
    ("unfit readings kept", |s| s.kept() > Some(0) && s.unfit_reading()),
    ("code above 8 kept", |s| s.kept() > Some(0) && s.code_above_8()),
];

/// Cases of each form: what becomes of the stops, and of the bytes behind them.
#[rustfmt::skip]
const STOPS: [Case; 40] = [
    ("stops kept, bytes behind dropped", |s| s.stops_kept() && s.stops_length() > 1 && s.dropped() > 0),
    ("stops kept, one byte behind dropped", |s| s.stops_kept() && s.stops_length() > 1 && s.dropped() == 1),
    ("stops kept, fit stops behind dropped", |s| s.stops_kept() && s.stops_length() > 1 && s.fit_after()),
    ("stops of count 0 kept", |s| s.stops_kept() && s.stops_length() == 1 && s.dropped() == 0),
    ("stops of count 0 kept, bytes behind dropped", |s| s.stops_kept() && s.stops_length() == 1 && s.dropped() > 0),
    ("stops of count 0 kept, fit stops behind dropped", |s| s.stops_kept() && s.stops_length() == 1 && s.fit_after()),
    ("255 stops kept", |s| s.stops_kept() && s.stops_length() == 766 && s.dropped() == 0),
    ("255 stops kept, bytes behind dropped", |s| s.stops_kept() && s.stops_length() == 766 && s.dropped() > 0),
    ("255 stops, the last unfit", |s| s.unfit_at(254)),
    ("255 stops, one byte short", |s| s.stops_cut() && s.behind().len() == 765),
    ("a stop past all rows kept", |s| s.stops_kept() && s.entries().last().is_some_and(|e| e.0 == s.count()) && s.count() > 0),
    ("stops cut behind their count", |s| s.stops_cut() && s.behind().len() == 1),
    ("stops cut in an entry", |s| s.stops_cut() && s.behind().len() % 3 != 1),
    ("stops cut between entries", |s| s.stops_cut() && s.behind().len() % 3 == 1 && s.behind().len() > 1),
    ("stops cut, one byte short", |s| s.stops_cut() && s.behind().len() == 3 * s.first()),
    ("stops cut behind an unfit entry", |s| s.stops_cut() && s.unfit_entry().is_some()),
    ("stops cut, all rows kept", |s| s.stops_cut() && s.count() > 0),
    ("stops unfit, dropped", |s| s.stops_unfit() && s.nothing_more()),
    ("stops unfit, bytes behind dropped", |s| s.stops_unfit() && !s.nothing_more()),
    ("stops unfit, fit stops behind dropped", |s| s.stops_unfit() && s.fit_after()),
    ("stops unfit by a fall", |s| s.unfit_by(|s, i| s.falls(i)) && s.nothing_more()),
    ("stops unfit by a fall, bytes behind", |s| s.unfit_by(|s, i| s.falls(i)) && !s.nothing_more()),
    ("stops unfit by one past the rows", |s| s.unfit_by(|s, i| s.entries()[i].0 == s.count() + 1) && s.nothing_more()),
    ("stops unfit by one past the rows, bytes behind", |s| s.unfit_by(|s, i| s.entries()[i].0 == s.count() + 1) && !s.nothing_more()),
    ("stops unfit past the rows by the high byte", |s| s.unfit_by(|s, i| s.entries()[i].0 > 255 && s.entries()[i].0 % 256 <= s.count())),
    ("stops unfit by cause 0", |s| s.unfit_by(|s, i| s.entries()[i].1 == 0) && s.nothing_more()),
    ("stops unfit by cause 0, bytes behind", |s| s.unfit_by(|s, i| s.entries()[i].1 == 0) && !s.nothing_more()),
    ("stops unfit by cause 5", |s| s.unfit_by(|s, i| s.entries()[i].1 == 5) && s.nothing_more()),
    ("stops unfit by cause 5, bytes behind", |s| s.unfit_by(|s, i| s.entries()[i].1 == 5) && !s.nothing_more()),
    ("stops unfit at the first of several", |s| s.unfit_at(0) && s.first() > 1),
    ("stops unfit at the last of several", |s| s.first() > 1 && s.unfit_at(s.first() - 1)),
    ("row count below the rows there, a byte 0 next", |s| s.row_behind() && s.stops_kept() && s.stops_length() == 1),
    ("row count below the rows there, stops by luck", |s| s.row_behind() && s.stops_kept() && s.stops_length() > 1),
    ("row count below the rows there, stops unfit", |s| s.row_behind() && s.stops_unfit()),
    ("row count below the rows there, stops cut", |s| s.row_behind() && s.stops_cut()),
    ("row count 0, a byte 0 next, rows there", |s| s.count() == 0 && s.row_behind() && s.stops_kept() && s.stops_length() == 1),
    ("row count 0, stops by luck, rows there", |s| s.count() == 0 && s.row_behind() && s.stops_kept() && s.stops_length() > 1),
    ("row count 0, stops unfit", |s| s.count() == 0 && s.stops_unfit()),
    ("row count 0, stops unfit past the rows", |s| s.count() == 0 && s.unfit_by(|s, i| s.entries()[i].0 == 1)),
    ("row count 0, stops cut", |s| s.count() == 0 && s.stops_cut()),
];

/// Cases that only one form has.
#[rustfmt::skip]
const ONE_FORM: [Case; 15] = [
    ("refused 1, no byte at all", |s| s.refused(1) && s.len() == 0),
    ("refused 1, the byte 0 alone", |s| s.wide && s.refused(1) && s.len() == 1),
    ("refused 1 in the wide count", |s| s.wide && s.refused(1) && s.len() == 2),
    ("refused 19", |s| s.refused(19) && !s.cut()),
    ("refused 19, nothing behind", |s| s.refused(19) && s.len() == s.settings_at),
    ("refused 19, one byte of a row count", |s| s.refused(19) && s.ends_within(75, 76)),
    ("refused 19 before 2", |s| s.refused(19) && s.bytes.get(s.settings_at).is_some_and(|count| *count != 7)),
    ("refused 19 before 21", |s| s.refused(19) && s.too_many()),
    ("refused 21 at 15,002 cells, narrow", |s| !s.wide && s.refused(21) && s.cells() == 15_002 && s.count() < 1500),
    ("refused 21 at 15,002 cells, wide", |s| s.wide && s.refused(21) && s.cells() == 15_002 && s.count() < 1500),
    ("wide by a code above 255 kept", |s| s.wide && s.kept().is_some() && s.channels < 33),
    ("wide by 33 channels kept", |s| s.wide && s.kept() > Some(0) && s.channels == 33),
    ("wide by 64 channels kept", |s| s.wide && s.kept() > Some(0) && s.channels == 64),
    ("32 channels, narrow, kept", |s| !s.wide && s.kept() > Some(0) && s.channels == 32),
    ("32 channels or more, half row dropped", |s| s.channels > 31 && s.rows_lost() && s.behind().len() > 1),
];

/// Outputs, in each form.
#[rustfmt::skip]
const OUTPUTS: [Case; 28] = [
    ("intact, output exact", |s| s.intact() && s.output_is(0)),
    ("intact, output longer", |s| s.intact() && s.output > s.needed()),
    ("intact, output one byte short: 10", |s| s.short() && s.whole().is_some_and(|w| w.bytes == s.bytes) && s.output_is(-1)),
    ("intact, no output: 10", |s| s.short() && s.whole().is_some_and(|w| w.bytes == s.bytes) && s.output == 0),
    ("rows lost, output exact", |s| s.rows_lost() && s.output_is(0)),
    ("rows lost, output longer", |s| s.rows_lost() && s.output > s.needed()),
    ("rows lost, output one byte short: 10", |s| s.short() && s.whole().is_some_and(|w| w.lost > 0) && s.output_is(-1)),
    ("rows lost, no output: 10", |s| s.short() && s.whole().is_some_and(|w| w.lost > 0) && s.output == 0),
    ("stops alone lost, output exact", |s| s.complete() && !s.stops_kept() && s.output_is(0)),
    ("stops alone lost, output longer", |s| s.complete() && !s.stops_kept() && s.output > s.needed()),
    ("stops alone lost, output one byte short: 10", |s| s.short() && s.whole().is_some_and(|w| w.lost == 0 && w.stops_lost) && s.output_is(-1)),
    ("stops alone lost, no output: 10", |s| s.short() && s.whole().is_some_and(|w| w.lost == 0 && w.stops_lost) && s.output == 0),
    ("bytes alone dropped, output exact", |s| s.stops_kept() && s.dropped() > 0 && s.output_is(0)),
    ("bytes alone dropped, output longer", |s| s.stops_kept() && s.dropped() > 0 && s.output > s.needed()),
    ("bytes alone dropped, output one byte short: 10", |s| s.short() && s.whole().is_some_and(|w| !w.stops_lost && w.dropped > 0) && s.output_is(-1)),
    ("bytes alone dropped, no output: 10", |s| s.short() && s.whole().is_some_and(|w| !w.stops_lost && w.dropped > 0) && s.output == 0),
    ("refused 1, output long enough", |s| s.refused(1) && s.output > s.len()),
    ("refused 2, output long enough", |s| s.refused(2) && s.output > s.len()),
    ("refused 3, output long enough", |s| s.refused(3) && s.output > s.len()),
    ("refused 4, output long enough", |s| s.refused(4) && s.output > s.len()),
    ("refused 5, output long enough", |s| s.refused(5) && s.output > s.len()),
    ("refused 21, output long enough", |s| s.refused(21) && s.output > s.len()),
    ("refused 1 before 10", |s| s.refused(1) && s.output == 0),
    ("refused 2 before 10", |s| s.refused(2) && s.output == 0),
    ("refused 3 before 10", |s| s.refused(3) && s.output == 0),
    ("refused 4 before 10", |s| s.refused(4) && s.output == 0),
    ("refused 5 before 10", |s| s.refused(5) && s.output == 0),
    ("refused 21 before 10", |s| s.refused(21) && s.output == 0),
];

/// Outputs of what only the wide form has.
#[rustfmt::skip]
const WIDE_OUTPUTS: [Case; 2] = [
    ("refused 19, output long enough", |s| s.refused(19) && s.output > s.len()),
    ("refused 19 before 10", |s| s.refused(19) && s.output == 0),
];

/// Long inputs, in each form.
#[rustfmt::skip]
const LONG: [Case; 24] = [
    ("longest intact", |s| s.intact() && s.longest()),
    ("longest, one byte behind dropped", |s| s.longest() && s.stops_kept() && s.dropped() == 1),
    ("longest, 2 bytes behind dropped", |s| s.longest() && s.stops_kept() && s.dropped() == 2),
    ("longest, 10,000 bytes behind dropped", |s| s.longest() && s.stops_kept() && s.dropped() == 10_000),
    ("longest, 200,000 bytes behind dropped", |s| s.longest() && s.stops_kept() && s.dropped() == 200_000),
    ("longest, stops unfit, beyond 200,000 bytes", |s| s.cells() == 15_000 && s.unfit_at(254) && s.len() > 200_000),
    ("longest, no byte after the rows", |s| s.cells() == 15_000 && s.complete() && s.behind().is_empty() && s.count() < 1500),
    ("longest, cut in the last row", |s| s.cells() == 15_000 && s.rows_lost() && s.kept() == Some(s.count() - 1) && s.behind().len() + 1 == s.row()),
    ("longest, cut between the last rows", |s| s.cells() == 15_000 && s.rows_lost() && s.kept() == Some(s.count() - 1) && s.behind().is_empty()),
    ("longest, cut in the stops", |s| s.cells() == 15_000 && s.stops_cut() && s.behind().len() > 1 && s.count() < 1500),
    ("60,965 bytes, short record", |s| s.len() == 60_965 && s.stops_kept() && s.needed() < 1000),
    ("60,966 bytes, short record", |s| s.len() == 60_966 && s.stops_kept() && s.needed() < 1000),
    ("60,967 bytes, short record", |s| s.len() == 60_967 && s.stops_kept() && s.needed() < 1000),
    ("60,965 bytes, longest", |s| s.len() == 60_965 && s.longest()),
    ("60,966 bytes, longest", |s| s.len() == 60_966 && s.longest()),
    ("60,967 bytes, longest", |s| s.len() == 60_967 && s.longest()),
    ("short record, stops kept, beyond 60,966 bytes", |s| s.beyond() && s.stops_kept() && s.stops_length() > 1 && s.needed() < 1000),
    ("short record, stops of count 0 kept, beyond 60,966 bytes", |s| s.beyond() && s.stops_kept() && s.stops_length() == 1 && s.count() > 0),
    ("short record, stops unfit, beyond 60,966 bytes", |s| s.beyond() && s.stops_unfit() && s.needed() < 1000),
    ("no rows, beyond 60,966 bytes", |s| s.beyond() && s.kept().is_some() && s.count() == 0),
    ("1,500 rows kept, stops by luck, beyond 60,966 bytes", |s| s.beyond() && s.kept() == Some(1500) && s.stops_kept()),
    ("1,500 rows kept, stops unfit, beyond 60,966 bytes", |s| s.beyond() && s.kept() == Some(1500) && s.stops_unfit()),
    ("refused 21, beyond 60,966 bytes", |s| s.beyond() && s.refused(21)),
    ("refused 4, beyond 60,966 bytes", |s| s.beyond() && s.refused(4)),
];

/// The names of the cases that are met by a record.
fn met(seen: &Seen, each: &[&[Case]], once: &[&[Case]]) -> Vec<String> {
    let each = each.iter().copied().flatten();
    let each = each.filter(|(_, holds)| holds(seen));
    let mut names: Vec<String> = each.map(|(name, _)| name_in(seen.wide, name)).collect();
    let once = once.iter().copied().flatten();
    let once = once.filter(|(_, holds)| holds(seen));
    names.extend(once.map(|(name, _)| name.to_string()));
    names
}

fn name_in(wide: bool, name: &str) -> String {
    match wide {
        true => format!("wide, {name}"),
        false => name.to_string(),
    }
}

/// The cases of each form and those that come once.
fn required(each: &[&[Case]], once: &[&[Case]]) -> Vec<String> {
    let each = each.iter().copied().flatten();
    let both = each.flat_map(|(name, _)| [false, true].map(|wide| name_in(wide, name)));
    let once = once.iter().copied().flatten();
    both.chain(once.map(|(name, _)| name.to_string())).collect()
}

/// The cases that a record meets whatever its output is, if that is long enough.
const OF_RECORDS: [&[Case]; 3] = [&REFUSED, &ROWS, &STOPS];

pub fn met_by_record(record: &[u8]) -> Vec<String> {
    met(&Seen::of(record, ENOUGH), &OF_RECORDS, &[&ONE_FORM])
}

const EACH_CUT: [&[Case]; 4] = [&REFUSED, &ROWS, &STOPS, &LONG];

const EACH_SALVAGE: [&[Case]; 4] = [&REFUSED, &ROWS, &STOPS, &OUTPUTS];

/// What items of `salvages` reach.
pub fn reach_salvages(data: &[u8]) -> Reach {
    let once: [&[Case]; 2] = [&ONE_FORM, &WIDE_OUTPUTS];
    let mut reach = Reach::new(required(&EACH_SALVAGE, &once));
    let mut items = Items { data };
    while let Some((length, _, record)) = salvage_item(&mut items) {
        let names = met(&Seen::of(record, length), &EACH_SALVAGE, &once);
        names.into_iter().for_each(|name| reach.count(name));
    }
    reach
}

const EVERY_LENGTH: &str = "every length: ";

/// What items of `against-salvage` reach.
pub fn reach_cuts(data: &[u8]) -> Reach {
    let once: [&[Case]; 1] = [&ONE_FORM];
    let mut names = required(&EACH_CUT, &once);
    let whole = cut_at_every_length().map(|(name, _)| format!("{EVERY_LENGTH}{name}"));
    names.extend(whole);
    names.extend(texts(&["beyond 60,966 bytes"]));
    let mut reach = Reach::new(names);
    let (mut items, mut short) = (Items { data }, HashSet::new());
    while let Some(record) = items.record() {
        let seen = Seen::of(record, ENOUGH);
        let names = met(&seen, &EACH_CUT, &once);
        names.into_iter().for_each(|name| reach.count(name));
        if seen.beyond() {
            reach.count("beyond 60,966 bytes");
        }
        if record.len() < 1000 {
            short.insert(record);
        }
    }
    for (name, content) in cut_at_every_length() {
        let lengths = every_length(&content);
        if lengths.iter().all(|record| short.contains(&record[..])) {
            reach.count(format!("{EVERY_LENGTH}{name}"));
        }
    }
    reach
}
