//! Own asserts: channels in both forms.

use crate::channels::Form;
use crate::dice::Dice;
use crate::items::Items;
use crate::make_channels::{
    filled, longest_narrow, longest_wide, required_up_to, sized_content, wide_base,
    widened_records, with_channel,
};
use crate::make_record_vectors::make_record_vectors;
use crate::make_records::short_content;
use crate::modes::write_item;
use crate::named_records::{listing, small_record, RECORDS};
use crate::numbers::{refusal, MISSING, OVER};
use crate::own_asserts::{by_eights, Checks};
use crate::reach_channels::{read_names, written_names, Seen};
use crate::record::{read_record, write_record, Content};
use crate::rejudging::rejudge_line;
use crate::salvage_modes::salvage_item;
use std::collections::BTreeSet;

/// Document 01's listing with a channel of code 300 at a column.
fn wide_listing(column: usize) -> Content {
    with_channel(&listing(36), column, 300, |_| OVER)
}

fn changed(change: fn(&mut Content)) -> Vec<u8> {
    let mut content = wide_listing(6);
    change(&mut content);
    content.bytes()
}

/// The bytes of the wide form, one by one.
pub fn check_wide_bytes(checks: &mut Checks) {
    let bytes = filled(vec![1, 2, 4, 5, 6, 7, 263], 0, 0).bytes();
    let start = [0, 7, 0, 1, 0, 2, 0, 4, 0, 5, 0, 6, 0, 7, 0, 7, 1, 7];
    checks.same("wide start", &bytes[..18], &start[..]);
    checks.same("wide length", bytes.len(), 3 + 14 + 15 + 59 + 2 + 1);
    let codes = read_record(&bytes).map(|record| record.codes);
    checks.same("wide codes", codes, Ok(vec![1, 2, 4, 5, 6, 7, 263]));
    let narrow = filled(vec![1, 2, 4, 5, 6, 7, 255], 0, 0).bytes();
    checks.same("narrow start", &narrow[..9], &[7, 1, 2, 4, 5, 6, 7, 255, 7]);
    checks.same("longest narrow", longest_narrow().bytes().len(), 60_873);
    checks.same("longest wide", longest_wide().bytes().len(), 60_965);
    for content in [longest_narrow(), longest_wide()] {
        let bytes = content.bytes();
        let mut out = vec![0; bytes.len()];
        checks.same(
            "longest reads",
            read_record(&bytes).map(|r| r.content() == content),
            Ok(true),
        );
        checks.same(
            "longest writes",
            write_record(&content, &mut out),
            Ok(bytes.len()),
        );
        checks.same("longest as read", out == bytes, true);
        checks.same(
            "longest and 1",
            rejudge_line(&[&bytes[..], &[0]].concat()),
            refusal(7, bytes.len()).to_string(),
        );
    }
}

/// What a reader answers, in its order: 1, 1, 2, 1, 3, 3, 19, the settings.
#[rustfmt::skip]
pub fn check_wide_reading(checks: &mut Checks) {
    let mut same = |name: &str, bytes: &[u8], want: &str| {
        checks.same(name, rejudge_line(bytes), want.to_string());
    };
    let wide = |codes: &[u16]| filled(codes.to_vec(), 0, 0).bytes_in(Form::Wide);
    same("byte 0", &[0], "refused 1 1");
    same("half a count", &[0, 0], "refused 1 2");
    same("count 0", &[0, 0, 0], "refused 2 1");
    same("count 1, cut", &[0, 1, 0], "refused 1 3");
    same("count 64, cut", &[0, 64, 0], "refused 1 3");
    same("count 65", &[0, 65, 0], "refused 2 1");
    same("count 256", &[0, 0, 1], "refused 2 1");
    same("count 320", &[0, 64, 1], "refused 2 1");
    same("count 65535", &[0, 255, 255], "refused 2 1");
    same("half a code", &[0, 1, 0, 7], "refused 1 4");
    same("cut behind a bad code", &[0, 2, 0, 0, 0, 1], "refused 1 6");
    same("bad code, nothing behind", &[0, 2, 0, 0, 0, 1, 0], "refused 3 3");
    same("one code", &[0, 1, 0, 1, 0], "refused 3 1");
    same("one code above 255", &[0, 1, 0, 44, 1], "refused 3 1");
    same("code 0 by both bytes", &wide(&[1, 2, 4, 5, 6, 7, 256, 0]), "refused 3 17");
    same("code 256", &wide(&[1, 2, 4, 5, 6, 7, 256]), "open 1 0 0 0 0 - - - -");
    same("code twice", &wide(&[1, 2, 300, 4, 5, 6, 7, 9, 300]), "refused 3 19");
    same("code thrice", &wide(&[300, 2, 300, 4, 300, 5, 6, 7, 1]), "refused 3 7");
    same("low byte twice", &wide(&[1, 2, 4, 5, 6, 7, 9, 265, 521]), "open 1 0 0 0 0 - - - -");
    same("263 is not 7", &wide(&[1, 2, 4, 5, 6, 263]), "refused 3 1");
    same("263 beside 7", &wide(&[1, 2, 4, 5, 6, 263, 7]), "open 1 0 0 0 0 - - - -");
    same("not needed", &wide(&[1, 2, 4, 5, 6, 7]), "refused 19 1");
    same("not needed, code 255", &wide(&[1, 2, 4, 5, 6, 7, 255]), "refused 19 1");
    same("not needed, cut", &wide(&[1, 2, 4, 5, 6, 7])[..15], "refused 19 1");
    same("not needed, absent", &wide(&[1, 2, 4, 5, 6, 8]), "refused 3 1");
    same("not needed, code 0", &wide(&[1, 2, 4, 5, 6, 7, 0]), "refused 3 15");
    same("not needed, code twice", &wide(&[1, 2, 4, 5, 6, 7, 7]), "refused 3 15");
    same("needed, cut", &wide(&[1, 2, 4, 5, 6, 7, 263])[..17], "refused 1 17");
    same("32, none above 255", &wide(&required_up_to(32, 100)), "refused 19 1");
    same("33, none above 255", &wide(&required_up_to(33, 100)), "open 1 0 0 0 0 - - - -");
    same("33 narrow", &filled(required_up_to(33, 100), 0, 0).bytes_in(Form::Narrow), "refused 2 0");
    same("64", &wide(&required_up_to(64, 100)), "open 1 0 0 0 0 - - - -");
    same("65", &wide(&required_up_to(65, 100)), "refused 2 1");
    same("65 and a code 0", &wide(&[0; 65]), "refused 2 1");
}

/// The sections behind wide channels: seven, so that the settings' count is at 17.
#[rustfmt::skip]
pub fn check_behind_wide(checks: &mut Checks) {
    let mut same = |name: &str, bytes: &[u8], want: &str| {
        checks.same(name, rejudge_line(bytes), want.to_string());
    };
    let line = "pass 1 25 16 0 0 121 121 217 -";
    for column in 0..=6 {
        same("wide listing", &wide_listing(column).bytes(), line);
    }
    same("wide, 6 settings", &changed(|c| c.settings.truncate(6)), "refused 2 17");
    same("wide, kind", &changed(|c| c.settings[0] = 3), "refused 4 18");
    same("wide, pressure", &changed(|c| c.settings[6] = 1101), "refused 4 30");
    same("wide, 30 values", &changed(|c| c.saturation.push(4300)), "refused 2 32");
    same("wide, value below", &changed(|c| c.saturation[0] = 499), "refused 5 33");
    same("wide, value equal", &changed(|c| c.saturation[28] = c.saturation[27]), "refused 5 89");
    same("wide, 1501 rows", &changed(|c| c.cells.resize(7 * 1501, 0)), "refused 2 91");
    same("60 channels, 251 rows", &sized_content(60, 251, 0).bytes(), "refused 2 197");
    same("64 channels, 235 rows", &sized_content(64, 235, 0).bytes(), "refused 2 205");
    same("wide, cell of code 7", &changed(|c| c.cells[7 + 5] = MISSING), "refused 8 141");
    same("wide, codes ascending", &changed(|c| {
        c.codes.reverse();
        c.cells[..7].fill(MISSING);
    }), "refused 8 117");
    same("wide, no code 3", &changed(|c| c.settings[3] = 1), "refused 8 93");
    same("wide, 259 is not 3", &changed(|c| (c.codes[6], c.settings[3]) = (259, 1)), "refused 8 93");
    same("wide, 264 is not 8", &changed(|c| c.codes[6] = 264), line);
    same("wide, stop's cause", &changed(|c| (c.stop_rows, c.stop_causes) = (vec![2], vec![5])), "refused 6 1102");
    same("wide, row after", &with_channel(&listing(37), 6, 300, |_| 0).bytes(), "refused 9 1101");
    same("wide, stop after", &changed(|c| (c.stop_rows, c.stop_causes) = (vec![36], vec![1])), "refused 9 1102");
    same("wide, bytes left", &[&changed(|_| {})[..], &[0]].concat(), "refused 7 1102");
    same("wide, one short", &changed(|_| {})[..1101], "refused 1 1101");
    same("64 channels, 234 rows, one short", &sized_content(64, 234, 0).bytes()[..60_111], "refused 1 60111");
    same("40 channels", &small_record("wide_many").unwrap_or_default(), "pass 1 25 16 0 0 121 121 25 4000");
}

/// What a writer answers, with the places of the form that the codes take.
#[rustfmt::skip]
pub fn check_wide_writer(checks: &mut Checks) {
    let mut same = |name: &str, codes: &[u16], want: Result<usize, (u8, usize)>| {
        let content = filled(codes.to_vec(), 0, 0);
        let want = want.map_err(|(number, place)| refusal(number, place));
        checks.same(name, write_record(&content, &mut [0; 300]), want);
    };
    let more = |channels, first, last: &[u16]| [required_up_to(channels, first), last.to_vec()].concat();
    same("writes none", &[], Err((2, 0)));
    same("writes 32", &more(32, 100, &[]), Ok(33 + 77));
    same("writes 32, one above 255", &more(31, 100, &[256]), Ok(67 + 77));
    same("writes 33", &more(33, 100, &[]), Ok(69 + 77));
    same("writes 64", &more(64, 100, &[]), Ok(131 + 77));
    same("writes 65", &more(65, 100, &[]), Err((2, 1)));
    same("writes 65, a code 0", &more(64, 100, &[0]), Err((2, 1)));
    same("writes 65, a code twice", &more(64, 100, &[7]), Err((2, 1)));
    same("writes a code 0", &more(6, 100, &[0]), Err((3, 7)));
    same("writes a code 0, wide", &more(6, 100, &[0, 300]), Err((3, 15)));
    same("writes a code 0 of 33", &more(32, 100, &[0]), Err((3, 67)));
    same("writes a code twice, wide", &more(6, 100, &[300, 300]), Err((3, 17)));
    same("writes one", &[7], Err((3, 0)));
    same("writes one above 255", &[263], Err((3, 1)));
    same("writes 263 in place of 7", &[1, 2, 4, 5, 6, 263], Err((3, 1)));
    same("writes 65535", &more(6, 65535, &[65535]), Ok(17 + 77));
    let mut refused = |name: &str, change: fn(&mut Content), number, place| {
        let mut content = wide_base();
        change(&mut content);
        checks.same(name, write_record(&content, &mut []), Err(refusal(number, place)));
    };
    refused("wide, writes 8 settings", |c| c.settings.push(1), 2, 17);
    refused("wide, writes a gearbox of 3", |c| c.settings[3] = 3, 4, 24);
    refused("wide, writes 28 values", |c| c.saturation.truncate(28), 2, 32);
    refused("wide, writes a value above", |c| c.saturation[28] = 4301, 5, 89);
    refused("wide, writes 13 cells", |c| c.cells.truncate(13), 2, 91);
    refused("wide, writes 1501 rows", |c| c.cells.resize(7 * 1501, 0), 2, 91);
    refused("wide, writes stops unequal", |c| c.stop_rows.push(2), 2, 149);
    refused("wide, writes a stop", |c| c.stop_causes[2] = 0, 6, 156);
    refused("wide, 10 last", |_| {}, 10, 159);
}

/// Seeded contents written, read, and the same again; a fifth of them are wide.
pub fn check_both_forms(checks: &mut Checks) {
    let mut dice = Dice(6);
    let mut wide = 0;
    for _ in 0..500 {
        let content = short_content(&mut dice);
        wide += (Form::of(&content.codes) == Form::Wide) as usize;
        let mut out = vec![0; content.bytes().len()];
        let written = write_record(&content, &mut out);
        checks.same("seeded, written", written, Ok(out.len()));
        let read = read_record(&out).map(|record| record.content());
        checks.same("seeded, read", read, Ok(content));
    }
    checks.same("a fifth", (75..=125).contains(&wide), true);
}

/// A channel above 255 changes no line but its places.
pub fn check_widened(checks: &mut Checks) {
    for (name, widened) in RECORDS.iter().zip(widened_records()) {
        let line = rejudge_line(&small_record(name).unwrap_or_default());
        let words = |line: &str| match line.strip_prefix("refused ") {
            Some(rest) => rest.split(' ').next().unwrap_or_default().to_string(),
            None => line.to_string(),
        };
        checks.same(name, words(&rejudge_line(&widened)), words(&line));
        checks.same("widened", widened[0], 0);
    }
    let content = wide_listing(3);
    let (line, strided) = (rejudge_line(&content.bytes()), by_eights(&content));
    checks.different("wide, stride of eight", line, strided);
}

/// What the items of `record_vectors` reach, and the greatest of them.
#[derive(Default)]
struct Reached {
    read: BTreeSet<String>,
    written: BTreeSet<String>,
    wide_lines: BTreeSet<String>,
    bytes: usize, // of a record or an output
    run: usize,
    cells: usize,
}

impl Reached {
    fn of(data: &[u8]) -> Reached {
        let (mut reached, mut items) = (Reached::default(), Items { data });
        while let Some(topic) = items.u8() {
            let known = match topic {
                1 => reached.read_item(&mut items),
                2 => reached.write_item(&mut items),
                3 => reached.line_item(&mut items),
                _ => reached.salvage_item(&mut items),
            };
            known.expect("a whole item");
        }
        reached
    }

    fn read_item(&mut self, items: &mut Items) -> Option<()> {
        let record = items.record()?;
        self.bytes = self.bytes.max(record.len());
        self.read.extend(Seen::read(record).names());
        Some(())
    }

    fn write_item(&mut self, items: &mut Items) -> Option<()> {
        let (length, _, content) = write_item(items)?;
        self.bytes = self.bytes.max(length);
        self.cells = self.cells.max(content.cells.len());
        let runs = [&content.codes, &content.settings, &content.saturation];
        let runs = runs.into_iter().chain([&content.stop_rows]).map(Vec::len);
        let most = runs.chain([content.stop_causes.len()]).max();
        self.run = self.run.max(most.unwrap_or(0));
        self.written.extend(Seen::written(&content, length).names());
        Some(())
    }

    fn line_item(&mut self, items: &mut Items) -> Option<()> {
        let (length, _) = (items.u32()? as usize, items.u8()?);
        let record = items.record()?;
        self.bytes = self.bytes.max(length).max(record.len());
        if record.first() == Some(&0) {
            self.wide_lines.insert(rejudge_line(record));
        }
        Some(())
    }

    fn salvage_item(&mut self, items: &mut Items) -> Option<()> {
        let (length, _, record) = salvage_item(items)?;
        self.bytes = self.bytes.max(length).max(record.len());
        Some(())
    }
}

/// The stored items, and those of another seed, have every case and keep within what the programs take.
pub fn check_channel_cases(checks: &mut Checks) {
    for seed in [1, 2] {
        let reached = Reached::of(&make_record_vectors(seed, 20));
        let missing = |names: Vec<String>, reached: &BTreeSet<String>| {
            let missing = names.into_iter().filter(|name| !reached.contains(name));
            missing.collect::<Vec<String>>().join("; ")
        };
        let read = missing(read_names(), &reached.read);
        checks.same("cases of reading", read, String::new());
        let written = missing(written_names(), &reached.written);
        checks.same("cases of writing", written, String::new());
        for start in [
            "pass 1 ",
            "open 1 ",
            "refused 1 ",
            "refused 3 1",
            "refused 8 ",
            "refused 19 1",
        ] {
            let mut lines = reached.wide_lines.iter();
            checks.same("wide line", lines.any(|line| line.starts_with(start)), true);
        }
        checks.same("greatest record or output", reached.bytes <= 65536, true);
        checks.same("longest run", reached.run <= 4096, true);
        checks.same("most cells", reached.cells <= 16384, true);
    }
}
