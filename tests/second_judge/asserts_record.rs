//! Own asserts: records, the writer, round trips, the line.

use crate::items::Items;
use crate::make_channels::sized_content;
use crate::make_record_vectors::{corner_contents, put_content};
use crate::make_records::put_item;
use crate::modes::{next_read_line, next_write_line, put_line};
use crate::named_records::{listing, sample, RECORDS};
use crate::numbers::{refusal, MISSING};
use crate::own_asserts::Checks;
use crate::record::{read_record, write_record, Content};
use crate::rejudging::rejudge_line;

/// The line put at the start of an output.
pub fn check_line(checks: &mut Checks) {
    let record = listing(0).bytes();
    let line = b"open 1 0 0 0 0 - - - -\n";
    let mut out = [7; 25];
    checks.same("line", put_line(&record, &mut out), Ok(line.len()));
    checks.same("line's bytes", &out[..23], &line[..]);
    checks.same("beyond the line", &out[23..], &[7, 7]);
    let mut out = [7; 22];
    checks.same(
        "line too short",
        put_line(&record, &mut out),
        Err(refusal(10, 23)),
    );
    checks.same("output as it was", out, [7; 22]);
    checks.same("refused line", put_line(&[], &mut [0; 12]), Ok(12));
    checks.same("no output", put_line(&[], &mut []), Err(refusal(10, 12)));
}

/// Read and written again, and written and read again.
pub fn check_round_trips(checks: &mut Checks) {
    for content in corner_contents() {
        let bytes = content.bytes();
        if let Ok(record) = read_record(&bytes) {
            checks.same("content again", record.content() == content, true);
        }
    }
    let items = |line: fn(&mut Items) -> Option<String>, data: Vec<u8>| {
        line(&mut Items { data: &data }).unwrap_or_default()
    };
    let mut read = Vec::new();
    put_item(&mut read, &listing(2).bytes());
    checks.same("read", items(next_read_line, read), "fit 6 2 0 same".into());
    let mut write = Vec::new();
    put_content(&mut write, 132, 0, &listing(2));
    let line = items(next_write_line, write);
    checks.same(
        "written",
        line.starts_with("written 132 ") && line.ends_with(" same"),
        true,
    );
}

#[rustfmt::skip]
pub fn check_records(checks: &mut Checks) {
    let mut same = |name: &str, bytes: &[u8], want: &str| {
        checks.same(name, rejudge_line(bytes), want.to_string());
    };
    let text = |change: fn(&mut Content)| {
        let mut content = listing(36);
        change(&mut content);
        content.bytes()
    };
    same("listing", &text(|_| {}), "pass 1 25 16 0 0 121 121 217 -");
    same("no rows", &listing(0).bytes(), "open 1 0 0 0 0 - - - -");
    same("35 rows", &listing(35).bytes(), "open 1 24 15 0 0 121 121 217 -");
    same("11 rows", &listing(11).bytes(), "open 1 0 0 0 0 - - - -");
    same("37 rows", &listing(37).bytes(), "refused 9 947");
    let mut unfit_37 = listing(37).bytes();
    unfit_37[947..951].copy_from_slice(&MISSING.to_le_bytes());
    same("9 before 8", &unfit_37, "refused 9 947");
    same("stop after", &text(|c| (c.stop_rows, c.stop_causes) = (vec![36], vec![1])),
        "refused 9 948");
    same("stop at c = 0", &text(|c| (c.stop_rows, c.stop_causes) = (vec![0], vec![1])),
        "pass 1 25 16 0 0 121 121 217 -");
    same("stop in rest", &text(|c| (c.stop_rows, c.stop_causes) = (vec![1, 1], vec![1, 2])),
        "open 1 0 0 0 0 - - - -");
    same("empty input", &[], "refused 1 0");
    same("bytes left", &[&listing(36).bytes()[..], &[0]].concat(), "refused 7 948");
    same("one short", &listing(36).bytes()[..947], "refused 1 947");
    same("33 channels", &[33], "refused 2 0");
    same("code 0", &text(|c| c.codes[3] = 0), "refused 3 4");
    same("code twice", &text(|c| c.codes[3] = 1), "refused 3 4");
    same("code absent", &text(|c| c.codes[3] = 9), "refused 3 0");
    same("settings count", &text(|c| c.settings.push(1)), "refused 2 7");
    same("kind", &text(|c| c.settings[0] = 3), "refused 4 8");
    same("pressure", &text(|c| c.settings[6] = 1101), "refused 4 20");
    same("moped of 51 ml", &text(|c| (c.settings[0], c.settings[2]) = (2, 51)), "refused 4 12");
    same("saturation count", &text(|c| c.saturation.push(4300)), "refused 2 22");
    same("saturation below", &text(|c| c.saturation[0] = 499), "refused 5 23");
    same("saturation equal", &text(|c| c.saturation[28] = c.saturation[27]), "refused 5 79");
    same("manual, no code 3", &text(|c| c.settings[3] = 1), "refused 8 83");
    same("cell of code 7", &text(|c| c.cells[5] = MISSING), "refused 8 103");
    same("codes ascending", &text(|c| {
        c.codes.reverse();
        (c.cells[0], c.cells[5]) = (MISSING, MISSING);
    }), "refused 8 103");
    same("stop falls", &text(|c| (c.stop_rows, c.stop_causes) = (vec![2, 1], vec![1, 1])),
        "refused 6 951");
    same("stop cause", &text(|c| (c.stop_rows, c.stop_causes) = (vec![2], vec![5])),
        "refused 6 948");
    same("stop past the rows", &text(|c| (c.stop_rows, c.stop_causes) = (vec![37], vec![1])),
        "refused 6 948");
    same("rows", &sized_content(6, 1501, 0).bytes(), "refused 2 81");
    same("cells", &sized_content(30, 501, 0).bytes(), "refused 2 105");
    let longest = sized_content(30, 500, 255).bytes();
    checks.same("longest record", longest.len(), 60_873);
    checks.same("longest reads", read_record(&longest).is_ok(), true);
    check_hot(checks);
    check_prefixes(checks);
}

/// Above 30 °C the saturation pressure is that of 30 °C.
fn check_hot(checks: &mut Checks) {
    let at = |temperature| {
        let mut content = listing(36);
        content.settings[5] = temperature;
        rejudge_line(&content.bytes())
    };
    checks.same("43 as 30", at(43), at(30));
    checks.different("29 not as 30", at(30), at(29));
}

/// Every prefix of a record is refused 1 with its length.
fn check_prefixes(checks: &mut Checks) {
    let record = sized_content(6, 2, 2).bytes();
    let early = (0..record.len())
        .filter(|n| rejudge_line(&record[..*n]) == format!("refused 1 {n}"))
        .count();
    checks.same("prefixes", early, record.len());
}

pub fn check_writer(checks: &mut Checks) {
    let content = listing(2);
    let bytes = content.bytes();
    let mut out = vec![7; bytes.len() + 3];
    checks.same("written", write_record(&content, &mut out), Ok(bytes.len()));
    checks.same(
        "bytes beyond",
        &out[..],
        &[&bytes[..], &[7, 7, 7]].concat()[..],
    );
    let mut out = vec![7; bytes.len() - 1];
    let short = write_record(&content, &mut out);
    checks.same("too short", short, Err(refusal(10, bytes.len())));
    checks.same("left as it was", out, vec![7; bytes.len() - 1]);
    let mut refused = |name: &str, change: fn(&mut Content), number, place| {
        let mut content = listing(2);
        change(&mut content);
        checks.same(
            name,
            write_record(&content, &mut []),
            Err(refusal(number, place)),
        );
    };
    refused("no codes", |c| c.codes.clear(), 2, 0);
    refused("6 settings", |c| c.settings.truncate(6), 2, 7);
    refused("30 values", |c| c.saturation.push(4300), 2, 22);
    refused("13 cells", |c| c.cells.push(0), 2, 81);
    refused("1501 rows", |c| c.cells.resize(6 * 1501, 0), 2, 81);
    refused("stops unequal", |c| c.stop_rows.push(0), 2, 131);
    refused(
        "256 stops",
        |c| {
            (c.stop_rows, c.stop_causes) = (vec![0; 256], vec![1; 256]);
        },
        2,
        131,
    );
    refused(
        "stop unfit",
        |c| (c.stop_rows, c.stop_causes) = (vec![1, 0], vec![1, 1]),
        6,
        135,
    );
    refused("10 last", |_| {}, 10, 132);
    for content in corner_contents() {
        let mut out = vec![0; content.bytes().len()];
        let read = read_record(&content.bytes()).map(|_| out.len());
        checks.same("writes what reads", write_record(&content, &mut out), read);
    }
}

/// The samples end as their names say: the start of the line, or with a newline the whole.
#[rustfmt::skip]
pub fn check_samples(checks: &mut Checks) {
    let ends = [
        ("pass", "pass 1 25 16 0 0 "), ("dip", "pass 1 90 81 0 0 "), ("fail2", "fail 2 90 0 81 0 "),
        ("incomplete", "incomplete 1 20 11 0 0 "), ("refused", "refused 9 "), ("hot", "pass 1 25 16 0 0 "),
        ("engine_speed", "pass 1 25 16 0 0 121 121 24 "), ("engine_missing", "pass 1 25 16 0 0 121 121 24 -\n"),
        ("unfit", "refused 8 209\n"), ("stops", "incomplete 1 0 0 0 0 - - - -\n"),
        ("too_long", "refused 7 60873\n"), ("too_long_wide", "refused 7 60965\n"),
        ("listing", "pass 1 25 16 0 0 121 121 217 -\n"), ("wide", "pass 1 25 16 0 0 121 121 217 -\n"),
        ("empty", "open 1 0 0 0 0 - - - -\n"),
    ];
    for (name, end) in ends {
        let line = sample(name).map_or(String::new(), |bytes| rejudge_line(&bytes) + "\n");
        checks.same(&format!("sample {name}"), line.starts_with(end), true);
    }
}

/// The records by name end as their names say.
#[rustfmt::skip]
pub fn check_named(checks: &mut Checks) {
    let ends = [
        ("pass_rising", "pass 1 25 16 0 0 "), ("pass_out", "pass 1 25 15 0 1 "),
        ("pass_ninety", "pass 1 90 81 0 0 "), ("pass_two", "pass 2 25 16 0 0 "),
        ("fail_two", "fail 2 90 0 81 0 "), ("fail_inconclusive", "fail 2 90 14 24 43 "),
        ("incomplete_stop", "incomplete 1 12 3 0 0 "), ("incomplete_void7", "incomplete 1 0 0 0 0 - - - -"),
        ("incomplete_void8", "incomplete 1 74 0 65 0 "), ("incomplete_two", "incomplete 2 11 0 2 0 "),
        ("open_settling", "open 1 0 0 0 0 - - - -"), ("open_measuring", "open 1 13 0 3 1 "),
        ("open_rest", "open 1 0 0 0 0 - - - -"), ("open_restart", "open 1 4 0 0 0 - - - -"),
        ("open_two", "open 2 0 0 0 0 - - - -"), ("open_two_rest", "open 2 0 0 0 0 - - - -"),
        ("open_two_restart", "open 2 4 0 0 0 - - - -"),
        ("engine_half_each", "open 1 13 4 0 0 121 121 25 4000"), ("engine_half_up", "open 1 13 4 0 0 120 120 24 4000"),
        ("engine_half_down", "open 1 13 4 0 0 121 121 25 3999"), ("engine_older", "open 1 14 3 0 2 121 121 25 "),
        ("engine_one_missing", "open 1 13 4 0 0 121 121 25 -"), ("engine_last_missing", "open 1 13 4 0 0 121 121 25 -"),
        ("engine_zero", "open 1 13 4 0 0 121 121 25 0"),
        ("dip_eight", "pass 1 25 16 0 0 "), ("dip_nine", "pass 1 90 81 0 0 "), ("dip_eleventh", "pass 1 25 16 0 0 "),
        ("dip_forgotten", "pass 1 25 16 0 0 "), ("slow_fall", "open 1 25 16 0 0 "),
        ("wide_beside", "pass 1 25 16 0 0 "), ("wide_many", "pass 1 25 16 0 0 "),
        ("invalid", "pass 1 30 15 0 6 121 121 217 -"), ("hundredths", "incomplete 1 24 15 0 0 120 120 216 -"),
        ("hundredths_ready", "open 1 1 0 0 0 - - - -"), ("hundredths_pass", "pass 1 "),
    ];
    for name in RECORDS {
        let line = sample(name).map_or(String::new(), |bytes| rejudge_line(&bytes));
        let end = ends.iter().find(|(known, _)| *known == name).map(|(_, end)| end.to_string());
        let number = name.strip_prefix("refused_").and_then(|rest| rest.split('_').next());
        let want = end.or(number.map(|number| format!("refused {number} ")));
        checks.same(name, want.is_some_and(|want| line.starts_with(&want)), true);
    }
}
