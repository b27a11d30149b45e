//! Own asserts: the modes about averages before rounding, and what is made for them.

use crate::averages_corners::{averages_corners, pairs_about, plain, JUST_ONE};
use crate::averages_modes::{averages_line, line_fits, mode_averages_vectors, mode_check_averages};
use crate::exact_averages::Case;
use crate::items::Items;
use crate::make_averages::{make_averages, make_averages_records, make_exact_averages, only_exact};
use crate::make_corrections::put_ten;
use crate::named_records::{listing, sample};
use crate::numbers::dilution_divisor;
use crate::own_asserts::Checks;
use crate::reach_averages_records::reach_averages_records;

const OUTSIDE: &str = "bff0000000000000 bff0000000000000 bff0000000000000\n";

fn cases_of(data: &[u8]) -> Vec<Case> {
    let mut items = Items { data };
    std::iter::from_fn(|| items.case()).collect()
}

fn bytes_of(cases: &[Case]) -> Vec<u8> {
    let mut out = Vec::new();
    let cases = cases.iter();
    cases.for_each(|case| put_ten(&mut out, &case.settings, case.p, &case.ten));
    out
}

fn lines_of(data: &[u8]) -> String {
    let mut lines = String::new();
    mode_averages_vectors(data, &mut |line| lines += &format!("{line}\n"));
    lines
}

/// The last line of the check, and how many lines there are.
fn checked(cases: &[u8], lines: &str) -> (String, usize) {
    let mut out = Vec::new();
    let passed = mode_check_averages(cases, lines.as_bytes(), &mut |line| {
        out.push(line.to_string());
    });
    let last = out.last().cloned().unwrap_or_default();
    assert_eq!(passed, last.ends_with(" 0 failed"));
    (last, out.len())
}

/// Three cases: inside, all zero, outside.
fn three_cases() -> Vec<u8> {
    let (mut zero, mut outside) = (plain(1), plain(1));
    (4..=6).for_each(|code| zero.set_all(code, 0));
    outside.p = 499;
    bytes_of(&[plain(1), zero, outside])
}

pub fn check_averages_vectors(checks: &mut Checks) {
    let cases = three_cases();
    checks.same("bytes of a case", cases.len(), 3 * 336);
    let lines = lines_of(&cases);
    let zero = "0000000000000000 0000000000000000 0000000000000000\n";
    checks.same(
        "zero and outside",
        lines.ends_with(&format!("\n{zero}{OUTSIDE}")),
        true,
    );
    checks.same("three lines", lines.lines().count(), 3);
    for cut in [1, 100, 335] {
        let length = cases.len() - cut;
        let want = lines.lines().count() - 1;
        checks.same("cut off", lines_of(&cases[..length]).lines().count(), want);
    }
    checks.same("no case", lines_of(&[]), String::new());
}

/// What the check counts of lines for the three cases.
fn counts_of(checks: &mut Checks, name: &str, lines: &str, counts: [usize; 2]) {
    let [passed, failed] = counts;
    let want = format!("{passed} passed, {failed} failed");
    let length = 2 + (failed > 0) as usize;
    checks.same(name, checked(&three_cases(), lines), (want, length));
}

#[rustfmt::skip]
pub fn check_lines_checked(checks: &mut Checks) {
    let good = lines_of(&three_cases());
    let put = |old: &str, new: &str| good.replacen(old, new, 1);
    for (name, lines, counts) in [
        ("its own", good.clone(), [3, 0]),
        ("none", String::new(), [0, 3]),
        ("one less", put(OUTSIDE, ""), [2, 1]),
        ("one more", good.clone() + OUTSIDE, [3, 1]),
        ("an empty line more", good.clone() + "\n", [3, 1]),
        ("no newline at the end", good.trim_end().to_string(), [2, 1]),
        ("upper case", good.to_uppercase(), [1, 2]),
        ("two spaces", put(" ", "  "), [2, 1]),
        ("a space before", format!(" {good}"), [2, 1]),
        ("a space behind", put("\n", " \n"), [2, 1]),
        ("a return", put("\n", "\r\n"), [2, 1]),
        ("a sign", put("\n000000", "\n+00000"), [2, 1]),
        ("a digit less", good[1..].to_string(), [2, 1]),
        ("two numbers", put(" 0000000000000000\n", "\n"), [2, 1]),
        ("minus zero", put("\n0", "\n8"), [2, 1]),
        ("the least float for zero", put("0000\nbff", "0001\nbff"), [2, 1]),
        ("-1 inside", OUTSIDE.repeat(3), [1, 2]),
        ("beside -1", put("bff0000000000000\n", "bff0000000000001\n"), [2, 1]),
    ] {
        counts_of(checks, name, &lines, counts);
    }
}

/// Each of the three numbers, a little and too far beside.
pub fn check_lines_beside(checks: &mut Checks) {
    let good = lines_of(&three_cases());
    let line = good.lines().next().unwrap_or("");
    for i in 0..3 {
        for (step, counts) in [(1, [3, 0]), (63, [3, 0]), (257, [2, 1])] {
            let mut words: Vec<String> = line.split(' ').map(str::to_string).collect();
            let bits = u64::from_str_radix(&words[i], 16).unwrap_or(0) + step;
            words[i] = format!("{bits:016x}");
            let moved = good.replacen(line, &words.join(" "), 1);
            counts_of(checks, "beside", &moved, counts);
        }
    }
    let farthest = |lines: &str| {
        let mut first = String::new();
        mode_check_averages(&three_cases(), lines.as_bytes(), &mut |line| {
            if first.is_empty() {
                first = line.to_string();
            }
        });
        first
    };
    let (zeros, two) = ("0000000000000000 ".repeat(3), "4000000000000000 ".repeat(3));
    let none = farthest(&zeros);
    checks.same(
        "nothing measured",
        none,
        "farthest 0.00 of 2^-53".to_string(),
    );
    let far = farthest(&(two.trim_end().to_string() + "\n"));
    checks.same("far away", far.starts_with("farthest 89"), true);
}

const LISTED: &str = "120.580716731 120.580716731 216.542187511";

pub fn check_averages_lines(checks: &mut Checks) {
    let zeros = "0.000000000 0.000000000 0.000000000";
    for (name, line) in [
        ("listing", LISTED),
        ("wide", LISTED),
        ("empty", "- - -"),
        ("refused", "refused 9 1237"),
        ("zeros", zeros),
    ] {
        let record = sample(name).unwrap_or_default();
        checks.same(name, averages_line(&record), line.to_string());
    }
}

#[rustfmt::skip]
pub fn check_lines_fit(checks: &mut Checks) {
    let (full, empty) = (listing(36).bytes(), listing(0).bytes());
    let zero = sample("zero_hc").unwrap_or_default();
    let (listed, line) = (format!("{LISTED}\n"), averages_line(&zero) + "\n");
    for (name, record, line, want) in [
        ("its own", &full[..], listed.clone(), true),
        ("no newline", &full, LISTED.to_string(), false),
        ("two newlines", &full, listed.clone() + "\n", false),
        ("rounded", &full, listed.replace("511\n", "512\n"), false),
        ("one below", &full, listed.replace("511\n", "510\n"), false),
        ("8 digits", &full, listed.replace("511\n", "51\n"), false),
        ("10 digits", &full, listed.replace("511\n", "5110\n"), false),
        ("a zero before", &full, format!("0{listed}"), false),
        ("a sign", &full, format!("+{listed}"), false),
        ("two spaces", &full, listed.replace(' ', "  "), false),
        ("a number more", &full, listed.replace('\n', " 1.000000000\n"), false),
        ("a number less", &full, listed[14..].to_string(), false),
        ("no window", &full, "- - -\n".to_string(), false),
        ("none", &empty, "- - -\n".to_string(), true),
        ("none, without newline", &empty, "- - -".to_string(), false),
        ("refused", &full[..50], "refused 1 50\n".to_string(), true),
        ("refused otherwise", &full[..50], "refused 1 51\n".to_string(), false),
        ("zero", &zero, line.clone(), true),
        ("zero without its first digit", &zero, line[1..].to_string(), false),
        ("a billionth for zero", &zero, line.replacen("0 ", "1 ", 1), false),
        ("beyond 128 bits", &full, format!("{}{listed}", "9".repeat(40)), false),
    ] {
        checks.same(name, line_fits(record, &line), want);
    }
}

/// A float just below a whole number may be cut to the billionth below it.
pub fn check_whole_averages(checks: &mut Checks) {
    let mut content = listing(36);
    for row in content.cells.chunks_mut(6) {
        (row[2], row[5]) = (5000f32.to_bits(), 18f32.to_bits()); // DCF 1: HC is 5000
    }
    let record = content.bytes();
    let line = averages_line(&record) + "\n";
    checks.same("5000", line.starts_with("5000.000000000 "), true);
    checks.same("itself", line_fits(&record, &line), true);
    let below = line.replacen("5000.000000000", "4999.999999999", 1);
    checks.same("cut from below", line_fits(&record, &below), true);
    for wrong in ["5000.000000001", "4999.999999998"] {
        let other = line.replacen("5000.000000000", wrong, 1);
        checks.same(wrong, line_fits(&record, &other), false);
    }
}

pub fn check_averages_made(checks: &mut Checks) {
    let corners = bytes_of(&averages_corners());
    let made = make_averages(7, 1000);
    checks.same("corners first", made.starts_with(&corners), true);
    checks.same("as many seeded", made.len(), corners.len() + 1000 * 336);
    let inside = cases_of(&made[corners.len()..]);
    let inside = inside.iter().filter(|case| case.averages().is_some());
    checks.same("most inside", (800..=980).contains(&inside.count()), true);
    checks.same("their own lines", checked(&made, &lines_of(&made)).1, 2);
    let exact = cases_of(&make_exact_averages(7, 300));
    let all_exact = exact.iter().all(only_exact);
    checks.same("only exact", all_exact, true);
    let corners = averages_corners();
    let corners = corners.iter().filter(|case| only_exact(case)).count();
    checks.same("exact corners and seeded", exact.len(), corners + 300);
    let zero = exact.iter().filter(|case| case.averages().is_some());
    checks.same("zeros among them", zero.count() > 30, true);
    let records = make_averages_records(1, 60);
    let missing = reach_averages_records(&records).missing();
    checks.same("records", missing.join("; "), String::new());
}

/// The pairs nearest to where DCF is held, against all that there are.
pub fn check_pairs(checks: &mut Checks) {
    let d = |(co2, co): (i64, i64)| dilution_divisor(co2 as u128, co as u128) as i64;
    checks.same("just 10^7", d(JUST_ONE), 10_000_000);
    for factor in [1, 3] {
        let [below, above] = pairs_about(factor).map(|pair| factor * d(pair) - 10_000_000);
        checks.same("on both sides", below < 0 && above > 0, true);
        let mut nearer = 0;
        for co2 in 0..=1800 {
            for co in (600 - co2).max(0)..=2000 {
                let far = factor * d((co2, co)) - 10_000_000;
                nearer += (below < far && far < above && far != 0) as usize;
            }
        }
        checks.same("nearer", nearer, 0);
    }
}
