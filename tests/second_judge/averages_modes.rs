//! The modes about averages before rounding.

use crate::big::Big;
use crate::exact_averages::{record_averages, Exact, Fraction};
use crate::floats::{hundredths_off, nearest_float, within, MINUS_ONE};
use crate::items::Items;
use crate::modes::each_item;
use crate::programs::{each_against, Ended};
use std::io;

/// Three bit patterns: the floats nearest to the averages, or -1 outside the premise.
pub fn floats_line(averages: &Option<Exact>) -> String {
    let bits = match averages {
        Some(averages) => averages.each_ref().map(nearest_float),
        None => [MINUS_ONE; 3],
    };
    bits.map(|bits| format!("{bits:016x}")).join(" ")
}

fn next_averages_line(items: &mut Items) -> Option<String> {
    Some(floats_line(&items.case()?.averages()))
}

pub fn mode_averages_vectors(data: &[u8], out: &mut impl FnMut(&str)) {
    each_item(data, out, next_averages_line);
}

/// A float as an average may be given: of one outside the premise -1, of zero exactly zero.
pub fn float_fits(exact: Option<&Fraction>, bits: u64) -> bool {
    match exact {
        None => bits == MINUS_ONE,
        Some(exact) if exact.is_zero() => bits == 0,
        Some(exact) => within(bits, exact, 45),
    }
}

/// The three patterns of a line: 16 lower-case hexadecimal digits each, single spaces, a newline.
fn patterns(line: &str) -> Option<[u64; 3]> {
    let pattern = |word: &str| {
        let digits = |byte| matches!(byte, b'0'..=b'9' | b'a'..=b'f');
        let exact = word.len() == 16 && word.bytes().all(digits);
        u64::from_str_radix(word, 16).ok().filter(|_| exact)
    };
    let words = line.strip_suffix('\n')?.split(' ').map(pattern);
    words.collect::<Option<Vec<u64>>>()?.try_into().ok()
}

/// Lines of cases looked at so far.
struct Checked {
    passed: usize,
    failed: usize,
    first: Option<String>, // the first that failed
    farthest: Big,         // the greatest |x − e|/e, in hundredths of 2^-53
}

impl Checked {
    /// The averages of a case and the line, none where there is no such case or no line left.
    fn look(&mut self, averages: Option<Option<Exact>>, line: Option<&str>) {
        let bits = line.and_then(patterns);
        let fits = match (&averages, bits) {
            (Some(averages), Some(bits)) => {
                let exact = |i| averages.as_ref().map(|averages| &averages[i]);
                (0..3).for_each(|i| self.measure(exact(i), bits[i]));
                (0..3).all(|i| float_fits(exact(i), bits[i]))
            }
            _ => false,
        };
        if fits {
            self.passed += 1;
            return;
        }
        self.failed += 1;
        let number = self.passed + self.failed;
        self.first.get_or_insert_with(|| {
            let expected = averages.map_or("no line".to_string(), |a| floats_line(&a));
            let got = line.map_or("no line".to_string(), |line| format!("{line:?}"));
            format!("case {number}: expected {expected} or near it, got {got}")
        });
    }

    fn measure(&mut self, exact: Option<&Fraction>, bits: u64) {
        let exact = exact.filter(|exact| !exact.is_zero());
        if let Some(off) = exact.and_then(|exact| hundredths_off(bits, exact)) {
            self.farthest = off.max(self.farthest.clone());
        }
    }
}

/// Checks the lines that a program printed for cases. True where all of them fit.
pub fn mode_check_averages(cases: &[u8], lines: &[u8], out: &mut impl FnMut(&str)) -> bool {
    let lines = String::from_utf8_lossy(lines);
    let (mut items, mut lines) = (Items { data: cases }, lines.split_inclusive('\n'));
    let mut checked = Checked {
        passed: 0,
        failed: 0,
        first: None,
        farthest: Big::from(0),
    };
    loop {
        match (items.case(), lines.next()) {
            (None, None) => break,
            (case, line) => checked.look(case.map(|case| case.averages()), line),
        }
    }
    let (whole, part) = checked.farthest.divided(&Big::from(100));
    let part = part.small().unwrap_or(0);
    out(&format!("farthest {whole}.{part:02} of 2^-53"));
    checked.first.iter().for_each(|first| out(first));
    let Checked { passed, failed, .. } = checked;
    out(&format!("{passed} passed, {failed} failed"));
    failed == 0
}

const BILLION: u128 = 1_000_000_000;

/// In decimal with nine digits behind the point, cut.
pub fn cut_text(exact: &Fraction) -> String {
    let billionths = exact.over.times(&Big::from(BILLION));
    let (whole, part) = billionths
        .divided(&exact.under)
        .0
        .divided(&Big::from(BILLION));
    let part = part.small().unwrap_or(0);
    format!("{whole}.{part:09}")
}

/// The averages of a record's last valid window, or how it is refused.
pub fn averages_line(record: &[u8]) -> String {
    match record_averages(record) {
        Ok(Some(averages)) => averages.each_ref().map(cut_text).join(" "),
        Ok(None) => "- - -".to_string(),
        Err(refusal) => refusal.to_string(),
    }
}

/// The billionths of a number with nine digits behind the point and no needless 0 before it.
fn billionths(word: &str) -> Option<u128> {
    let (whole, part) = word.split_once('.')?;
    let digits = |text: &str| !text.is_empty() && text.bytes().all(|b| b.is_ascii_digit());
    let plain = whole == "0" || !whole.starts_with('0');
    let exact = plain && digits(whole) && digits(part) && part.len() == 9;
    format!("{whole}{part}").parse().ok().filter(|_| exact)
}

/// Is a number of billionths the cut of some number within 2^-45 of the exact average?
/// n ≤ e(1 + 2^-45)·10^9 and n + 1 > e(1 − 2^-45)·10^9, both times 2^45 and the divisor.
fn cut_fits(n: u128, exact: &Fraction) -> bool {
    let e_times = |factor: u128| {
        let over = exact.over.times(&Big::from(BILLION));
        over.times(&Big::from(factor))
    };
    let (n, one) = (Big::from(n), 1 << 45);
    let next = n.plus(&Big::from(1));
    n.times(&exact.under).shifted(45) <= e_times(one + 1)
        && next.times(&exact.under).shifted(45) > e_times(one - 1)
}

/// A program's line for a record, with its newline.
pub fn line_fits(record: &[u8], line: &str) -> bool {
    let Some(line) = line.strip_suffix('\n') else {
        return false;
    };
    let Ok(Some(averages)) = record_averages(record) else {
        return line == averages_line(record);
    };
    let numbers: Vec<Option<u128>> = line.split(' ').map(billionths).collect();
    let mut pairs = numbers.iter().zip(&averages);
    numbers.len() == 3 && pairs.all(|(n, exact)| n.is_some_and(|n| cut_fits(n, exact)))
}

/// Runs a program on each record and looks at all that it writes. The first record for which it
/// is not as it should be is saved. True where there is none.
pub fn mode_against_averages(
    program: &str,
    data: &[u8],
    save: &str,
    out: &mut impl FnMut(&str),
) -> io::Result<bool> {
    each_against(data, ("record", save), out, |record| {
        let got = Ended::of(program, record)?;
        let fits = line_fits(record, &got.text()) && got.error.is_empty() && got.status == "0";
        let how = || {
            let expected = averages_line(record);
            let (text, error) = (got.text(), String::from_utf8_lossy(&got.error));
            let status = &got.status;
            format!(
                "expected {expected} or near it, got {text:?}, {error:?} and exit status {status}"
            )
        };
        Ok((!fits).then(how))
    })
}
