//! The modes about journals.

use crate::items::Items;
use crate::journaling::{events_of, journal_lines, read_journal, write_journal, Journal};
use crate::modes::{each_item, same_text, written_line};
use crate::programs::{each_against, Ended};
use std::io;

pub fn mode_journal(data: &[u8], out: &mut impl FnMut(&str)) {
    journal_lines(data).iter().for_each(|line| out(line));
}

/// Runs a program on each journal and compares what it writes with our lines. The first journal that
/// differs is saved. True where none does.
pub fn mode_against_journals(
    lines_of: fn(&[u8]) -> Vec<String>,
    program: &str,
    data: &[u8],
    save: &str,
    out: &mut impl FnMut(&str),
) -> io::Result<bool> {
    each_against(data, ("journal", save), out, |journal| {
        let lines = lines_of(journal).into_iter();
        let expected: String = lines.map(|line| line + "\n").collect();
        let ended = Ended::of(program, journal)?;
        let (got, status) = (ended.text(), &ended.status);
        let how = || {
            let first = first_difference(&expected, &got);
            format!("{first}, exit status {status}")
        };
        Ok((got != expected || status != "0").then(how))
    })
}

/// The first line that differs; a newline that is missing at the end shows.
fn first_difference(expected: &str, got: &str) -> String {
    let (ours, theirs): (Vec<&str>, Vec<&str>) =
        (expected.split('\n').collect(), got.split('\n').collect());
    let longest = ours.len().max(theirs.len());
    let at = (0..longest).find(|i| ours.get(*i) != theirs.get(*i));
    let Some(i) = at else {
        return "the same lines".to_string();
    };
    let shown = |lines: &[&str]| match lines.get(i) {
        Some(line) => format!("'{line}'"),
        None => "the end".to_string(),
    };
    format!(
        "line {}: expected {}, got {}",
        i + 1,
        shown(&ours),
        shown(&theirs)
    )
}

/// A fit journal is read, written again and compared with its bytes.
pub fn next_journal_read_line(items: &mut Items) -> Option<String> {
    let bytes = items.record()?;
    Some(match read_journal(bytes) {
        Ok(journal) => {
            let mut again = vec![0; bytes.len()];
            let written = write_journal(&journal, &mut again) == Ok(bytes.len());
            let same = same_text(written && again == bytes);
            let Journal { v, u, events } = journal;
            format!("fit {v} {u} {} {same}", events.len())
        }
        Err(refusal) => refusal.to_string(),
    })
}

pub fn mode_journal_read(data: &[u8], out: &mut impl FnMut(&str)) {
    each_item(data, out, next_journal_read_line);
}

/// Output length, fill, and what is to be written.
pub fn journal_write_item(items: &mut Items) -> Option<(usize, u8, Journal)> {
    let (length, fill) = (items.u32()? as usize, items.u8()?);
    let (v, u) = (items.u32()?, items.u16()?);
    let events = events_of(items.record()?);
    Some((length, fill, Journal { v, u, events }))
}

pub fn next_journal_write_line(items: &mut Items) -> Option<String> {
    let (length, fill, journal) = journal_write_item(items)?;
    let mut buffer = vec![fill; length];
    let outcome = write_journal(&journal, &mut buffer);
    Some(written_line(outcome, &buffer, |bytes| {
        read_journal(bytes).as_ref() == Ok(&journal)
    }))
}

pub fn mode_journal_write(data: &[u8], out: &mut impl FnMut(&str)) {
    each_item(data, out, next_journal_write_line);
}

/// An item behind its topic byte: 1 as in `journal_read`, 2 as in `journal_write`.
pub fn mode_journal_vectors(data: &[u8], out: &mut impl FnMut(&str)) {
    each_item(data, out, |items| match items.u8() {
        Some(1) => next_journal_read_line(items),
        Some(2) => next_journal_write_line(items),
        _ => None,
    });
}
