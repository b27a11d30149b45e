//! The second judge: a reference written from document 01 and the requests of document 02 alone.
//!
//! It judges from lists. A test is a list of seconds and a list of stops; the
//! lists are cut into attempts, an attempt's counted seconds into settling and
//! measuring, and a window is a slice of ten measured seconds. Locks are read
//! from the list of accepted events. All arithmetic is on whole numbers.
//!
//! Build: rustc -O --edition 2021 second_judge.rs
//! The modes, their input layouts and the rooms are in README.md.

// Judging.
mod attempt;
mod bench;
mod big;
mod channels;
mod coast_down;
mod exact_averages;
mod floats;
mod journaling;
mod numbers;
mod prepare;
mod record;
mod rejudging;
mod running;
mod salvaging;
mod test;
mod vehicle;
mod why;
mod window;

// The modes and their input.
mod averages_modes;
mod items;
mod journal_modes;
mod modes;
mod programs;
mod salvage_modes;

// Making input.
mod averages_corners;
mod cut_corners;
mod dice;
mod driver;
mod journal_corners;
mod make_averages;
mod make_channels;
mod make_corrections;
mod make_cuts;
mod make_events;
mod make_journal_vectors;
mod make_journals;
mod make_prepares;
mod make_readings;
mod make_record_vectors;
mod make_records;
mod make_runs;
mod make_tests;
mod named_journals;
mod named_records;
mod script;
mod scripted_dips;
mod scripted_events;
mod scripted_hundredths;
mod scripted_journals;
mod scripted_prepares;
mod scripted_runs;
mod scripted_tests;
mod scripted_windows;

// What an input reaches.
mod averages_seen;
mod cut_seen;
mod journal_walk;
mod reach;
mod reach_averages;
mod reach_averages_records;
mod reach_channels;
mod reach_cuts;
mod reach_dips;
mod reach_engines;
mod reach_events;
mod reach_hundredths;
mod reach_journals;
mod reach_prepares;
mod reach_records;
mod reach_runs;
mod reach_starts;
mod reach_tests;
mod reach_whys;
mod reach_windows;

// Own asserts.
mod asserts_accounted;
mod asserts_averages;
mod asserts_averages_made;
mod asserts_bench;
mod asserts_big;
mod asserts_channels;
mod asserts_coast_down;
mod asserts_dips;
mod asserts_engine;
mod asserts_floats;
mod asserts_hundredths;
mod asserts_journals;
mod asserts_numbers;
mod asserts_prepare;
mod asserts_record;
mod asserts_salvage;
mod asserts_salvage_made;
mod asserts_starts;
mod asserts_test;
mod asserts_whys;
mod asserts_windows;
mod own_asserts;

use crate::averages_modes::{
    averages_line, mode_against_averages, mode_averages_vectors, mode_check_averages,
};
use crate::journal_modes::{
    mode_against_journals, mode_journal, mode_journal_read, mode_journal_vectors,
    mode_journal_write,
};
use crate::journaling::journal_lines;
use crate::make_averages::{make_averages, make_averages_records, make_exact_averages};
use crate::make_corrections::make_corrections;
use crate::make_cuts::{make_cuts, make_salvages};
use crate::make_events::{least, make_events};
use crate::make_journal_vectors::make_journal_vectors;
use crate::make_journals::make_journals;
use crate::make_readings::make_readings;
use crate::make_record_vectors::{make_line, make_read, make_record_vectors, make_write};
use crate::make_records::make_records;
use crate::make_tests::{make_tests, make_vectors};
use crate::modes::{
    mode_against, mode_corrections, mode_events, mode_judge_many, mode_line, mode_read,
    mode_readings, mode_record_vectors, mode_tests, mode_vectors, mode_write,
};
use crate::named_journals::{named_journal, JOURNALS};
use crate::named_records::{sample, RECORDS};
use crate::own_asserts::selftest;
use crate::reach_averages::reach_averages;
use crate::reach_averages_records::reach_averages_records;
use crate::reach_cuts::{reach_cuts, reach_salvages};
use crate::reach_events::reach_events;
use crate::reach_journals::reach_journals;
use crate::reach_records::reach_records;
use crate::reach_tests::reach_tests;
use crate::rejudging::rejudge_line;
use crate::salvage_modes::{mode_against_salvage, mode_salvages, salvage_outputs};
use crate::why::why_lines;
use std::io::{self, Read, Write};

/// A good end or a bad one, or what is wrong with the command or its input.
type Ended = Result<bool, String>;

fn stdin_bytes() -> Result<Vec<u8>, String> {
    let mut bytes = Vec::new();
    match io::stdin().lock().read_to_end(&mut bytes) {
        Ok(_) => Ok(bytes),
        Err(error) => Err(format!("Standard input cannot be read: {error}.")),
    }
}

fn file_bytes(file: &str) -> Result<Vec<u8>, String> {
    std::fs::read(file).map_err(|error| format!("{file} cannot be read: {error}."))
}

fn put_bytes(bytes: &[u8]) -> Result<(), String> {
    let written = io::stdout().lock().write_all(bytes);
    written.map_err(|error| format!("Standard output cannot be written: {error}."))
}

fn number(what: &str, text: &str) -> Result<u64, String> {
    text.parse()
        .map_err(|_| format!("{what} must be a whole number below 2^64, and {text} is none."))
}

/// Input made for a mode.
fn made(kind: &str, seed: &str, count: &str) -> Result<Vec<u8>, String> {
    let make: fn(u64, usize) -> Vec<u8> = match kind {
        "readings" => make_readings,
        "corrections" => make_corrections,
        "tests" => make_tests,
        "vectors" => make_vectors,
        "record_vectors" => make_record_vectors,
        "read" => make_read,
        "write" => make_write,
        "line" => make_line,
        "salvages" => make_salvages,
        "events" => make_events,
        "records" => make_records,
        "cuts" => make_cuts,
        "journals" => make_journals,
        "journal_vectors" => make_journal_vectors,
        "averages" => make_averages,
        "exact_averages" => make_exact_averages,
        "averages_records" => make_averages_records,
        _ => return Err(format!("There is no input of the kind {kind} to make.")),
    };
    let (seed, count) = (number("SEED", seed)?, number("COUNT", count)?);
    if count > 10_000_000 {
        return Err(format!(
            "COUNT must be at most 10000000, and {count} is more."
        ));
    }
    Ok(make(seed, count as usize))
}

/// A mode that prints a line an item of its standard input.
fn line_mode(mode: &str, data: &[u8], out: &mut impl FnMut(&str)) {
    match mode {
        "judge" => out(&rejudge_line(data)),
        "events" => mode_events(data, out),
        "readings" => mode_readings(data, out),
        "corrections" => mode_corrections(data, out),
        "tests" => mode_tests(data, out),
        "vectors" => mode_vectors(data, out),
        "read" => mode_read(data, out),
        "write" => mode_write(data, out),
        "line" => mode_line(data, out),
        "salvages" => mode_salvages(data, out),
        "record_vectors" => mode_record_vectors(data, out),
        "journal" => mode_journal(data, out),
        "journal-why" => why_lines(data).iter().for_each(|line| out(line)),
        "journal_read" => mode_journal_read(data, out),
        "journal_write" => mode_journal_write(data, out),
        "averages" => out(&averages_line(data)),
        "averages_vectors" => mode_averages_vectors(data, out),
        _ => mode_journal_vectors(data, out),
    }
}

const LINE_MODES: [&str; 18] = [
    "judge",
    "events",
    "readings",
    "corrections",
    "tests",
    "vectors",
    "read",
    "write",
    "line",
    "salvages",
    "record_vectors",
    "journal",
    "journal-why",
    "journal_read",
    "journal_write",
    "averages",
    "averages_vectors",
    "journal_vectors",
];

/// What a program writes for each record of a file, looked at as a mode does.
fn against_records<O: FnMut(&str)>(words: &[&str; 4], out: &mut O) -> Ended {
    let [mode, program, file, save] = words;
    let look: fn(&str, &[u8], &str, &mut O) -> io::Result<bool> = match *mode {
        "against" => mode_against,
        "against-salvage" => mode_against_salvage,
        _ => mode_against_averages,
    };
    look(program, &file_bytes(file)?, save, out)
        .map_err(|error| format!("{program} cannot be run on the records: {error}."))
}

/// A program's output on each journal of a file, compared with that of a mode.
fn against_journals(words: &[&str; 4], out: &mut impl FnMut(&str)) -> Ended {
    let [mode, program, file, save] = words;
    let lines_of = match *mode {
        "journal" => journal_lines,
        "journal-why" => why_lines,
        _ => return Err(format!("No program is compared in a mode {mode}.")),
    };
    let data = file_bytes(file)?;
    mode_against_journals(lines_of, program, &data, save, out)
        .map_err(|error| format!("{program} cannot be run on the journals: {error}."))
}

fn run(words: &[&str], out: &mut impl FnMut(&str)) -> Ended {
    match words {
        [mode] if LINE_MODES.contains(mode) => line_mode(mode, &stdin_bytes()?, out),
        ["judge-many", file] => mode_judge_many(&file_bytes(file)?, out),
        [mode @ ("against" | "against-salvage" | "against-averages"), program, file, save] => {
            return against_records(&[mode, program, file, save], out)
        }
        ["salvage"] => {
            let (record, line) = salvage_outputs(&stdin_bytes()?);
            put_bytes(&record)?;
            eprintln!("{line}");
        }
        ["check-averages", cases, lines] => {
            let (cases, lines) = (file_bytes(cases)?, file_bytes(lines)?);
            return Ok(mode_check_averages(&cases, &lines, out));
        }
        ["against-journals", mode, program, file, save] => {
            return against_journals(&[mode, program, file, save], out)
        }
        ["reach", "judge-many", file] => return Ok(reach_records(&file_bytes(file)?).report(out)),
        ["reach", "cuts", file] => return Ok(reach_cuts(&file_bytes(file)?).report(out)),
        ["reach", "journals", file] => return Ok(reach_journals(&file_bytes(file)?).report(out)),
        ["reach", "averages-records", file] => {
            return Ok(reach_averages_records(&file_bytes(file)?).report(out))
        }
        ["reach", "averages", file] => return Ok(reach_averages(&file_bytes(file)?).report(out)),
        ["reach", "events"] => return Ok(reach_events(&stdin_bytes()?).report(out)),
        ["reach", "salvages"] => return Ok(reach_salvages(&stdin_bytes()?).report(out)),
        ["reach", "tests"] => return Ok(reach_tests(&stdin_bytes()?).report(out)),
        ["selftest"] => return Ok(selftest()),
        ["least"] => least()
            .iter()
            .for_each(|(what, n)| out(&format!("{what} {n}"))),
        ["make", "record-names"] => RECORDS.iter().for_each(|name| out(name)),
        ["make", "journal-names"] => JOURNALS.iter().for_each(|name| out(name)),
        ["make", "journal", name] => {
            let journal =
                named_journal(name).ok_or(format!("There is no journal named {name}."))?;
            put_bytes(&journal)?;
        }
        ["make", "record", name] => {
            let record = sample(name).ok_or(format!("There is no record named {name}."))?;
            put_bytes(&record)?;
        }
        ["make", kind, seed, count] => put_bytes(&made(kind, seed, count)?)?,
        _ => {
            let words = words.join(" ");
            return Err(format!(
                "second_judge does not know the command '{words}': see README.md."
            ));
        }
    }
    Ok(true)
}

fn main() {
    let args: Vec<String> = std::env::args().skip(1).collect();
    let words: Vec<&str> = args.iter().map(String::as_str).collect();
    let mut printed = String::new();
    let mut out = |line: &str| {
        printed.push_str(line);
        printed.push('\n');
    };
    let ended = run(&words, &mut out);
    let ended = put_bytes(printed.as_bytes()).and(ended);
    match ended {
        Ok(true) => {}
        Ok(false) => std::process::exit(1),
        Err(sentence) => {
            eprintln!("{sentence}");
            std::process::exit(2)
        }
    }
}
