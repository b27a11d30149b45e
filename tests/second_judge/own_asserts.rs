//! The judge's own asserts: document 01's worked cases and its plausible and wrong ones.

use crate::asserts_accounted::{check_accounted, check_invalid_gathered};
use crate::asserts_averages::{
    check_ends_of_k, check_exact_by_hand, check_held, check_one_by_one, check_premise,
    check_record_windows,
};
use crate::asserts_averages_made::{
    check_averages_lines, check_averages_made, check_averages_vectors, check_lines_beside,
    check_lines_checked, check_lines_fit, check_pairs, check_whole_averages,
};
use crate::asserts_bench::{after_tries, check_bench, check_locks, check_tries, last_answer, GOOD};
use crate::asserts_big::{check_big_ends, check_big_laws, check_big_small};
use crate::asserts_channels::{
    check_behind_wide, check_both_forms, check_channel_cases, check_wide_bytes, check_wide_reading,
    check_wide_writer, check_widened,
};
use crate::asserts_coast_down::{
    check_run_ages, check_run_ends, check_run_items, check_run_locks, check_run_refusals,
};
use crate::asserts_dips::check_dips;
use crate::asserts_engine::{check_engines, check_gathered, check_means};
use crate::asserts_floats::{
    check_bound, check_bound_laws, check_cut, check_float_fits, check_nearest, check_nearest_laws,
    check_taken_apart,
};
use crate::asserts_hundredths::{
    check_apart, check_co2, check_corrections_made, check_dcf, check_hundredths,
    check_hundredths_names, check_older,
};
use crate::asserts_journals::{
    check_journal_bytes, check_journal_items, check_journal_parameters, check_journal_reading,
    check_journal_round_trips, check_journal_vectors, check_journal_writer, check_named_journals,
};
use crate::asserts_numbers::{check_corrections, check_readings, check_rounding, check_windows};
use crate::asserts_prepare::{
    check_lock_8_last, check_prepare_ages, check_prepare_ends, check_prepare_items,
    check_prepare_order, check_prepare_refusals, check_prepare_use, check_refused_starts,
};
use crate::asserts_record::{
    check_line, check_named, check_records, check_round_trips, check_samples, check_writer,
};
use crate::asserts_salvage::{
    check_cut_record, check_salvage_21, check_salvage_early, check_salvage_outputs,
    check_salvage_refusals, check_salvaged_luck, check_salvaged_rows, check_salvaged_stops,
};
use crate::asserts_salvage_made::{check_cuts_made, check_every_length, check_salvage_laws};
use crate::asserts_starts::check_start_lines;
use crate::asserts_test::{
    check_ended, check_growing, check_kept, check_measuring, check_settling, check_voids, short,
};
use crate::asserts_whys::{
    check_why_newest, check_why_none, check_why_of_locks, check_why_rows, check_why_tests,
};
use crate::asserts_windows::{
    check_emptied, check_invalid, check_invalid_printed, check_kept_invalid, check_window_names,
};
use crate::bench::Event;
use crate::make_averages::make_averages;
use crate::make_cuts::make_cuts;
use crate::make_events::{least, make_events};
use crate::make_journals::make_journals;
use crate::make_records::make_records;
use crate::make_tests::make_tests;
use crate::named_records::listing;
use crate::numbers::unit_count;
use crate::reach::Reach;
use crate::reach_averages::reach_averages;
use crate::reach_cuts::reach_cuts;
use crate::reach_events::reach_events;
use crate::reach_journals::reach_journals;
use crate::reach_records::reach_records;
use crate::reach_tests::reach_tests;
use crate::record::Content;
use crate::rejudging::rejudge_line;
use crate::script::Script;
use crate::scripted_events::WRONG;
use crate::test::{after_void, Next, Standing, Word};
use std::fmt;

/// Counts the checks and tells of each that fails.
pub struct Checks {
    pub passed: usize,
    pub failed: usize,
}

impl Checks {
    pub fn same<T: PartialEq + fmt::Debug>(&mut self, name: &str, got: T, want: T) {
        if got == want {
            self.passed += 1;
        } else {
            self.failed += 1;
            println!("FAILED {name}: got {got:?}, want {want:?}");
        }
    }

    pub fn different<T: PartialEq + fmt::Debug>(&mut self, name: &str, ours: T, wrong: T) {
        if ours != wrong {
            self.passed += 1;
        } else {
            self.failed += 1;
            println!("FAILED {name}: the wrong way also gives {ours:?}");
        }
    }
}

/// Document 01's car: motorcycle, 2005, 125 ml, automatic, 50 %, 20 °C, 1013.
pub const LISTED: [u16; 7] = [1, 2005, 125, 2, 50, 20, 1013];

pub const LISTED_MANUAL: [u16; 7] = [1, 2005, 125, 1, 50, 20, 1013];

/// "Plausible and wrong": each wrong way differs from ours on a case.
fn check_plausible(checks: &mut Checks) {
    let bits = 0x3F80_A3D7;
    let float = (f32::from_bits(bits) * 100.0f32 + 0.5).floor() as i64;
    checks.same("float product", float, 101);
    checks.different(
        "CO as a float product",
        unit_count(bits, 100),
        Some(float as i128),
    );

    let at_24 = rejudge_line(&listing(35).bytes());
    let wrong_word = |t: usize, passing: usize| {
        if t >= 24 && passing >= 15 {
            "pass"
        } else {
            "open"
        }
    };
    checks.same("t = 24 the wrong way", wrong_word(24, 15), "pass");
    checks.different(
        "pass at t = 24",
        at_24.split(' ').next(),
        Some(wrong_word(24, 15)),
    );

    let tries = [WRONG, WRONG, Event::PowerOn, WRONG, WRONG, GOOD];
    let after_power: Vec<Event> = tries[3..].to_vec();
    let cleared = last_answer(900, 5, &after_tries(&after_power));
    checks.same("tries cleared at power-on", &cleared[..], "ok");
    checks.different(
        "clearing tries",
        last_answer(900, 5, &after_tries(&tries)),
        cleared,
    );

    let strided = by_eights(&listing(36));
    checks.different(
        "stride of eight",
        rejudge_line(&listing(36).bytes()),
        strided,
    );

    let twice = Standing {
        mode: 1,
        r: 2,
        q: 1,
    };
    checks.same("q = 2 and r = 3", after_void(twice, 9).1, Next::Mode2);
    checks.same(
        "r = 3 first",
        wrong_after_void(twice, 9),
        Next::Ends(Word::Incomplete),
    );
    checks.different(
        "r over q",
        after_void(twice, 9).1,
        wrong_after_void(twice, 9),
    );
    let in_2 = Standing { mode: 2, ..twice };
    checks.same(
        "q = 2 and r = 3 in mode 2",
        after_void(in_2, 9).1,
        Next::Ends(Word::Fail),
    );
    checks.different(
        "r over q in mode 2",
        after_void(in_2, 9).1,
        wrong_after_void(in_2, 9),
    );
    let whole = |s: &mut Script| {
        s.void_and_rest(5);
        s.void_and_rest(9);
        s.void(9)
    };
    checks.same(
        "r = 3 and q = 2 in a test",
        short(whole),
        "void-9 mode-2 2 0 0 0 0 0 0".into(),
    );
}

/// The record judged with its rows eight cells apart.
pub fn by_eights(content: &Content) -> String {
    let channels = content.codes.len();
    let mut wrong = content.clone();
    wrong.cells = content
        .cells
        .chunks_exact(8)
        .flat_map(|row| row[..channels].to_vec())
        .collect();
    rejudge_line(&wrong.bytes())
}

/// r = 3 looked at before q = 2.
fn wrong_after_void(standing: Standing, void: u8) -> Next {
    if standing.r + 1 == 3 {
        return Next::Ends(Word::Incomplete);
    }
    after_void(standing, void).1
}

/// The least sizes reach everything, whatever the seed.
fn check_least(checks: &mut Checks) {
    let [(_, records), (_, tests), (_, events), (_, journals), (_, cuts), (_, windows)] = least();
    for seed in 1..=10 {
        let missing = |reach: Reach| reach.missing().join("; ");
        let made = make_records(seed, records);
        checks.same("records", missing(reach_records(&made)), String::new());
        let made = make_tests(seed, tests);
        checks.same("tests", missing(reach_tests(&made)), String::new());
        let made = make_events(seed, events);
        checks.same("events", missing(reach_events(&made)), String::new());
        let made = make_journals(seed, journals);
        checks.same("journals", missing(reach_journals(&made)), String::new());
        let made = make_cuts(seed, cuts);
        checks.same("cuts", missing(reach_cuts(&made)), String::new());
        let made = make_averages(seed, windows);
        checks.same("averages", missing(reach_averages(&made)), String::new());
    }
}

/// All the asserts, in their order.
const CHECKS: [fn(&mut Checks); 108] = [
    check_readings,
    check_rounding,
    check_corrections,
    check_windows,
    check_co2,
    check_dcf,
    check_corrections_made,
    check_hundredths,
    check_older,
    check_apart,
    check_hundredths_names,
    check_means,
    check_settling,
    check_measuring,
    check_voids,
    check_kept,
    check_ended,
    check_engines,
    check_dips,
    check_invalid,
    check_emptied,
    check_kept_invalid,
    check_invalid_printed,
    check_window_names,
    check_records,
    check_writer,
    check_round_trips,
    check_line,
    check_wide_bytes,
    check_wide_reading,
    check_behind_wide,
    check_wide_writer,
    check_both_forms,
    check_widened,
    check_channel_cases,
    check_salvaged_rows,
    check_salvaged_luck,
    check_salvaged_stops,
    check_salvage_early,
    check_salvage_refusals,
    check_salvage_21,
    check_salvage_outputs,
    check_cut_record,
    check_every_length,
    check_salvage_laws,
    check_cuts_made,
    check_big_small,
    check_big_laws,
    check_big_ends,
    check_taken_apart,
    check_nearest,
    check_nearest_laws,
    check_bound,
    check_bound_laws,
    check_float_fits,
    check_cut,
    check_exact_by_hand,
    check_held,
    check_ends_of_k,
    check_premise,
    check_one_by_one,
    check_record_windows,
    check_averages_vectors,
    check_lines_checked,
    check_lines_beside,
    check_averages_lines,
    check_lines_fit,
    check_whole_averages,
    check_averages_made,
    check_pairs,
    check_tries,
    check_locks,
    check_bench,
    check_run_ends,
    check_run_locks,
    check_run_ages,
    check_run_refusals,
    check_run_items,
    check_prepare_ends,
    check_prepare_ages,
    check_prepare_order,
    check_prepare_use,
    check_refused_starts,
    check_prepare_refusals,
    check_lock_8_last,
    check_prepare_items,
    check_journal_bytes,
    check_journal_reading,
    check_journal_parameters,
    check_journal_writer,
    check_journal_items,
    check_named_journals,
    check_journal_round_trips,
    check_journal_vectors,
    check_start_lines,
    check_why_none,
    check_why_newest,
    check_why_rows,
    check_why_tests,
    check_why_of_locks,
    check_plausible,
    check_growing,
    check_gathered,
    check_accounted,
    check_invalid_gathered,
    check_samples,
    check_named,
    check_least,
];

pub fn selftest() -> bool {
    let mut checks = Checks {
        passed: 0,
        failed: 0,
    };
    CHECKS.iter().for_each(|check| check(&mut checks));
    println!("{} passed, {} failed", checks.passed, checks.failed);
    checks.failed == 0
}
