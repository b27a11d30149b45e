//! Own asserts: what is printed for the starts of a journal.

use crate::asserts_bench::{GOOD, START};
use crate::bench::Event;
use crate::journaling::{journal_lines, Journal};
use crate::own_asserts::{Checks, LISTED};
use crate::scripted_events::{ready_bench, WRONG};

const ON: Event = Event::PowerOn;

const SECOND: Event = Event::Second([0; 8]);

pub fn bytes_of(u: u16, events: &[(u32, Event)]) -> Vec<u8> {
    let journal = Journal {
        v: 900,
        u,
        events: events.to_vec(),
    };
    journal.bytes()
}

/// Eight events at clock 100 that leave no lock standing: an upload, an unlock, a warm-up, a calibration,
/// a good try, a prepare and the two runs. Then others.
pub fn ready_and(events: &[(u32, Event)]) -> Vec<(u32, Event)> {
    [ready_bench(100), events.to_vec()].concat()
}

/// One start after another: what is printed.
#[rustfmt::skip]
pub fn check_start_lines(checks: &mut Checks) {
    let mut same = |events: &[(u32, Event)], want: &[&str]| {
        checks.same("lines", journal_lines(&bytes_of(1, events)), want.iter().map(|w| w.to_string()).collect());
    };
    let mut unfit = LISTED;
    unfit[6] = 799;
    same(&[], &[]);
    same(&[(5, ON), (4, Event::Upload), (6, Event::Stop(9))], &[]);
    same(&[(0, START)], &["1"]);
    same(&[(0, START), (0, Event::WarmUp), (0, START), (1801, START)], &["1", "3", "2"]);
    same(&ready_and(&[(100, START), (100, START), (100, Event::Start(unfit, 2339)), (99, START)]),
        &["admitted", "refused 12", "refused 12", "refused 11"]);
    same(&ready_and(&[(100, Event::Start(unfit, 499)), (100, Event::Start(LISTED, 499)), (99, Event::Start(unfit, 0)), (100, START)]),
        &["refused 4", "refused 5", "refused 11", "admitted"]);
    same(&ready_and(&[(100, START), (100, ON), (100, START)]), &["admitted", "1"]);
    same(&ready_and(&[(100, WRONG), (100, START)]), &["4"]);
    same(&ready_and(&[(100, WRONG), (100, WRONG), (100, WRONG), (100, WRONG), (100, GOOD), (100, START)]), &["5"]);
    same(&ready_and(&[(100, Event::AuthorityLock), (100, START)]), &["6"]);
    same(&ready_and(&[(221, START)]), &["8"]);
    same(&ready_and(&[(100, START), (100, SECOND), (101, Event::Stop(0)), (102, START)]), &["admitted", "refused 12"]);
    checks.same("unfit", journal_lines(&[2]), vec!["refused 1 1".to_string()]);
}
