//! Making input: scripted tests about dips, seconds of a run that are 8 or 9 below its second 1.

use crate::script::Script;

/// In first runs: a dip of 9 holds the pass back, one of 8 in the next attempt does not.
fn first(s: &mut Script, second: usize) {
    s.settle();
    s.dip(second, 9, 25);
    s.stop(3);
    s.rest();
    s.settle();
    s.dip(second, 8, 25);
}

/// Runs with a dip of 8, cut short by restarts, then runs with a dip of 9, each held back and
/// ended by a restart; the last run has a dip of 8 and passes.
fn later(s: &mut Script, seconds: &[usize]) {
    s.settle();
    for second in seconds {
        s.dip(*second, 8, *second);
        s.out(3);
    }
    for second in seconds {
        s.dip(*second, 9, 25);
        s.out(3);
    }
    s.dip(seconds[seconds.len() - 1], 8, 25);
}

/// A deep dip in a run of fewer than ten seconds, its second 1 well above the next run, whose own
/// dip comes too late to count: it passes.
fn eleventh(s: &mut Script) {
    s.settle();
    s.dip(3, 24, 3);
    s.out(3);
    s.dip(11, 9, 25);
}

/// A run that begins low, then one held back by a fall of 1 a second from its own second 1: it
/// passes at t = 90.
fn slow_fall(s: &mut Script) {
    s.settle();
    s.dip(3, -24, 3);
    s.out(3);
    s.slow_fall(90);
}

/// Dips at each of seconds 2 to 10, in mode 2 three of them in one attempt.
#[rustfmt::skip]
pub const DIPS: [fn(&mut Script); 26] = [
    |s| first(s, 2), |s| first(s, 3), |s| first(s, 4), |s| first(s, 5), |s| first(s, 6),
    |s| first(s, 7), |s| first(s, 8), |s| first(s, 9), |s| first(s, 10),
    |s| later(s, &[2]), |s| later(s, &[3]), |s| later(s, &[4]), |s| later(s, &[5]), |s| later(s, &[6]),
    |s| later(s, &[7]), |s| later(s, &[8]), |s| later(s, &[9]), |s| later(s, &[10]),
    eleventh,
    slow_fall,
    |s| { s.to_mode_2(); first(s, 6) },
    |s| { s.to_mode_2(); later(s, &[2, 5, 8]) },
    |s| { s.to_mode_2(); later(s, &[3, 6, 9]) },
    |s| { s.to_mode_2(); later(s, &[4, 7, 10]) },
    |s| { s.to_mode_2(); eleventh(s) },
    |s| { s.to_mode_2(); slow_fall(s) },
];

/// What is left of the dips in mode 2: each needs a test of its own.
#[rustfmt::skip]
pub const MORE_DIPS: [fn(&mut Script); 14] = [
    |s| { s.to_mode_2(); first(s, 2) },
    |s| { s.to_mode_2(); first(s, 3) },
    |s| { s.to_mode_2(); first(s, 4) },
    |s| { s.to_mode_2(); first(s, 5) },
    |s| { s.to_mode_2(); first(s, 7) },
    |s| { s.to_mode_2(); first(s, 8) },
    |s| { s.to_mode_2(); first(s, 9) },
    |s| { s.to_mode_2(); first(s, 10) },
    |s| { s.to_mode_2(); later(s, &[2]) },
    |s| { s.to_mode_2(); later(s, &[3]) },
    |s| { s.to_mode_2(); later(s, &[4]) },
    |s| { s.to_mode_2(); later(s, &[5]) },
    |s| { s.to_mode_2(); later(s, &[6]) },
    |s| { s.to_mode_2(); later(s, &[7]) },
];
