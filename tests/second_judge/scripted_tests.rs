//! Making input: scripted tests, each for a reason.

use crate::script::{Item, Script};
use crate::scripted_dips::{DIPS, MORE_DIPS};
use crate::vehicle::Vehicle;

/// Scripted tests from the first second of the test. Two voids at most come before the last attempt.
#[rustfmt::skip]
const FROM_START: [fn(&mut Script); 20] = [
    // One engine speed missing: the newest of a window, then the oldest, then in none.
    |s| {
        s.void_and_rest(1); s.void_and_rest(2);
        s.missing = 0; s.settle(); s.clean(14); s.no_engine(); s.clean(10);
    },
    // 15 from target, and second 10 at 8 below second 1.
    |s| { s.void_and_rest(3); s.void_and_rest(4); s.settle_at_edge(); s.falling(25, 8) },
    // At 9 below the pass waits for t = 90.
    |s| { s.void_and_rest(5); s.void_and_rest(6); s.settle(); s.falling(90, 9) },
    // Void 8 on a restart, a stop in the rest, a window at engine speed 0, a pass on a second that is
    // out and has no engine speed.
    |s| {
        s.void_and_rest(7);
        s.far(142 - s.settling()); s.settle(); s.out(3);
        s.stop(1); s.rest();
        s.missing = 0; s.settle(); s.engine_at_0(10); s.clean(14);
        s.seconds(1, |w| (w.units[0], w.missing) = (w.units[0] + 16, 100));
    },
    // Sums 600, 601, 599, all others by tenths; n = 25 (in mode 2: 15) with g = 4; with g = 5, at 50 from target.
    |s| {
        s.settle_by_hundredths(); s.clean(10); s.sum_with(601, 553); s.sum_with(599, 546); s.rest();
        s.unready(s.patience() - 4); s.clean(4); s.rest();
        s.unready_at_edge(s.patience() - 5); s.pass();
    },
    // Stops at c = 0, in an attempt and in the rest; a rest broken by speed 10.
    |s| {
        s.stop(1); s.idle(2, 10); s.stop(2);
        s.clean(5); s.stop(3); s.stop(4); s.idle(5, 9); s.stop(1); s.idle(5, 9); s.stop(2);
        s.clean(3); s.stop(1); s.idle(9, 9); s.at_speed(10); s.rest();
        s.settle(); s.clean(30);
    },
    |s| { s.void_and_rest(1); s.void_and_rest(2); s.void(3) },
    |s| { s.void_and_rest(5); s.void_and_rest(6); s.void(7) },
    // Another void than 9 between two sets q back.
    |s| { s.void_and_rest(9); s.void_and_rest(5); s.void(9) },
    |s| { s.void_and_rest(4); s.void_and_rest(6); s.void(8) },
    // Speeds 10 and 11 at c = 0; restarts by u = 3 and w = 6, none by u = 2.
    |s| {
        s.idle_at_10(); s.idle(2, 10); s.at_speed(11); s.at_speed(5);
        s.settle(); s.clean(12); s.out(3);
        for _ in 0..6 { s.clean(2); s.out(1) }
        s.out(2); s.clean(30);
    },
    // Settling begun again by u = 2, by w = 5, and by u = 2 at n = 20.
    |s| {
        s.clean(3); s.far(2);
        for _ in 0..5 { s.unready(1); s.far(1) }
        s.unready(18); s.far(2); s.far(3); s.pass_by_hundredths();
    },
    // u = 2 at n = 21; void 7, not 8, at c = 145; void 8 in settling, its counts kept.
    |s| {
        s.unready(19); s.far(2); s.clean(4); s.rest();
        s.far(145 - s.patience()); s.unready(s.patience()); s.rest();
        s.far(130); s.unready(13); s.clean(2);
    },
    // At c = 145: void 9; void 8 where measuring begins; a pass with t = 90.
    |s| {
        s.far(55 - s.settling()); s.settle(); s.inconclusive(false); s.rest();
        s.far(145 - s.settling()); s.settle(); s.rest();
        s.far(55 - s.settling()); s.settle(); s.late(9);
    },
    // Engine speeds at the ends of good, while settling and while measuring.
    |s| {
        s.engine(3000); s.engine(5000); s.clean(2); s.engine(5001); s.engine(2999);
        s.settle(); s.clean(3); s.engine(3000); s.clean(3); s.engine(5000); s.clean(4);
        s.engine(2999); s.clean(4); s.engine(5001); s.clean(40);
    },
    |s| { s.settle(); s.narrow(12, false); s.narrow(18, true); s.close(60) },
    // Engine speeds whose mean is at a half, then below it; stops while measuring; then second 10
    // more than 8 above second 1.
    |s| {
        s.settle(); s.engines(9, 3999); s.engine(4004); s.engine(3998); s.clean(9); s.stop(4); s.rest();
        s.settle(); s.dirty(40); s.stop(3); s.rest();
        s.settle(); s.falling(25, -9);
    },
    // Counts kept by a verdict: in settling by voids 5 and 7, in measuring by void 6.
    |s| { s.void_and_rest(1); s.void_and_rest(2); s.clean(3); s.far(1); s.sum_with(599, 547) },
    |s| {
        s.void_and_rest(3); s.void_and_rest(4);
        s.unready(s.patience() - 6); s.far(1); s.unready(1); s.clean(4);
    },
    |s| {
        s.void_and_rest(1); s.void_and_rest(2);
        s.settle(); s.clean(3); s.out(1); s.seconds(1, |w| w.over = 4);
    },
];

/// Scripted tests from the beginning of mode 2; each but the last ones reaches it in another way.
#[rustfmt::skip]
const FROM_MODE_2: [fn(&mut Script); 8] = [
    |s| { s.void_and_rest(1); s.void_and_rest(2); s.settle_at_edge(); s.falling(25, -9) },
    |s| { s.void_and_rest(3); s.void_and_rest(4); s.settle(); s.narrow(90, true) },
    // n = 15 with g = 5.
    |s| {
        s.void_and_rest(5); s.void_and_rest(6);
        for _ in 0..5 { s.unready(1); s.far(1) }
        s.settle(); s.falling(25, 8);
    },
    |s| { s.void_and_rest(7); s.void_and_rest(8); s.settle(); s.inconclusive(true) },
    |s| { s.void_and_rest(9); s.void(9) },
    // q = 2 comes before r = 3.
    |s| { s.void_and_rest(5); s.void_and_rest(9); s.void(9) },
    // n = 15 with g = 4.
    |s| { s.void_and_rest(1); s.void_and_rest(2); s.far(2); s.unready(11); s.clean(4) },
    // At c = 145: void 7; void 8 where measuring begins; a fail with t = 90.
    |s| {
        s.far(130); s.unready(15); s.rest();
        s.far(140); s.settle(); s.rest();
        s.far(50); s.settle(); s.dirty(90);
    },
];

/// The first of FROM_MODE_2.
const FIRST_IN_MODE_2: usize = FROM_START.len();

/// Where the dips begin, and where all of them are past.
pub const FIRST_DIP: usize = FIRST_IN_MODE_2 + FROM_MODE_2.len();

pub const PAST_DIPS: usize = REACHING + MORE_DIPS.len();

/// How many scripted tests reach everything that tests must, and how many there are with the
/// first ones in mode 2 too.
pub const REACHING: usize = FIRST_DIP + DIPS.len();

pub const SCRIPTS: usize = PAST_DIPS + FROM_START.len();

/// The gearbox for a scripted test: every third is automatic.
pub fn scripted_gearbox(index: usize) -> u16 {
    if index % 3 == 0 {
        2
    } else {
        1
    }
}

/// Scripted test number `index`.
pub fn scripted_test(car: Vehicle, seed: u64, index: usize) -> Option<Vec<Item>> {
    let mut script = Script::mixed(car, seed.wrapping_mul(1000).wrapping_add(index as u64));
    script.vary();
    // Those about dips go to mode 2 by themselves.
    match index {
        FIRST_IN_MODE_2..FIRST_DIP | PAST_DIPS.. => script.to_mode_2_by(index - FIRST_IN_MODE_2),
        _ => {}
    }
    let write = FROM_START
        .iter()
        .chain(&FROM_MODE_2)
        .chain(&DIPS)
        .chain(&MORE_DIPS)
        .chain(&FROM_START)
        .nth(index)?;
    write(&mut script);
    Some(script.items)
}
