//! Own asserts: 64-bit floats as whole numbers.

use crate::averages_modes::{cut_text, float_fits, floats_line};
use crate::big::Big;
use crate::dice::Dice;
use crate::exact_averages::Fraction;
use crate::floats::{beside, hundredths_off, nearest_float, taken_apart, within, MINUS_ONE};
use crate::own_asserts::Checks;

const ONE: u64 = 0x3FF0_0000_0000_0000;

fn nearest(over: u128, under: u128) -> u64 {
    nearest_float(&Fraction::of(over, under))
}

pub fn check_taken_apart(checks: &mut Checks) {
    let two = |n: u32| 1u64 << n;
    for (name, bits, want) in [
        ("1", ONE, Some((two(52), -52))),
        ("100", 0x4059_0000_0000_0000, Some((25 << 48, -46))),
        (
            "0.1",
            0x3FB9_9999_9999_999A,
            Some((0x19_9999_9999_999A, -56)),
        ),
        ("2^52", 0x4330_0000_0000_0000, Some((two(52), 0))),
        ("2^53", 0x4340_0000_0000_0000, Some((two(52), 1))),
        (
            "the greatest",
            0x7FEF_FFFF_FFFF_FFFF,
            Some((two(53) - 1, 971)),
        ),
        ("the least normal", two(52), Some((two(52), -1074))),
        (
            "the greatest subnormal",
            two(52) - 1,
            Some((two(52) - 1, -1074)),
        ),
        ("the least", 1, Some((1, -1074))),
        ("zero", 0, None),
        ("minus zero", two(63), None),
        ("-1", MINUS_ONE, None),
        ("the least below zero", two(63) + 1, None),
        ("infinity", 0x7FF0_0000_0000_0000, None),
        ("minus infinity", 0xFFF0_0000_0000_0000, None),
        ("no number", 0x7FF8_0000_0000_0000, None),
        ("no number, signed", 0xFFFF_FFFF_FFFF_FFFF, None),
    ] {
        checks.same(name, taken_apart(bits), want);
    }
    checks.same("-1 by its sign", MINUS_ONE, ONE + two(63));
}

#[rustfmt::skip]
pub fn check_nearest(checks: &mut Checks) {
    let half = 1u128 << 53; // from here on floats are two apart
    for (name, got, want) in [
        ("0", nearest(0, 7), 0),
        ("1", nearest(9, 9), ONE),
        ("1/2", nearest(1, 2), 0x3FE0_0000_0000_0000),
        ("100", nearest(100, 1), 0x4059_0000_0000_0000),
        ("1/10", nearest(1, 10), 0x3FB9_9999_9999_999A),
        ("1/3", nearest(1, 3), 0x3FD5_5555_5555_5555),
        ("2/3", nearest(2, 3), 0x3FE5_5555_5555_5555),
        ("3/10", nearest(3, 10), 0x3FD3_3333_3333_3333),
        ("29997", nearest(29_997, 1), 0x40DD_4B40_0000_0000),
        ("2^53", nearest(half, 1), 0x4340_0000_0000_0000),
        ("2^53 + 1, a tie", nearest(half + 1, 1), 0x4340_0000_0000_0000),
        ("2^53 + 2", nearest(half + 2, 1), 0x4340_0000_0000_0001),
        ("2^53 + 3, a tie", nearest(half + 3, 1), 0x4340_0000_0000_0002),
        ("just above a tie", nearest(3 * half + 4, 3), 0x4340_0000_0000_0001),
        ("just below a tie", nearest(3 * half + 2, 3), 0x4340_0000_0000_0000),
        ("2^53 - 1", nearest(half - 1, 1), 0x433F_FFFF_FFFF_FFFF),
        ("2^53 - 1/2, a tie", nearest(2 * half - 1, 2), 0x4340_0000_0000_0000),
        ("2^53 - 3/2, a tie", nearest(2 * half - 3, 2), 0x433F_FFFF_FFFF_FFFE),
    ] {
        checks.same(name, got, want);
    }
    let powers = (0..120u32).all(|n| {
        let step = (n as u64) << 52;
        nearest(1 << n, 1) == ONE + step && nearest(1, 1 << n) == ONE - step
    });
    checks.same("powers of two", powers, true);
}

/// None beside the nearest is nearer, and of two equally near it is the even one.
fn is_nearest(exact: &Fraction) -> bool {
    let bits = nearest_float(exact);
    // All three times the same number, but for a power of two at most.
    let off = |bits: u64| beside(bits, exact);
    let nearer = |other: u64| match (off(bits), off(other)) {
        (Some(ours), Some(theirs)) => {
            let across = ours.over.times(&theirs.under);
            let theirs = theirs.over.times(&ours.under);
            across < theirs || (across == theirs && bits % 2 == 0)
        }
        _ => false,
    };
    nearer(bits - 1) && nearer(bits + 1)
}

fn some_fraction(dice: &mut Dice) -> Fraction {
    let (long, short) = (dice.below(100) as usize, dice.below(100) as usize);
    let mut part = |shift: usize| {
        let odd = Big::from((dice.next() >> dice.below(64)) as u128 | 1);
        odd.shifted(shift)
    };
    Fraction {
        over: part(long),
        under: part(short),
    }
}

pub fn check_nearest_laws(checks: &mut Checks) {
    let mut dice = Dice(41);
    let wrong = (0..2000).filter(|_| !is_nearest(&some_fraction(&mut dice)));
    checks.same("the nearest of three", wrong.count(), 0);
    // Ties: a whole number of 54 bits that ends in 1.
    let wrong = (0..2000).filter(|_| {
        let tie = (dice.next() >> 10) | 1 << 53 | 1;
        let bits = nearest(tie as u128, 1);
        bits % 2 == 1 || !is_nearest(&Fraction::of(tie as u128, 1))
    });
    checks.same("ties to even", wrong.count(), 0);
    let exactly = (0..2000).filter(|_| {
        let bits = ONE + (dice.below(1 << 57)) - (1 << 56);
        let (m, e) = taken_apart(bits).unwrap_or((0, 0));
        let (over, under) = (Big::from(m as u128), Big::from(1));
        let exact = Fraction {
            over: over.shifted(e.max(0) as usize),
            under: under.shifted((-e).max(0) as usize),
        };
        nearest_float(&exact) != bits || hundredths_off(bits, &exact) != Some(Big::from(0))
    });
    checks.same("a float itself", exactly.count(), 0);
}

pub fn check_bound(checks: &mut Checks) {
    let one = Fraction::of(1, 1);
    let beside_one = |step: i64| within(ONE.wrapping_add_signed(step), &one, 45);
    // A step is 2^-52 above 1 and 2^-53 below it.
    let above = [1 << 6, 1 << 7, (1 << 7) + 1, 1 << 8].map(beside_one);
    checks.same(
        "1 + 2^-46, 2^-45, more, 2^-44",
        above,
        [true, true, false, false],
    );
    let below = [1 << 7, 1 << 8, (1 << 8) + 1, 1 << 9].map(|step: i64| beside_one(-step));
    checks.same(
        "1 - 2^-46, 2^-45, more, 2^-44",
        below,
        [true, true, false, false],
    );
    let third = Fraction::of(1, 3);
    let off = hundredths_off(nearest(1, 3), &third);
    // 1/3 lies 2^-54/3 above its float: 2^-54, half of 2^-53, of itself.
    checks.same("how far 1/3 is off", off, Some(Big::from(50)));
}

/// e(1 ± 2^-power), rounded to a float, as an answer for e.
fn moved_fits(exact: &Fraction, power: usize, up: bool) -> bool {
    let two = Big::from(1).shifted(power);
    let factor = match up {
        true => two.plus(&Big::from(1)),
        false => two.minus(&Big::from(1)),
    };
    let factor = Fraction {
        over: factor,
        under: two,
    };
    float_fits(Some(exact), nearest_float(&exact.times(&factor)))
}

pub fn check_bound_laws(checks: &mut Checks) {
    let mut dice = Dice(42);
    let wrong = (0..1000).filter(|_| {
        let exact = some_fraction(&mut dice);
        let fits = |power| [true, false].map(|up| moved_fits(&exact, power, up));
        fits(46) != [true; 2] || fits(44) != [false; 2]
    });
    checks.same("2^-46 accepted, 2^-44 refused", wrong.count(), 0);
}

pub fn check_float_fits(checks: &mut Checks) {
    let minus_zero = 1u64 << 63;
    let infinity = 0x7FF0_0000_0000_0000;
    let patterns = [
        0,
        minus_zero,
        1,
        ONE,
        MINUS_ONE,
        MINUS_ONE + 1,
        infinity,
        infinity + 1,
        u64::MAX,
    ];
    let fitting = |exact: Option<&Fraction>| patterns.map(|bits| float_fits(exact, bits));
    let only = |bits: u64| patterns.map(|pattern| pattern == bits);
    checks.same("outside", fitting(None), only(MINUS_ONE));
    checks.same("of zero", fitting(Some(&Fraction::of(0, 5))), only(0));
    checks.same("of 1", fitting(Some(&Fraction::of(1, 1))), only(ONE));
    let text = |averages| floats_line(&averages);
    let outside = "bff0000000000000 bff0000000000000 bff0000000000000";
    checks.same("line outside", text(None), outside.to_string());
    let some = [(0, 1), (1, 10), (100, 1)].map(|(over, under)| Fraction::of(over, under));
    let line = "0000000000000000 3fb999999999999a 4059000000000000";
    checks.same("line", text(Some(some)), line.to_string());
}

pub fn check_cut(checks: &mut Checks) {
    for (over, under, want) in [
        (0, 3, "0.000000000"),
        (2, 3, "0.666666666"),
        (1, 10, "0.100000000"),
        (1, 1_000_000_000, "0.000000001"),
        (1, 1_000_000_001, "0.000000000"),
        (9_999_999_999_9, 10_000_000_000, "9.999999999"),
        (3, 1, "3.000000000"),
        (435, 2, "217.500000000"),
        (12_103_456_789_099, 100_000_000_000, "121.034567890"),
        (2_500_000, 20_733, "120.580716731"),
    ] {
        checks.same(
            "cut",
            cut_text(&Fraction::of(over, under)),
            want.to_string(),
        );
    }
}
