//! 64-bit floats as whole numbers: the bits of one taken apart, the one nearest to a fraction, how far one is beside it.

use crate::big::Big;
use crate::exact_averages::Fraction;

/// The bits of -1.
pub const MINUS_ONE: u64 = 0xBFF0_0000_0000_0000;

/// m and e of a positive finite number m·2^e; none for zero, all below it, infinity and what is no number.
pub fn taken_apart(bits: u64) -> Option<(u64, i32)> {
    let (head, fraction) = (bits >> 52, bits & ((1 << 52) - 1));
    match head {
        0 if fraction > 0 => Some((fraction, -1074)),
        1..=2046 => Some((fraction + (1 << 52), head as i32 - 1075)),
        _ => None, // from 2048 on the sign is set
    }
}

/// A fraction times 2^n.
fn scaled(exact: &Fraction, n: i64) -> Fraction {
    Fraction {
        over: exact.over.shifted(n.max(0) as usize),
        under: exact.under.shifted((-n).max(0) as usize),
    }
}

/// The bits of the float nearest to a fraction, of two equally near the even one. For zero and from
/// the least normal number to the greatest.
pub fn nearest_float(exact: &Fraction) -> u64 {
    if exact.is_zero() {
        return 0;
    }
    // 2^log is the greatest power of two that is at most the fraction.
    let mut log = exact.over.bits() as i64 - exact.under.bits() as i64;
    let at_log = scaled(exact, -log);
    if at_log.over < at_log.under {
        log -= 1;
    }
    assert!((-1022..=1023).contains(&log), "no normal number");
    let Fraction { over, under } = scaled(exact, 52 - log);
    let (whole, rest) = over.divided(&under);
    let whole = whole.small().expect("53 bits") as u64;
    let up = match rest.shifted(1).cmp(&under) {
        std::cmp::Ordering::Less => 0,
        std::cmp::Ordering::Equal => whole & 1,
        std::cmp::Ordering::Greater => 1,
    };
    // A carry out of the 53 bits is the next power of two.
    (((log + 1023) as u64) << 52) + (whole - (1 << 52)) + up
}

/// |x − e| and e, both times the same number; none where x is not positive and finite.
pub fn beside(bits: u64, exact: &Fraction) -> Option<Fraction> {
    let (m, e) = taken_apart(bits)?;
    let x = scaled(&Fraction::of(m as u128, 1), e as i64);
    let x_times = x.over.times(&exact.under);
    let e_times = exact.over.times(&x.under);
    Some(Fraction {
        over: x_times.apart(&e_times),
        under: e_times,
    })
}

/// A positive finite x with |x − e|·2^power ≤ e.
pub fn within(bits: u64, exact: &Fraction, power: usize) -> bool {
    beside(bits, exact).is_some_and(|off| off.over.shifted(power) <= off.under)
}

/// |x − e|/e in hundredths of 2^-53, cut; e is not 0.
pub fn hundredths_off(bits: u64, exact: &Fraction) -> Option<Big> {
    let off = beside(bits, exact)?;
    let hundred = off.over.times(&Big::from(100));
    Some(hundred.shifted(53).divided(&off.under).0)
}
