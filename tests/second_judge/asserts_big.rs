//! Own asserts: whole numbers of any size.

use crate::big::Big;
use crate::dice::Dice;
use crate::own_asserts::Checks;

/// A number of up to so many bits, each length as often.
fn some_big(most: u64, dice: &mut Dice) -> Big {
    let bits = dice.below(most + 1) as usize;
    let words = (0..bits / 64).fold(Big::from(0), |number, _| {
        number.shifted(64).plus(&Big::from(dice.next() as u128))
    });
    let rest = dice.next() as u128 & ((1 << (bits % 64)) - 1);
    words.shifted(bits % 64).plus(&Big::from(rest))
}

fn some_small(bits: u64, dice: &mut Dice) -> u128 {
    let wide = (dice.next() as u128) << 64 | dice.next() as u128;
    match dice.below(bits + 1) {
        0 => 0,
        kept => wide >> (128 - kept),
    }
}

/// Against numbers of 128 bits.
pub fn check_big_small(checks: &mut Checks) {
    let mut dice = Dice(31);
    let mut wrong = [0; 9];
    for _ in 0..4000 {
        let (a, b) = (some_small(126, &mut dice), some_small(126, &mut dice));
        let (c, d) = (some_small(63, &mut dice), some_small(64, &mut dice));
        let n = dice.below(60) as usize;
        let [x, y, z, w] = [a, b, c, d].map(Big::from);
        let holds = [
            x.plus(&y).small() == Some(a + b),
            z.times(&w).small() == Some(c * d),
            x.apart(&y).small() == Some(a.abs_diff(b)),
            x.cmp(&y) == a.cmp(&b) && (x == y) == (a == b),
            z.shifted(n).small() == Some(c << n),
            x.bits() == 128 - a.leading_zeros() as usize,
            x.is_zero() == (a == 0) && x.small() == Some(a),
            x.to_string() == a.to_string(),
            d == 0 || x.divided(&w) == (Big::from(a / d), Big::from(a % d)),
        ];
        for (count, holds) in wrong.iter_mut().zip(holds) {
            *count += !holds as usize;
        }
    }
    checks.same("numbers of 128 bits", wrong, [0; 9]);
}

/// Identities of long numbers.
pub fn check_big_laws(checks: &mut Checks) {
    let mut dice = Dice(32);
    let mut wrong = [0; 9];
    for _ in 0..1000 {
        let [a, b, c] = [400, 400, 300].map(|most| some_big(most, &mut dice));
        let n = dice.below(200) as usize;
        let power = (0..n).fold(Big::from(1), |power, _| power.plus(&power));
        let by = c.plus(&Big::from(1));
        let (quotient, rest) = a.divided(&by);
        let holds = [
            a.plus(&b).minus(&b) == a,
            a.plus(&b) == b.plus(&a) && a.times(&b) == b.times(&a),
            a.plus(&b).times(&c) == a.times(&c).plus(&b.times(&c)),
            a.times(&b).times(&c) == a.times(&b.times(&c)),
            quotient.times(&by).plus(&rest) == a && rest < by,
            a.times(&by).divided(&by) == (a.clone(), Big::from(0)),
            a.shifted(n) == a.times(&power) && power.bits() == n + 1,
            a.apart(&b) == b.apart(&a) && a.apart(&b).plus((&a).min(&b)) == *(&a).max(&b),
            a.is_zero() || a.shifted(n).bits() == a.bits() + n,
        ];
        for (count, holds) in wrong.iter_mut().zip(holds) {
            *count += !holds as usize;
        }
    }
    checks.same("identities", wrong, [0; 9]);
}

/// Carries, borrows and ends by hand.
pub fn check_big_ends(checks: &mut Checks) {
    let (zero, one) = (Big::from(0), Big::from(1));
    let two_128 = one.shifted(128);
    let text = "340282366920938463463374607431768211456";
    checks.same("2^128", two_128.to_string(), text.to_string());
    checks.same("2^128 in 128 bits", two_128.small(), None);
    checks.same("2^128 − 1", two_128.minus(&one).small(), Some(u128::MAX));
    let carried = Big::from(u128::MAX).plus(&one);
    checks.same("carried through", carried, two_128.clone());
    let square = Big::from(u128::MAX).times(&Big::from(u128::MAX));
    let want = one.shifted(256).minus(&one.shifted(129)).plus(&one);
    checks.same("(2^128 − 1)^2", square, want);
    let million = Big::from(1_000_000_000);
    let text = format!("1{}", "0".repeat(36));
    let product = [&million; 4].iter().fold(one.clone(), |p, m| p.times(m));
    checks.same("10^36", product.to_string(), text);
    checks.same("0", (zero.to_string(), zero.bits()), ("0".into(), 0));
    checks.same("0 times", zero.times(&two_128), zero.clone());
    checks.same("0 shifted", zero.shifted(70), zero.clone());
    let below = million.divided(&two_128);
    checks.same("less than the divisor", below, (zero.clone(), million));
    let equal = two_128.divided(&two_128);
    checks.same("the divisor itself", equal, (one, zero));
}
