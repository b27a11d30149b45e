//! Windows at the corners of averages before rounding, each for a reason.

use crate::exact_averages::Case;
use crate::numbers::{dilution_divisor, judge_reading, Reading, GREATEST, MISSING, OVER};
use crate::script::{bits_of, nearest_bits};
use crate::vehicle::setting_ranges;

const MANUAL: u16 = 1;

const AUTOMATIC: u16 = 2;

impl Case {
    /// Bits of a code in second `i`, from 0.
    pub fn set_bits(&mut self, i: usize, code: u8, bits: u32) {
        self.ten[i][code as usize - 1] = bits;
    }

    pub fn set(&mut self, i: usize, code: u8, units: i64) {
        self.set_bits(i, code, bits_of(code, units, 0));
    }

    pub fn set_all(&mut self, code: u8, units: i64) {
        (0..10).for_each(|i| self.set(i, code, units));
    }

    /// CO2 and CO of second `i`.
    fn set_pair(&mut self, i: usize, (co2, co): (i64, i64)) {
        self.set(i, 7, co2);
        self.set(i, 5, co);
    }
}

/// Document 01's car and air; each second has gases of its own.
pub fn plain(gearbox: u16) -> Case {
    let mut case = Case {
        settings: [1, 2005, 125, gearbox, 50, 20, 1013],
        p: 2339,
        ten: [[0; 8]; 10],
    };
    for i in 0..10 {
        let step = i as i64;
        let gases = [100 + 13 * step, 100 + 7 * step, 200 + 11 * step];
        for (code, units) in [(1, 250), (2, 85), (3, 4000), (7, 1200 - 9 * step), (8, 10)] {
            case.set(i, code, units);
        }
        (4..).zip(gases).for_each(|(code, n)| case.set(i, code, n));
    }
    case
}

fn changed(change: impl Fn(&mut Case)) -> Case {
    let mut case = plain(MANUAL);
    change(&mut case);
    case
}

/// A sum of 600 and one of 599 in each second, and in all; by readings just rounded up, and just down.
fn sums() -> Vec<Case> {
    let mut list = Vec::new();
    for i in 0..10 {
        for co in [100, 99] {
            list.push(changed(|c| c.set_pair(i, (500, co))));
        }
        let edge = |side: i32| {
            changed(|c| {
                c.set_bits(i, 7, edge_bits(7, 500, side));
                c.set_bits(i, 5, edge_bits(5, 100 - (side > 0) as i64, side));
            })
        };
        list.extend([edge(-1), edge(1)]);
    }
    for pair in [
        (500, 100),
        (500, 99),
        (600, 0),
        (599, 0),
        (0, 600),
        (0, 599),
    ] {
        list.push(changed(|c| (0..10).for_each(|i| c.set_pair(i, pair))));
    }
    list
}

/// The least bits above zero that count as so many units, with a side of −1, or the greatest, with 1.
pub fn edge_bits(code: u8, units: i64, side: i32) -> u32 {
    let counts = |bits: u32| judge_reading(code, false, bits) == Some(Reading::Units(units));
    let mut bits = nearest_bits(code, units as f64 + side as f64 / 2.0);
    while counts(bits) {
        bits = bits.wrapping_add_signed(side);
    }
    while !counts(bits) {
        bits = bits.wrapping_add_signed(-side);
    }
    bits
}

/// The bits farthest below zero that count as 0: the greatest of those with a sign.
fn zero_edge(code: u8) -> u32 {
    let counts = |bits: u32| judge_reading(code, false, bits) == Some(Reading::Units(0));
    let mut bits = nearest_bits(code, -0.5);
    while counts(bits) {
        bits += 1;
    }
    while !counts(bits) {
        bits -= 1;
    }
    bits
}

/// Each gas over range in each second, all of them in all.
fn over_ranges() -> Vec<Case> {
    let each = (4..=7).flat_map(|code| (0..10).map(move |i| (code, i)));
    let mut list: Vec<Case> = each
        .map(|(code, i)| changed(|c| c.set_bits(i, code, OVER)))
        .collect();
    list.push(changed(|c| {
        c.ten.iter_mut().for_each(|second| second[3..7].fill(OVER))
    }));
    list
}

/// Oxygen and engine speed missing, oxygen over range: in one second and in all, with both gearboxes.
fn absent() -> Vec<Case> {
    let mut list = Vec::new();
    for gearbox in [MANUAL, AUTOMATIC] {
        for (code, bits) in [(8, MISSING), (8, OVER), (3, MISSING)] {
            for seconds in [0..1, 4..5, 9..10, 0..10] {
                let mut case = plain(gearbox);
                seconds.for_each(|i| case.set_bits(i, code, bits));
                list.push(case);
            }
        }
    }
    list
}

/// Each code unfit in each way.
fn unfit_readings() -> Vec<Case> {
    let mut list = Vec::new();
    for code in 1..=8u8 {
        let above = bits_of(code, GREATEST[code as usize - 1] as i64 + 1, 0);
        let below = bits_of(code, -1, 0);
        let mut ways = vec![above, below, 0x7F7F_FFFF, 0x7FC0_0001, 0xFF80_0000];
        if code != 8 {
            ways.push(MISSING);
        }
        if code < 4 {
            ways.push(OVER);
        }
        for (way, bits) in ways.into_iter().enumerate() {
            let i = (3 * code as usize + way) % 10;
            list.push(changed(|c| c.set_bits(i, code, bits)));
        }
    }
    list
}

/// Each setting at both ends of its range and one beside them.
fn settings() -> Vec<Case> {
    let mut list = Vec::new();
    for (i, (least, greatest)) in setting_ranges(1).into_iter().enumerate() {
        let below = (least > 0).then(|| least - 1);
        let values = [Some(least), Some(greatest), Some(greatest + 1), below];
        for value in values.into_iter().flatten() {
            list.push(changed(|c| {
                c.settings[2] = 50; // fit for a moped too
                c.settings[i] = value;
            }));
        }
    }
    list.push(changed(|c| (c.settings[0], c.settings[2]) = (2, 51)));
    list.push(changed(|c| (c.settings[0], c.settings[2]) = (2, 50)));
    for p in [499, 500, 4300, 4301, 0, 65_535] {
        list.push(changed(|c| c.p = p));
    }
    list
}

/// Gases at zero: one alone, two, all three, in all seconds and in nine of them.
fn zeros() -> Vec<Case> {
    let mut list = Vec::new();
    for codes in [&[4][..], &[5], &[6], &[4, 5], &[4, 6], &[5, 6], &[4, 5, 6]] {
        let zero = |c: &mut Case, seconds: std::ops::Range<usize>| {
            for i in seconds {
                codes.iter().for_each(|code| c.set(i, *code, 0));
            }
        };
        list.push(changed(|c| zero(c, 0..10)));
        list.push(changed(|c| zero(c, 0..9)));
        list.push(changed(|c| zero(c, 1..10)));
    }
    // The least that is not zero: one unit in one second, DCF 1.
    for code in 4..=6 {
        list.push(changed(|c| {
            (c.settings[4], c.p) = (0, 500);
            c.set_all(7, 1800);
            (4..=6).for_each(|code| c.set_all(code, 0));
            c.set(7, code, 1);
        }));
    }
    // All zero by minus zero, and by half a unit below zero.
    for [hc_and_no, co] in [[-0.0f32, -0.0], [-0.5, -0.005]] {
        list.push(changed(|c| {
            for i in 0..10 {
                for (code, value) in [(4, hc_and_no), (5, co), (6, hc_and_no)] {
                    c.set_bits(i, code, value.to_bits());
                }
            }
        }));
    }
    list
}

/// The pairs of CO2 and CO with a sum of 600 or more whose D, times a factor, is 10^7 or nearest to
/// it: the greatest of those below, and the least of those above.
pub fn pairs_about(factor: i64) -> [(i64, i64); 2] {
    let d = |co2: i64, co: i64| dilution_divisor(co2 as u128, co as u128) as i64;
    let far = |(co2, co): &(i64, i64)| factor * d(*co2, *co) - 10_000_000;
    // For each CO2 the CO on both sides.
    let about = |co2: i64| (10_000_000 / factor - d(co2, 0)) / d(0, 1);
    let pairs = (0..=1800).flat_map(|co2| (-1..=2).map(move |more| (co2, about(co2) + more)));
    let enough = pairs.filter(|(co2, co)| (0..=2000).contains(co) && co2 + co >= 600);
    let below = enough.clone().filter(|pair| far(pair) < 0).max_by_key(far);
    let above = enough.filter(|pair| far(pair) > 0).min_by_key(far);
    [below.unwrap_or((0, 600)), above.unwrap_or((1800, 2000))]
}

/// The pair with a D of just 10^7.
pub const JUST_ONE: (i64, i64) = (1268, 372);

/// D at, just below and just above where DCF is held, and far from there.
fn held() -> Vec<Case> {
    let [below_one, above_one] = pairs_about(1);
    let [below_three, above_three] = pairs_about(3);
    let pairs = [below_one, JUST_ONE, above_one, below_three, above_three];
    let far = [(1800, 2000), (1800, 0), (0, 600), (0, 717), (0, 718)];
    let mut list = Vec::new();
    for pair in pairs.into_iter().chain(far) {
        list.push(changed(|c| (0..10).for_each(|i| c.set_pair(i, pair))));
        list.push(changed(|c| c.set_pair(6, pair)));
    }
    // Held at both ends and not held, in turn.
    list.push(changed(|c| {
        let turns = pairs.iter().cycle().take(10).enumerate();
        turns.for_each(|(i, pair)| c.set_pair(i, *pair));
    }));
    list.push(changed(|c| {
        (0..10).for_each(|i| c.set_pair(i, far[i % 2 * 3]));
    }));
    list
}

/// No CO2 at all, with DCF held at 3 and not.
fn without_co2() -> Vec<Case> {
    let cos = [600, 700, 800, 1500, 2000];
    let all = cos.map(|co| changed(|c| (0..10).for_each(|i| c.set_pair(i, (0, co)))));
    let one = cos.map(|co| changed(|c| c.set_pair(2, (0, co))));
    all.into_iter().chain(one).collect()
}

/// The ends of k, each with the least and greatest gases that there are.
fn ends_of_k() -> Vec<Case> {
    let mut list = Vec::new();
    for (r, p, b) in [
        (0, 2339, 1013),
        (0, 4300, 800),
        (100, 4300, 800),
        (100, 500, 1100),
        (1, 500, 1100),
    ] {
        let air = |c: &mut Case| {
            (c.settings[4], c.p, c.settings[6]) = (r, p, b);
        };
        list.push(changed(air));
        for (hc, no, pair) in [
            (9999, 5000, (0, 717)),
            (9999, 5000, (0, 2000)),
            (9999, 5000, (1800, 2000)),
            (1, 1, (1800, 1)),
        ] {
            list.push(changed(|c| {
                air(c);
                c.set_all(4, hc);
                c.set_all(6, no);
                (0..10).for_each(|i| c.set_pair(i, pair));
            }));
        }
    }
    list
}

/// Each code's minus zero, the least and greatest bits of its units, and the first that are unfit.
fn edges() -> Vec<Case> {
    let mut list = Vec::new();
    for code in 1..=8u8 {
        let greatest = GREATEST[code as usize - 1] as i64;
        let (below, above) = (zero_edge(code), edge_bits(code, greatest, 1));
        let mut edges = vec![
            0x8000_0000,
            edge_bits(code, 0, 1),
            below,
            below + 1,
            above + 1,
        ];
        for units in [1, 123, greatest - 1, greatest] {
            edges.extend([-1, 1].map(|side| edge_bits(code, units, side)));
        }
        list.extend(edges.into_iter().map(|bits| {
            changed(|c| {
                c.set_pair(5, (1200, 600));
                c.set_bits(5, code, bits);
            })
        }));
    }
    // Document 01's CO of 100 that a float product takes for 101.
    list.push(changed(|c| c.set_bits(0, 5, 0x3F80_A3D7)));
    list
}

/// Faults of several sorts at once.
fn many_faults() -> Vec<Case> {
    let over = |c: &mut Case| c.set_bits(1, 6, OVER);
    vec![
        changed(|c| (c.p, c.settings[6]) = (499, 799)),
        changed(|c| {
            over(c);
            c.set_pair(2, (599, 0));
        }),
        changed(|c| {
            over(c);
            c.set_bits(3, 1, MISSING);
        }),
        changed(|c| {
            over(c);
            c.settings[3] = 3;
        }),
    ]
}

/// HC, CO and NO zero in all seconds, outside the premise for each reason.
fn zeros_outside() -> Vec<Case> {
    let changes: [fn(&mut Case); 5] = [
        |c| c.settings[4] = 101,
        |c| c.p = 499,
        |c| c.set(9, 1, 1000),
        |c| c.set_bits(9, 7, OVER),
        |c| c.set(9, 7, 599),
    ];
    let with = |change: &fn(&mut Case)| {
        changed(|c| {
            (4..=6).for_each(|code| c.set_all(code, 0));
            change(c);
        })
    };
    changes.iter().map(with).collect()
}

pub fn averages_corners() -> Vec<Case> {
    let mut list = vec![plain(MANUAL), plain(AUTOMATIC)];
    for more in [
        sums(),
        over_ranges(),
        absent(),
        unfit_readings(),
        settings(),
        zeros(),
        held(),
        without_co2(),
        ends_of_k(),
        edges(),
        many_faults(),
        zeros_outside(),
    ] {
        list.extend(more);
    }
    list
}
