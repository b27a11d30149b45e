//! Own asserts: exact averages, by hand and in a second way; the premise.

use crate::averages_corners::plain;
use crate::averages_seen::Seen;
use crate::big::Big;
use crate::exact_averages::{dilution_fraction, record_averages, Case, Exact, Fraction};
use crate::items::Items;
use crate::make_averages::{make_averages, make_averages_records};
use crate::numbers::{humidity_fraction, judge_readings, second_of, Second, MISSING, OVER};
use crate::own_asserts::Checks;
use crate::record::read_record;
use crate::rejudging::rejudge;
use crate::vehicle::Vehicle;
use crate::window::{averages, measured_of, window_sums, Measured};

/// Are two fractions the same number?
fn same(a: &Fraction, over: &Big, under: &Big) -> bool {
    a.over.times(under) == over.times(&a.under)
}

fn is(averages: &Option<Exact>, want: [(u128, u128); 3]) -> [bool; 3] {
    let of = |i: usize, all: &Exact| same(&all[i], &Big::from(want[i].0), &Big::from(want[i].1));
    [0, 1, 2].map(|i| averages.as_ref().is_some_and(|all| of(i, all)))
}

/// Ten seconds with these HC, CO, NO and CO2.
fn steady(gases: [i64; 4]) -> Case {
    let mut case = plain(1);
    (4..).zip(gases).for_each(|(code, n)| case.set_all(code, n));
    case
}

/// Document 01's window, on paper: CO2 12.00, CO 1.00, HC 100, NO 200, at 50 %, 2339 Pa, 101.3 kPa.
/// D = 6,524·1,200 + 4,644·100 = 8,293,200, so DCF = 10,000,000/8,293,200 = 25,000/20,733.
/// HC and CO: 100·25,000/20,733 = 2,500,000/20,733, that is 120.58...
/// rp = 50·2,339 = 116,950; E = 10,000·1,013 − 116,950 = 10,013,050;
/// k = 10,013,050·10^6/(1,352,359·10,013,050 − 20,434,190·116,950)
///   = 10,013,050,000,000/(13,541,238,284,950 − 2,389,778,520,500)
///   = 10,013,050,000,000/11,151,459,764,450, that is 0.8979...
/// NO: 200·DCF·k = 5,000,000/20,733·k, that is 216.54...
pub fn check_exact_by_hand(checks: &mut Checks) {
    let listed = steady([100, 100, 200, 1200]).averages();
    let hc = (2_500_000, 20_733);
    let no = (5_000_000 * 10_013_050_000_000, 20_733 * 11_151_459_764_450);
    checks.same("by hand", is(&listed, [hc, hc, no]), [true; 3]);
    checks.different(
        "k rounded",
        is(&listed, [hc, hc, (5_000_000 * 897_914, 20_733 * 1_000_000)]),
        [true; 3],
    );
    let rounded = (100 * 1_205_807, 1_000_000);
    checks.different("DCF rounded", is(&listed, [rounded, hc, no]), [true; 3]);
    // Dry air: k = 10^6/1,352,359. Half of the seconds with a CO2 of 18 %, DCF 1; five of 100 and five of 300.
    let mut case = steady([100, 10, 300, 1800]);
    case.settings[4] = 0;
    for i in 0..5 {
        case.set(i, 4, 300);
        case.set(i, 7, 0);
        case.set(i, 5, 600); // D = 2,786,400: DCF is held at 3
    }
    let hc = 5 * 300 * 3 + 5 * 100;
    let co = 5 * 600 * 3 + 5 * 10;
    let no = 5 * 300 * 3 + 5 * 300;
    let want = [(hc, 10), (co, 10), (no * 100_000, 1_352_359)];
    checks.same("held at both ends", is(&case.averages(), want), [true; 3]);
    // The least above zero.
    let mut case = steady([0, 0, 0, 1800]);
    case.set(3, 4, 1);
    let want = [(1, 10), (0, 1), (0, 1)];
    checks.same("a tenth", is(&case.averages(), want), [true; 3]);
}

pub fn check_held(checks: &mut Checks) {
    for (a, b, want) in [
        (0, 0, (3, 1)),
        (0, 600, (3, 1)),
        (0, 717, (3, 1)),                  // 3,329,748
        (0, 718, (10_000_000, 3_334_392)), // 4,644·718
        (160, 493, (3, 1)),                // 3,333,332
        (202, 434, (10_000_000, 3_333_344)),
        (1200, 100, (10_000_000, 8_293_200)),
        (1530, 0, (10_000_000, 9_981_720)),
        (853, 955, (10_000_000, 9_999_992)),
        (480, 1479, (10_000_000, 9_999_996)),
        (1268, 372, (1, 1)), // 10,000,000
        (895, 896, (1, 1)),  // 10,000,004
        (1540, 0, (1, 1)),
        (1800, 2000, (1, 1)),
    ] {
        let name = format!("DCF of {a} and {b}");
        checks.same(&name, dilution_fraction(a, b), want);
    }
}

/// The least k is that of dry air, the greatest at r 100, p 4300, B 800.
pub fn check_ends_of_k(checks: &mut Checks) {
    let least = humidity_fraction(0, 2339, 1013);
    let greatest = humidity_fraction(100, 4300, 800);
    checks.same("dry air", least.0 * 1_352_359, least.1 * 1_000_000);
    // E = 8,000,000 − 430,000.
    let divisor = 1_352_359 * 7_570_000 - 20_434_190 * 430_000;
    checks.same("humid air", greatest, (7_570_000_000_000, divisor));
    let mut beyond = 0;
    for r in (0..=100).step_by(4) {
        for p in (500..=4300).step_by(100) {
            for b in (800..=1100).step_by(20) {
                let k = humidity_fraction(r, p, b);
                let below = k.0 * least.1 < least.0 * k.1;
                let above = k.0 * greatest.1 > greatest.0 * k.1;
                beyond += (below || above) as usize;
            }
        }
    }
    checks.same("k beyond its ends", beyond, 0);
}

/// Is a window within the premise when it is changed so?
fn within(gearbox: u16, change: impl Fn(&mut Case)) -> bool {
    let mut case = plain(gearbox);
    change(&mut case);
    case.averages().is_some()
}

pub fn check_premise(checks: &mut Checks) {
    checks.same("plain", within(1, |_| {}), true);
    checks.same("plain, automatic", within(2, |_| {}), true);
    for i in 0..10 {
        let sum = |co| within(1, |c| (c.set(i, 7, 500), c.set(i, 5, co)).0);
        checks.same("600 and 599", [sum(100), sum(99)], [true, false]);
        for code in 1..=8 {
            let with = |gearbox, bits| within(gearbox, |c| c.set_bits(i, code, bits));
            checks.same("over range", with(1, OVER), code == 8);
            checks.same("missing, manual", with(1, MISSING), code == 8);
            checks.same(
                "missing, automatic",
                with(2, MISSING),
                code == 8 || code == 3,
            );
            checks.same("no number", with(2, 0x7F80_0001), false);
            checks.same("too great", with(2, 20_000f32.to_bits()), false);
            checks.same("below 0", with(2, (-1f32).to_bits()), false);
        }
    }
    for (place, values) in [
        (1, [0, 1, 2, 3]),
        (2, [1899, 1900, 2100, 2101]),
        (3, [0, 1, 50, 2001]),
        (4, [0, 1, 2, 3]),
        (5, [65_535, 0, 100, 101]),
        (6, [1, 2, 43, 44]),
        (7, [799, 800, 1100, 1101]),
    ] {
        let with = |value| within(1, |c| (c.settings[2], c.settings[place - 1]) = (50, value));
        checks.same("setting", values.map(with), [false, true, true, false]);
    }
    let ml = |kind, ml| within(1, |c| (c.settings[0], c.settings[2]) = (kind, ml));
    let got = [ml(2, 50), ml(2, 51), ml(1, 2000), ml(1, 2001)];
    checks.same("displacement", got, [true, false, true, false]);
    let p = [499, 500, 4300, 4301].map(|p| within(1, |c| c.p = p));
    checks.same("p", p, [false, true, true, false]);
}

/// The averages in another way: the seconds are added one after another, two fractions at a time.
fn one_by_one(case: &Case) -> Exact {
    let car = Vehicle::new(&case.settings, case.p);
    let mut sums = [0; 3].map(|zero| Fraction::of(zero, 1));
    for bits in &case.ten {
        let readings = judge_readings(car.automatic, bits).expect("a fit second");
        let gases = second_of(&readings).gases.expect("no gas over range");
        let (over, under) = dilution_fraction(gases.co2, gases.co);
        for (sum, gas) in sums.iter_mut().zip([gases.hc, gases.co, gases.no]) {
            let more = Fraction::of(gas * over, 10 * under);
            let across = more.over.times(&sum.under);
            *sum = Fraction {
                over: sum.over.times(&more.under).plus(&across),
                under: sum.under.times(&more.under),
            };
        }
    }
    let k = humidity_fraction(case.settings[4], case.p, case.settings[6]);
    let k = Fraction::of(k.0, k.1);
    let [hc, co, no] = sums;
    [hc, co, no.times(&k)]
}

pub fn check_one_by_one(checks: &mut Checks) {
    let made = make_averages(3, 300);
    let (mut items, mut other, mut looked_at) = (Items { data: &made }, 0, 0);
    while let Some(case) = items.case() {
        if let Some(averages) = case.averages() {
            let again = one_by_one(&case);
            let agree = (0..3).all(|i| same(&averages[i], &again[i].over, &again[i].under));
            other += !agree as usize;
            looked_at += 1;
        }
    }
    checks.same("one by one", other, 0);
    let cases = Items { data: &made };
    checks.same("faults", faults_differ(cases), 0);
    checks.same("many looked at", looked_at > 300, true);
}

/// Of how many cases the faults, told one by one, and the premise do not agree.
fn faults_differ(mut items: Items) -> usize {
    let cases = std::iter::from_fn(|| items.case().map(Seen::of));
    let differ = cases.filter(|seen| seen.faults().is_empty() != seen.averages.is_some());
    differ.count()
}

/// Is the window of a record's exact averages that of its printed ones, which are at most 0.6 units beside them?
fn of_the_same_window(bytes: &[u8]) -> bool {
    let (Ok(judged), Ok(exact)) = (rejudge(bytes), record_averages(bytes)) else {
        return rejudge(bytes).map(|_| ()) == record_averages(bytes).map(|_| ());
    };
    let (Some(printed), Some(exact), Some(end)) = (judged.window, exact, judged.window_end) else {
        return judged.window.is_none() && judged.window_end.is_none();
    };
    let record = read_record(bytes).expect("a fit record");
    let car = record.vehicle();
    let measured = |second: &Second| {
        let gases = second.gases.expect("no gas over range");
        measured_of(&car, judged.mode, second, &gases)
    };
    let ten: Vec<Measured> = record.seconds().0[end - 9..=end]
        .iter()
        .map(measured)
        .collect();
    let near = |(exact, printed): (&Fraction, u128)| {
        let printed = exact.under.times(&Big::from(printed));
        let off = exact.over.apart(&printed).times(&Big::from(10));
        off <= exact.under.times(&Big::from(6))
    };
    let pairs = exact.iter().zip([printed.hc, printed.co, printed.no]);
    averages(&window_sums(&car, &ten)) == printed && pairs.into_iter().all(near)
}

pub fn check_record_windows(checks: &mut Checks) {
    let made = make_averages_records(5, 400);
    let mut items = Items { data: &made };
    let records: Vec<&[u8]> = std::iter::from_fn(|| items.record()).collect();
    let others = records.iter().filter(|record| !of_the_same_window(record));
    checks.same("of another window", others.count(), 0);
}
