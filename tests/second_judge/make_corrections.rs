//! Making input: DCF, k, windows at the limits, loads.

use crate::dice::{some_settings, spoil_setting, Dice};
use crate::numbers::{dilution_divisor, dilution_factor, humidity_factor, MISSING, OVER};
use crate::script::{bits_of, Item, Script};
use crate::vehicle::{saturation_fits, Vehicle};

pub fn put_words(out: &mut Vec<u8>, words: &[u16]) {
    words.iter().for_each(|word| out.extend(word.to_le_bytes()));
}

fn put_dcf(out: &mut Vec<u8>, a: u16, b: u16) {
    out.push(1);
    put_words(out, &[a, b]);
}

fn put_k(out: &mut Vec<u8>, settings: &[u16; 7], p: u16) {
    out.push(2);
    put_words(out, settings);
    put_words(out, &[p]);
}

fn put_window(out: &mut Vec<u8>, mode: u8, settings: &[u16; 7], p: u16, ten: &[[u32; 8]]) {
    out.extend([3, mode]);
    put_ten(out, settings, p, ten);
}

/// Settings, p, ten seconds of readings.
pub fn put_ten(out: &mut Vec<u8>, settings: &[u16; 7], p: u16, ten: &[[u32; 8]]) {
    put_words(out, settings);
    put_words(out, &[p]);
    ten.iter()
        .flatten()
        .for_each(|bits| out.extend(bits.to_le_bytes()));
}

/// Kind, year, displacement, mode, load, speed, engine (0 missing), gearbox.
fn put_limits(out: &mut Vec<u8>, car: [u16; 3], mode: u8, load: u16, engine: u16, gearbox: u8) {
    out.push(4);
    put_words(out, &car);
    out.push(mode);
    put_words(out, &[load, 250]);
    out.push((engine != 0) as u8);
    put_words(out, &[engine]);
    out.push(gearbox);
}

/// Gas pairs at the corners of DCF: D = 0, both clamps, and D near which
/// 10^13/D passes a half.
fn put_dcf_corners(out: &mut Vec<u8>) {
    for a in [
        0, 1, 9, 510, 511, 520, 1200, 1204, 1530, 1532, 1533, 1540, 1800, 9990, 65535,
    ] {
        for b in [
            0, 1, 14, 15, 100, 600, 717, 718, 719, 2000, 2153, 2154, 65535,
        ] {
            put_dcf(out, a, b);
        }
    }
    // Held where tenths would not be, the other way round, and between.
    for (a, b) in [
        (506, 2),
        (1526, 8),
        (1534, 0),
        (546, 53),
        (1204, 100),
        (1196, 100),
    ] {
        put_dcf(out, a, b);
    }
    for (a, b) in pairs_at_a_half() {
        put_dcf(out, a, b);
    }
}

/// The pairs whose 10^13/D is nearest to a half.
fn pairs_at_a_half() -> Vec<(u16, u16)> {
    let mut close: Vec<(u64, u16, u16)> = Vec::new();
    for a in 0..=1800u16 {
        for b in 0..=2000u16 {
            let d = dilution_divisor(a as u128, b as u128) as u64;
            if d > 3_333_333 && d < 10_000_000 {
                // How far 2·10^13/D is from an odd whole number, in 1/D.
                let over = (20_000_000_000_000 + d) % (2 * d);
                let off = over.min(2 * d - over);
                if off < 500 {
                    close.push((off, a, b));
                }
            }
        }
    }
    close.sort();
    close.truncate(60);
    close.iter().map(|(_, a, b)| (*a, *b)).collect()
}

fn put_k_corners(out: &mut Vec<u8>) {
    for r in [0, 1, 50, 99, 100, 101] {
        for b in [799, 800, 1013, 1100, 1101] {
            for p in [499, 500, 2339, 4300, 4301] {
                put_k(out, &[1, 2005, 125, 2, r, 20, b], p);
            }
        }
    }
    let mut dice = Dice(5);
    for place in 1..=7 {
        for _ in 0..3 {
            let mut settings = some_settings(&mut dice);
            spoil_setting(&mut settings, place, &mut dice);
            put_k(out, &settings, if dice.percent(50) { 2000 } else { 10 });
        }
    }
}

/// Air for which k is exactly that many millionths: r, B, p. AB2 solved for
/// rp gives p to within one.
pub fn air_of(k: u128) -> Option<(u16, u16, u16)> {
    for r in 1..=100u16 {
        for b in 800..=1100u16 {
            let share = 1_352_359 * k - 1_000_000_000_000;
            let rp = 10_000 * b as u128 * share / (20_434_190 * k + share);
            let p = (rp / r as u128) as u16;
            let fits = |p: &u16| saturation_fits(*p) && humidity_factor(r, *p, b) == k;
            if let Some(p) = (p.saturating_sub(1)..=p.saturating_add(1)).find(fits) {
                return Some((r, b, p));
            }
        }
    }
    None
}

/// CO2, no multiple of ten, and CO for which DCF is exactly that many millionths.
pub fn gas_of(dcf: u128) -> Option<(i64, i64)> {
    let between = (0..=1800).filter(|a| a % 10 != 0);
    let mut pairs = between.flat_map(|a| (0..=300).map(move |b| (a, b)));
    pairs.find(|(a, b)| dilution_factor(*a as u128, *b as u128) == dcf)
}

/// Ten values whose sum is exact.
fn spread(sum: i64) -> [i64; 10] {
    let mut ten = [sum / 10; 10];
    ten[4] += sum % 10;
    ten
}

/// Ten good engine speeds, each another, whose sum ends as the given one does.
fn spread_engines(sum: i64) -> [i64; 10] {
    let mut ten = spread(40_000 + sum % 1000);
    for i in 0..5 {
        ten[i] -= 100 * (i as i64 + 1);
        ten[9 - i] += 100 * (i as i64 + 1);
    }
    ten
}

/// Ten seconds at speed and load with given gases: HC, CO, NO sums, CO2. The engine speeds
/// go by the HC sum.
pub fn ten_seconds(car: &Vehicle, mode: u8, sums: [i64; 3], co2: i64) -> Vec<[u32; 8]> {
    let (hc, co, no) = (spread(sums[0]), spread(sums[1]), spread(sums[2]));
    let engine = spread_engines(sums[0]);
    let script = Script {
        mode,
        ..Script::new(*car, 1)
    };
    (0..10)
        .map(|i| {
            let mut units = script.good().units;
            (units[2], units[3]) = (engine[i], hc[i]);
            (units[4], units[5], units[6]) = (co[i], no[i], co2);
            [1, 2, 3, 4, 5, 6, 7, 8].map(|code: u8| bits_of(code, units[code as usize - 1], 0))
        })
        .collect()
}

pub const CLASSES: [[u16; 3]; 4] = [[1, 2000, 125], [1, 2001, 300], [2, 2000, 50], [2, 2001, 49]];

/// Windows at each limit, a unit of one second below and above it.
fn put_limit_windows(out: &mut Vec<u8>, turn: usize, dcf: u128, k: u128) {
    let (Some((co2, co)), Some((r, b, p))) = (gas_of(dcf), air_of(k)) else {
        return;
    };
    for (i, class) in CLASSES.iter().enumerate() {
        let mode = 1 + ((turn + i) % 2) as u8;
        let settings = [class[0], class[1], class[2], 1, r, 20, b];
        let car = Vehicle::new(&settings, p);
        let limits = car.limits();
        let hc = (limits.hc * 10u128.pow(7) / dcf) as i64;
        let no = (limits.no * 10u128.pow(13) / (dcf * k)) as i64;
        let most_co = (limits.co * 10u128.pow(7) / dcf) as i64;
        for step in [-1, 0, 1, 2] {
            let ten = ten_seconds(&car, mode, [hc + step, 10 * co, no], co2);
            put_window(out, mode, &settings, p, &ten);
            let ten = ten_seconds(&car, mode, [hc, 10 * co, no + step], co2);
            put_window(out, mode, &settings, p, &ten);
            // CO moves D itself: only where DCF is held at its least.
            if dcf == 1_000_000 {
                let ten = ten_seconds(&car, mode, [hc, most_co + step, no], 1800);
                put_window(out, mode, &settings, p, &ten);
            }
        }
    }
}

/// CO at its limit with DCF above 1: by search over the CO of the ten seconds.
fn put_co_windows(out: &mut Vec<u8>) {
    for class in CLASSES {
        let settings = [class[0], class[1], class[2], 2, 50, 20, 1013];
        let car = Vehicle::new(&settings, 2339);
        let limit = car.limits().co * 10u128.pow(7);
        for co2 in [601, 905, 1109] {
            let sum_of = |sum: i64| -> u128 {
                let each = |b: &i64| *b as u128 * dilution_factor(co2 as u128, *b as u128);
                spread(sum).iter().map(each).sum()
            };
            if let Some(above) = (1..15_000).find(|sum| sum_of(*sum) > limit) {
                for sum in [above - 1, above, above + 1] {
                    let ten = ten_seconds(&car, 1, [100, sum, 100], co2);
                    put_window(out, 1, &settings, 2339, &ten);
                }
            }
        }
    }
}

/// Averages at a half, and windows made invalid in one second.
fn put_half_windows(out: &mut Vec<u8>) {
    let Some((r, b, p)) = air_of(1_000_000) else {
        return;
    };
    let settings = [1, 2005, 125, 1, r, 20, b];
    let car = Vehicle::new(&settings, p);
    for sum in [0, 4, 5, 6, 14, 15, 16, 994, 995, 996] {
        put_window(
            out,
            1,
            &settings,
            p,
            &ten_seconds(&car, 1, [sum, sum, sum], 1703),
        );
    }
    for i in [0, 9] {
        for (code, units) in [
            (1, 265),
            (1, 266),
            (1, 235),
            (1, 234),
            (2, 87),
            (2, 88),
            (2, 82),
        ] {
            put_changed_window(out, &settings, p, i, code, bits_of(code, units, 0));
        }
        for engine in [2999, 3000, 5000, 5001] {
            put_changed_window(out, &settings, p, i, 3, bits_of(3, engine, 0));
        }
        for code in 1..=8 {
            put_changed_window(out, &settings, p, i, code, OVER);
            put_changed_window(out, &settings, p, i, code, MISSING);
        }
    }
}

/// The engine speeds of the ten seconds: means at, above and below a half, at both ends, with
/// one or all missing.
fn put_engine_windows(out: &mut Vec<u8>) {
    let [manual, automatic] = [1, 2].map(|gearbox| [1, 2005, 125, gearbox, 50, 20, 1013]);
    let one = |speed, last| [vec![speed; 9], vec![last]].concat();
    let half_each = [[3999; 5], [4000; 5]].concat();
    for speeds in [half_each, one(3999, 4004), one(3999, 4003), one(3999, 5001)] {
        put_engine_window(out, &manual, &speeds);
    }
    for speeds in [
        one(0, 0),
        one(0, 4),
        one(0, 5),
        one(9999, 9999),
        one(9999, 9994),
    ] {
        put_engine_window(out, &automatic, &speeds);
    }
    for missing in [1, 10] {
        let speeds = [vec![4000; 10 - missing], vec![-1; missing]].concat();
        put_engine_window(out, &automatic, &speeds);
    }
}

/// A window with those engine speeds, −1 one that is missing.
fn put_engine_window(out: &mut Vec<u8>, settings: &[u16; 7], speeds: &[i64]) {
    let car = Vehicle::new(settings, 2339);
    let mut ten = ten_seconds(&car, 1, [1000, 1000, 1000], 1200);
    for (second, speed) in ten.iter_mut().zip(speeds) {
        second[2] = match speed {
            -1 => MISSING,
            _ => bits_of(3, *speed, 0),
        };
    }
    put_window(out, 1, settings, 2339, &ten);
}

fn put_changed_window(out: &mut Vec<u8>, s: &[u16; 7], p: u16, i: usize, code: u8, bits: u32) {
    let car = Vehicle::new(s, p);
    let mut ten = ten_seconds(&car, 1, [1000, 1000, 1000], 1200);
    ten[i][code as usize - 1] = bits;
    put_window(out, 1, s, p, &ten);
    let automatic = [s[0], s[1], s[2], 2, s[4], s[5], s[6]];
    put_window(out, 1, &automatic, p, &ten);
}

/// Each boundary of displacement, year, load and engine speed.
fn put_limit_corners(out: &mut Vec<u8>) {
    for displacement in [1, 50, 51, 100, 101, 125, 126, 200, 201, 250, 251, 2000] {
        for (kind, year, mode) in [(1, 2000, 1), (1, 2001, 2), (2, 2000, 2), (2, 2001, 1)] {
            if kind == 2 && displacement > 50 {
                continue;
            }
            let settings = [kind, year, displacement, 1, 50, 20, 1013];
            let car = Vehicle::new(&settings, 2339);
            let (set, slack) = (car.set_load(mode), car.set_load(mode).max(100) / 50);
            for load in [
                0,
                set - slack - 1,
                set - slack,
                set,
                set + slack,
                set + slack + 1,
                999,
            ] {
                put_limits(out, [kind, year, displacement], mode, load as u16, 4000, 1);
            }
        }
    }
    for engine in [0, 1, 2999, 3000, 4000, 5000, 5001, 9999] {
        for gearbox in [1, 2] {
            put_limits(out, [1, 1900, 125], 1, 85, engine, gearbox);
            put_limits(out, [2, 2100, 50], 2, 20, engine, gearbox);
        }
    }
}

/// DCF and k of the windows at the limits. All DCF but the last divide limit·10^7 of HC without
/// rest, so that a sum just meets it.
pub const FACTORS: [(u128, u128); 5] = [
    (1_000_000, 1_000_000),
    (1_000_000, 1_250_000),
    (1_171_875, 1_250_000),
    (2_000_000, 800_000),
    (1_202_025, 897_914),
];

pub fn make_corrections(seed: u64, count: usize) -> Vec<u8> {
    let mut dice = Dice(seed ^ 0x636F_7272);
    let mut out = Vec::new();
    put_dcf_corners(&mut out);
    put_k_corners(&mut out);
    for (turn, (dcf, k)) in FACTORS.into_iter().enumerate() {
        put_limit_windows(&mut out, turn, dcf, k);
    }
    put_co_windows(&mut out);
    put_half_windows(&mut out);
    put_engine_windows(&mut out);
    put_limit_corners(&mut out);
    for _ in 0..count {
        put_random_correction(&mut out, &mut dice);
    }
    out
}

fn put_random_correction(out: &mut Vec<u8>, dice: &mut Dice) {
    let settings = some_settings(dice);
    let p = dice.within(500, 4300) as u16;
    let mode = dice.pick(&[1, 2]);
    match dice.below(8) {
        0 => put_dcf(
            out,
            dice.within(0, 2000) as u16,
            dice.within(0, 2100) as u16,
        ),
        1 => put_dcf(out, dice.next() as u16, dice.next() as u16),
        2 => put_k(out, &settings, p),
        3 => {
            let car = [settings[0], settings[1], settings[2]];
            let (load, engine) = (dice.within(0, 260) as u16, dice.within(0, 6000) as u16);
            put_limits(out, car, mode, load, engine, settings[3] as u8);
        }
        _ => {
            let mut script = Script::new(Vehicle::new(&settings, p), dice.next());
            script.vary();
            script.mode = mode;
            script.noise = dice.pick(&[0, 0, 3]);
            script.close(10);
            let ten: Vec<[u32; 8]> = script
                .items
                .iter()
                .filter_map(|item| match item {
                    Item::Second(bits) => Some(*bits),
                    Item::Stop(_) => None,
                })
                .collect();
            put_window(out, mode, &settings, p, &ten);
        }
    }
}
