//! Own asserts: readings, corrections, limits, windows.

use crate::dice::Dice;
use crate::make_corrections::{air_of, ten_seconds, CLASSES};
use crate::make_readings::random_bits;
use crate::modes::window_line;
use crate::numbers::{
    dilution_factor, half_up, humidity_factor, judge_reading, unit_count, Reading, MISSING, OVER,
    SCALE,
};
use crate::own_asserts::{Checks, LISTED};
use crate::script::bits_of;
use crate::vehicle::{Limits, Vehicle};

pub fn check_readings(checks: &mut Checks) {
    let units = |code, bits| judge_reading(code, false, bits);
    let number = |n| Some(Reading::Units(n));
    checks.same("CO 0x3F80A3D7", units(5, 0x3F80_A3D7), number(100));
    checks.same("CO -0.01", units(5, (-0.01f32).to_bits()), None);
    checks.same("HC 9999.5", units(4, 9999.5f32.to_bits()), None);
    checks.same("HC 9999.4", units(4, 9999.4f32.to_bits()), number(9999));
    checks.same("minus zero", units(1, 0x8000_0000), number(0));
    checks.same("HC -0.5", units(4, (-0.5f32).to_bits()), number(0));
    checks.same("HC below -0.5", units(4, (-0.5f32).to_bits() + 1), None);
    checks.same("HC 0.5", units(4, 0.5f32.to_bits()), number(1));
    checks.same("HC below 0.5", units(4, 0.5f32.to_bits() - 1), number(0));
    checks.same("least subnormal", units(2, 1), number(0));
    checks.same("least negative", units(2, 0x8000_0001), number(0));
    checks.same("largest finite", units(4, 0x7F7F_FFFF), None);
    checks.same("largest negative", units(4, 0xFF7F_FFFF), None);
    checks.same("2^23", units(4, 0x4B00_0000), None);
    checks.same("minus infinity", units(4, 0xFF80_0000), None);
    checks.same("quiet NaN", units(8, 0x7FC0_0001), None);
    checks.same("negative NaN", units(8, 0xFFC0_0000), None);
    checks.same("signalling NaN", units(8, 0x7F80_0001), None);
    let greatest = [999, 999, 9999, 9999, 2000, 5000, 1800, 250];
    for code in 1..=8u8 {
        let most = greatest[code as usize - 1];
        checks.same(
            "greatest",
            units(code, bits_of(code, most, 0)),
            number(most),
        );
        checks.same(
            "greatest + 1",
            units(code, bits_of(code, most + 1, 0)),
            None,
        );
        let over = if code >= 4 { Some(Reading::Over) } else { None };
        checks.same("over", units(code, OVER), over);
        let missing = |fits| if fits { Some(Reading::Missing) } else { None };
        checks.same("missing, manual", units(code, MISSING), missing(code == 8));
        let automatic = judge_reading(code, true, MISSING);
        checks.same(
            "missing, automatic",
            automatic,
            missing(code == 8 || code == 3),
        );
    }
}

/// Against 64-bit floats, in which v·s is exact and v·s + 1/2 never crosses a
/// whole number by rounding.
pub fn check_rounding(checks: &mut Checks) {
    let mut dice = Dice(11);
    for code in 1..=8u8 {
        let scale = SCALE[code as usize - 1];
        let mut differing = 0;
        for _ in 0..20_000 {
            let bits = random_bits(code, &mut dice);
            let v = f32::from_bits(bits) as f64;
            let floored = (v * scale as f64 + 0.5).floor();
            let float = (v.is_finite() && v.abs() < 8_388_608.0).then_some(floored as i128);
            differing += (unit_count(bits, scale) != float) as usize;
        }
        checks.same("rounding by floats", differing, 0);
    }
}

pub fn check_corrections(checks: &mut Checks) {
    checks.same("DCF 1200 100", dilution_factor(1200, 100), 1_205_807);
    checks.same("DCF 0 600", dilution_factor(0, 600), 3_000_000);
    checks.same("DCF 1530 0", dilution_factor(1530, 0), 1_001_831);
    checks.same("DCF 1540 0", dilution_factor(1540, 0), 1_000_000);
    checks.same("DCF 0 0", dilution_factor(0, 0), 3_000_000);
    checks.same("k r 0", humidity_factor(0, 2339, 1013), 739_449);
    checks.same("k r 50", humidity_factor(50, 2339, 1013), 897_914);
    let divisor = |rp: i128, b: i128| 1_352_359 * (10_000 * b - rp) - 20_434_190 * rp;
    checks.same("k divisor positive", divisor(100 * 4300, 800) > 0, true);
    checks.same(
        "half up",
        [half_up(4, 10), half_up(5, 10), half_up(15, 10)],
        [0, 1, 2],
    );
    let car = Vehicle::new(&[1, 2005, 251, 2, 50, 20, 1013], 2339);
    checks.same("P above 250 ml", car.set_load(1), 225);
    checks.same("load 229", car.load_in_tolerance(1, 229), true);
    checks.same("load 230", car.load_in_tolerance(1, 230), false);
    checks.same("load 221", car.load_in_tolerance(1, 221), true);
    checks.same("load 220", car.load_in_tolerance(1, 220), false);
    let car = Vehicle::new(&[1, 2005, 250, 2, 50, 20, 1013], 2339);
    checks.same("P 150: load 153", car.load_in_tolerance(2, 153), true);
    checks.same("P 150: load 154", car.load_in_tolerance(2, 154), false);
    let car = Vehicle::new(&[1, 2005, 50, 2, 50, 20, 1013], 2339);
    checks.same("P 25: load 23", car.load_in_tolerance(1, 23), true);
    checks.same("P 25: load 22", car.load_in_tolerance(1, 22), false);
    check_limits(checks);
}

fn check_limits(checks: &mut Checks) {
    let car = |kind, year, ml| Vehicle::new(&[kind, year, ml, 1, 50, 20, 1013], 2339);
    let limits = |kind, year| car(kind, year, 50).limits();
    checks.same(
        "motorcycle 2000",
        limits(1, 2000),
        Limits {
            co: 1100,
            hc: 750,
            no: 340,
        },
    );
    checks.same(
        "motorcycle 2001",
        limits(1, 2001),
        Limits {
            co: 950,
            hc: 600,
            no: 1300,
        },
    );
    checks.same(
        "moped 2000",
        limits(2, 2000),
        Limits {
            co: 1400,
            hc: 3000,
            no: 450,
        },
    );
    checks.same(
        "moped 2001",
        limits(2, 2001),
        Limits {
            co: 750,
            hc: 570,
            no: 1000,
        },
    );
    let loads = |mode| {
        [50, 51, 100, 101, 125, 126, 200, 201, 250, 251].map(|ml| car(1, 2005, ml).set_load(mode))
    };
    checks.same(
        "loads, mode 1",
        loads(1),
        [25, 35, 35, 85, 85, 120, 120, 180, 180, 225],
    );
    checks.same(
        "loads, mode 2",
        loads(2),
        [20, 27, 27, 69, 69, 100, 100, 150, 150, 187],
    );
    let targets = |kind| [car(kind, 2005, 50).target(1), car(kind, 2005, 50).target(2)];
    checks.same("motorcycle targets", targets(1), [250, 400]);
    checks.same("moped targets", targets(2), [200, 300]);
    let good = |engine| car(1, 2005, 50).engine_good(engine);
    let engines = [None, Some(2999), Some(3000), Some(5000), Some(5001)].map(good);
    checks.same("engine, manual", engines, [false, false, true, true, false]);
    checks.same(
        "engine, automatic",
        Vehicle::new(&LISTED, 2339).engine_good(None),
        true,
    );
}

/// Each gas exactly at its limit passes, one unit of one second above fails.
pub fn check_windows(checks: &mut Checks) {
    let Some((r, b, p)) = air_of(1_000_000) else {
        return checks.same("air with k = 1", false, true);
    };
    for class in CLASSES {
        let settings = [class[0], class[1], class[2], 1, r, 20, b];
        let car = Vehicle::new(&settings, p);
        let limits = car.limits();
        let at = [limits.hc, limits.co, limits.no].map(|limit| 10 * limit as i64);
        let line = |sums: [i64; 3]| {
            let ten = ten_seconds(&car, 1, sums, 1800);
            window_line(1, &settings, p, &ten).unwrap_or_default()
        };
        // The engine speeds go by the HC sum.
        let averages = |hc: i64| {
            let engine = 4000 + hc / 10 % 100;
            format!("{} {} {} {engine}", limits.hc, limits.co, limits.no)
        };
        checks.same(
            "at the limits",
            line(at),
            format!("window valid passing {}", averages(at[0])),
        );
        for gas in 0..3 {
            let mut above = at;
            above[gas] += 1;
            checks.same(
                "above a limit",
                line(above),
                format!("window valid failing {}", averages(above[0])),
            );
        }
    }
}
