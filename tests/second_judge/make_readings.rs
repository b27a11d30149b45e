//! Making input: readings at the boundaries of every channel.

use crate::dice::Dice;
use crate::driver::unfit_bits;
use crate::numbers::{judge_reading, GREATEST, MISSING, OVER};
use crate::script::{bits_of, good_bits, nearest_bits};

fn put_reading(out: &mut Vec<u8>, code: u8, gearbox: u8, bits: u32) {
    out.extend([1, code, gearbox]);
    out.extend(bits.to_le_bytes());
}

fn put_readings(out: &mut Vec<u8>, gearbox: u8, bits: &[u32; 8]) {
    out.extend([2, gearbox]);
    bits.iter().for_each(|b| out.extend(b.to_le_bytes()));
}

/// Patterns of every kind, the same for each code.
const PATTERNS: [u32; 28] = [
    0x0000_0000, // zero
    0x8000_0000, // minus zero
    0x0000_0001, // the least subnormals
    0x8000_0001,
    0x007F_FFFF, // the greatest subnormals
    0x807F_FFFF,
    0x0080_0000, // the least normal numbers
    0x8080_0000,
    0x3280_0000, // 2^-26 and thereabouts
    0xB280_0000,
    0x7F7F_FFFF, // the largest finite
    0xFF7F_FFFF,
    0x4AFF_FFFF, // just below and at 2^23
    0x4B00_0000,
    0xCB00_0000,
    0x4B80_0000,
    0x7F80_0000, // over range
    0xFF80_0000,
    0x7F80_0001, // signalling
    0x7FBF_FFFF,
    0xFF80_0001,
    0xFFBF_FFFF,
    0x7FC0_0000, // missing
    0x7FC0_0001, // quiet
    0x7FFF_FFFF,
    0xFFC0_0000,
    0xFFC0_0001,
    0xFFFF_FFFF,
];

/// CO2 between tenths, and where it was fit in tenths and is not, or only just.
const CO2: [f32; 14] = [
    12.04, 12.05, 12.06, 5.45, 5.46, 0.05, -0.004, -0.005, -0.006, -0.04, 18.005, 18.01, 18.04,
    18.05,
];

/// Each rounding boundary (n − 1/2)/s and the patterns next to it.
fn boundary_bits(code: u8) -> Vec<u32> {
    let i = code as usize - 1;
    let greatest = GREATEST[i] as i64;
    let mut list = Vec::new();
    for n in [
        0,
        1,
        2,
        3,
        10,
        greatest / 3,
        greatest / 2,
        greatest - 1,
        greatest,
        greatest + 1,
    ] {
        let middle = nearest_bits(code, n as f64 - 0.5);
        list.extend((0..5).map(|step| middle - 2 + step));
        list.push(nearest_bits(code, n as f64));
    }
    list
}

pub fn make_readings(seed: u64, count: usize) -> Vec<u8> {
    let mut dice = Dice(seed ^ 0x756E_6974);
    let mut out = Vec::new();
    put_reading(&mut out, 5, 1, 0x3F80_A3D7);
    for bits in [0x4190_0A3D, 0x4190_0A3E] {
        put_reading(&mut out, 7, 1, bits); // just below 18.005, and above
    }
    CO2.iter()
        .for_each(|v| put_reading(&mut out, 7, 1, v.to_bits()));
    for code in 1..=8u8 {
        for gearbox in [1, 2] {
            PATTERNS
                .iter()
                .for_each(|bits| put_reading(&mut out, code, gearbox, *bits));
        }
        boundary_bits(code)
            .iter()
            .for_each(|bits| put_reading(&mut out, code, 1, *bits));
    }
    put_second_corners(&mut out, &mut dice);
    for _ in 0..count {
        let code = dice.within(1, 8) as u8;
        let gearbox = dice.pick(&[1, 2]);
        if dice.percent(15) {
            put_readings(&mut out, gearbox, &random_readings(gearbox == 2, &mut dice));
        } else {
            put_reading(&mut out, code, gearbox, random_bits(code, &mut dice));
        }
    }
    out
}

pub fn random_bits(code: u8, dice: &mut Dice) -> u32 {
    let greatest = GREATEST[code as usize - 1] as i64;
    match dice.below(10) {
        0 => dice.next() as u32,
        1 => dice.pick(&PATTERNS),
        2 => dice.pick(&boundary_bits(code)),
        3..=5 => {
            // Beside a rounding boundary of any unit.
            let units = dice.within(0, greatest + 2) as f64 - 0.5;
            let middle = nearest_bits(code, units);
            middle.wrapping_add(dice.below(5) as u32).wrapping_sub(2)
        }
        _ => bits_of(code, dice.within(0, greatest), dice.within(-50, 50)),
    }
}

fn random_readings(automatic: bool, dice: &mut Dice) -> [u32; 8] {
    let mut bits = [0; 8];
    for code in 1..=8u8 {
        bits[code as usize - 1] = loop {
            let some = random_bits(code, dice);
            if judge_reading(code, automatic, some).is_some() || dice.percent(3) {
                break some;
            }
        };
    }
    bits
}

/// Whole seconds: fit, each code unfit in turn, and two unfit at once.
fn put_second_corners(out: &mut Vec<u8>, dice: &mut Dice) {
    let fit = good_bits();
    for gearbox in [1, 2] {
        put_readings(out, gearbox, &fit);
        put_readings(out, gearbox, &[OVER; 8]);
        put_readings(out, gearbox, &[MISSING; 8]);
        for i in 0..8 {
            for special in [MISSING, OVER] {
                let mut bits = fit;
                bits[i] = special;
                put_readings(out, gearbox, &bits);
            }
            for j in 0..8 {
                let mut bits = fit;
                bits[i] = unfit_bits(i as u8 + 1, gearbox == 2, dice);
                bits[j] = unfit_bits(j as u8 + 1, gearbox == 2, dice);
                put_readings(out, gearbox, &bits);
            }
        }
    }
}
