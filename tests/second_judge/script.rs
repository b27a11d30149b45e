//! Making input: seconds as a driver would have them, written piece by piece.

use crate::bench::Event;
use crate::dice::Dice;
use crate::numbers::{dilution_factor, GREATEST, MISSING, OVER, SCALE};
use crate::vehicle::Vehicle;

/// A second in units by code; `over` is a code made over range, 0 none; `missing` the
/// percentage in which an automatic gearbox's engine speed is missing. `tenths`: CO2 lies as
/// far beside as a count of tenths allows, as in records from before hundredths.
#[derive(Clone, Copy, Debug)]
pub struct Wish {
    pub units: [i64; 8],
    pub over: u8,
    pub missing: u64,
    pub tenths: bool,
}

/// Bits of a number of units, `offset` hundredths of a unit beside it.
pub fn bits_of(code: u8, units: i64, offset: i64) -> u32 {
    nearest_bits(code, units as f64 + offset as f64 / 100.0)
}

/// The bits of the 32-bit number nearest to units / s.
pub fn nearest_bits(code: u8, units: f64) -> u32 {
    ((units / SCALE[code as usize - 1] as f64) as f32).to_bits()
}

pub fn encode(wish: &Wish, automatic: bool, dice: &mut Dice) -> [u32; 8] {
    let mut bits = [0; 8];
    for code in 1..=8u8 {
        let i = code as usize - 1;
        let offset = dice.pick(&[0, 0, 0, 25, -25, 49, -49]);
        // Half a tenth below 0 is unfit in hundredths.
        let tenths = code == 7 && wish.tenths && (offset > 0 || wish.units[i] > 0);
        let offset = if tenths { 10 * offset } else { offset };
        let greatest = GREATEST[i] as i64;
        bits[i] = bits_of(code, wish.units[i].clamp(0, greatest), offset);
    }
    if automatic && dice.percent(wish.missing) {
        bits[2] = MISSING;
    }
    if dice.percent(5) {
        bits[7] = dice.pick(&[MISSING, OVER]);
    }
    if wish.over != 0 {
        bits[wish.over as usize - 1] = OVER;
    }
    bits
}

/// Document 01's row with an engine speed and O2: fit for every gearbox.
pub fn good_bits() -> [u32; 8] {
    [25.0f32, 0.85, 4000.0, 100.0, 1.0, 200.0, 12.0, 0.5].map(f32::to_bits)
}

/// A second or a stop of a test.
#[derive(Clone, Copy, Debug)]
pub enum Item {
    Second([u32; 8]),
    Stop(u8),
}

impl Item {
    pub fn event(&self) -> Event {
        match *self {
            Item::Second(bits) => Event::Second(bits),
            Item::Stop(cause) => Event::Stop(cause),
        }
    }
}

/// How far second `i` is from the target where one second is `depth` below second 1: half of it each.
fn off_by_dip(i: usize, second: usize, depth: i64) -> i64 {
    match i {
        1 => depth / 2,
        _ if i == second => depth / 2 - depth,
        _ => 0,
    }
}

/// Writes a test piece by piece.
pub struct Script {
    pub car: Vehicle,
    pub mode: u8,
    pub items: Vec<Item>,
    pub noise: u64,   // percent of seconds disturbed
    pub missing: u64, // percent of an automatic gearbox's engine speeds that are missing
    pub varied: bool, // engine speeds change from second to second
    pub mixed: bool,  // CO2 and HC change from second to second
    pub tenths: bool, // CO2 as in records from before hundredths
    pub dice: Dice,
}

impl Script {
    pub fn new(car: Vehicle, seed: u64) -> Script {
        Script {
            car,
            mode: 1,
            items: Vec::new(),
            noise: 0,
            missing: 50,
            varied: false,
            mixed: false,
            tenths: false,
            dice: Dice(seed),
        }
    }

    /// The same with a CO2 and an HC of its own in each second, CO2 mostly no multiple of ten; now
    /// and then a sum of 601. All of them pass.
    pub fn mixed(car: Vehicle, seed: u64) -> Script {
        Script {
            mixed: true,
            ..Script::new(car, seed)
        }
    }

    /// From here on engine speeds change; some of an automatic gearbox's are missing, or none.
    pub fn vary(&mut self) {
        self.varied = true;
        self.missing = self.dice.pick(&[0, 3, 20]);
    }

    /// At speed and load with clean gas.
    pub fn good(&self) -> Wish {
        let (speed, load) = (self.car.target(self.mode), self.car.set_load(self.mode));
        Wish {
            units: [speed, load, 4000, 100, 100, 20, 1200, 10],
            over: 0,
            missing: self.missing,
            tenths: self.tenths,
        }
    }

    /// The same, with an engine speed and gases of its own where they vary.
    pub fn next_good(&mut self) -> Wish {
        let mut wish = self.good();
        if self.varied {
            wish.units[2] = self.some_engine();
        }
        match self.mixed {
            true if self.dice.percent(4) => {
                wish.units[6] = self.dice.within(400, 599);
                wish.units[4] = 601 - wish.units[6];
            }
            true => {
                wish.units[6] = self.dice.within(1100, 1300);
                wish.units[3] = self.dice.within(100, 420);
            }
            false => {}
        }
        wish
    }

    /// A good engine speed: with an automatic gearbox any.
    fn some_engine(&mut self) -> i64 {
        match self.car.automatic {
            true if self.dice.percent(10) => self.dice.pick(&[0, 9999]),
            true => self.dice.within(0, 9999),
            false => self.dice.within(3000, 5000),
        }
    }

    pub fn push(&mut self, wish: Wish) {
        let wish = if self.dice.below(100) < self.noise {
            self.disturbed(wish)
        } else {
            wish
        };
        let bits = encode(&wish, self.car.automatic, &mut self.dice);
        self.items.push(Item::Second(bits));
    }

    /// `count` good seconds, each changed.
    pub fn seconds(&mut self, count: usize, change: impl Fn(&mut Wish)) {
        for _ in 0..count {
            let mut wish = self.next_good();
            change(&mut wish);
            self.push(wish);
        }
    }

    /// One value beside a boundary.
    pub fn disturbed(&mut self, mut wish: Wish) -> Wish {
        let off = self.dice.pick(&[8, 9, 15, 16, 20, 50, 51]) * self.dice.pick(&[1, -1]);
        let slack = self.load_slack() + self.dice.within(0, 1);
        match self.dice.below(8) {
            0..=2 => wish.units[0] += off,
            3 | 4 => wish.units[1] += slack * self.dice.pick(&[1, -1]),
            5 => wish.units[2] = self.dice.pick(&[2999, 3000, 5000, 5001, 0, 9999]),
            6 if self.dice.percent(20) => wish.over = self.dice.pick(&[4, 5, 6, 7]),
            6 => wish.units[2] = self.dice.within(2900, 5100),
            _ => self.set_sum(&mut wish),
        }
        wish
    }

    /// CO2 + CO at 600 or 601, seldom 599.
    pub fn set_sum(&mut self, wish: &mut Wish) {
        let sum = if self.dice.percent(15) {
            599
        } else {
            self.dice.pick(&[600, 601])
        };
        wish.units[6] = self.dice.within(400, 599);
        wish.units[4] = sum - wish.units[6];
    }

    /// The greatest |load − P| in tolerance.
    pub fn load_slack(&self) -> i64 {
        self.car.set_load(self.mode).max(100) / 50
    }

    pub fn clean(&mut self, count: usize) {
        self.seconds(count, |_| {});
    }

    pub fn dirty(&mut self, count: usize) {
        self.seconds(count, |w| w.units[3] = 9000);
    }

    /// Gas close to the limits: each gas a little below, at or above.
    pub fn close(&mut self, count: usize) {
        let limits = self.car.limits();
        let strong = self.dice.percent(50);
        for _ in 0..count {
            let mut wish = self.next_good();
            let co2 = if strong {
                self.dice.within(1533, 1800)
            } else {
                self.dice.within(900, 1532)
            };
            let around = limits.co as i64 * 2 / 3;
            let dcf = dilution_factor(co2 as u128, around as u128);
            let near = |limit: u128, factor: u128, dice: &mut Dice| {
                (limit * 1_000_000 / factor) as i64 + dice.pick(&[-2, -1, 0, 0, 0, 1])
            };
            wish.units[6] = co2;
            wish.units[3] = near(limits.hc, dcf, &mut self.dice);
            wish.units[5] = near(limits.no, dcf * self.car.k / 1_000_000, &mut self.dice);
            wish.units[4] = if strong {
                near(limits.co, dcf, &mut self.dice)
            } else {
                around
            };
            self.push(wish);
        }
    }

    /// How many ready seconds in a row begin measuring.
    pub fn settling(&self) -> usize {
        if self.mode == 1 {
            11
        } else {
            5
        }
    }

    /// The n at which settling is void.
    pub fn patience(&self) -> usize {
        if self.mode == 1 {
            25
        } else {
            15
        }
    }

    /// Ready seconds until measuring begins.
    pub fn settle(&mut self) {
        self.clean(self.settling());
    }

    /// As many, each just near enough: 15 above and below the target.
    pub fn settle_at_edge(&mut self) {
        for i in 0..self.settling() {
            let off = if i % 2 == 0 { 15 } else { -15 };
            self.seconds(1, |w| w.units[0] += off);
        }
    }

    pub fn at_speed(&mut self, speed: i64) {
        self.seconds(1, |w| w.units[0] = speed);
    }

    pub fn engine(&mut self, speed: i64) {
        self.engines(1, speed);
    }

    /// Seconds with that engine speed.
    pub fn engines(&mut self, count: usize, speed: i64) {
        self.seconds(count, |w| (w.units[2], w.missing) = (speed, 0));
    }

    /// Engine speed 0 with an automatic gearbox, with a manual one a good one.
    pub fn engine_at_0(&mut self, count: usize) {
        match self.car.automatic {
            true => self.engines(count, 0),
            false => self.clean(count),
        }
    }

    /// A second without an engine speed with an automatic gearbox, with a manual one a good one.
    pub fn no_engine(&mut self) {
        self.seconds(1, |w| w.missing = 100);
    }

    /// A second with CO2 + CO of that many hundredths.
    pub fn sum(&mut self, sum: i64) {
        self.sum_with(sum, 500);
    }

    /// The same with so many hundredths of CO2.
    pub fn sum_with(&mut self, sum: i64, co2: i64) {
        self.seconds(1, |w| (w.units[4], w.units[6]) = (sum - co2, co2));
    }

    /// A second just diluted, by any CO2 where it changes from second to second.
    pub fn diluted(&mut self) {
        let co2 = match self.mixed {
            true => self.dice.within(400, 599),
            false => 500,
        };
        self.sum_with(599, co2);
    }

    /// Seconds with HC as near below its limit as a count can be, or as near above, and CO2
    /// four hundredths from a tenth: rounded to it, the other of the two.
    pub fn narrow(&mut self, count: usize, above: bool) {
        let co2 = 1200 + if above { -4 } else { 4 };
        let dcf = dilution_factor(co2 as u128, 100);
        let hc = (self.car.limits().hc * 1_000_000 / dcf) as i64 + above as i64;
        self.seconds(count, |w| {
            (w.units[3], w.units[4], w.units[6]) = (hc, 100, co2)
        });
    }

    /// Moving, but not near enough for n to start.
    pub fn far(&mut self, count: usize) {
        let off = if self.mode == 1 { 51 } else { 16 };
        self.seconds(count, |w| w.units[0] -= off);
    }

    /// Near, but the load is out.
    pub fn unready(&mut self, count: usize) {
        let slack = self.load_slack();
        self.seconds(count, |w| w.units[1] += slack + 1);
    }

    /// Not ready, and in mode 1 just near enough not to be out: 50 above and below the target.
    pub fn unready_at_edge(&mut self, count: usize) {
        for i in 0..count {
            let off = if i % 2 == 0 { 50 } else { -50 };
            match self.mode {
                1 => self.seconds(1, |w| w.units[0] += off),
                _ => self.unready(1),
            }
        }
    }

    /// Out while measuring.
    pub fn out(&mut self, count: usize) {
        let slack = self.load_slack();
        for i in 0..count {
            match i % 3 {
                0 => self.seconds(1, |w| w.units[0] += 16),
                1 => self.seconds(1, |w| w.units[1] += slack + 1),
                _ => self.seconds(1, |w| w.units[0] -= 16),
            }
        }
    }

    /// Standing at speeds up to `most`.
    pub fn idle(&mut self, count: usize, most: i64) {
        for _ in 0..count {
            let mut wish = self.next_good();
            wish.units[0] = self.dice.within(0, most);
            wish.units[1] = 0;
            wish.units[6] = self.dice.pick(&[0, 500, 1200]);
            wish.over = if self.dice.percent(10) {
                self.dice.pick(&[4, 5, 6, 7])
            } else {
                0
            };
            self.push(wish);
        }
    }

    /// The greatest speed that counts for nothing at c = 0, though a gas is over range.
    pub fn idle_at_10(&mut self) {
        self.seconds(1, |w| (w.units[0], w.over) = (10, 4));
    }

    pub fn rest(&mut self) {
        let noise = std::mem::replace(&mut self.noise, 0);
        self.idle(10, 9);
        self.noise = noise;
    }

    pub fn stop(&mut self, cause: u8) {
        self.items.push(Item::Stop(cause));
    }

    /// Clean seconds off the target by what `off` says of each, from second 1 on.
    pub fn speeds(&mut self, count: usize, off: impl Fn(usize) -> i64) {
        for i in 1..=count {
            self.seconds(1, |w| w.units[0] += off(i));
        }
    }

    /// A run with one second `depth` below second 1.
    pub fn dip(&mut self, second: usize, depth: i64, count: usize) {
        self.speeds(count, |i| off_by_dip(i, second, depth));
    }

    /// Seconds 1 and 10 differ by `fall`, the rest clean.
    pub fn falling(&mut self, count: usize, fall: i64) {
        self.dip(10, fall, count);
    }

    /// A run that falls by 1 a second, to 9 below second 1 at second 10.
    pub fn slow_fall(&mut self, count: usize) {
        self.speeds(count, |i| if i <= 10 { 5 - i as i64 } else { 0 });
    }

    /// As `falling`, 90 seconds with 15 passing windows, the last of them at t = 90.
    pub fn late(&mut self, fall: i64) {
        for i in 1..=90 {
            let change = off_by_dip(i, 10, fall);
            let hc = if i <= 66 { 9000 } else { 100 };
            self.seconds(1, |w| (w.units[0], w.units[3]) = (w.units[0] + change, hc));
        }
    }

    /// 90 measured seconds with 24 failing and 14 passing windows, or, with
    /// `more`, 25 failing ones.
    pub fn inconclusive(&mut self, more: bool) {
        let first = if more { 19 } else { 18 };
        for t in 1..=90 {
            match t {
                _ if t == first || [36 + first - 18, 54 + first - 18, 72, 88].contains(&t) => {
                    self.out(1)
                }
                1..=54 => self.dirty(1),
                _ => self.clean(1),
            }
        }
    }

    /// Four attempts of 90 measured seconds: mode 2 by q = 2, then a fail.
    pub fn inconclusive_twice_in_each_mode(&mut self) {
        for mode in [1, 2] {
            self.mode = mode;
            for attempt in [1, 2] {
                self.settle();
                self.inconclusive(false);
                if attempt == 1 {
                    self.rest();
                }
            }
        }
    }

    /// To the beginning of mode 2, by failing windows.
    pub fn to_mode_2(&mut self) {
        self.settle();
        self.dirty(90);
        self.mode = 2;
    }

    /// To the beginning of mode 2, in each of five ways.
    pub fn to_mode_2_by(&mut self, way: usize) {
        match way {
            1 => {
                self.settle();
                self.inconclusive(true);
            }
            2 => {
                self.far(44); // t = 90 at c = 145
                self.settle();
                self.dirty(90);
            }
            3 => {
                self.void_and_rest(9);
                self.void(9);
            }
            4 => {
                self.void_and_rest(5); // q = 2 comes before r = 3
                self.void_and_rest(9);
                self.void(9);
            }
            _ => self.to_mode_2(),
        }
        self.mode = 2;
    }

    /// An attempt that ends by a void of that number.
    pub fn void(&mut self, void: u8) {
        match void {
            5 => {
                self.settle();
                self.clean(3);
                self.diluted();
            }
            6 => {
                self.clean(4);
                let code = self.dice.pick(&[4, 5, 6, 7]);
                self.seconds(1, |w| w.over = code);
            }
            7 => self.unready(if self.mode == 1 { 25 } else { 15 }),
            8 => {
                self.far(60);
                self.settle();
                self.dirty(if self.mode == 1 { 74 } else { 80 });
            }
            9 => {
                self.settle();
                self.inconclusive(false);
            }
            _ => {
                self.clean(7);
                self.stop(void);
            }
        }
    }

    pub fn void_and_rest(&mut self, void: u8) {
        self.void(void);
        self.rest();
    }

    pub fn pass(&mut self) {
        self.settle();
        self.clean(25);
    }
}
