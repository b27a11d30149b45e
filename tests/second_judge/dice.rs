//! Making input: dice, settings, saturation tables.

/// splitmix64.
#[derive(Clone)]
pub struct Dice(pub u64);

impl Dice {
    pub fn next(&mut self) -> u64 {
        self.0 = self.0.wrapping_add(0x9E37_79B9_7F4A_7C15);
        let mut z = self.0;
        z = (z ^ (z >> 30)).wrapping_mul(0xBF58_476D_1CE4_E5B9);
        z = (z ^ (z >> 27)).wrapping_mul(0x94D0_49BB_1331_11EB);
        z ^ (z >> 31)
    }

    pub fn below(&mut self, n: u64) -> u64 {
        self.next() % n
    }

    /// From low to high, both included.
    pub fn within(&mut self, low: i64, high: i64) -> i64 {
        low + self.below((high - low + 1) as u64) as i64
    }

    pub fn percent(&mut self, p: u64) -> bool {
        self.below(100) < p
    }

    pub fn pick<T: Copy>(&mut self, list: &[T]) -> T {
        list[self.below(list.len() as u64) as usize]
    }
}

/// Fit settings, boundaries often.
pub fn some_settings(dice: &mut Dice) -> [u16; 7] {
    let kind = if dice.percent(30) { 2 } else { 1 };
    let year = if dice.percent(50) {
        dice.pick(&[1900, 2000, 2001, 2100])
    } else {
        dice.within(1900, 2100) as u16
    };
    let displacement = match kind {
        2 => dice.pick(&[1, 30, 49, 50]),
        _ => dice.pick(&[1, 50, 51, 100, 101, 125, 126, 200, 201, 250, 251, 2000]),
    };
    let gearbox = dice.pick(&[1, 2]);
    let humidity = if dice.percent(30) {
        dice.pick(&[0, 100])
    } else {
        dice.within(0, 100) as u16
    };
    let temperature = dice.pick(&[2, 3, 15, 20, 25, 29, 30, 31, 43]);
    let pressure = dice.pick(&[800, 900, 1000, 1013, 1100]);
    [
        kind,
        year,
        displacement,
        gearbox,
        humidity,
        temperature,
        pressure,
    ]
}

/// 29 rising values from 500 to 4300.
pub fn some_saturation(dice: &mut Dice) -> Vec<u16> {
    if dice.percent(40) {
        return (2..=30)
            .map(|t: i32| (2339 + 60 * (t - 20)) as u16)
            .collect();
    }
    let mut p = if dice.percent(50) {
        500
    } else {
        dice.within(500, 700)
    };
    let mut values = Vec::new();
    for _ in 0..28 {
        values.push(p as u16);
        p += dice.within(1, 128);
    }
    values.push(if dice.percent(50) { 4300 } else { p as u16 });
    values
}

/// Puts the setting at a place (1 to 7) out of range.
pub fn spoil_setting(settings: &mut [u16; 7], place: usize, dice: &mut Dice) {
    let greatest = if settings[0] == 2 { 50 } else { 2000 };
    let bad: [&[u16]; 7] = [
        &[0, 3, 65535],
        &[1899, 2101, 0],
        &[0, greatest + 1, 65535],
        &[0, 3, 257],
        &[101, 65535, 200],
        &[1, 44, 0],
        &[799, 1101, 0],
    ];
    settings[place - 1] = dice.pick(bad[place - 1]);
}
