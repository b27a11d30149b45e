//! The exact averages of a window, by annex AB with DCF and k before rounding: fractions of two whole numbers.

use crate::big::Big;
use crate::numbers::{
    dilution_divisor, humidity_fraction, judge_readings, second_of, Gases, Refusal, Second,
};
use crate::record::read_record;
use crate::rejudging::rejudge;
use crate::vehicle::Vehicle;

#[derive(Clone, Debug)]
pub struct Fraction {
    pub over: Big,
    pub under: Big, // not 0
}

impl Fraction {
    pub fn of(over: u128, under: u128) -> Fraction {
        let (over, under) = (Big::from(over), Big::from(under));
        Fraction { over, under }
    }

    pub fn times(&self, other: &Fraction) -> Fraction {
        Fraction {
            over: self.over.times(&other.over),
            under: self.under.times(&other.under),
        }
    }

    pub fn is_zero(&self) -> bool {
        self.over.is_zero()
    }
}

/// The averages of HC, CO and NO.
pub type Exact = [Fraction; 3];

/// DCF is 10^7/D, held within 1 and 3.
pub fn dilution_fraction(a: u128, b: u128) -> (u128, u128) {
    match dilution_divisor(a, b) {
        d if 3 * d <= 10_000_000 => (3, 1),
        d if d >= 10_000_000 => (1, 1),
        d => (10_000_000, d),
    }
}

/// The sum over the ten of a gas times DCF, divided by 10: all over the product of the ten divisors.
fn mean(ten: &[Gases], gas: fn(&Gases) -> u128) -> Fraction {
    let factors: Vec<(u128, u128)> = ten.iter().map(|g| dilution_fraction(g.co2, g.co)).collect();
    let product_but = |but: Option<usize>| {
        let divisors = factors.iter().enumerate();
        let kept = divisors.filter(|(i, _)| Some(*i) != but);
        kept.fold(Big::from(1), |product, (_, factor)| {
            product.times(&Big::from(factor.1))
        })
    };
    let mut over = Big::from(0);
    for (i, gases) in ten.iter().enumerate() {
        let term = Big::from(gas(gases) * factors[i].0);
        over = over.plus(&term.times(&product_but(Some(i))));
    }
    let under = product_but(None).times(&Big::from(10));
    Fraction { over, under }
}

/// Of ten seconds with fit settings and p; none with a gas over range or a CO and CO2 sum below 6 percent.
pub fn exact_averages(settings: &[u16; 7], p: u16, ten: &[Second]) -> Option<Exact> {
    let enough = |second: &Second| second.gases.filter(|gases| gases.sum() >= 600);
    let ten: Vec<Gases> = ten.iter().map(enough).collect::<Option<_>>()?;
    let (over, under) = humidity_fraction(settings[4], p, settings[6]);
    let no = mean(&ten, |g| g.no).times(&Fraction::of(over, under));
    Some([mean(&ten, |g| g.hc), mean(&ten, |g| g.co), no])
}

/// Ten seconds with the settings and p of their test.
#[derive(Clone, Debug)]
pub struct Case {
    pub settings: [u16; 7],
    pub p: u16,
    pub ten: [[u32; 8]; 10],
}

impl Case {
    /// None outside the premise.
    pub fn averages(&self) -> Option<Exact> {
        let car = Vehicle::from_start(&self.settings, self.p).ok()?;
        let judged = self
            .ten
            .iter()
            .map(|bits| judge_readings(car.automatic, bits));
        let ten: Vec<_> = judged.collect::<Result<_, _>>().ok()?;
        let ten: Vec<Second> = ten.iter().map(second_of).collect();
        exact_averages(&self.settings, self.p, &ten)
    }
}

/// Of the last valid window of a record's test as rejudged; none where there is no such window.
pub fn record_averages(bytes: &[u8]) -> Result<Option<Exact>, Refusal> {
    let judged = rejudge(bytes)?;
    let record = read_record(bytes)?;
    let seconds = record.seconds().0;
    Ok(judged.window_end.map(|end| {
        let averages = exact_averages(&record.settings, record.p(), &seconds[end - 9..=end]);
        averages.expect("a valid window is within the premise")
    }))
}
