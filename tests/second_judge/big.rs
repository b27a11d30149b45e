//! Whole numbers of any size, none below zero.

use std::cmp::Ordering;
use std::fmt;

/// Limbs of 32 bits, the lowest first; the highest is not 0.
#[derive(Clone, PartialEq, Eq, Debug)]
pub struct Big {
    limbs: Vec<u32>,
}

impl From<u128> for Big {
    fn from(n: u128) -> Big {
        Big::of((0..4).map(|i| (n >> (32 * i)) as u32).collect())
    }
}

impl Big {
    fn of(mut limbs: Vec<u32>) -> Big {
        while limbs.last() == Some(&0) {
            limbs.pop();
        }
        Big { limbs }
    }

    pub fn is_zero(&self) -> bool {
        self.limbs.is_empty()
    }

    /// How many binary digits it has; 0 has none.
    pub fn bits(&self) -> usize {
        match self.limbs.last() {
            Some(highest) => 32 * self.limbs.len() - highest.leading_zeros() as usize,
            None => 0,
        }
    }

    fn limb(&self, i: usize) -> u64 {
        self.limbs.get(i).map_or(0, |limb| *limb as u64)
    }

    pub fn plus(&self, other: &Big) -> Big {
        let mut carry = 0;
        let length = self.limbs.len().max(other.limbs.len()) + 1;
        let sums = (0..length).map(|i| {
            let sum = self.limb(i) + other.limb(i) + carry;
            carry = sum >> 32;
            sum as u32
        });
        Big::of(sums.collect())
    }

    /// Less a number that is at most as great.
    pub fn minus(&self, other: &Big) -> Big {
        assert!(other <= self, "a difference below zero");
        let mut borrow = 0;
        let limbs = (0..self.limbs.len()).map(|i| {
            let taken = other.limb(i) + borrow;
            borrow = (self.limb(i) < taken) as u64;
            (self.limb(i) + (borrow << 32) - taken) as u32
        });
        Big::of(limbs.collect())
    }

    /// How far two numbers are apart.
    pub fn apart(&self, other: &Big) -> Big {
        match self < other {
            true => other.minus(self),
            false => self.minus(other),
        }
    }

    pub fn times(&self, other: &Big) -> Big {
        let mut limbs = vec![0; self.limbs.len() + other.limbs.len()];
        for i in 0..self.limbs.len() {
            let mut carry = 0;
            for j in 0..=other.limbs.len() {
                let Some(limb) = limbs.get_mut(i + j) else {
                    break; // nothing is carried beyond the highest
                };
                let sum = *limb as u64 + self.limb(i) * other.limb(j) + carry;
                *limb = sum as u32;
                carry = sum >> 32;
            }
        }
        Big::of(limbs)
    }

    /// Times 2^n.
    pub fn shifted(&self, n: usize) -> Big {
        let mut limbs = vec![0; n / 32];
        let mut carry = 0;
        for limb in &self.limbs {
            let moved = ((*limb as u64) << (n % 32)) + carry;
            limbs.push(moved as u32);
            carry = moved >> 32;
        }
        limbs.push(carry as u32);
        Big::of(limbs)
    }

    /// Quotient and rest, bit by bit; the divisor is not 0.
    pub fn divided(&self, by: &Big) -> (Big, Big) {
        assert!(!by.is_zero(), "a division by zero");
        let mut rest = self.clone();
        let steps = (self.bits() + 1).saturating_sub(by.bits());
        let mut quotient = vec![0; steps / 32 + 1];
        for i in (0..steps).rev() {
            let part = by.shifted(i);
            if part <= rest {
                rest = rest.minus(&part);
                quotient[i / 32] |= 1 << (i % 32);
            }
        }
        (Big::of(quotient), rest)
    }

    /// As a number of 128 bits, if it is one.
    pub fn small(&self) -> Option<u128> {
        let limbs = self.limbs.iter().rev();
        let number = limbs.fold(0, |number: u128, limb| (number << 32) | *limb as u128);
        (self.limbs.len() <= 4).then_some(number)
    }
}

impl PartialOrd for Big {
    fn partial_cmp(&self, other: &Big) -> Option<Ordering> {
        Some(self.cmp(other))
    }
}

impl Ord for Big {
    fn cmp(&self, other: &Big) -> Ordering {
        let lengths = self.limbs.len().cmp(&other.limbs.len());
        lengths.then_with(|| self.limbs.iter().rev().cmp(other.limbs.iter().rev()))
    }
}

impl fmt::Display for Big {
    fn fmt(&self, f: &mut fmt::Formatter) -> fmt::Result {
        const NINE: u128 = 1_000_000_000;
        let (high, low) = self.divided(&Big::from(NINE));
        let low = low.small().unwrap_or(0);
        match high.is_zero() {
            true => write!(f, "{low}"),
            false => write!(f, "{high}{low:09}"),
        }
    }
}
