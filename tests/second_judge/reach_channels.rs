//! Reach: the channels of records in both forms, read or written.

use crate::channels::{channel_bytes, Form};
use crate::make_channels::REQUIRED;
use crate::numbers::{refusal, Refusal};
use crate::record::{read_record, u16_at, write_record, Content};
use std::ops::Range;

/// Channels as a reader finds them or as a writer is given them, and what it answers.
pub struct Seen {
    wide: bool,
    count: Option<usize>, // none where it is cut
    codes: Vec<u16>,      // those that are whole
    bytes: Vec<u8>,       // of the record, or of what a writer would write
    answer: Result<(), Refusal>,
}

type Case = (&'static str, fn(&Seen) -> bool);

/// Cases of reading and of writing.
#[rustfmt::skip]
const BOTH: [Case; 38] = [
    ("1 channel, narrow: 3 at 0", |s| s.narrow(1) && s.refused(3, 0)),
    ("32 channels, narrow: fit", |s| s.narrow(32) && s.fits()),
    ("greatest code 255, narrow: fit", |s| !s.wide && s.greatest() == 255 && s.fits()),
    ("longest narrow: fit", |s| !s.wide && s.bytes.len() == 60_873 && s.fits()),
    ("1 channel above 255: 3 at 1", |s| s.wide(1) && s.above() == 1 && s.refused(3, 1)),
    ("32 channels, one above 255: fit", |s| s.wide(32) && s.above() == 1 && s.fits()),
    ("33 channels below 256: fit", |s| s.wide(33) && s.above() == 0 && s.fits()),
    ("33 channels below 256, a code 0: 3 at it", |s| s.wide(33) && s.above() == 0 && s.at_code(|code| code == 0)),
    ("33 channels below 256, a code twice: 3 at the later", |s| s.wide(33) && s.above() == 0 && s.at_later(|_| true)),
    ("33 channels below 256, required ones absent: 3 at 1", |s| s.wide(33) && s.above() == 0 && s.refused(3, 1)),
    ("64 channels below 256: fit", |s| s.wide(64) && s.above() == 0 && s.fits()),
    ("64 channels, some above 255: fit", |s| s.wide(64) && s.above() > 0 && s.fits()),
    ("64 channels below 256, required ones last: fit", |s| s.wide(64) && s.above() == 0 && s.fits() && s.codes.last() == Some(&7)),
    ("64 channels, a code 0 last: 3 at it", |s| s.wide(64) && s.at_code(|code| code == 0) && s.refused(3, 129)),
    ("64 channels, the two last the same: 3 at the last", |s| s.wide(64) && s.refused(3, 129) && s.codes.get(62) == s.codes.last()),
    ("65 channels: 2 at 1", |s| s.wide(65) && s.whole() && s.sound() && s.refused(2, 1)),
    ("65 channels, a code 0: 2 at 1", |s| s.wide(65) && s.codes.contains(&0) && s.refused(2, 1)),
    ("65 channels, a code twice: 2 at 1", |s| s.wide(65) && s.repeats(|code| code > 0) && s.refused(2, 1)),
    ("256 channels: 2 at 1", |s| s.wide(256) && s.whole() && s.refused(2, 1)),
    ("320 channels: 2 at 1", |s| s.wide(320) && s.whole() && s.refused(2, 1)),
    ("greatest code 256: fit", |s| s.greatest() == 256 && s.fits()),
    ("code 65535: fit", |s| s.greatest() == 65535 && s.fits()),
    ("a code 0 at the first place, wide: 3 at it", |s| s.wide && s.codes.first() == Some(&0) && s.refused(3, 3)),
    ("a code 0 at the last place, wide: 3 at it", |s| s.wide && s.codes.last() == Some(&0) && s.refused(3, s.end() - 2)),
    ("a code above 255 twice: 3 at the later", |s| s.at_later(|code| code > 255)),
    ("a code below 256 twice beside one above: 3 at the later", |s| s.above() > 0 && s.at_later(|code| code < 256)),
    ("a low byte below 256 and above: fit", |s| s.low_byte_twice(|code| (9..256).contains(&code)) && s.fits()),
    ("a low byte twice above 255: fit", |s| s.low_byte_twice(|code| code > 255) && s.fits()),
    ("code 519 in place of 7: 3 at 1", |s| s.codes.contains(&519) && s.absent() == [7] && s.refused(3, 1)),
    ("code 4103 in place of 7: 3 at 1", |s| s.codes.contains(&4103) && s.absent() == [7] && s.refused(3, 1)),
    ("code 32775 in place of 7: 3 at 1", |s| s.codes.contains(&32775) && s.absent() == [7] && s.refused(3, 1)),
    ("2 at the settings, wide", |s| s.behind(2, 0..1)),
    ("2 at the saturation, wide", |s| s.behind(2, 15..16)),
    ("2 at the rows, wide", |s| s.behind(2, 74..75)),
    ("4, wide", |s| s.behind(4, 1..15)),
    ("5, wide", |s| s.behind(5, 16..74)),
    ("6, wide", |s| s.behind(6, 77..65536)),
    ("longest wide: fit", |s| s.wide && s.bytes.len() == 60_965 && s.fits()),
];

/// Cases of reading alone.
#[rustfmt::skip]
const READ: [Case; 28] = [
    ("33 channels, narrow: 2 at 0", |s| s.narrow(33) && s.whole() && s.refused(2, 0)),
    ("64 channels, narrow: 2 at 0", |s| s.narrow(64) && s.whole() && s.refused(2, 0)),
    ("65 channels, narrow: 2 at 0", |s| s.narrow(65) && s.whole() && s.refused(2, 0)),
    ("255 channels, narrow: 2 at 0", |s| s.narrow(255) && s.whole() && s.refused(2, 0)),
    ("the byte 0 alone: 1", |s| s.bytes == [0] && s.refused(1, 1)),
    ("the byte 0 and one more: 1", |s| s.wide && s.bytes.len() == 2 && s.refused(1, 2)),
    ("cut behind the wide count: 1", |s| s.cut() && s.bytes.len() == 3),
    ("cut in a wide code: 1", |s| s.cut() && s.bytes.len() % 2 == 0),
    ("cut between wide codes: 1", |s| s.cut() && s.bytes.len() % 2 == 1 && !s.codes.is_empty()),
    ("cut in wide codes behind a code 0: 1", |s| s.cut() && s.codes.contains(&0)),
    ("cut in wide codes behind a code twice: 1", |s| s.cut() && s.repeats(|code| code > 0)),
    ("cut behind wide codes: 1", |s| s.needed() && s.bytes.len() == s.end() && s.short()),
    ("cut later, wide: 1", |s| s.needed() && s.bytes.len() > s.end() && s.short()),
    ("0 channels, wide: 2 at 1", |s| s.wide(0) && s.bytes.len() > 3 && s.refused(2, 1)),
    ("0 channels, wide, nothing behind: 2 at 1", |s| s.wide(0) && s.bytes.len() == 3 && s.refused(2, 1)),
    ("65 channels, nothing behind: 2 at 1", |s| s.wide(65) && s.bytes.len() == 3 && s.refused(2, 1)),
    ("256 channels, nothing behind: 2 at 1", |s| s.wide(256) && s.bytes.len() == 3 && s.refused(2, 1)),
    ("65535 channels: 2 at 1", |s| s.wide(65535) && s.refused(2, 1)),
    ("7, wide", |s| s.behind(7, 77..65536)),
    ("not needed: 19", |s| s.needless() && s.otherwise().is_ok()),
    ("not needed, 32 channels: 19", |s| s.needless() && s.wide(32)),
    ("not needed, greatest code 255: 19", |s| s.needless() && s.greatest() == 255),
    ("not needed, nothing behind: 19", |s| s.needless() && s.bytes.len() == s.end()),
    ("not needed, 1 channel: 3 at 1", |s| s.wide(1) && s.above() == 0 && s.refused(3, 1)),
    ("not needed, 32 channels, required ones absent: 3 at 1", |s| s.wide(32) && s.above() == 0 && s.refused(3, 1)),
    ("not needed, a code 0: 3 at it", |s| s.unused() && s.at_code(|code| code == 0)),
    ("not needed, a code twice: 3 at the later", |s| s.unused() && s.at_later(|_| true)),
    ("not needed, cut in its codes: 1", |s| s.cut() && s.above() == 0 && s.codes.len() > 6),
];

/// Cases of writing alone.
#[rustfmt::skip]
const WRITTEN: [Case; 4] = [
    ("no channels: 2 at 0", |s| s.narrow(0) && s.refused(2, 0)),
    ("2 at the stops, wide", |s| s.behind(2, 76..65536) && !s.refused(2, s.end() + 74)),
    ("10, narrow", |s| !s.wide && s.refused(10, s.bytes.len())),
    ("10, wide", |s| s.wide && s.refused(10, s.bytes.len())),
];

impl Seen {
    pub fn read(bytes: &[u8]) -> Seen {
        let wide = bytes.first() == Some(&0);
        let count = match bytes {
            [0, low, high, ..] => Some(u16_at(&[*low, *high], 0) as usize),
            [count, ..] if !wide => Some(*count as usize),
            _ => None,
        };
        let left = bytes.get(if wide { 3 } else { 1 }..).unwrap_or(&[]);
        let codes: Vec<u16> = match wide {
            true => left.chunks_exact(2).map(|code| u16_at(code, 0)).collect(),
            false => left.iter().map(|code| *code as u16).collect(),
        };
        Seen {
            wide,
            count,
            codes: codes.into_iter().take(count.unwrap_or(0)).collect(),
            bytes: bytes.to_vec(),
            answer: read_record(bytes).map(|_| ()),
        }
    }

    pub fn written(content: &Content, length: usize) -> Seen {
        Seen {
            wide: Form::of(&content.codes) == Form::Wide,
            count: Some(content.codes.len()),
            codes: content.codes.clone(),
            bytes: content.bytes(),
            answer: write_record(content, &mut vec![0; length]).map(|_| ()),
        }
    }

    /// The names of the cases that are met here.
    pub fn names(&self) -> Vec<String> {
        let cases = BOTH.iter().chain(&READ).chain(&WRITTEN);
        let met = cases.filter(|(_, holds)| holds(self));
        let mut names: Vec<String> = met.map(|(name, _)| name.to_string()).collect();
        names.extend(self.raised_names());
        names.extend(self.needless_names());
        names
    }

    fn fits(&self) -> bool {
        self.answer.is_ok()
    }

    fn refused(&self, number: u8, place: usize) -> bool {
        self.answer == Err(refusal(number, place))
    }

    fn short(&self) -> bool {
        self.refused(1, self.bytes.len())
    }

    fn narrow(&self, count: usize) -> bool {
        !self.wide && self.count == Some(count)
    }

    fn wide(&self, count: usize) -> bool {
        self.wide && self.count == Some(count)
    }

    fn whole(&self) -> bool {
        self.count == Some(self.codes.len())
    }

    /// Cut in the codes of a count that is allowed.
    fn cut(&self) -> bool {
        let allowed = self.count.is_some_and(|count| (1..=64).contains(&count));
        self.wide && allowed && !self.whole() && self.short()
    }

    /// Where the wide codes end.
    fn end(&self) -> usize {
        3 + 2 * self.codes.len()
    }

    fn greatest(&self) -> u16 {
        self.codes.iter().copied().max().unwrap_or(0)
    }

    fn above(&self) -> usize {
        self.codes.iter().filter(|code| **code > 255).count()
    }

    fn needed(&self) -> bool {
        self.wide && self.whole() && (self.above() > 0 || self.codes.len() > 32)
    }

    /// Wide for nothing, whatever is wrong besides.
    fn unused(&self) -> bool {
        self.wide && self.whole() && !self.needed()
    }

    fn needless(&self) -> bool {
        self.unused() && self.refused(19, 1)
    }

    /// What the same sections are answered with the channels in the narrow form.
    fn otherwise(&self) -> Result<(), Refusal> {
        let channels = channel_bytes(&self.codes, Form::Narrow);
        read_record(&[&channels[..], &self.bytes[self.end()..]].concat()).map(|_| ())
    }

    fn repeats(&self, is: fn(u16) -> bool) -> bool {
        let codes = self.codes.iter().enumerate();
        codes
            .filter(|(_, code)| is(**code))
            .any(|(i, code)| self.codes[..i].contains(code))
    }

    fn sound(&self) -> bool {
        !self.codes.contains(&0) && !self.repeats(|_| true)
    }

    /// Refused 3 at a wide code: its column.
    fn bad_column(&self) -> Option<usize> {
        let columns = 0..self.codes.len();
        let mut bad = columns.filter(|column| self.wide && self.refused(3, 3 + 2 * column));
        bad.next()
    }

    fn at_code(&self, is: fn(u16) -> bool) -> bool {
        self.bad_column()
            .is_some_and(|column| is(self.codes[column]))
    }

    fn at_later(&self, is: fn(u16) -> bool) -> bool {
        let later = |column: usize| self.codes[..column].contains(&self.codes[column]);
        self.at_code(is) && self.bad_column().is_some_and(later)
    }

    /// A code above 255 and another one with its low byte.
    fn low_byte_twice(&self, is: fn(u16) -> bool) -> bool {
        let twin = |code: u16, other: u16| code != other && is(other) && code % 256 == other % 256;
        let mut above = self.codes.iter().filter(|code| **code > 255);
        above.any(|code| self.codes.iter().any(|other| twin(*code, *other)))
    }

    /// Refused so far behind the wide codes.
    fn behind(&self, number: u8, places: Range<usize>) -> bool {
        let at = |place: u64| place.checked_sub(self.end() as u64);
        self.wide
            && self.whole()
            && self.answer.is_err_and(|r| {
                r.number == number
                    && at(r.place).is_some_and(|place| places.contains(&(place as usize)))
            })
    }

    fn absent(&self) -> Vec<u16> {
        let absent = REQUIRED.iter().filter(|code| !self.codes.contains(code));
        absent.copied().collect()
    }

    /// Codes 256 above one of 1 to 8, which is there or not.
    fn raised_names(&self) -> Vec<String> {
        let has = |code: u16| self.codes.contains(&code);
        let alone = |code: u16| self.refused(3, 1) && self.absent() == [code];
        let raised = (1..=8).filter(|code| has(256 + code));
        raised
            .filter_map(|code| match has(code) {
                true => self.fits().then(|| raised_beside(code)),
                false => (self.fits() || alone(code)).then(|| raised_instead(code)),
            })
            .collect()
    }

    /// Wide for nothing: what else is wrong.
    fn needless_names(&self) -> Vec<String> {
        let mut names = Vec::new();
        if let (true, [code]) = (self.unused() && self.refused(3, 1), &self.absent()[..]) {
            names.push(needless_without(*code));
        }
        if self.needless() {
            let otherwise = self.otherwise().err();
            names.extend(otherwise.map(|other| needless_before(other.number)));
        }
        names
    }
}

fn raised_beside(code: u16) -> String {
    format!("code {} beside {code}: fit", 256 + code)
}

fn raised_instead(code: u16) -> String {
    match REQUIRED.contains(&code) {
        true => format!("code {} in place of {code}: 3 at 1", 256 + code),
        false => format!("code {} in place of {code}: fit", 256 + code),
    }
}

fn needless_without(code: u16) -> String {
    format!("not needed, code {code} absent: 3 at 1")
}

fn needless_before(number: u8) -> String {
    format!("not needed, {number} behind: 19")
}

fn both_names(cases: &[Case]) -> Vec<String> {
    let both = BOTH.iter().chain(cases);
    let mut names: Vec<String> = both.map(|(name, _)| name.to_string()).collect();
    names.extend((1..=8).map(raised_beside));
    names.extend((1..=8).map(raised_instead));
    names
}

/// The cases that records must reach.
pub fn read_names() -> Vec<String> {
    let mut names = both_names(&READ);
    names.extend(REQUIRED.map(needless_without));
    names.extend([1, 2, 4, 5, 6, 7].map(needless_before));
    names
}

/// The cases that contents for a writer must reach.
pub fn written_names() -> Vec<String> {
    both_names(&WRITTEN)
}
