//! A record to be salvaged, taken apart to see which cases it meets.

use crate::numbers::Refusal;
use crate::record::{cause_fits, read_record, u16_at};
use crate::salvage_modes::ENOUGH;
use crate::salvaging::{salvage, Parts, Salvaged};

/// A record with its output's length, what is answered, and its parts where it is not refused.
pub struct Seen<'a> {
    pub bytes: &'a [u8],
    pub output: usize,
    pub wide: bool,
    pub channels: usize,    // the count, 0 where it is cut
    pub settings_at: usize, // by that count
    answer: Result<Salvaged, Refusal>,
    parts: Option<Parts<'a>>,
}

impl<'a> Seen<'a> {
    pub fn of(bytes: &'a [u8], output: usize) -> Seen<'a> {
        let wide = bytes.first() == Some(&0);
        let channels = match bytes {
            [0, low, high, ..] => u16_at(&[*low, *high], 0) as usize,
            [count, ..] => *count as usize,
            [] => 0,
        };
        Seen {
            bytes,
            output,
            wide,
            channels,
            settings_at: if wide { 3 + 2 * channels } else { 1 + channels },
            answer: salvage(bytes, output),
            parts: Parts::of(bytes).ok(),
        }
    }

    /// The row count, 0 where it is cut.
    pub fn count(&self) -> usize {
        match &self.parts {
            Some(parts) => parts.count,
            None => self.high_bytes().unwrap_or(0),
        }
    }

    /// What stands where a row count does, in a record that is whole up to there.
    fn high_bytes(&self) -> Option<usize> {
        let at = self.settings_at + 74;
        let count = self.bytes.get(at..at + 2)?;
        Some(u16_at(count, 0) as usize)
    }

    pub fn len(&self) -> usize {
        self.bytes.len()
    }

    pub fn refused(&self, number: u8) -> bool {
        self.answer.as_ref().is_err_and(|r| r.number == number)
    }

    pub fn place(&self) -> usize {
        self.answer
            .as_ref()
            .map_or_else(|r| r.place as usize, |_| 0)
    }

    /// So far behind the channels.
    pub fn refused_at(&self, number: u8, more: usize) -> bool {
        self.refused(number) && self.place() == self.settings_at + more
    }

    /// Ends so far behind the channels.
    pub fn ends_within(&self, first: usize, end: usize) -> bool {
        (self.settings_at + first..self.settings_at + end).contains(&self.len())
    }

    /// Without a whole row count.
    pub fn cut(&self) -> bool {
        self.len() < self.settings_at + 76
    }

    /// A row count that would be refused.
    pub fn too_many(&self) -> bool {
        self.high_bytes().is_some_and(|count| count > 1500)
    }

    /// The same behind a section that has an entry less or more.
    pub fn high_count(&self) -> bool {
        let ends = [72, 76].map(|more| self.settings_at + more);
        let counts = ends.map(|at| self.bytes.get(at..at + 2).map(|count| u16_at(count, 0)));
        counts.contains(&Some(1501))
    }

    pub fn cells(&self) -> usize {
        self.count() * self.channels
    }

    pub fn row(&self) -> usize {
        4 * self.channels
    }

    pub fn kept(&self) -> Option<usize> {
        self.answer.as_ref().ok().map(|salvaged| salvaged.kept)
    }

    pub fn rows_lost(&self) -> bool {
        self.answer.as_ref().is_ok_and(|salvaged| salvaged.lost > 0)
    }

    /// All rows of the count are kept.
    pub fn complete(&self) -> bool {
        self.answer
            .as_ref()
            .is_ok_and(|salvaged| salvaged.lost == 0)
    }

    pub fn stops_kept(&self) -> bool {
        self.answer
            .as_ref()
            .is_ok_and(|salvaged| !salvaged.stops_lost)
    }

    pub fn dropped(&self) -> usize {
        self.answer.as_ref().map_or(0, |salvaged| salvaged.dropped)
    }

    pub fn intact(&self) -> bool {
        self.answer
            .as_ref()
            .is_ok_and(|salvaged| salvaged.bytes == self.bytes)
    }

    pub fn behind(&self) -> &'a [u8] {
        self.parts.as_ref().map_or(&[], |parts| parts.behind)
    }

    /// What stands where a stops count does.
    pub fn first(&self) -> usize {
        self.behind().first().map_or(0, |first| *first as usize)
    }

    /// The length of the kept stops section.
    pub fn stops_length(&self) -> usize {
        let stops = self.parts.as_ref().and_then(Parts::stops);
        stops.map_or(0, <[u8]>::len)
    }

    /// The entries of the section, kept or not, that are whole.
    pub fn entries(&self) -> Vec<(usize, u8)> {
        let entries = self.behind().get(1..).unwrap_or(&[]).chunks_exact(3);
        let entries = entries.map(|e| (u16_at(e, 0) as usize, e[2]));
        entries.take(self.first()).collect()
    }

    pub fn falls(&self, i: usize) -> bool {
        let entries = self.entries();
        i > 0 && entries[i].0 < entries[i - 1].0
    }

    pub fn unfit_entry(&self) -> Option<usize> {
        let entries = self.entries();
        (0..entries.len()).find(|i| {
            let (past, cause) = entries[*i];
            self.falls(*i) || past > self.count() || !cause_fits(cause)
        })
    }

    /// All rows are there, and of the stops section not all.
    pub fn stops_cut(&self) -> bool {
        let length = 1 + 3 * self.first();
        self.complete() && !self.behind().is_empty() && self.behind().len() < length
    }

    pub fn stops_unfit(&self) -> bool {
        let length = 1 + 3 * self.first();
        self.complete() && !self.stops_kept() && self.behind().len() >= length
    }

    pub fn unfit_by(&self, is: fn(&Seen, usize) -> bool) -> bool {
        self.stops_unfit() && self.unfit_entry().is_some_and(|i| is(self, i))
    }

    pub fn unfit_at(&self, entry: usize) -> bool {
        self.stops_unfit() && self.unfit_entry() == Some(entry)
    }

    /// No byte behind the stops section.
    pub fn nothing_more(&self) -> bool {
        self.behind().len() == 1 + 3 * self.first()
    }

    /// A fit stops section right behind the first one.
    pub fn fit_after(&self) -> bool {
        let after = self.behind().get(1 + 3 * self.first()..).unwrap_or(&[]);
        self.ends_fit(after)
    }

    /// The kept rows and these bytes are a fit record.
    fn ends_fit(&self, stops: &[u8]) -> bool {
        let record = self.parts.as_ref().map(|parts| parts.record_with(stops));
        record.is_some_and(|record| read_record(&record).is_ok())
    }

    /// What is behind the kept rows would be a stops section.
    pub fn would_fit(&self) -> bool {
        self.ends_fit(self.behind())
    }

    pub fn luck_length(&self) -> usize {
        1 + 3 * self.first()
    }

    /// It would begin with one.
    pub fn luck(&self) -> bool {
        let stops = self.behind().get(..self.luck_length());
        stops.is_some_and(|stops| self.ends_fit(stops))
    }

    /// Behind the last row of the count there is as much as another row has, and a byte more.
    pub fn row_behind(&self) -> bool {
        self.complete() && self.behind().len() > self.row()
    }

    /// A kept row begins with a cell that is unfit for every code.
    pub fn unfit_reading(&self) -> bool {
        let nan = |cell: &[u8]| cell[3] & 0x7F == 0x7F && cell[2] > 0xC0;
        let rows = self.parts.as_ref().map_or(&[][..], |parts| parts.rows);
        rows.chunks(4).any(nan)
    }

    pub fn code_above_8(&self) -> bool {
        let record = self.answer.as_ref().ok();
        let read = record.and_then(|salvaged| read_record(&salvaged.bytes).ok());
        read.is_some_and(|read| read.codes.iter().any(|code| *code > 8))
    }

    /// 10.
    pub fn short(&self) -> bool {
        self.refused(10)
    }

    /// What is salvaged into an output that is long enough.
    pub fn whole(&self) -> Option<Salvaged> {
        salvage(self.bytes, ENOUGH).ok()
    }

    /// The length of what is written.
    pub fn needed(&self) -> usize {
        self.whole().map_or(0, |salvaged| salvaged.bytes.len())
    }

    pub fn output_is(&self, more: i64) -> bool {
        self.output as i64 == self.needed() as i64 + more
    }

    /// The longest fit record of its form is kept.
    pub fn longest(&self) -> bool {
        let longest = if self.wide { 60_965 } else { 60_873 };
        self.stops_kept() && self.needed() == longest
    }

    pub fn beyond(&self) -> bool {
        self.len() > 60_966
    }
}
