//! Own asserts: what holds of every cut that is made, and what the made items hold.

use crate::cut_corners::{cut_at_every_length, every_length};
use crate::items::Items;
use crate::make_cuts::{make_cuts, make_salvages, reaching_cuts};
use crate::make_record_vectors::make_record_vectors;
use crate::modes::mode_record_vectors;
use crate::numbers::{refusal, Refusal};
use crate::own_asserts::Checks;
use crate::reach_cuts::{reach_cuts, reach_salvages};
use crate::record::{read_record, u16_at};
use crate::salvage_modes::{mode_salvages, ENOUGH};
use crate::salvaging::{salvage, Salvaged};

/// A cut and what is answered into an output that is long enough.
struct Cut<'a> {
    bytes: &'a [u8],
    answer: Result<Salvaged, Refusal>,
}

type Law = (&'static str, fn(&Cut) -> bool);

/// What holds of every cut.
const LAWS: [Law; 13] = [
    ("refused as a reader refuses, 21 for its 2", |c| {
        c.refused_so()
    }),
    ("kept and lost are the count", |c| {
        c.of(|s| s.kept + s.lost == c.count())
    }),
    ("what is kept and what is dropped are the input", |c| {
        c.of(|s| c.kept_end(s) + s.dropped == c.bytes.len())
    }),
    ("what is kept stands in the input", |c| {
        c.of(|s| c.stands(s))
    }),
    ("none written where the stops are lost", |c| {
        c.of(|s| !s.stops_lost || s.bytes.last() == Some(&0))
    }),
    ("nothing lost and dropped exactly of an intact one", |c| {
        c.of(|s| c.intact() == (s.lost == 0 && s.dropped == 0 && !s.stops_lost))
    }),
    ("an intact one comes out identical", |c| {
        c.of(|s| c.intact() == (s.bytes == c.bytes))
    }),
    ("what is written is fit, its sections the same", |c| {
        c.of(|s| c.reads(s))
    }),
    ("salvaged again, the same", |c| c.of(|s| c.again(s))),
    ("stops kept exactly where a fit record is in front", |c| {
        c.of(|s| c.stops_so(s))
    }),
    ("10 with the length in shorter outputs", |c| {
        c.of(|s| c.short(s))
    }),
    (
        "bytes behind a kept stops section change dropped alone",
        |c| c.of(|s| c.behind_so(s)),
    ),
    ("bytes from 60,965 on change dropped alone", |c| {
        c.beyond_so()
    }),
];

impl Cut<'_> {
    fn of(&self, holds: impl Fn(&Salvaged) -> bool) -> bool {
        self.answer.as_ref().map_or(true, holds)
    }

    /// The row count's offset, by the channel count alone.
    fn count_at(&self) -> usize {
        match self.bytes {
            [0, low, high, ..] => 3 + 2 * u16_at(&[*low, *high], 0) as usize + 74,
            [channels, ..] => 1 + *channels as usize + 74,
            [] => 0,
        }
    }

    fn count(&self) -> usize {
        u16_at(self.bytes, self.count_at()) as usize
    }

    fn channels(&self) -> usize {
        match self.bytes[0] {
            0 => u16_at(self.bytes, 1) as usize,
            channels => channels as usize,
        }
    }

    fn rows_end(&self, salvaged: &Salvaged) -> usize {
        self.count_at() + 2 + 4 * self.channels() * salvaged.kept
    }

    /// All up to the last row kept, and a kept stops section.
    fn kept_end(&self, salvaged: &Salvaged) -> usize {
        match salvaged.stops_lost {
            true => self.rows_end(salvaged),
            false => salvaged.bytes.len(),
        }
    }

    fn refused_so(&self) -> bool {
        let count_at = self.count_at();
        let want = match read_record(self.bytes) {
            Err(r) if r == refusal(2, count_at) => Some(refusal(21, count_at)),
            Err(r) if [2, 3, 4, 5, 19].contains(&r.number) => Some(r),
            Err(r) if r.number == 1 && self.bytes.len() < count_at + 2 => Some(r),
            _ => None,
        };
        self.answer.as_ref().err() == want.as_ref()
    }

    /// The bytes written are the input's, the row count's two and an empty stops section apart.
    fn stands(&self, salvaged: &Salvaged) -> bool {
        let (at, end) = (self.count_at(), self.kept_end(salvaged));
        let (written, input) = (&salvaged.bytes, self.bytes);
        u16_at(written, at) as usize == salvaged.kept
            && written[..at] == input[..at]
            && written[at + 2..end] == input[at + 2..end]
            && written.len() == end + usize::from(salvaged.stops_lost)
    }

    fn intact(&self) -> bool {
        read_record(self.bytes).is_ok()
    }

    fn reads(&self, salvaged: &Salvaged) -> bool {
        let Ok(read) = read_record(&salvaged.bytes) else {
            return false;
        };
        // The input's sections, with no rows and no stops behind them.
        let start = [&self.bytes[..self.count_at()], &[0; 3]].concat();
        let rows = &self.bytes[self.count_at() + 2..self.rows_end(salvaged)];
        read_record(&start).is_ok_and(|input| {
            (&read.codes, &read.settings, &read.saturation)
                == (&input.codes, &input.settings, &input.saturation)
        }) && read.rows == salvaged.kept
            && salvaged.bytes[read.rows_at..read.stops_at] == *rows
            && (read.stops.is_empty() || !salvaged.stops_lost)
    }

    fn again(&self, salvaged: &Salvaged) -> bool {
        let bytes = salvaged.bytes.clone();
        let want = Salvaged {
            lost: 0,
            dropped: 0,
            stops_lost: false,
            bytes,
            ..*salvaged
        };
        salvage(&salvaged.bytes, ENOUGH) == Ok(want)
    }

    /// Of short inputs every length is read.
    fn stops_so(&self, salvaged: &Salvaged) -> bool {
        let mut lengths = 0..=self.bytes.len();
        let fit = |length: usize| read_record(&self.bytes[..length]).is_ok();
        self.bytes.len() > 1000 || lengths.any(fit) != salvaged.stops_lost
    }

    fn short(&self, salvaged: &Salvaged) -> bool {
        let needed = salvaged.bytes.len();
        let refused = |output: usize| salvage(self.bytes, output) == Err(refusal(10, needed));
        let fits = salvage(self.bytes, needed).as_ref() == Ok(salvaged);
        refused(needed - 1) && refused(0) && fits
    }

    fn behind_so(&self, salvaged: &Salvaged) -> bool {
        let more = [self.bytes, &[0, 1, 255]].concat();
        let want = Salvaged {
            dropped: salvaged.dropped + 3,
            ..salvaged.clone()
        };
        salvaged.stops_lost || salvage(&more, ENOUGH) == Ok(want)
    }

    fn beyond_so(&self) -> bool {
        let Some(beyond) = self.bytes.len().checked_sub(60_965) else {
            return true;
        };
        let first = salvage(&self.bytes[..60_965], ENOUGH).map(|salvaged| Salvaged {
            dropped: salvaged.dropped + beyond,
            ..salvaged
        });
        self.answer == first
    }
}

/// The numbers of the cuts that break a law.
fn breaking(cuts: &[Cut], holds: fn(&Cut) -> bool) -> Vec<usize> {
    let numbers = 0..cuts.len();
    numbers.filter(|i| !holds(&cuts[*i])).collect()
}

fn records_of(data: &[u8]) -> Vec<&[u8]> {
    let mut items = Items { data };
    std::iter::from_fn(|| items.record()).collect()
}

pub fn check_salvage_laws(checks: &mut Checks) {
    for seed in [1, 2] {
        let made = make_cuts(seed, reaching_cuts() + 600);
        let cuts: Vec<Cut> = records_of(&made)
            .into_iter()
            .map(|bytes| Cut {
                bytes,
                answer: salvage(bytes, ENOUGH),
            })
            .collect();
        for (name, holds) in LAWS {
            checks.same(name, breaking(&cuts, holds), Vec::new());
        }
        let many = |is: fn(&Cut) -> bool| cuts.iter().filter(|cut| is(cut)).count() >= 100;
        checks.same("refused ones", many(|c| c.answer.is_err()), true);
        checks.same(
            "rows lost",
            many(|c| c.answer.as_ref().is_ok_and(|s| s.lost > 0)),
            true,
        );
        checks.same(
            "stops lost",
            many(|c| c.answer.as_ref().is_ok_and(|s| s.stops_lost)),
            true,
        );
        checks.same(
            "stops kept",
            many(|c| c.answer.as_ref().is_ok_and(|s| !s.stops_lost)),
            true,
        );
        checks.same("intact ones", many(|c| c.intact()), true);
    }
}

/// Of the records that are cut at every length, what each length gives.
pub fn check_every_length(checks: &mut Checks) {
    for (name, content) in cut_at_every_length() {
        let (whole, row) = (content.bytes().len(), 4 * content.codes.len());
        let count = content.cells.len() / content.codes.len();
        let rows_at = content.settings_at() + 76;
        for (length, cut) in every_length(&content).iter().enumerate() {
            let told = salvage(cut, ENOUGH).map(|s| (s.kept, s.lost, s.dropped, s.stops_lost));
            let there = length.saturating_sub(rows_at);
            let kept = (there / row).min(count);
            let want = match length {
                _ if length < rows_at => Err(refusal(1, length)),
                _ if length < whole => Ok((kept, count - kept, there - kept * row, true)),
                _ => Ok((count, 0, length - whole, false)),
            };
            checks.same(name, told, want);
        }
    }
}

/// The scripted cuts are just as many as reach everything; those that are stored reach everything and are short.
pub fn check_cuts_made(checks: &mut Checks) {
    let least = reaching_cuts();
    for seed in 1..=3 {
        let fewer = reach_cuts(&make_cuts(seed, least - 1)).missing();
        checks.same("one cut less", fewer.len(), 1);
        let made = make_salvages(seed, 0);
        checks.same("salvages", reach_salvages(&made).missing(), Vec::new());
        checks.same("at most 100 KB", made.len() <= 100_000, true);
        let more = make_salvages(seed, 50);
        checks.same("the corners first", more.starts_with(&made), true);
    }
    let none = reach_cuts(&[]);
    checks.same("no cut, no case", none.missing(), none.required);
    check_topic_4(checks);
}

/// The items of `salvages` are behind the others of `record_vectors`, with the same lines.
fn check_topic_4(checks: &mut Checks) {
    let (vectors, salvages) = (make_record_vectors(1, 20), make_salvages(1, 20));
    let lines_of = |mode: fn(&[u8], &mut Vec<String>), data: &[u8]| {
        let mut lines = Vec::new();
        mode(data, &mut lines);
        lines
    };
    let all = lines_of(
        |data, lines| mode_record_vectors(data, &mut |l| lines.push(l.into())),
        &vectors,
    );
    let own = lines_of(
        |data, lines| mode_salvages(data, &mut |l| lines.push(l.into())),
        &salvages,
    );
    checks.same("topic 4's lines", all.ends_with(&own), true);
    let topics = vectors.len() - salvages.len() - own.len();
    checks.same("topic 4 first", vectors.get(topics), Some(&4));
    let earlier = &vectors[..topics];
    let before = lines_of(
        |data, lines| mode_record_vectors(data, &mut |l| lines.push(l.into())),
        earlier,
    );
    checks.same("topics 1 to 3", before.len() + own.len(), all.len());
    let kept = |lines: &[String]| {
        lines
            .iter()
            .filter(|line| line.starts_with("kept "))
            .count()
    };
    checks.same("none of topic 4 in front", kept(&before), 0);
    checks.same("topic 4 keeps", kept(&own) > 100, true);
}
