//! Reach: records, and what becomes of the averages of their last valid window.

use crate::exact_averages::record_averages;
use crate::items::Items;
use crate::reach::{texts, Reach};
use crate::record::{read_record, Record};
use crate::rejudging::rejudge;
use crate::test::Judged;

/// What is known of a record with such a window.
struct Seen<'a> {
    record: Record<'a>,
    judged: Judged,
    zeros: usize,
}

type Name = (&'static str, fn(&Seen) -> bool);

#[rustfmt::skip]
const WITH_WINDOW: [Name; 10] = [
    ("all three above zero", |s| s.zeros == 0),
    ("one of zero", |s| s.zeros == 1),
    ("all three of zero", |s| s.zeros == 3),
    ("of an open test", |s| s.judged.word.is_none()),
    ("of an ended test", |s| s.judged.word.is_some()),
    ("of a window before the last second", |s| s.judged.window_end.is_some_and(|end| end + 1 < s.judged.seconds_used)),
    ("of an attempt behind a void", |s| !s.judged.voids.is_empty()),
    ("in mode 2", |s| s.judged.mode == 2),
    ("at more than 30 °C", |s| s.record.settings[5] > 30),
    ("of a wide record", |s| s.record.bytes[0] == 0),
];

/// The names of one record.
fn names_of(bytes: &[u8]) -> Vec<String> {
    match (record_averages(bytes), rejudge(bytes), read_record(bytes)) {
        (Ok(Some(averages)), Ok(judged), Ok(record)) => {
            let zeros = averages.iter().filter(|average| average.is_zero()).count();
            let seen = Seen {
                record,
                judged,
                zeros,
            };
            let holding = WITH_WINDOW.iter().filter(|(_, holds)| holds(&seen));
            holding.map(|(name, _)| format!("numbers {name}")).collect()
        }
        (Ok(None), Ok(judged), _) => match judged.word {
            None => texts(&["- - - of an open test"]),
            Some(_) => texts(&["- - - of an ended test"]),
        },
        _ => texts(&["refused"]),
    }
}

/// What items of `against-averages` reach.
pub fn reach_averages_records(data: &[u8]) -> Reach {
    let mut required = texts(&["- - - of an open test", "- - - of an ended test", "refused"]);
    required.extend(
        WITH_WINDOW
            .iter()
            .map(|(name, _)| format!("numbers {name}")),
    );
    let mut reach = Reach::new(required);
    let mut items = Items { data };
    while let Some(record) = items.record() {
        let names = names_of(record);
        names.into_iter().for_each(|name| reach.count(name));
    }
    reach
}
