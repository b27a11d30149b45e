//! The modes that judge: a line an item.

use crate::attempt::{Did, Stage};
use crate::bench::{step_of, Answer, Bench, Event};
use crate::exact_averages::Case;
use crate::items::Items;
use crate::numbers::{
    dilution_factor, judge_reading, judge_readings, refusal, second_of, Reading, Refusal,
};
use crate::programs::{each_against, Ended};
use crate::record::{fnv, pairs, read_record, u32_at, write_record, Content};
use crate::rejudging::rejudge_line;
use crate::running::{Running, State, Step};
use crate::salvage_modes::next_salvage_line;
use crate::test::{Next, Standing};
use crate::vehicle::Vehicle;
use crate::window::{
    averages, engine_mean, engine_text, measured_of, window_passes, window_sums, window_valid,
    Measured,
};
use std::io;

pub fn answer_line(answer: &Answer) -> String {
    match answer {
        Ok(None) => "ok".to_string(),
        Ok(Some(v)) => format!(
            "ok {} {} {} {} {}",
            v.word.text(),
            v.t,
            v.passing,
            v.failing,
            v.invalid
        ),
        Err(refusal) => refusal.to_string(),
    }
}

/// A line of each item, to the end of the input.
pub fn each_item(
    data: &[u8],
    out: &mut impl FnMut(&str),
    next: impl Fn(&mut Items) -> Option<String>,
) {
    let mut items = Items { data };
    while let Some(line) = next(&mut items) {
        out(&line);
    }
}

pub fn mode_judge_many(data: &[u8], out: &mut impl FnMut(&str)) {
    let mut items = Items { data };
    while let Some(record) = items.record() {
        out(&rejudge_line(record));
    }
}

/// Runs a program on each record and compares its line with ours. The first
/// record that differs is saved. True where none does.
pub fn mode_against(
    program: &str,
    data: &[u8],
    save: &str,
    out: &mut impl FnMut(&str),
) -> io::Result<bool> {
    each_against(data, ("record", save), out, |record| {
        let (expected, got) = (rejudge_line(record), line_of_program(program, record)?);
        Ok((got != expected).then(|| format!("expected {expected}, got {got}")))
    })
}

/// What a program writes for a record on its standard input, without the
/// newline at the end; a second line or none shows.
fn line_of_program(program: &str, record: &[u8]) -> io::Result<String> {
    let text = Ended::of(program, record)?.text();
    Ok(text.strip_suffix('\n').unwrap_or("(no line)").to_string())
}

pub fn mode_events(data: &[u8], out: &mut impl FnMut(&str)) {
    let mut items = Items { data };
    let (Some(v), Some(u)) = (items.u32(), items.u16()) else {
        return;
    };
    let mut bench = match Bench::new(v, u) {
        Ok(bench) => bench,
        Err(refusal) => return out(&refusal.to_string()),
    };
    while let Some((clock, event)) = items.event() {
        out(&answer_line(&bench.take(clock, &event)));
    }
}

pub fn mode_readings(data: &[u8], out: &mut impl FnMut(&str)) {
    let mut items = Items { data };
    while let Some(line) = reading_item(&mut items) {
        out(&line);
    }
}

pub fn reading_item(items: &mut Items) -> Option<String> {
    if items.u8()? == 1 {
        let (code, gearbox, bits) = (items.u8()?, items.u8()?, items.u32()?);
        if !(1..=8).contains(&code) {
            return None;
        }
        return Some(match judge_reading(code, gearbox == 2, bits) {
            Some(reading) => reading.to_string(),
            None => refusal(8, code as usize).to_string(),
        });
    }
    let (gearbox, bits) = (items.u8()?, items.readings()?);
    Some(match judge_readings(gearbox == 2, &bits) {
        Ok(readings) => readings_text(&readings),
        Err(code) => refusal(8, code as usize).to_string(),
    })
}

/// The units of codes 1 to 7, 0 where there are none; code 8; then a word for
/// an engine speed that is missing and for a gas that is over range.
fn readings_text(readings: &[Reading; 8]) -> String {
    let units = readings[..7].iter().map(|r| match r {
        Reading::Units(n) => n.to_string(),
        _ => "0".to_string(),
    });
    let mut words: Vec<String> = units.collect();
    words.push(readings[7].to_string());
    if readings[2] == Reading::Missing {
        words.push("engine-missing".to_string());
    }
    if readings[3..7].contains(&Reading::Over) {
        words.push("over-range".to_string());
    }
    words.join(" ")
}

pub fn mode_corrections(data: &[u8], out: &mut impl FnMut(&str)) {
    let mut items = Items { data };
    while let Some(line) = correction_item(&mut items) {
        out(&line);
    }
}

pub fn correction_item(items: &mut Items) -> Option<String> {
    match items.u8()? {
        1 => {
            let (a, b) = (items.u16()?, items.u16()?);
            Some(format!("dcf {}", dilution_factor(a as u128, b as u128)))
        }
        2 => {
            let (settings, p) = (items.settings()?, items.u16()?);
            Some(match Vehicle::from_start(&settings, p) {
                Ok(car) => format!("k {}", car.k),
                Err(refusal) => refusal.to_string(),
            })
        }
        3 => window_item(items),
        _ => limits_item(items),
    }
}

fn window_item(items: &mut Items) -> Option<String> {
    let (mode, Case { settings, p, ten }) = (items.u8()?, items.case()?);
    Some(window_line(mode, &settings, p, &ten).unwrap_or_else(|refusal| refusal.to_string()))
}

pub fn window_line(
    mode: u8,
    settings: &[u16; 7],
    p: u16,
    ten: &[[u32; 8]],
) -> Result<String, Refusal> {
    let car = Vehicle::from_start(settings, p)?;
    let mut seconds = Vec::new();
    for bits in ten {
        match judge_readings(car.automatic, bits) {
            Ok(readings) => seconds.push(second_of(&readings)),
            Err(code) => return Err(refusal(8, code as usize)),
        }
    }
    let list: Vec<Measured> = seconds
        .iter()
        .filter_map(|s| {
            s.gases
                .as_ref()
                .map(|gases| measured_of(&car, mode, s, gases))
        })
        .collect();
    if list.len() < ten.len() {
        return Ok("over".to_string());
    }
    let sums = window_sums(&car, &list);
    let valid = if window_valid(&list) {
        "valid"
    } else {
        "invalid"
    };
    let judged = if window_passes(&car.limits(), &sums) {
        "passing"
    } else {
        "failing"
    };
    let a = averages(&sums);
    let engine = engine_text(engine_mean(&list));
    Ok(format!(
        "window {valid} {judged} {} {} {} {engine}",
        a.hc, a.co, a.no
    ))
}

fn limits_item(items: &mut Items) -> Option<String> {
    let (kind, year, displacement) = (items.u16()?, items.u16()?, items.u16()?);
    let (mode, load, _speed) = (items.u8()?, items.u16()?, items.u16()?);
    let (present, engine, gearbox) = (items.u8()?, items.u16()?, items.u8()?);
    let car = Vehicle::new(
        &[kind, year, displacement, gearbox as u16, 0, 20, 1000],
        2339,
    );
    let engine = (present == 1).then_some(engine as i64);
    let yes = |yes: bool| if yes { "yes" } else { "no" };
    let limits = car.limits();
    Some(format!(
        "limits {} {} {} load {} tolerance {} target {} engine {}",
        limits.co,
        limits.hc,
        limits.no,
        car.set_load(mode),
        yes(car.load_in_tolerance(mode, load as i64)),
        car.target(mode),
        yes(car.engine_good(engine)),
    ))
}

pub fn did_text(did: Did) -> String {
    match did {
        Did::Nothing => "nothing".to_string(),
        Did::Began => "began".to_string(),
        Did::Measured => "measured".to_string(),
        Did::Restarted => "restarted".to_string(),
        Did::Void(void) => format!("void-{void}"),
    }
}

pub fn next_text(next: Next) -> String {
    match next {
        Next::GoesOn => "goes-on".to_string(),
        Next::Rests => "rests".to_string(),
        Next::RestEnded => "rest-ended".to_string(),
        Next::Mode2 => "mode-2".to_string(),
        Next::Ends(word) => format!("ends-{}", word.text()),
    }
}

fn state_text(s: &State) -> String {
    let stage = match s.stage {
        Stage::Settling => "settling",
        Stage::Measuring => "measuring",
        Stage::Rest => "rest",
        Stage::Ended => "ended",
    };
    let Standing { mode, r, q } = s.standing;
    format!(
        "mode {mode} stage {stage} c {} n {} g {} t {} u {} w {} \
         passing {} failing {} invalid {} rest {} r {r} q {q} engine {}",
        s.c,
        s.n,
        s.g,
        s.t,
        s.u,
        s.w,
        s.passing,
        s.failing,
        s.invalid,
        s.rest,
        engine_text(s.engine),
    )
}

/// One item of the `tests` mode on the test in hand.
pub fn test_item(test: &mut Option<Running>, event: &Event) -> Result<Option<Step>, Refusal> {
    if let Event::Start(settings, p) = event {
        *test = Some(Running::new(Vehicle::from_start(settings, *p)?));
        return Ok(None);
    }
    match test.as_mut() {
        Some(running) if !running.ended => step_of(running, event).map(Some),
        _ => Err(refusal(13, 0)),
    }
}

pub fn test_line(outcome: &Result<Option<Step>, Refusal>) -> String {
    match outcome {
        Ok(None) => "begun".to_string(),
        Ok(Some(s)) => {
            format!(
                "{} {} {}",
                did_text(s.did),
                next_text(s.next),
                state_text(&s.state)
            )
        }
        Err(refusal) => refusal.to_string(),
    }
}

pub fn next_test_line(items: &mut Items, test: &mut Option<Running>) -> Option<String> {
    let kind = items.u8()?;
    let event = items.fields(kind)?;
    Some(test_line(&test_item(test, &event)))
}

pub fn mode_tests(data: &[u8], out: &mut impl FnMut(&str)) {
    let mut items = Items { data };
    let mut test = None;
    while let Some(line) = next_test_line(&mut items, &mut test) {
        out(&line);
    }
}

/// An item behind its topic byte: 1 readings, 2 corrections, 3 tests.
fn vector_item(items: &mut Items, test: &mut Option<Running>) -> Option<String> {
    match items.u8()? {
        1 => reading_item(items),
        2 => correction_item(items),
        3 => next_test_line(items, test),
        _ => None,
    }
}

pub fn mode_vectors(data: &[u8], out: &mut impl FnMut(&str)) {
    let mut items = Items { data };
    let mut test = None;
    while let Some(line) = vector_item(&mut items, &mut test) {
        out(&line);
    }
}

pub fn same_text(same: bool) -> &'static str {
    if same {
        "same"
    } else {
        "other"
    }
}

/// A fit record is read, written again and compared with its bytes.
pub fn next_read_line(items: &mut Items) -> Option<String> {
    let bytes = items.record()?;
    Some(match read_record(bytes) {
        Ok(r) => {
            let mut again = vec![0; bytes.len()];
            let written = write_record(&r.content(), &mut again) == Ok(bytes.len());
            let same = same_text(written && again == bytes);
            format!("fit {} {} {} {same}", r.codes.len(), r.rows, r.stops.len())
        }
        Err(refusal) => refusal.to_string(),
    })
}

pub fn mode_read(data: &[u8], out: &mut impl FnMut(&str)) {
    each_item(data, out, next_read_line);
}

/// What writing answered, the hash of the output, and whether what was written comes back when it is read.
pub fn written_line(
    outcome: Result<usize, Refusal>,
    buffer: &[u8],
    comes_back: impl Fn(&[u8]) -> bool,
) -> String {
    let hash = fnv(buffer);
    match outcome {
        Ok(length) => {
            let same = same_text(comes_back(&buffer[..length]));
            format!("written {length} {hash} {same}")
        }
        Err(refusal) => format!("{refusal} {hash}"),
    }
}

pub fn next_write_line(items: &mut Items) -> Option<String> {
    let (length, fill, content) = write_item(items)?;
    let mut buffer = vec![fill; length];
    let outcome = write_record(&content, &mut buffer);
    Some(written_line(outcome, &buffer, |record| {
        let again = read_record(record).map(|r| r.content());
        again.as_ref() == Ok(&content)
    }))
}

pub fn mode_write(data: &[u8], out: &mut impl FnMut(&str)) {
    each_item(data, out, next_write_line);
}

/// Puts the rejudge line with its newline at the start of an output; a refusal leaves it as it was.
pub fn put_line(bytes: &[u8], out: &mut [u8]) -> Result<usize, Refusal> {
    let line = rejudge_line(bytes) + "\n";
    if out.len() < line.len() {
        return Err(refusal(10, line.len()));
    }
    out[..line.len()].copy_from_slice(line.as_bytes());
    Ok(line.len())
}

fn next_line_line(items: &mut Items) -> Option<String> {
    let (length, fill) = (items.u32()? as usize, items.u8()?);
    let record = items.record()?;
    let mut buffer = vec![fill; length];
    let outcome = put_line(record, &mut buffer);
    let hash = fnv(&buffer);
    Some(match outcome {
        Ok(length) => format!("written {length} {hash}"),
        Err(refusal) => format!("{refusal} {hash}"),
    })
}

pub fn mode_line(data: &[u8], out: &mut impl FnMut(&str)) {
    each_item(data, out, next_line_line);
}

/// An item behind its topic byte: 1 as in `read`, 2 as in `write`, 3 as in `line`, 4 as in `salvages`.
pub fn mode_record_vectors(data: &[u8], out: &mut impl FnMut(&str)) {
    each_item(data, out, |items| match items.u8() {
        Some(1) => next_read_line(items),
        Some(2) => next_write_line(items),
        Some(3) => next_line_line(items),
        Some(4) => next_salvage_line(items),
        _ => None,
    });
}

pub fn write_item(items: &mut Items) -> Option<(usize, u8, Content)> {
    let (length, fill) = (items.u32()? as usize, items.u8()?);
    let count = items.u16()? as usize;
    let codes = pairs(items.take(2 * count)?);
    let count = items.u16()? as usize;
    let settings = pairs(items.take(2 * count)?);
    let count = items.u16()? as usize;
    let saturation = pairs(items.take(2 * count)?);
    let count = items.u32()? as usize;
    let cells = items
        .take(4 * count)?
        .chunks(4)
        .map(|c| u32_at(c, 0))
        .collect();
    let count = items.u16()? as usize;
    let stop_rows = pairs(items.take(2 * count)?);
    let count = items.u16()? as usize;
    let stop_causes = items.take(count)?.to_vec();
    Some((
        length,
        fill,
        Content {
            codes,
            settings,
            saturation,
            cells,
            stop_rows,
            stop_causes,
        },
    ))
}
