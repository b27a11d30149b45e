//! Making input: tests, and the items of `vectors`.

use crate::bench::Event;
use crate::dice::{some_settings, spoil_setting, Dice};
use crate::driver::{driven_test, unfit_bits};
use crate::items::Items;
use crate::make_corrections::{make_corrections, put_words};
use crate::make_readings::make_readings;
use crate::modes::{correction_item, next_test_line, reading_item};
use crate::script::good_bits;
use crate::scripted_tests::{scripted_gearbox, scripted_test, REACHING, SCRIPTS};
use crate::vehicle::Vehicle;

pub fn kind_of(event: &Event) -> u8 {
    match event {
        Event::PowerOn => 1,
        Event::ClockSetting(_) => 2,
        Event::WarmUp => 3,
        Event::Calibration(_) => 4,
        Event::Try(_) => 5,
        Event::AuthorityLock => 6,
        Event::AuthorityUnlock => 7,
        Event::Upload => 8,
        Event::Start(..) => 9,
        Event::Second(_) => 10,
        Event::Stop(_) => 11,
        Event::Run(_) => 12,
        Event::Prepare(_) => 13,
    }
}

/// Kind and fields of an event; a clock comes between them in a list.
pub fn put_event(out: &mut Vec<u8>, clock: Option<u32>, event: &Event) {
    out.push(kind_of(event));
    if let Some(clock) = clock {
        out.extend(clock.to_le_bytes());
    }
    match event {
        Event::ClockSetting(new) => out.extend(new.to_le_bytes()),
        Event::Calibration(passed) => out.push(*passed as u8),
        Event::Try(None) => out.push(0),
        Event::Try(Some(expiry)) => {
            out.push(1);
            out.extend(expiry.to_le_bytes());
        }
        Event::Start(settings, p) => {
            put_words(out, settings);
            put_words(out, &[*p]);
        }
        Event::Second(bits) => bits.iter().for_each(|b| out.extend(b.to_le_bytes())),
        Event::Stop(cause) => out.push(*cause),
        Event::Run(run) => {
            put_words(out, &[run.inertia, run.power]);
            out.push(run.faster as u8);
            out.extend(run.ms.to_le_bytes());
        }
        Event::Prepare(prepare) => {
            put_words(out, &prepare.background);
            out.extend(prepare.residue.to_le_bytes());
        }
        _ => {}
    }
}

/// The scripted tests first, in both modes, then driven ones.
pub fn make_tests(seed: u64, count: usize) -> Vec<u8> {
    let mut dice = Dice(seed ^ 0x7465_7374);
    let mut out = Vec::new();
    put_event(&mut out, None, &Event::Stop(1)); // no test yet
    for i in 0..count {
        let mut settings = some_settings(&mut dice);
        if i < SCRIPTS {
            settings[3] = scripted_gearbox(i);
        }
        let p = dice.within(500, 4300) as u16;
        let car = Vehicle::new(&settings, p);
        put_event(&mut out, None, &Event::Start(settings, p));
        let scripted = scripted_test(car, seed, i);
        let items = scripted.unwrap_or_else(|| driven_test(car, 1500, &mut dice));
        for item in items {
            if dice.percent(1) {
                put_unfit_item(&mut out, car.automatic, &mut dice);
            }
            put_event(&mut out, None, &item.event());
        }
        // Mostly after the end: fit and unfit, a second and a stop each.
        put_event(&mut out, None, &Event::Second(good_bits()));
        put_event(&mut out, None, &unfit_second(car.automatic, &mut dice));
        put_event(&mut out, None, &Event::Stop(1));
        put_event(&mut out, None, &Event::Stop(dice.pick(&[0, 5, 255])));
        put_event(&mut out, None, &unfit_start_at(1 + i % 8, &mut dice));
    }
    out
}

/// Each item of a mode's input, behind its topic byte.
pub fn put_topic(
    out: &mut Vec<u8>,
    topic: u8,
    data: &[u8],
    mut pass: impl FnMut(&mut Items) -> bool,
) {
    let mut items = Items { data };
    loop {
        let before = items.data;
        if !pass(&mut items) {
            return;
        }
        out.push(topic);
        out.extend(&before[..before.len() - items.data.len()]);
    }
}

/// COUNT seeded readings and corrections behind their corners, and as many
/// tests, at least those that reach everything and at most 136: all that are scripted, and 48 driven ones.
pub fn make_vectors(seed: u64, count: usize) -> Vec<u8> {
    let mut out = Vec::new();
    let mut test = None;
    put_topic(&mut out, 1, &make_readings(seed, count), |items| {
        reading_item(items).is_some()
    });
    put_topic(&mut out, 2, &make_corrections(seed, count), |items| {
        correction_item(items).is_some()
    });
    put_topic(
        &mut out,
        3,
        &make_tests(seed, count.clamp(REACHING, 136)),
        |items| next_test_line(items, &mut test).is_some(),
    );
    out
}

/// An unfit second, an unfit cause or an unfit start.
fn put_unfit_item(out: &mut Vec<u8>, automatic: bool, dice: &mut Dice) {
    let event = match dice.below(6) {
        0 => Event::Stop(dice.pick(&[0, 5, 255])),
        1 | 2 => unfit_start(dice),
        _ => unfit_second(automatic, dice),
    };
    put_event(out, None, &event);
}

pub fn unfit_second(automatic: bool, dice: &mut Dice) -> Event {
    let mut bits = good_bits();
    for _ in 0..dice.pick(&[1, 1, 2]) {
        let code = dice.within(1, 8) as u8;
        bits[code as usize - 1] = unfit_bits(code, automatic, dice);
    }
    Event::Second(bits)
}

/// A start with one setting or p unfit.
pub fn unfit_start(dice: &mut Dice) -> Event {
    let place = if dice.percent(15) {
        8
    } else {
        dice.within(1, 7)
    };
    unfit_start_at(place as usize, dice)
}

/// A start with the setting at a place (1 to 7) unfit, p perhaps too; at 8 p alone.
pub fn unfit_start_at(place: usize, dice: &mut Dice) -> Event {
    let mut settings = some_settings(dice);
    if place == 8 {
        return Event::Start(settings, dice.pick(&[0, 499, 4301, 65535]));
    }
    spoil_setting(&mut settings, place, dice);
    Event::Start(settings, dice.pick(&[2000, 2000, 0]))
}
