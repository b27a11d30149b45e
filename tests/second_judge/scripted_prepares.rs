//! Making input: scripted prepares.

use crate::bench::Event;
use crate::make_prepares::{failed_prepare, prepare, unfit_prepare, PREPARED};
use crate::make_runs::PASSED_RUNS;
use crate::scripted_events::{Story, SIGN_IN, WRONG};

/// Just below what no longer stands.
const BACKGROUND: [u16; 3] = [14, 1, 24];

/// By place in `BACKGROUND`: what no longer stands, just beside it, with its low byte 0 and at the greatest.
const TOO_MUCH: [(usize, [u16; 3]); 3] = [
    (0, [15, 256, 9999]),
    (1, [2, 256, 2000]),
    (2, [25, 256, 5000]),
];

const WRONG_RESIDUES: [i16; 5] = [-1, 8, i16::MIN, i16::MAX, 256];

/// Above the greatest: alone, in two and in all three.
const UNFIT: [[u16; 3]; 11] = [
    [10_000, 0, 0],
    [65535, 0, 0],
    [0, 2001, 0],
    [0, 65535, 0],
    [0, 0, 5001],
    [0, 0, 65535],
    [10_000, 2001, 0],
    [10_000, 0, 5001],
    [0, 2001, 5001],
    [10_000, 2001, 5001],
    [65535, 65535, 65535],
];

impl Story {
    pub fn prepares(&mut self) {
        self.prepare_ends();
        self.prepare_ages();
        self.prepares_voided();
        self.used_up();
        self.unfit_prepares();
        self.other_locks_first();
        self.between_prepare_and_start();
    }

    /// What a start needs after a power-on or clock setting, but the prepare.
    fn ready_but_prepare(&mut self) {
        self.add(&[Event::WarmUp, Event::Calibration(true), SIGN_IN]);
        self.add(&PASSED_RUNS);
    }

    /// Prepares at and beside the ends of what stands, a start behind each.
    fn prepare_ends(&mut self) {
        self.fresh();
        self.after(0, prepare(BACKGROUND, 0));
        self.start();
        self.fresh();
        for (place, values) in TOO_MUCH {
            for value in values {
                let mut background = BACKGROUND;
                background[place] = value;
                self.after(0, prepare(background, 7));
                self.start();
            }
        }
        for residue in WRONG_RESIDUES {
            self.after(0, prepare(BACKGROUND, residue));
            self.start();
        }
        self.after(0, prepare(BACKGROUND, 7));
        self.start();
    }

    /// Lock 8 at 121 s, none at 120 s.
    fn prepare_ages(&mut self) {
        for wait in [120, 121] {
            self.fresh();
            self.renew_but(wait, PREPARED);
            self.start();
        }
    }

    /// A prepare before a power-on, and before the clock is set: to what it is,
    /// on and back. A test that a power-on ends gives none back.
    fn prepares_voided(&mut self) {
        self.fresh();
        self.after(1, Event::PowerOn);
        self.ready_but_prepare();
        self.start();
        for new in [self.now, self.now + 3, self.now - 1] {
            self.after(0, PREPARED);
            self.set_clock(new);
            self.ready_but_prepare();
            self.start();
        }
        self.after(0, PREPARED);
        self.start();
        self.after(1, Event::PowerOn);
        self.ready_but_prepare();
        self.start();
    }

    /// A start that was admitted uses its prepare up, and one refused in its
    /// test, or with an earlier clock, takes no place.
    fn used_up(&mut self) {
        self.fresh();
        let mut script = self.start();
        self.ahead(100, PREPARED);
        self.incomplete(&mut script, 1);
        self.earlier(1, PREPARED);
        self.renew_but(0, PREPARED);
        self.start();
        self.after(0, PREPARED);
        self.start();
    }

    /// Unfit prepares ahead of a start, and some too early: none changes anything.
    fn unfit_prepares(&mut self) {
        self.fresh();
        for background in UNFIT {
            self.ahead(3, prepare(background, 0));
        }
        let events = [
            unfit_prepare(&mut self.dice),
            failed_prepare(&mut self.dice),
            Event::Start([0; 7], 0),
        ];
        for event in events {
            self.earlier(1, event);
        }
        self.start();
    }

    /// Locks 2, 6 and 5 before lock 8, which is left when they are lifted.
    fn other_locks_first(&mut self) {
        self.add(&[Event::PowerOn, Event::WarmUp]);
        self.now += 1801;
        self.start();
        self.ready_but_prepare();
        self.locks_6_and_5();
    }

    /// Every kind that leaves a prepare between it and its start, on a bench that lacks a prepare alone.
    fn between_prepare_and_start(&mut self) {
        self.add(&[PREPARED, WRONG, Event::AuthorityLock]);
        self.start();
        self.add(&[Event::AuthorityUnlock, Event::Upload]);
        self.ready_but_prepare();
        self.start();
    }
}
