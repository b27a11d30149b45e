//! Reach: a walk over a journal's events that knows only how long each kind is.

use crate::journaling::{read_journal, COUNT_AT, EVENTS_AT};
use crate::numbers::{refusal, Refusal};
use crate::record::u32_at;

/// The bytes of an event behind its clock: those before its yes-or-no, whether it has one, and those behind it.
fn shape(kind: u8) -> (usize, bool, usize) {
    match kind {
        2 => (4, false, 0),
        4 => (0, true, 0),
        5 => (0, true, 4), // where it is yes
        9 => (16, false, 0),
        10 => (32, false, 0),
        11 => (1, false, 0),
        12 => (4, true, 4),
        13 => (8, false, 0),
        _ => (0, false, 0),
    }
}

/// How the events of a journal end.
#[derive(Clone, Copy, PartialEq, Eq, Debug)]
pub enum End {
    Whole,
    Cut,
    UnknownKind(u8),
    NeitherYesNorNo(u8),
}

/// A walk over a journal's events: where it ends, in which event, and how.
#[derive(Clone, Copy)]
pub struct Walk {
    pub whole: usize, // events
    pub start: usize, // of the event that is not whole, or behind the last
    pub at: usize,
    pub end: End,
}

/// Where one event ends, or what ends the walk in it, and where.
pub fn walk_event(bytes: &[u8], start: usize) -> Result<usize, (usize, End)> {
    let cut = Err((bytes.len(), End::Cut));
    let Some(kind) = bytes.get(start) else {
        return cut;
    };
    if !(1..=13).contains(kind) {
        return Err((start, End::UnknownKind(*kind)));
    }
    let (before, flag, mut behind) = shape(*kind);
    let mut at = start + 5 + before;
    if flag {
        match bytes.get(at) {
            None => return cut,
            Some(0) if *kind == 5 => behind = 0,
            Some(0 | 1) => {}
            Some(byte) => return Err((at, End::NeitherYesNorNo(*byte))),
        }
        at += 1;
    }
    if bytes.len() < at + behind {
        return cut;
    }
    Ok(at + behind)
}

pub fn walk(bytes: &[u8], count: usize) -> Walk {
    let mut start = EVENTS_AT;
    for whole in 0..count {
        match walk_event(bytes, start) {
            Ok(next) => start = next,
            Err((at, end)) => {
                return Walk {
                    whole,
                    start,
                    at,
                    end,
                }
            }
        }
    }
    Walk {
        whole: count,
        start,
        at: start,
        end: End::Whole,
    }
}

/// What a walk alone would say of the events.
pub fn refusal_of(bytes: &[u8], walk: &Walk) -> Option<Refusal> {
    match walk.end {
        End::Whole if walk.at < bytes.len() => Some(refusal(7, walk.at)),
        End::Whole => None,
        End::Cut => Some(refusal(1, walk.at)),
        _ => Some(refusal(20, walk.at)),
    }
}

/// Bytes of a whole event: kind, clock and fields; 0 a wrong try.
pub fn length_of(kind: usize) -> usize {
    if kind == 0 {
        return 6;
    }
    let (before, flag, behind) = shape(kind as u8);
    5 + before + flag as usize + behind
}

/// Whether the walk says the same as the reader.
pub fn walk_agrees(bytes: &[u8]) -> bool {
    let answer = read_journal(bytes).err();
    let behind = answer.map_or(true, |r| matches!(r.number, 1 | 7 | 20));
    if bytes.len() < EVENTS_AT || !behind {
        return true;
    }
    let count = u32_at(bytes, COUNT_AT) as usize;
    refusal_of(bytes, &walk(bytes, count)) == answer
}
