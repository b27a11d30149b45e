//! The journal of bench events (request A.7): reading, writing, and a line for each start.

use crate::bench::{Answer, Bench, Event};
use crate::coast_down::Run;
use crate::numbers::{refusal, Refusal};
use crate::prepare::Prepare;
use crate::record::{allowed, part, u16_at, u32_at};

/// The most events of a journal.
pub const MOST_EVENTS: usize = 1700;

/// The offset of the events' count.
pub const COUNT_AT: usize = 7;

/// The offset of the first event.
pub const EVENTS_AT: usize = 11;

/// What a journal holds; the clocks and fields as they are, fit for a bench or not.
#[derive(Clone, PartialEq, Eq, Debug)]
pub struct Journal {
    pub v: u32,
    pub u: u16,
    pub events: Vec<(u32, Event)>,
}

/// The first count, V and U, the events' count, then every byte of the events in turn.
pub fn read_journal(bytes: &[u8]) -> Result<Journal, Refusal> {
    allowed(part(bytes, 0, 1)?[0] == 2, 0)?;
    let parameters = part(bytes, 1, 6)?;
    let (v, u) = (u32_at(parameters, 0), u16_at(parameters, 4));
    Bench::new(v, u)?;
    let count = u32_at(part(bytes, COUNT_AT, 4)?, 0) as usize;
    allowed(count <= MOST_EVENTS, COUNT_AT)?;
    let mut cursor = Cursor {
        bytes,
        at: EVENTS_AT,
    };
    let mut events = Vec::new();
    for _ in 0..count {
        events.push(cursor.event()?);
    }
    if cursor.at < bytes.len() {
        return Err(refusal(7, cursor.at));
    }
    Ok(Journal { v, u, events })
}

/// The events that some bytes begin with: up to the first that a journal could not have.
pub fn events_of(bytes: &[u8]) -> Vec<(u32, Event)> {
    let mut cursor = Cursor { bytes, at: 0 };
    std::iter::from_fn(|| cursor.event().ok()).collect()
}

/// Goes through the bytes of events; a part that is cut off is refusal 1.
struct Cursor<'a> {
    bytes: &'a [u8],
    at: usize,
}

impl<'a> Cursor<'a> {
    fn take(&mut self, length: usize) -> Result<&'a [u8], Refusal> {
        let taken = part(self.bytes, self.at, length)?;
        self.at += length;
        Ok(taken)
    }

    fn u8(&mut self) -> Result<u8, Refusal> {
        Ok(self.take(1)?[0])
    }

    fn u16(&mut self) -> Result<u16, Refusal> {
        Ok(u16_at(self.take(2)?, 0))
    }

    fn u32(&mut self) -> Result<u32, Refusal> {
        Ok(u32_at(self.take(4)?, 0))
    }

    /// A yes-or-no: 1 for yes or good, 0 for the other.
    fn yes(&mut self) -> Result<bool, Refusal> {
        let at = self.at;
        match self.u8()? {
            0 => Ok(false),
            1 => Ok(true),
            _ => Err(refusal(20, at)),
        }
    }

    /// Kind, clock, fields.
    fn event(&mut self) -> Result<(u32, Event), Refusal> {
        let at = self.at;
        let kind = self.u8()?;
        if !(1..=13).contains(&kind) {
            return Err(refusal(20, at));
        }
        let clock = self.u32()?;
        Ok((clock, self.fields(kind)?))
    }

    fn fields(&mut self, kind: u8) -> Result<Event, Refusal> {
        Ok(match kind {
            1 => Event::PowerOn,
            2 => Event::ClockSetting(self.u32()?),
            3 => Event::WarmUp,
            4 => Event::Calibration(self.yes()?),
            5 => Event::Try(if self.yes()? { Some(self.u32()?) } else { None }),
            6 => Event::AuthorityLock,
            7 => Event::AuthorityUnlock,
            8 => Event::Upload,
            9 => self.start()?,
            10 => self.second()?,
            11 => Event::Stop(self.u8()?),
            12 => self.run()?,
            _ => self.prepare()?,
        })
    }

    fn start(&mut self) -> Result<Event, Refusal> {
        let mut settings = [0; 7];
        for setting in &mut settings {
            *setting = self.u16()?;
        }
        Ok(Event::Start(settings, self.u16()?))
    }

    fn second(&mut self) -> Result<Event, Refusal> {
        let mut bits = [0; 8];
        for reading in &mut bits {
            *reading = self.u32()?;
        }
        Ok(Event::Second(bits))
    }

    fn run(&mut self) -> Result<Event, Refusal> {
        let (inertia, power) = (self.u16()?, self.u16()?);
        let faster = self.yes()?;
        let ms = self.u32()?;
        Ok(Event::Run(Run {
            inertia,
            power,
            faster,
            ms,
        }))
    }

    fn prepare(&mut self) -> Result<Event, Refusal> {
        let background = [self.u16()?, self.u16()?, self.u16()?];
        let residue = self.u16()? as i16; // two's complement
        Ok(Event::Prepare(Prepare {
            background,
            residue,
        }))
    }
}

impl Journal {
    /// Refusal 15, then 2.
    pub fn check(&self) -> Result<(), Refusal> {
        Bench::new(self.v, self.u)?;
        allowed(self.events.len() <= MOST_EVENTS, COUNT_AT)
    }

    /// The bytes of what the journal holds as it is, allowed or not.
    pub fn bytes(&self) -> Vec<u8> {
        let mut out = vec![2];
        out.extend(self.v.to_le_bytes());
        out.extend(self.u.to_le_bytes());
        out.extend((self.events.len() as u32).to_le_bytes());
        for (clock, event) in &self.events {
            out.extend(event_bytes(*clock, event));
        }
        out
    }
}

/// One event as it stands in a journal.
pub fn event_bytes(clock: u32, event: &Event) -> Vec<u8> {
    let (kind, fields) = match event {
        Event::PowerOn => (1, vec![]),
        Event::ClockSetting(new) => (2, new.to_le_bytes().to_vec()),
        Event::WarmUp => (3, vec![]),
        Event::Calibration(passed) => (4, vec![*passed as u8]),
        Event::Try(None) => (5, vec![0]),
        Event::Try(Some(expiry)) => (5, [&[1], &expiry.to_le_bytes()[..]].concat()),
        Event::AuthorityLock => (6, vec![]),
        Event::AuthorityUnlock => (7, vec![]),
        Event::Upload => (8, vec![]),
        Event::Start(settings, p) => (9, pairs_bytes(&[&settings[..], &[*p]].concat())),
        Event::Second(bits) => (10, bits.iter().flat_map(|b| b.to_le_bytes()).collect()),
        Event::Stop(cause) => (11, vec![*cause]),
        Event::Run(run) => (12, run_bytes(run)),
        Event::Prepare(prepare) => (13, prepare_bytes(prepare)),
    };
    [&[kind], &clock.to_le_bytes()[..], &fields[..]].concat()
}

fn pairs_bytes(values: &[u16]) -> Vec<u8> {
    values.iter().flat_map(|v| v.to_le_bytes()).collect()
}

fn run_bytes(run: &Run) -> Vec<u8> {
    let mut out = pairs_bytes(&[run.inertia, run.power]);
    out.push(run.faster as u8);
    out.extend(run.ms.to_le_bytes());
    out
}

fn prepare_bytes(prepare: &Prepare) -> Vec<u8> {
    let [hc, co, no] = prepare.background;
    pairs_bytes(&[hc, co, no, prepare.residue as u16])
}

/// Writes the journal into `out`; a refusal leaves `out` as it was.
pub fn write_journal(journal: &Journal, out: &mut [u8]) -> Result<usize, Refusal> {
    journal.check()?;
    let bytes = journal.bytes();
    if out.len() < bytes.len() {
        return Err(refusal(10, bytes.len()));
    }
    out[..bytes.len()].copy_from_slice(&bytes);
    Ok(bytes.len())
}

/// What is printed for a start.
pub fn start_line(answer: &Answer) -> String {
    match answer {
        Ok(_) => "admitted".to_string(),
        Err(refusal) if refusal.number == 14 => refusal.place.to_string(),
        Err(refusal) => format!("refused {}", refusal.number),
    }
}

/// A line for each start, or the refusal of an unfit journal.
pub fn journal_lines(bytes: &[u8]) -> Vec<String> {
    read_journal(bytes)
        .and_then(|journal| start_lines(&journal))
        .unwrap_or_else(|refusal| vec![refusal.to_string()])
}

/// A line for each start of a journal that reads.
pub fn start_lines(journal: &Journal) -> Result<Vec<String>, Refusal> {
    let mut bench = Bench::new(journal.v, journal.u)?;
    let mut lines = Vec::new();
    for (clock, event) in &journal.events {
        let answer = bench.take(*clock, event);
        if matches!(event, Event::Start(..)) {
            lines.push(start_line(&answer));
        }
    }
    Ok(lines)
}
