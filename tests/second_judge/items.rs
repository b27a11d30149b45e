//! Little-endian items of the modes' input.

use crate::bench::Event;
use crate::coast_down::Run;
use crate::exact_averages::Case;
use crate::prepare::Prepare;
use crate::record::{u16_at, u32_at};

/// Little-endian items from a run of bytes; None at the end.
pub struct Items<'a> {
    pub data: &'a [u8],
}

impl<'a> Items<'a> {
    pub fn take(&mut self, length: usize) -> Option<&'a [u8]> {
        if length > self.data.len() {
            return None;
        }
        let (head, tail) = self.data.split_at(length);
        self.data = tail;
        Some(head)
    }

    pub fn u8(&mut self) -> Option<u8> {
        self.take(1).map(|b| b[0])
    }

    pub fn u16(&mut self) -> Option<u16> {
        self.take(2).map(|b| u16_at(b, 0))
    }

    pub fn u32(&mut self) -> Option<u32> {
        self.take(4).map(|b| u32_at(b, 0))
    }

    pub fn settings(&mut self) -> Option<[u16; 7]> {
        let mut settings = [0; 7];
        for value in &mut settings {
            *value = self.u16()?;
        }
        Some(settings)
    }

    pub fn readings(&mut self) -> Option<[u32; 8]> {
        let mut bits = [0; 8];
        for value in &mut bits {
            *value = self.u32()?;
        }
        Some(bits)
    }

    /// Settings, p, ten seconds of readings.
    pub fn case(&mut self) -> Option<Case> {
        let (settings, p) = (self.settings()?, self.u16()?);
        let mut ten = [[0; 8]; 10];
        for second in &mut ten {
            *second = self.readings()?;
        }
        Some(Case { settings, p, ten })
    }

    pub fn run(&mut self) -> Option<Run> {
        Some(Run {
            inertia: self.u16()?,
            power: self.u16()?,
            faster: self.u8()? == 1,
            ms: self.u32()?,
        })
    }

    pub fn prepare(&mut self) -> Option<Prepare> {
        Some(Prepare {
            background: [self.u16()?, self.u16()?, self.u16()?],
            residue: self.u16()? as i16, // two's complement
        })
    }

    /// A 4-byte length and that many bytes.
    pub fn record(&mut self) -> Option<&'a [u8]> {
        let length = self.u32()? as usize;
        self.take(length)
    }

    /// The fields of an event of a kind.
    pub fn fields(&mut self, kind: u8) -> Option<Event> {
        Some(match kind {
            1 => Event::PowerOn,
            2 => Event::ClockSetting(self.u32()?),
            3 => Event::WarmUp,
            4 => Event::Calibration(self.u8()? == 1),
            5 => match self.u8()? {
                1 => Event::Try(Some(self.u32()?)),
                _ => Event::Try(None),
            },
            6 => Event::AuthorityLock,
            7 => Event::AuthorityUnlock,
            8 => Event::Upload,
            9 => Event::Start(self.settings()?, self.u16()?),
            10 => Event::Second(self.readings()?),
            11 => Event::Stop(self.u8()?),
            12 => Event::Run(self.run()?),
            13 => Event::Prepare(self.prepare()?),
            _ => return None,
        })
    }

    /// Kind, clock, fields.
    pub fn event(&mut self) -> Option<(u32, Event)> {
        let kind = self.u8()?;
        let clock = self.u32()?;
        Some((clock, self.fields(kind)?))
    }
}
