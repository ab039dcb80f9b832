//! The log of timed events, its two formats and its edits.

use crate::image::Reader;
use crate::script::Refusal;

/// The greatest position.
pub const GREATEST: u64 = 1_099_511_627_775;
/// Format 1 holds the times below this one.
pub const FORMAT_1_END: u64 = 0xFFFF_FFFF;
const MOST: usize = 1_048_576;
const FORMAT_1: &[u8] = b"R3KLOG1\n";
const FORMAT_2: &[u8] = b"R3KLOG2\n";

/// The kinds of fault of a log.
#[derive(Clone, Copy, Debug, PartialEq)]
pub enum LogFault {
    Magic,
    Count,
    Time,
    Kind,
    Line,
    Value,
    Short,
    Extra,
}

/// The kinds of event, in the order of their numbers in format 2.
#[derive(Clone, Copy, Debug, PartialEq)]
pub enum Kind {
    Byte,
    Framing,
    Wire,
}

/// A byte that arrives at a line of the serial part in the step of a time, sound or with a framing error; or an external
/// line that gets the level `byte` then.
#[derive(Clone, Copy, Debug, PartialEq)]
pub struct Event {
    pub time: u64,
    pub kind: Kind,
    pub line: u8,
    pub byte: u8,
}

impl Kind {
    /// The greatest line and the greatest value of an event of this kind.
    pub fn greatest(self) -> (u8, u8) {
        if self == Kind::Wire { (2, 1) } else { (3, 255) }
    }
}

/// Events in order of time.
#[derive(Clone, Debug, Default, PartialEq)]
pub struct Log {
    pub events: Vec<Event>,
}

impl Log {
    /// Reads either format, or answers the first fault in reading order.
    pub fn read(bytes: &[u8]) -> Result<Log, LogFault> {
        let short = LogFault::Short;
        let mut reader = Reader(bytes);
        let magic = reader.bytes(8).ok_or(short)?;
        if magic != FORMAT_1 && magic != FORMAT_2 {
            return Err(LogFault::Magic);
        }
        let is_second = magic == FORMAT_2;
        let end = if is_second { GREATEST } else { FORMAT_1_END };
        let count = reader.number().ok_or(short)?;
        if count as usize > MOST {
            return Err(LogFault::Count);
        }
        let mut events: Vec<Event> = Vec::new();
        for _ in 0..count {
            let low = u64::from(reader.number().ok_or(short)?);
            let high = if is_second { reader.number().ok_or(short)? } else { 0 };
            let time = u64::from(high) << 32 | low;
            if time >= end || events.last().is_some_and(|last| time < last.time) {
                return Err(LogFault::Time);
            }
            let kind = match if is_second { reader.byte().ok_or(short)? } else { 0 } {
                0 => Kind::Byte,
                1 => Kind::Framing,
                2 => Kind::Wire,
                _ => return Err(LogFault::Kind),
            };
            let line = reader.byte().ok_or(short)?;
            if line > kind.greatest().0 {
                return Err(LogFault::Line);
            }
            let byte = reader.byte().ok_or(short)?;
            if byte > kind.greatest().1 {
                return Err(LogFault::Value);
            }
            events.push(Event { time, kind, line, byte });
        }
        if reader.0.is_empty() { Ok(Log { events }) } else { Err(LogFault::Extra) }
    }

    /// Writes format 1 where it can hold all events, else format 2.
    pub fn write(&self) -> Vec<u8> {
        let is_first = self.events.iter().all(|event| event.kind == Kind::Byte && event.time < FORMAT_1_END);
        let mut bytes = if is_first { FORMAT_1 } else { FORMAT_2 }.to_vec();
        bytes.extend((self.events.len() as u32).to_le_bytes());
        for event in &self.events {
            if is_first {
                bytes.extend((event.time as u32).to_le_bytes());
            } else {
                bytes.extend(event.time.to_le_bytes());
                bytes.push(event.kind as u8);
            }
            bytes.extend([event.line, event.byte]);
        }
        bytes
    }

    /// The event at a number that a script names.
    fn at(&self, number: u64) -> Result<usize, Refusal> {
        usize::try_from(number).ok().filter(|&at| at < self.events.len()).ok_or(Refusal::NoEvent)
    }

    /// Puts an event after all of its time, and answers its number.
    pub fn add(&mut self, event: Event) -> Result<usize, Refusal> {
        if self.events.len() >= MOST {
            return Err(Refusal::Range);
        }
        let at = self.events.partition_point(|other| other.time <= event.time);
        self.events.insert(at, event);
        Ok(at)
    }

    pub fn delete(&mut self, number: u64) -> Result<(), Refusal> {
        let at = self.at(number)?;
        self.events.remove(at);
        Ok(())
    }

    pub fn set(&mut self, number: u64, byte: u8) -> Result<usize, Refusal> {
        let at = self.at(number)?;
        if byte > self.events[at].kind.greatest().1 {
            return Err(Refusal::Range);
        }
        self.events[at].byte = byte;
        Ok(at)
    }

    /// Takes out the events from one time up to another, which is left out.
    pub fn erase(&mut self, from: u64, to: u64) -> Result<(), Refusal> {
        if from > to {
            return Err(Refusal::Range);
        }
        self.events.retain(|event| !(from..to).contains(&event.time));
        Ok(())
    }

    /// Takes an event out and adds it anew at another time.
    pub fn move_to(&mut self, number: u64, time: u64) -> Result<usize, Refusal> {
        let at = self.at(number)?;
        let event = self.events.remove(at);
        self.add(Event { time, ..event })
    }
}
