//! The serial part: four lines with one silo of received characters, and a scanner that offers the lines that can send.

use std::collections::VecDeque;
use std::fmt::Write;
use std::iter;

// CSR.
const TRDY: u32 = 1 << 15;
const TIE: u32 = 1 << 14;
const RDONE: u32 = 1 << 7;
const RIE: u32 = 1 << 6;
const MSE: u32 = 1 << 5;
const CLR: u32 = 1 << 4;
const MAINT: u32 = 1 << 3;

// RBUF and LPR.
const DVAL: u32 = 1 << 15;
const OERR: u32 = 1 << 14;
const FERR: u32 = 1 << 13;
const RECEIVER: u32 = 1 << 12;

const SILO: usize = 64;

/// A byte that was sent on a line.
#[derive(Clone, Copy, Debug, PartialEq)]
pub struct Sent {
    pub line: u8,
    pub byte: u8,
}

/// A received character, whether it came with a framing error, and whether characters of its line were lost before it.
#[derive(Clone, Copy, Debug, PartialEq)]
struct Character {
    line: u8,
    byte: u8,
    framing: bool,
    lost: bool,
}

impl Character {
    /// What RBUF gives.
    fn word(self) -> u32 {
        let flag = |is: bool, bit: u32| if is { bit } else { 0 };
        DVAL | flag(self.lost, OERR) | flag(self.framing, FERR) | u32::from(self.line) << 8 | u32::from(self.byte)
    }
}

#[derive(Clone, Copy, Debug, Default, PartialEq)]
struct Line {
    receives: bool,
    sends: bool,
    /// Ticks until the byte that is being sent is out.
    busy: u32,
    /// A byte came while the silo was full.
    lost: bool,
}

#[derive(Clone, Debug, PartialEq)]
pub struct Serial {
    byte_time: u32,
    /// TIE, RIE, MSE and MAINT.
    control: u32,
    /// TRDY and TLINE.
    ready: bool,
    ready_line: usize,
    last_served: usize,
    lines: [Line; 4],
    silo: VecDeque<Character>,
}

impl Serial {
    pub fn new(byte_time: u32) -> Serial {
        Serial {
            byte_time,
            control: 0,
            ready: false,
            ready_line: 0,
            last_served: 0,
            lines: [Line::default(); 4],
            silo: VecDeque::new(),
        }
    }

    /// A character arrives, `framing` with a framing error.
    pub fn receive(&mut self, line: u8, byte: u8, framing: bool) {
        let at = &mut self.lines[usize::from(line)];
        if self.control & MSE == 0 || !at.receives {
            return;
        }
        if self.silo.len() == SILO {
            at.lost = true;
        } else {
            self.silo.push_back(Character { line, byte, framing, lost: at.lost });
            at.lost = false;
        }
    }

    #[inline]
    pub fn tick(&mut self) {
        for line in &mut self.lines {
            line.busy = line.busy.saturating_sub(1);
        }
        if self.control & MSE != 0 && !self.ready {
            self.scan();
        }
    }

    /// Offers the first line that can send, upward from the one after the last served.
    fn scan(&mut self) {
        for step in 1..=4 {
            let number = (self.last_served + step) % 4;
            let line = self.lines[number];
            if line.sends && line.busy == 0 {
                (self.ready, self.ready_line) = (true, number);
                return;
            }
        }
    }

    /// The interrupt line.
    #[inline]
    pub fn line(&self) -> bool {
        self.control & TIE != 0 && self.ready || self.control & RIE != 0 && !self.silo.is_empty()
    }

    /// Reads the word at an offset.
    pub fn read(&mut self, offset: u32) -> u32 {
        match offset {
            0 => {
                let ready = if self.ready { TRDY } else { 0 };
                let done = if self.silo.is_empty() { 0 } else { RDONE };
                ready | done | (self.ready_line as u32) << 8 | self.control
            }
            8 => self.silo.pop_front().map_or(0, Character::word),
            16 => (0..4).map(|line| u32::from(self.lines[line].sends) << line).sum(),
            _ => 0,
        }
    }

    /// The lines that `devices` shows of it: what reads of a copy give, and what it holds besides.
    pub fn shown(&self) -> String {
        let mut copy = self.clone();
        let [csr, rbuf, tcr, msr] = [0, 8, 16, 24].map(|offset| copy.read(offset));
        let mut text = format!("serial csr {csr:#010x} rbuf {rbuf:#010x} tcr {tcr:#010x} msr {msr:#010x}");
        writeln!(text, " served {} time {}", self.last_served, self.byte_time).unwrap();
        for (number, line) in self.lines.iter().enumerate() {
            let (receiver, lost) = (u32::from(line.receives), u32::from(line.lost));
            writeln!(text, "line {number} receiver {receiver} lost {lost} busy {}", line.busy).unwrap();
        }
        let mut copy = self.clone();
        let waiting: Vec<u32> = iter::from_fn(|| Some(copy.read(8)).filter(|word| word & DVAL != 0)).collect();
        write!(text, "silo {}", waiting.len()).unwrap();
        for word in waiting {
            write!(text, " {word:#010x}").unwrap();
        }
        text + "\n"
    }

    /// Writes the covered bytes of the word at an offset. `lanes` has a bit for each byte.
    pub fn write(&mut self, offset: u32, value: u32, lanes: u32) -> Option<Sent> {
        let covers_low = lanes & 1 != 0;
        let value = value & if lanes & 2 != 0 { 0xFFFF } else { 0x00FF };
        match offset {
            0 => self.write_control(value, lanes),
            8 if covers_low => self.lines[value as usize % 4].receives = value & RECEIVER != 0,
            16 if covers_low => {
                for (number, line) in self.lines.iter_mut().enumerate() {
                    line.sends = value >> number & 1 != 0;
                }
                self.ready &= self.lines[self.ready_line].sends;
            }
            24 if covers_low && self.ready => {
                let line = self.ready_line;
                self.lines[line].busy = self.byte_time;
                self.last_served = line;
                self.ready = false;
                return Some(Sent { line: line as u8, byte: value as u8 });
            }
            _ => {}
        }
        None
    }

    fn write_control(&mut self, value: u32, lanes: u32) {
        let low = if lanes & 1 != 0 { RIE | MSE | MAINT } else { 0 };
        let high = if lanes & 2 != 0 { TIE } else { 0 };
        if lanes & 1 != 0 && value & CLR != 0 {
            *self = Serial::new(self.byte_time);
            return;
        }
        self.control = self.control & !(low | high) | value & (low | high);
        if self.control & MSE == 0 {
            self.ready = false;
            self.silo.clear();
            for line in &mut self.lines {
                line.lost = false;
            }
        }
    }
}
