//! The lines of `trace` and `jumps` for a step: from the machine before the step and after it, and its instruction's number.

use std::fmt::Write;
use std::ops::RangeInclusive;

use crate::control::TS;
use crate::log::Event;
use crate::machine::{Done, Machine, Physical};

/// What a step is about to do, seen before it.
struct Seen {
    pc: u32,
    registers: [u32; 32],
    /// The word that is fetched, if one is.
    word: Option<u32>,
    /// The address of a load or a store, where it leads, and the word that a load returns.
    address: u32,
    place: Option<Physical>,
    got: u32,
    /// Whether the access goes to the isolated cache.
    isolated: bool,
}

impl Machine {
    /// Looks ahead at the step in which these events take effect.
    fn seen(&mut self, events: &[Event]) -> Seen {
        let mut seen = self.lent();
        let (pc, registers) = (seen.pc, seen.registers);
        seen.sample(events);
        let word = if seen.control.wants_interrupt() { None } else { seen.fetch(pc).ok() };
        let address = word.map_or(0, |word| registers[word as usize >> 21 & 31].wrapping_add(word as i16 as u32));
        let place = seen.where_is(address).ok();
        let isolated = place.is_some_and(|it| seen.is_isolated(it));
        let got = if matches!(word, Some(word) if LOADS.contains(&(word >> 26))) { seen.load(address, 0).unwrap_or(0) } else { 0 };
        self.give_back(seen);
        Seen { pc, registers, word, address, place, got, isolated }
    }

    /// Makes the step of a number, in which these events take effect first. Returns its line of `jumps` if it transferred control. Jumps
    /// within a function count only if `local` is set.
    pub fn jump(&mut self, number: u64, events: &[Event], local: bool) -> Option<String> {
        let (pc, registers) = (self.pc, self.registers);
        let done = self.step(events);
        let word = done.fetched;
        let to = if done.excepted { self.pc } else { self.target(word?, pc, &registers, local)? };
        let word = word.map_or("none".into(), |word| format!("{word:#010x}"));
        let exception = if done.excepted { format!(" exception {}", self.control.cause >> 2 & 31) } else { String::new() };
        Some(format!("{number} pc {pc:#010x} word {word} to {to:#010x}{exception}\n"))
    }

    /// Where an instruction transferred control to, from a PC and with the registers before it, by the machine after it.
    fn target(&self, word: u32, pc: u32, registers: &[u32; 32], local: bool) -> Option<u32> {
        let (rs, rt) = (registers[word as usize >> 21 & 31], registers[word as usize >> 16 & 31]);
        let near = pc.wrapping_add(4) & 0xF000_0000 | word << 6 >> 4;
        let branch = pc.wrapping_add(4).wrapping_add((word as i16 as u32) << 2);
        let taken = |holds: bool| holds.then_some(branch);
        let negative = rs >> 31 != 0;
        match (word >> 26, word & 0x3F) {
            (0, 8 | 9) => Some(rs),
            (3, _) => Some(near),
            (1, _) if word >> 20 & 1 == 1 => taken(negative != (word >> 16 & 1 == 1)),
            (0x10, 0x10) => Some(self.pc),
            _ if !local => None,
            (1, _) => taken(negative != (word >> 16 & 1 == 1)),
            (2, _) => Some(near),
            (4, _) => taken(rs == rt),
            (5, _) => taken(rs != rt),
            (6, _) => taken(rs == 0 || negative),
            (7, _) => taken(rs != 0 && !negative),
            _ => None,
        }
    }

    /// The mark of an access: of the isolated cache, or of a store that has no effect.
    fn mark(&self, seen: &Seen, stores: bool) -> &'static str {
        let Some(physical) = seen.place else { return "" };
        if seen.isolated {
            " isolated"
        } else if stores && !self.takes_store(physical.address) {
            " ignored"
        } else {
            ""
        }
    }

    /// Makes the step of a number, in which these events take effect first, and returns its line of `trace`.
    pub fn traced(&mut self, number: u64, events: &[Event]) -> String {
        let status = self.control.status;
        let seen = self.seen(events);
        let Seen { pc, registers, word, address, got, .. } = seen;
        let place = seen.place.map_or(0, |it| it.address & !3);
        let done = self.step(events);
        let mut line = format!("{number} pc {pc:#010x} word ");
        match word {
            Some(word) => write!(line, "{word:#010x}").unwrap(),
            None => line += "none",
        }
        if let Some(word) = word.filter(|_| !done.excepted) {
            let written = destination(word).map_or(self.load, |register| (register, self.registers[register]));
            if written.0 != 0 {
                write!(line, " r{} {:#010x}", written.0, written.1).unwrap();
            }
            if word >> 26 == 0 && matches!(word % 64, 0x11 | 0x13 | 0x18..=0x1B) {
                write!(line, " hi {:#010x} lo {:#010x}", self.hi, self.lo).unwrap();
            }
            match word >> 26 {
                opcode if LOADS.contains(&opcode) => write!(line, " load {place:#010x} {got:#010x}{}", self.mark(&seen, false)).unwrap(),
                opcode @ (0x28..=0x2B | 0x2E) => {
                    let value = registers[word as usize >> 16 & 31];
                    let left = done.stored.map_or(in_place(opcode, address % 4 * 8, value), |address| self.word(address));
                    write!(line, " store {place:#010x} {left:#010x}{}", self.mark(&seen, true)).unwrap();
                }
                _ => {}
            }
        }
        if let Some(sent) = done.sent {
            write!(line, " sent {} {:#04x}", sent.line, sent.byte).unwrap();
        }
        if status & TS == 0 && self.control.status & TS != 0 {
            line += " ts";
        }
        if done.excepted {
            write!(line, " exception {}", self.control.cause >> 2 & 31).unwrap();
        }
        line + "\n"
    }
}

impl Machine {
    /// The registers that the step just made wrote, with 32 for HI and 33 for LO. A load's register is the one that waits.
    pub fn written(&self, done: Done) -> Vec<usize> {
        let Some(word) = done.fetched.filter(|_| !done.excepted) else {
            return Vec::new();
        };
        let hi_lo: &[usize] = match (word >> 26, word % 64) {
            (0, 0x11) => &[32],
            (0, 0x13) => &[33],
            (0, 0x18..=0x1B) => &[32, 33],
            _ => &[],
        };
        let register = destination(word).unwrap_or(self.load.0);
        hi_lo.iter().copied().chain(Some(register).filter(|&it| it != 0)).collect()
    }
}

const LOADS: RangeInclusive<u32> = 0x20..=0x26;

/// The register that an instruction writes at once, which loads and moves from coprocessor 0 don't.
fn destination(word: u32) -> Option<usize> {
    let (rt, rd) = (word as usize >> 16 & 31, word as usize >> 11 & 31);
    match (word >> 26, word % 64) {
        (0, 0x00..=0x07 | 0x09 | 0x10 | 0x12 | 0x20..=0x2B) => Some(rd),
        (1, _) if rt >= 16 => Some(31),
        (3, _) => Some(31),
        (0x08..=0x0F, _) => Some(rt),
        _ => None,
    }
}

/// The bytes that a store puts on the bus, at their places in the word, where `down` is how far its byte stands from the low end.
fn in_place(opcode: u32, down: u32, value: u32) -> u32 {
    match opcode {
        0x28 => (value & 0xFF) << down,
        0x29 => (value & 0xFFFF) << down,
        0x2A => value >> (24 - down),
        0x2B => value,
        _ => value << down,
    }
}
