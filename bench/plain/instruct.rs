//! What each instruction does: one `match` over opcode and function.

use crate::control::{CU0, Exception, USER};
use crate::machine::Machine;
use crate::translation::Entry;

/// An instruction's fields.
#[derive(Clone, Copy)]
struct Word(u32);

impl Word {
    /// The opcode, or the function from 0x40 on.
    fn number(self) -> u32 {
        match self.0 >> 26 {
            0 => 0x40 + self.0 % 0x40,
            opcode => opcode,
        }
    }

    fn rs(self) -> usize {
        (self.0 >> 21) as usize % 32
    }

    fn rt(self) -> usize {
        (self.0 >> 16) as usize % 32
    }

    fn rd(self) -> usize {
        (self.0 >> 11) as usize % 32
    }

    fn sa(self) -> u32 {
        (self.0 >> 6) % 32
    }

    fn ze(self) -> u32 {
        self.0 & 0xFFFF
    }

    fn se(self) -> u32 {
        self.0 as i16 as u32
    }
}

/// What did not overflow.
#[inline]
fn or_overflow(value: Option<i32>) -> Result<u32, Exception> {
    value.map(|value| value as u32).ok_or(Exception::Overflow)
}

impl Machine {
    /// Writes a register. r0 stays 0.
    #[inline]
    fn set(&mut self, register: usize, value: u32) {
        self.registers[register] = value;
        self.registers[0] = 0;
    }

    /// Goes to a target after the delay slot, if a branch is taken.
    #[inline]
    fn go(&mut self, taken: bool, target: u32) {
        self.delay = true;
        if taken {
            self.next_pc = target;
        }
    }

    #[inline]
    fn set_hi_lo(&mut self, product: i64) {
        (self.hi, self.lo) = ((product >> 32) as u32, product as u32);
    }

    /// Runs the instruction at `pc`, or answers its exception, with which nothing is written.
    #[inline]
    pub fn instruct(&mut self, pc: u32) -> Result<(), Exception> {
        let w = Word(self.fetch(pc)?);
        let (s, t) = (self.registers[w.rs()], self.registers[w.rt()]);
        let (signed_s, signed_t) = (s as i32, t as i32);

        // Where control goes: after the delay slot, or to the target of a branch or a jump.
        self.pc = self.next_pc;
        self.next_pc = self.pc.wrapping_add(4);
        self.delay = false;
        let link = || pc.wrapping_add(8);
        let branch = || pc.wrapping_add(4).wrapping_add(w.se() << 2);
        let jump = || pc.wrapping_add(4) & 0xF000_0000 | (w.0 & 0x03FF_FFFF) << 2;

        // Of a load or a store: the address, and how far its byte stands from the low and the high end of the word.
        let address = || s.wrapping_add(w.se());
        let down = || address() % 4 * 8;
        let up = || 24 - down();

        // The operands are read: the pending load lands, and the instruction's own write wins over it.
        self.land();
        match w.number() {
            0x40 if w.rs() == 0 => self.set(w.rd(), t << w.sa()),
            0x42 if w.rs() == 0 => self.set(w.rd(), t >> w.sa()),
            0x43 if w.rs() == 0 => self.set(w.rd(), (signed_t >> w.sa()) as u32),
            0x44 if w.sa() == 0 => self.set(w.rd(), t << (s % 32)),
            0x46 if w.sa() == 0 => self.set(w.rd(), t >> (s % 32)),
            0x47 if w.sa() == 0 => self.set(w.rd(), (signed_t >> (s % 32)) as u32),
            0x48 if w.rt() == 0 && w.rd() == 0 && w.sa() == 0 => self.go(true, s),
            0x49 if w.rt() == 0 && w.sa() == 0 => {
                self.set(w.rd(), link());
                self.go(true, s);
            }
            0x4C => return Err(Exception::SystemCall),
            0x4D => return Err(Exception::Breakpoint),
            0x50 if w.rs() == 0 && w.rt() == 0 && w.sa() == 0 => self.set(w.rd(), self.hi),
            0x51 if w.rt() == 0 && w.rd() == 0 && w.sa() == 0 => self.hi = s,
            0x52 if w.rs() == 0 && w.rt() == 0 && w.sa() == 0 => self.set(w.rd(), self.lo),
            0x53 if w.rt() == 0 && w.rd() == 0 && w.sa() == 0 => self.lo = s,
            0x58 if w.rd() == 0 && w.sa() == 0 => self.set_hi_lo(i64::from(signed_s) * i64::from(signed_t)),
            0x59 if w.rd() == 0 && w.sa() == 0 => self.set_hi_lo((u64::from(s) * u64::from(t)) as i64),
            0x5A if w.rd() == 0 && w.sa() == 0 => {
                (self.hi, self.lo) = match signed_t {
                    0 => (s, if signed_s < 0 { 1 } else { u32::MAX }),
                    _ => (signed_s.wrapping_rem(signed_t) as u32, signed_s.wrapping_div(signed_t) as u32),
                }
            }
            0x5B if w.rd() == 0 && w.sa() == 0 => {
                (self.hi, self.lo) = match t {
                    0 => (s, u32::MAX),
                    _ => (s % t, s / t),
                }
            }
            0x60 if w.sa() == 0 => self.set(w.rd(), or_overflow(signed_s.checked_add(signed_t))?),
            0x61 if w.sa() == 0 => self.set(w.rd(), s.wrapping_add(t)),
            0x62 if w.sa() == 0 => self.set(w.rd(), or_overflow(signed_s.checked_sub(signed_t))?),
            0x63 if w.sa() == 0 => self.set(w.rd(), s.wrapping_sub(t)),
            0x64 if w.sa() == 0 => self.set(w.rd(), s & t),
            0x65 if w.sa() == 0 => self.set(w.rd(), s | t),
            0x66 if w.sa() == 0 => self.set(w.rd(), s ^ t),
            0x67 if w.sa() == 0 => self.set(w.rd(), !(s | t)),
            0x6A if w.sa() == 0 => self.set(w.rd(), u32::from(signed_s < signed_t)),
            0x6B if w.sa() == 0 => self.set(w.rd(), u32::from(s < t)),
            0x01 => match w.rt() {
                0x00 => self.go(signed_s < 0, branch()),
                0x01 => self.go(signed_s >= 0, branch()),
                0x10 => {
                    self.set(31, link());
                    self.go(signed_s < 0, branch());
                }
                0x11 => {
                    self.set(31, link());
                    self.go(signed_s >= 0, branch());
                }
                _ => return Err(Exception::Reserved),
            },
            0x02 => self.go(true, jump()),
            0x03 => {
                self.set(31, link());
                self.go(true, jump());
            }
            0x04 => self.go(s == t, branch()),
            0x05 => self.go(s != t, branch()),
            0x06 if w.rt() == 0 => self.go(signed_s <= 0, branch()),
            0x07 if w.rt() == 0 => self.go(signed_s > 0, branch()),
            0x08 => self.set(w.rt(), or_overflow(signed_s.checked_add(w.se() as i32))?),
            0x09 => self.set(w.rt(), s.wrapping_add(w.se())),
            0x0A => self.set(w.rt(), u32::from(signed_s < w.se() as i32)),
            0x0B => self.set(w.rt(), u32::from(s < w.se())),
            0x0C => self.set(w.rt(), s & w.ze()),
            0x0D => self.set(w.rt(), s | w.ze()),
            0x0E => self.set(w.rt(), s ^ w.ze()),
            0x0F if w.rs() == 0 => self.set(w.rt(), w.ze() << 16),
            0x10 => return self.control_processor(w, t),
            opcode @ (0x11..=0x13 | 0x31..=0x33 | 0x39..=0x3B) => return Err(Exception::Unusable(opcode % 4)),
            0x20 => self.load = (w.rt(), (self.load(address(), 0)? >> down()) as i8 as u32),
            0x21 => self.load = (w.rt(), (self.load(address(), 1)? >> down()) as i16 as u32),
            0x22 => self.load = (w.rt(), self.load(address(), 0)? << up() | self.registers[w.rt()] & ((1 << up()) - 1)),
            0x23 => self.load = (w.rt(), self.load(address(), 3)?),
            0x24 => self.load = (w.rt(), self.load(address(), 0)? >> down() & 0xFF),
            0x25 => self.load = (w.rt(), self.load(address(), 1)? >> down() & 0xFFFF),
            0x26 => {
                let kept = self.registers[w.rt()] & !(u32::MAX >> down());
                self.load = (w.rt(), self.load(address(), 0)? >> down() | kept);
            }
            0x28 => self.store(address(), 0, t << down(), 0xFF << down(), false)?,
            0x29 => self.store(address(), 1, t << down(), 0xFFFF << down(), false)?,
            0x2A => self.store(address(), 0, t >> up(), u32::MAX >> up(), false)?,
            0x2B => self.store(address(), 3, t, u32::MAX, true)?,
            0x2E => self.store(address(), 0, t << down(), u32::MAX << down(), false)?,
            _ => return Err(Exception::Reserved),
        }
        Ok(())
    }

    /// A word of coprocessor 0, whose operand is `t`.
    fn control_processor(&mut self, w: Word, t: u32) -> Result<(), Exception> {
        if self.control.status & (CU0 | USER) == USER {
            return Err(Exception::Unusable(0));
        }
        match w.0 {
            0x4200_0001 | 0x4200_0002 | 0x4200_0006 | 0x4200_0008 if !self.parts.translation => {
                return Err(Exception::Reserved);
            }
            0x4200_0001 => {
                let entry = self.entries.0[self.control.index as usize >> 8 & 63];
                (self.control.entry_hi, self.control.entry_lo) = (entry.hi, entry.lo);
            }
            0x4200_0002 => self.write_entry(self.control.index),
            0x4200_0006 => self.write_entry(self.control.random),
            0x4200_0008 => {
                let found = self.entries.lookup(self.control.entry_hi);
                self.control.probed(found.map(|found| found.index));
                if found.is_some_and(|found| found.several) {
                    self.control.set_several();
                }
            }
            0x4200_0010 => self.control.return_from_exception(),
            _ if w.rs() == 0 && w.0 & 0x7FF == 0 => self.load = (w.rt(), self.control.read(w.rd())),
            _ if w.rs() == 4 && w.0 & 0x7FF == 0 => self.control.write(w.rd(), t, self.parts.caches),
            _ => return Err(Exception::Reserved),
        }
        Ok(())
    }

    /// Writes EntryHi and EntryLo to the entry that a register names.
    fn write_entry(&mut self, register: u32) {
        let entry = Entry { hi: self.control.entry_hi, lo: self.control.entry_lo };
        self.entries.0[register as usize >> 8 & 63] = entry;
    }
}
