//! A fast interpreter of the same processor, in ordinary Rust, to compare the proved program's speed with: one
//! `match` over opcode and function, and memory in one vector.
//!
//! It has all instructions, and keeps what it last looked up in the translation entries. No byte arrives at the serial lines.
//!
//! `fast IMAGE STEPS` runs STEPS steps of a raw ROM or an image from reset and writes what the commands `goto STEPS` and `regs` reply. The
//! speed goes to standard error.

mod devices;

use std::error::Error;
use std::time::Instant;
use std::{env, fs};

use devices::{Board, Devices, LINES, PLAIN};

const RAM_WORDS: usize = 2048 * 1024;
const ROM_WORDS: usize = 64 * 1024;
const ROM: u32 = 0x1FC0_0000;
const MAGIC: &[u8] = b"R3KIMG1\n";
/// How many words an isolated cache has.
const SLOTS: usize = 16_384;

const KSEG0: u32 = 0x8000_0000;
const KSEG1: u32 = 0xA000_0000;
const KSEG2: u32 = 0xC000_0000;

// Registers of coprocessor 0.
const INDEX: usize = 0;
const RANDOM: usize = 1;
const ENTRY_LO: usize = 2;
const CONTEXT: usize = 4;
const BAD_VADDR: usize = 8;
const ENTRY_HI: usize = 10;
const STATUS: usize = 12;
const CAUSE: usize = 13;
const EPC: usize = 14;
const PRID: usize = 15;

// Bits of Status. CU0 and KUc; BEV; IEc; the mask of the interrupts, which stand at the same place in Cause.
const CU0: u32 = 1 << 28;
const BEV: u32 = 1 << 22;
const TS: u32 = 1 << 21;
const MISSED: u32 = 1 << 19;
const SWAPPED: u32 = 1 << 17;
const ISOLATED: u32 = 1 << 16;
const INTERRUPTS: u32 = 0xFF00;
const USER: u32 = 1 << 1;
const ENABLE: u32 = 1;

// Fields of EntryHi and bits of EntryLo.
const PAGE: u32 = 0xFFFF_F000;
const PROCESS: u32 = 0x0000_0FC0;
const UNCACHED: u32 = 1 << 11;
const DIRTY: u32 = 1 << 10;
const VALID: u32 = 1 << 9;
const GLOBAL: u32 = 1 << 8;

// Codes of exceptions.
const INTERRUPT: u32 = 0;
const MODIFIED: u32 = 1;
const MISS_LOAD: u32 = 2;
const MISS_STORE: u32 = 3;
const ADDRESS_ERROR_LOAD: u32 = 4;
const ADDRESS_ERROR_STORE: u32 = 5;
const BUS_ERROR_FETCH: u32 = 6;
const BUS_ERROR_LOAD: u32 = 7;
const SYSTEM_CALL: u32 = 8;
const BREAKPOINT: u32 = 9;
const RESERVED: u32 = 10;
const UNUSABLE: u32 = 11;
const OVERFLOW: u32 = 12;

const TLBR: u32 = 0x4200_0001;
const TLBWI: u32 = 0x4200_0002;
const TLBWR: u32 = 0x4200_0006;
const TLBP: u32 = 0x4200_0008;
const RFE: u32 = 0x4200_0010;

/// What keeps an instruction from completing: the code, the number of an unusable coprocessor, a bad address, whether that
/// was to be translated, and whether it is a user miss.
struct Exception {
    code: u32,
    coprocessor: u32,
    address: Option<u32>,
    mapped: bool,
    refill: bool,
}

/// What an address is used for.
#[derive(Clone, Copy, PartialEq)]
enum Use {
    Fetch,
    Load,
    Store,
}

/// A lookup that is kept: the page and the process, or a value that is neither, and what was found.
#[derive(Clone, Copy)]
struct Kept {
    hi: u32,
    lo: u32,
    several: bool,
}

const NOTHING: Kept = Kept { hi: 1, lo: 0, several: false };

impl Exception {
    fn of(code: u32) -> Exception {
        Exception { code, coprocessor: 0, address: None, mapped: false, refill: false }
    }

    fn unusable(coprocessor: u32) -> Exception {
        Exception { coprocessor, ..Exception::of(UNUSABLE) }
    }
}

/// The bits that mtc0 changes.
fn write_mask(register: usize) -> u32 {
    match register {
        0 => 0x0000_3F00,
        2 => 0xFFFF_FF00,
        4 => 0xFFE0_0000,
        10 => 0xFFFF_FFC0,
        STATUS => 0x1047_FF3F,
        CAUSE => 0x0000_0300,
        _ => 0,
    }
}

/// A slot of an isolated cache.
#[derive(Clone, Copy, Default)]
struct Slot {
    word: u32,
    tag: u32,
    valid: bool,
}

/// What is booted: the words that it sets, by their physical addresses, and the board.
struct Image {
    words: Vec<(u32, u32)>,
    board: Board,
}

impl Image {
    /// An image of the project's format, or else a raw ROM.
    fn read(bytes: &[u8]) -> Option<Image> {
        let word = |bytes: &[u8]| bytes.iter().rev().fold(0, |word, &byte| word << 8 | u32::from(byte));
        let Some(rest) = bytes.strip_prefix(MAGIC) else {
            return Some(Image { words: (ROM..).step_by(4).zip(bytes.chunks(4).map(word)).collect(), board: PLAIN });
        };
        let (constants, rest) = rest.split_at_checked(24)?;
        let board = Board { byte_time: word(&constants[..4]), unit: word(&constants[4..8]), clock: constants[8..20].try_into().ok()? };
        let mut numbers = rest.chunks(4).map(word);
        let mut words = Vec::new();
        for _ in 0..word(&constants[20..]) {
            let (address, count) = (numbers.next()?, numbers.next()?);
            for place in 0..count {
                words.push((address + 4 * place, numbers.next()?));
            }
        }
        Some(Image { words, board })
    }
}

struct Machine {
    registers: [u32; 32],
    hi: u32,
    lo: u32,
    pc: u32,
    next_pc: u32,
    /// The instruction at `pc` stands in a delay slot.
    delay: bool,
    /// A load that has not landed: its register and the value. There is none where that is r0.
    load: (usize, u32),
    control: [u32; 32],
    /// EntryHi and EntryLo of each translation entry.
    entries: [(u32, u32); 64],
    kept: [Kept; 16],
    /// RAM, then ROM.
    words: Vec<u32>,
    /// The two arrays of the isolated cache.
    caches: [Vec<Slot>; 2],
    devices: Devices,
    /// The ticks so far, and the one in which the devices are looked at next.
    tick: u64,
    due: u64,
}

/// An instruction's fields.
#[derive(Clone, Copy)]
struct Word(u32);

impl Word {
    /// The opcode, or the function from 0x40 on.
    fn number(self) -> u32 {
        match self.0 >> 26 {
            0 => 0x40 + self.0 % 0x40,
            opcode => opcode,
        }
    }

    fn rs(self) -> usize {
        (self.0 >> 21) as usize % 32
    }

    fn rt(self) -> usize {
        (self.0 >> 16) as usize % 32
    }

    fn rd(self) -> usize {
        (self.0 >> 11) as usize % 32
    }

    fn sa(self) -> u32 {
        (self.0 >> 6) % 32
    }

    fn ze(self) -> u32 {
        self.0 & 0xFFFF
    }

    fn se(self) -> u32 {
        self.0 as i16 as u32
    }
}

/// The place of the word of a physical address.
#[inline]
fn place(physical: u32) -> Option<usize> {
    let word = (physical / 4) as usize;
    if word < RAM_WORDS {
        return Some(word);
    }
    let word = word.wrapping_sub((ROM / 4) as usize);
    (word < ROM_WORDS).then(|| RAM_WORDS + word)
}

impl Machine {
    fn new(image: &Image) -> Machine {
        let mut words = vec![0; RAM_WORDS + ROM_WORDS];
        for &(address, word) in &image.words {
            if let Some(place) = place(address) {
                words[place] = word;
            }
        }
        let mut control = [0; 32];
        control[RANDOM] = 63 << 8;
        control[STATUS] = BEV;
        control[PRID] = 0x220;
        let devices = Devices::new(image.board);
        Machine {
            registers: [0; 32],
            hi: 0,
            lo: 0,
            pc: 0xBFC0_0000,
            next_pc: 0xBFC0_0004,
            delay: false,
            load: (0, 0),
            control,
            entries: [(0, 0); 64],
            kept: [NOTHING; 16],
            words,
            caches: [vec![Slot::default(); SLOTS], vec![Slot::default(); SLOTS]],
            due: devices.due(0),
            devices,
            tick: 0,
        }
    }

    fn step(&mut self) {
        self.tick += 1;
        if self.tick == self.due {
            self.sample();
        }
        let (pc, delay) = (self.pc, self.delay);
        let status = self.control[STATUS];
        let ran = if status & ENABLE != 0 && status & self.control[CAUSE] & INTERRUPTS != 0 {
            Err(Exception::of(INTERRUPT))
        } else {
            self.instruct(pc)
        };
        if let Err(exception) = ran {
            self.enter(exception, pc, delay);
        }
        let random = &mut self.control[RANDOM];
        *random -= 1 << 8;
        if *random < 8 << 8 {
            *random = 63 << 8;
        }
    }

    /// Brings the lines of the devices into Cause.
    #[cold]
    fn sample(&mut self) {
        self.control[CAUSE] = self.control[CAUSE] & !LINES | self.devices.sample(self.tick);
        self.due = self.devices.due(self.tick);
    }

    #[cold]
    fn enter(&mut self, exception: Exception, pc: u32, delay: bool) {
        let Exception { code, coprocessor, address, mapped, refill } = exception;
        let status = self.control[STATUS];
        self.control[STATUS] = status & !0x3F | status << 2 & 0x3C;
        self.control[CAUSE] = u32::from(delay) << 31 | coprocessor << 28 | self.control[CAUSE] & INTERRUPTS | code << 2;
        self.control[EPC] = if delay { pc.wrapping_sub(4) } else { pc };
        if let Some(address) = address {
            self.control[BAD_VADDR] = address;
            if mapped {
                self.control[CONTEXT] = self.control[CONTEXT] & 0xFFE0_0000 | (address & 0x7FFF_F000) >> 10;
                self.control[ENTRY_HI] = self.control[ENTRY_HI] & !PAGE | address & PAGE;
            }
        }
        self.land();
        self.pc = match (status & BEV != 0, refill) {
            (true, true) => 0xBFC0_0100,
            (true, false) => 0xBFC0_0180,
            (false, true) => 0x8000_0000,
            (false, false) => 0x8000_0080,
        };
        self.next_pc = self.pc + 4;
        self.delay = false;
    }

    /// The physical address of an address. `low` are the bits that must be 0.
    #[inline]
    fn physical(&mut self, address: u32, low: u32, access: Use) -> Result<u32, Exception> {
        let forbidden = self.control[STATUS] & USER != 0 && address >= KSEG0;
        if address & low != 0 || forbidden {
            let code = if access == Use::Store { ADDRESS_ERROR_STORE } else { ADDRESS_ERROR_LOAD };
            return Err(Exception { address: Some(address), ..Exception::of(code) });
        }
        if (KSEG0..KSEG2).contains(&address) {
            return Ok(address & 0x1FFF_FFFF);
        }
        self.mapped(address, access)
    }

    /// The same for an address in kuseg or kseg2.
    fn mapped(&mut self, address: u32, access: Use) -> Result<u32, Exception> {
        let hi = address & PAGE | self.control[ENTRY_HI] & PROCESS;
        let slot = (address >> 12) as usize % 8 + if access == Use::Fetch { 8 } else { 0 };
        let mut kept = self.kept[slot];
        let fault = |code, refill| Err(Exception { address: Some(address), mapped: true, refill, ..Exception::of(code) });
        let miss = if access == Use::Store { MISS_STORE } else { MISS_LOAD };
        if kept.hi != hi {
            let Some((index, several)) = self.find(hi) else {
                return fault(miss, address < KSEG0);
            };
            kept = Kept { hi, lo: self.entries[index].1, several };
            self.kept[slot] = kept;
        }
        if kept.several {
            self.control[STATUS] |= TS;
        }
        if kept.lo & VALID == 0 {
            return fault(miss, false);
        }
        if access == Use::Store && kept.lo & DIRTY == 0 {
            return fault(MODIFIED, false);
        }
        Ok(kept.lo & PAGE | address & !PAGE)
    }

    /// The lowest entry that matches, and whether others do.
    fn find(&self, hi: u32) -> Option<(usize, bool)> {
        let matches = |entry: &(u32, u32)| {
            let apart = entry.0 ^ hi;
            apart & PAGE == 0 && (entry.1 & GLOBAL != 0 || apart & PROCESS == 0)
        };
        let mut found = self.entries.iter().enumerate().filter(|(_, entry)| matches(entry));
        let (index, _) = found.next()?;
        Some((index, found.next().is_some()))
    }

    /// The four instructions on entries.
    fn translate(&mut self, word: u32) {
        let place = |register: u32| (register >> 8) as usize % 64;
        match word {
            TLBR => {
                let (hi, lo) = self.entries[place(self.control[INDEX])];
                (self.control[ENTRY_HI], self.control[ENTRY_LO]) = (hi, lo);
            }
            TLBWI | TLBWR => {
                let index = if word == TLBWI { INDEX } else { RANDOM };
                self.entries[place(self.control[index])] = (self.control[ENTRY_HI], self.control[ENTRY_LO]);
                self.kept = [NOTHING; 16];
            }
            _ => match self.find(self.control[ENTRY_HI]) {
                Some((index, several)) => {
                    self.control[INDEX] = (index as u32) << 8;
                    self.control[STATUS] |= if several { TS } else { 0 };
                }
                None => self.control[INDEX] = 1 << 31,
            },
        }
    }

    #[inline]
    fn fetch(&mut self, address: u32) -> Result<u32, Exception> {
        let physical = self.physical(address, 3, Use::Fetch)?;
        place(physical).map(|place| self.words[place]).ok_or(Exception::of(BUS_ERROR_FETCH))
    }

    /// The aligned word at an address.
    #[inline]
    fn load(&mut self, address: u32, low: u32) -> Result<u32, Exception> {
        let physical = self.physical(address, low, Use::Load)?;
        if self.control[STATUS] & ISOLATED != 0 && self.is_cached(address) {
            return Ok(self.load_isolated(physical));
        }
        match place(physical) {
            Some(place) => Ok(self.words[place]),
            None => self.load_device(physical),
        }
    }

    #[inline(never)]
    fn load_device(&mut self, physical: u32) -> Result<u32, Exception> {
        let (word, clears) = self.devices.load(physical, self.tick).ok_or(Exception::of(BUS_ERROR_LOAD))?;
        if clears {
            self.due = self.tick + 1;
        }
        Ok(word)
    }

    /// Whether accesses to an address, which is translated, go to the isolated cache.
    #[cold]
    fn is_cached(&self, address: u32) -> bool {
        if (KSEG0..KSEG2).contains(&address) {
            return address < KSEG1;
        }
        self.find(address & PAGE | self.control[ENTRY_HI] & PROCESS).is_some_and(|(index, _)| self.entries[index].1 & UNCACHED == 0)
    }

    fn slot(&mut self, physical: u32) -> &mut Slot {
        let second = self.control[STATUS] & SWAPPED != 0;
        &mut self.caches[usize::from(second)][(physical / 4) as usize % SLOTS]
    }

    #[cold]
    fn load_isolated(&mut self, physical: u32) -> u32 {
        let slot = *self.slot(physical);
        let hits = slot.valid && slot.tag == physical >> 16;
        let status = &mut self.control[STATUS];
        *status = *status & !MISSED | if hits { 0 } else { MISSED };
        slot.word
    }

    #[cold]
    fn store_isolated(&mut self, physical: u32, value: u32, is_word: bool) {
        let slot = self.slot(physical);
        if is_word {
            *slot = Slot { word: value, tag: physical >> 16, valid: true };
        } else {
            slot.valid = false;
        }
    }

    /// Stores the bytes of a mask. What is neither RAM nor a device drops them.
    #[inline]
    fn store(&mut self, address: u32, low: u32, value: u32, mask: u32) -> Result<(), Exception> {
        let physical = self.physical(address, low, Use::Store)?;
        if self.control[STATUS] & ISOLATED != 0 && self.is_cached(address) {
            self.store_isolated(physical, value, low == 3);
            return Ok(());
        }
        match self.words[..RAM_WORDS].get_mut((physical / 4) as usize) {
            Some(word) => *word = *word & !mask | value & mask,
            None => self.store_device(physical, value, mask),
        }
        Ok(())
    }

    #[inline(never)]
    fn store_device(&mut self, physical: u32, value: u32, mask: u32) {
        self.devices.store(physical, value, mask, self.tick);
        self.due = self.tick + 1;
    }

    /// Writes a register. r0 stays 0.
    #[inline]
    fn set(&mut self, register: usize, value: u32) {
        self.registers[register] = value;
        self.registers[0] = 0;
    }

    /// Goes to a target after the delay slot, if a branch is taken.
    #[inline]
    fn go(&mut self, taken: bool, target: u32) {
        self.delay = true;
        if taken {
            self.next_pc = target;
        }
    }

    /// Lets the pending load land.
    #[inline]
    fn land(&mut self) {
        if self.load.0 != 0 {
            self.registers[self.load.0 % 32] = self.load.1;
            self.load.0 = 0;
        }
    }

    #[inline]
    fn set_hi_lo(&mut self, product: i64) {
        (self.hi, self.lo) = ((product >> 32) as u32, product as u32);
    }

    /// Runs the instruction at `pc`.
    fn instruct(&mut self, pc: u32) -> Result<(), Exception> {
        let w = Word(self.fetch(pc)?);
        let (s, t) = (self.registers[w.rs()], self.registers[w.rt()]);
        let (signed_s, signed_t) = (s as i32, t as i32);

        // Where control goes: after the delay slot, or to the target of a branch or a jump.
        self.pc = self.next_pc;
        self.next_pc = self.pc.wrapping_add(4);
        self.delay = false;
        let link = || pc.wrapping_add(8);
        let branch = || pc.wrapping_add(4).wrapping_add(w.se() << 2);
        let jump = || pc.wrapping_add(4) & 0xF000_0000 | (w.0 & 0x03FF_FFFF) << 2;

        // Of a load or a store: the address, and how far its byte stands from the low and the high end of the word.
        let address = || s.wrapping_add(w.se());
        let down = || address() % 4 * 8;
        let up = || 24 - down();

        // The operands are read: the pending load lands, and the instruction's own write wins over it.
        self.land();
        match w.number() {
            0x40 if w.rs() == 0 => self.set(w.rd(), t << w.sa()),
            0x42 if w.rs() == 0 => self.set(w.rd(), t >> w.sa()),
            0x43 if w.rs() == 0 => self.set(w.rd(), (signed_t >> w.sa()) as u32),
            0x44 if w.sa() == 0 => self.set(w.rd(), t << (s % 32)),
            0x46 if w.sa() == 0 => self.set(w.rd(), t >> (s % 32)),
            0x47 if w.sa() == 0 => self.set(w.rd(), (signed_t >> (s % 32)) as u32),
            0x48 if w.rt() == 0 && w.rd() == 0 && w.sa() == 0 => self.go(true, s),
            0x49 if w.rt() == 0 && w.sa() == 0 => {
                self.set(w.rd(), link());
                self.go(true, s);
            }
            0x4C => return Err(Exception::of(SYSTEM_CALL)),
            0x4D => return Err(Exception::of(BREAKPOINT)),
            0x50 if w.rs() == 0 && w.rt() == 0 && w.sa() == 0 => self.set(w.rd(), self.hi),
            0x51 if w.rt() == 0 && w.rd() == 0 && w.sa() == 0 => self.hi = s,
            0x52 if w.rs() == 0 && w.rt() == 0 && w.sa() == 0 => self.set(w.rd(), self.lo),
            0x53 if w.rt() == 0 && w.rd() == 0 && w.sa() == 0 => self.lo = s,
            0x58 if w.rd() == 0 && w.sa() == 0 => self.set_hi_lo(i64::from(signed_s) * i64::from(signed_t)),
            0x59 if w.rd() == 0 && w.sa() == 0 => self.set_hi_lo((u64::from(s) * u64::from(t)) as i64),
            0x5A if w.rd() == 0 && w.sa() == 0 => {
                (self.hi, self.lo) = match signed_t {
                    0 => (s, if signed_s < 0 { 1 } else { u32::MAX }),
                    _ => (signed_s.wrapping_rem(signed_t) as u32, signed_s.wrapping_div(signed_t) as u32),
                }
            }
            0x5B if w.rd() == 0 && w.sa() == 0 => {
                (self.hi, self.lo) = match t {
                    0 => (s, u32::MAX),
                    _ => (s % t, s / t),
                }
            }
            0x60 if w.sa() == 0 => self.set(w.rd(), or_overflow(signed_s.checked_add(signed_t))?),
            0x61 if w.sa() == 0 => self.set(w.rd(), s.wrapping_add(t)),
            0x62 if w.sa() == 0 => self.set(w.rd(), or_overflow(signed_s.checked_sub(signed_t))?),
            0x63 if w.sa() == 0 => self.set(w.rd(), s.wrapping_sub(t)),
            0x64 if w.sa() == 0 => self.set(w.rd(), s & t),
            0x65 if w.sa() == 0 => self.set(w.rd(), s | t),
            0x66 if w.sa() == 0 => self.set(w.rd(), s ^ t),
            0x67 if w.sa() == 0 => self.set(w.rd(), !(s | t)),
            0x6A if w.sa() == 0 => self.set(w.rd(), u32::from(signed_s < signed_t)),
            0x6B if w.sa() == 0 => self.set(w.rd(), u32::from(s < t)),
            0x01 => match w.rt() {
                0x00 => self.go(signed_s < 0, branch()),
                0x01 => self.go(signed_s >= 0, branch()),
                0x10 => {
                    self.set(31, link());
                    self.go(signed_s < 0, branch());
                }
                0x11 => {
                    self.set(31, link());
                    self.go(signed_s >= 0, branch());
                }
                _ => return Err(Exception::of(RESERVED)),
            },
            0x02 => self.go(true, jump()),
            0x03 => {
                self.set(31, link());
                self.go(true, jump());
            }
            0x04 => self.go(s == t, branch()),
            0x05 => self.go(s != t, branch()),
            0x06 if w.rt() == 0 => self.go(signed_s <= 0, branch()),
            0x07 if w.rt() == 0 => self.go(signed_s > 0, branch()),
            0x08 => self.set(w.rt(), or_overflow(signed_s.checked_add(w.se() as i32))?),
            0x09 => self.set(w.rt(), s.wrapping_add(w.se())),
            0x0A => self.set(w.rt(), u32::from(signed_s < w.se() as i32)),
            0x0B => self.set(w.rt(), u32::from(s < w.se())),
            0x0C => self.set(w.rt(), s & w.ze()),
            0x0D => self.set(w.rt(), s | w.ze()),
            0x0E => self.set(w.rt(), s ^ w.ze()),
            0x0F if w.rs() == 0 => self.set(w.rt(), w.ze() << 16),
            0x10 if self.control[STATUS] & (CU0 | USER) == USER => return Err(Exception::unusable(0)),
            0x10 if matches!(w.0, TLBR | TLBWI | TLBWR | TLBP) => self.translate(w.0),
            0x10 if w.0 == RFE => {
                let status = &mut self.control[STATUS];
                *status = *status & !0xF | *status >> 2 & 0xF;
            }
            0x10 if w.rs() == 0 && w.0 & 0x7FF == 0 => self.load = (w.rt(), self.control[w.rd()]),
            0x10 if w.rs() == 4 && w.0 & 0x7FF == 0 => {
                let mask = write_mask(w.rd());
                self.control[w.rd()] = self.control[w.rd()] & !mask | t & mask;
            }
            opcode @ (0x11..=0x13 | 0x31..=0x33 | 0x39..=0x3B) => return Err(Exception::unusable(opcode % 4)),
            0x20 => self.load = (w.rt(), (self.load(address(), 0)? >> down()) as i8 as u32),
            0x21 => self.load = (w.rt(), (self.load(address(), 1)? >> down()) as i16 as u32),
            0x22 => self.load = (w.rt(), self.load(address(), 0)? << up() | self.registers[w.rt()] & ((1 << up()) - 1)),
            0x23 => self.load = (w.rt(), self.load(address(), 3)?),
            0x24 => self.load = (w.rt(), self.load(address(), 0)? >> down() & 0xFF),
            0x25 => self.load = (w.rt(), self.load(address(), 1)? >> down() & 0xFFFF),
            0x26 => {
                self.load =
                    (w.rt(), self.load(address(), 0)? >> down() | self.registers[w.rt()] & !(u32::MAX >> down()))
            }
            0x28 => self.store(address(), 0, t << down(), 0xFF << down())?,
            0x29 => self.store(address(), 1, t << down(), 0xFFFF << down())?,
            0x2A => self.store(address(), 0, t >> up(), u32::MAX >> up())?,
            0x2B => self.store(address(), 3, t, u32::MAX)?,
            0x2E => self.store(address(), 0, t << down(), u32::MAX << down())?,
            _ => return Err(Exception::of(RESERVED)),
        }

        Ok(())
    }

    fn print(&self) {
        print!("pc {:#010x} next {:#010x} hi {:#010x} lo {:#010x}", self.pc, self.next_pc, self.hi, self.lo);
        match self.load {
            (0, _) => println!(" delay {} load none", u32::from(self.delay)),
            (register, value) => println!(" delay {} load r{register} {value:#010x}", u32::from(self.delay)),
        }
        for (row, r) in self.registers.chunks(4).enumerate() {
            println!("r{} {:#010x} {:#010x} {:#010x} {:#010x}", 4 * row, r[0], r[1], r[2], r[3]);
        }
    }
}

/// What did not overflow.
#[inline]
fn or_overflow(value: Option<i32>) -> Result<u32, Exception> {
    value.map(|value| value as u32).ok_or(Exception::of(OVERFLOW))
}

fn main() -> Result<(), Box<dyn Error>> {
    let mut arguments = env::args().skip(1);
    let usage = "usage: fast IMAGE STEPS";
    let bytes = fs::read(arguments.next().ok_or(usage)?)?;
    let steps: u64 = arguments.next().ok_or(usage)?.parse()?;
    let mut machine = Machine::new(&Image::read(&bytes).ok_or("the image ends too early")?);
    let begun = Instant::now();
    for _ in 0..steps {
        machine.step();
    }
    let seconds = begun.elapsed().as_secs_f64();
    eprintln!("{seconds:.3} s, {:.0} steps a second", steps as f64 / seconds);
    println!("pos {steps}");
    machine.print();
    Ok(())
}
