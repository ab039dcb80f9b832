//! The devices of `fast.rs`: the serial part, the clock, and the board's register. No byte arrives.
//!
//! Nothing is counted step by step. What the parts report changes by itself only in ticks that are known before: the
//! scanner offers a line, the clock sets a flag. They are sampled there, and after each access that changes them.

const SERIAL: u32 = 0x1FE0_0000;
const SERIAL_LAST: u32 = 0x1FE0_001F;
const CLOCK: u32 = 0x1FE8_0000;
const CLOCK_LAST: u32 = 0x1FE8_00FF;
const BOARD: u32 = 0x1FF0_0000;
const BOARD_LAST: u32 = 0x1FF0_0003;

/// The bits of Cause of the board and of the clock.
pub const LINES: u32 = BOARD_LINE | CLOCK_LINE;
const BOARD_LINE: u32 = 1 << 10;
const CLOCK_LINE: u32 = 1 << 11;

/// The serial line among the board's.
const SERIAL_ENABLE: u32 = 1 << 7;

/// What an image says of the board: the ticks that a byte takes, those of a unit of the clock, of which a second has 8192, and the first
/// registers of the clock.
#[derive(Clone, Copy)]
pub struct Board {
    pub byte_time: u32,
    pub unit: u32,
    pub clock: [u8; 12],
}

/// The board of a raw ROM.
pub const PLAIN: Board = Board { byte_time: 16, unit: 1, clock: [0, 0, 0, 0, 0, 0, 1, 1, 1, 0, 0x20, 6] };

pub struct Devices {
    serial: Serial,
    clock: Clock,
    enables: u32,
}

impl Devices {
    pub fn new(board: Board) -> Devices {
        Devices { serial: Serial::new(board.byte_time.into()), clock: Clock::new(board), enables: 0 }
    }

    /// The bits of Cause in a tick, which is not after the one that is due.
    pub fn sample(&mut self, tick: u64) -> u32 {
        self.clock.tick_to(tick);
        self.serial.scan(tick);
        let board = if self.board_lines() & self.enables != 0 { BOARD_LINE } else { 0 };
        board | if self.clock.line() { CLOCK_LINE } else { 0 }
    }

    /// The next tick in which a part changes by itself, from one that was sampled.
    pub fn due(&self, tick: u64) -> u64 {
        self.serial.due(tick).min(self.clock.due())
    }

    fn board_lines(&self) -> u32 {
        if self.serial.line() { SERIAL_ENABLE } else { 0 }
    }

    /// The aligned word of a physical address, if a device is there, and whether the read changed the device.
    pub fn load(&mut self, physical: u32, tick: u64) -> Option<(u32, bool)> {
        match physical {
            SERIAL..=SERIAL_LAST => Some((self.serial.read(physical & 0x1C), false)),
            CLOCK..=CLOCK_LAST => {
                let register = physical as usize / 4 % 64;
                self.clock.tick_to(tick);
                Some((self.clock.read(register).into(), register == C))
            }
            BOARD..=BOARD_LAST => Some((self.enables << 16 | self.board_lines(), false)),
            _ => None,
        }
    }

    /// Stores the bytes of a mask.
    pub fn store(&mut self, physical: u32, value: u32, mask: u32, tick: u64) {
        match physical {
            SERIAL..=SERIAL_LAST => self.serial.write(physical & 0x1C, value & mask, mask, tick),
            CLOCK..=CLOCK_LAST if mask & 0xFF != 0 => {
                self.clock.tick_to(tick);
                self.clock.write(physical as usize / 4 % 64, value as u8);
            }
            BOARD..=BOARD_LAST if mask & 0xFF_0000 != 0 => self.enables = value >> 16 & 0xFF,
            _ => {}
        }
    }
}

// The serial part's CSR.
const TRDY: u32 = 1 << 15;
const TIE: u32 = 1 << 14;
const RIE: u32 = 1 << 6;
const MSE: u32 = 1 << 5;
const CLR: u32 = 1 << 4;
const MAINT: u32 = 1 << 3;

struct Serial {
    byte_time: u64,
    /// TIE, RIE, MSE and MAINT.
    control: u32,
    /// TRDY and TLINE.
    ready: bool,
    ready_line: usize,
    last_served: usize,
    /// A bit for each line that may send.
    sends: u32,
    /// The tick from which on each line is not busy.
    free: [u64; 4],
}

impl Serial {
    fn new(byte_time: u64) -> Serial {
        Serial { byte_time, control: 0, ready: false, ready_line: 0, last_served: 0, sends: 0, free: [0; 4] }
    }

    fn waits(&self) -> bool {
        self.control & MSE != 0 && !self.ready
    }

    fn may_send(&self, line: usize) -> bool {
        self.sends >> line & 1 != 0
    }

    /// The tick in which the scanner next offers a line.
    fn due(&self, tick: u64) -> u64 {
        let free = (0..4).filter(|&line| self.may_send(line)).map(|line| self.free[line].max(tick + 1)).min();
        free.filter(|_| self.waits()).unwrap_or(u64::MAX)
    }

    /// Offers the first line that may send and is not busy, upward from the one after the last served.
    fn scan(&mut self, tick: u64) {
        if self.waits() {
            let mut lines = (1..=4).map(|step| (self.last_served + step) % 4);
            if let Some(line) = lines.find(|&line| self.may_send(line) && self.free[line] <= tick) {
                (self.ready, self.ready_line) = (true, line);
            }
        }
    }

    fn line(&self) -> bool {
        self.control & TIE != 0 && self.ready
    }

    fn read(&self, offset: u32) -> u32 {
        match offset {
            0 => self.control | (self.ready_line as u32) << 8 | if self.ready { TRDY } else { 0 },
            16 => self.sends,
            _ => 0,
        }
    }

    /// Takes the covered bytes of a word, of which the others are 0.
    fn write(&mut self, offset: u32, value: u32, mask: u32, tick: u64) {
        let covers_low = mask & 0xFF != 0;
        match offset {
            0 if value & CLR != 0 => *self = Serial::new(self.byte_time),
            0 => {
                let writes = mask & (TIE | RIE | MSE | MAINT);
                self.control = self.control & !writes | value & writes;
                self.ready &= self.control & MSE != 0;
            }
            16 if covers_low => {
                self.sends = value & 0xF;
                self.ready &= self.may_send(self.ready_line);
            }
            24 if covers_low && self.ready => {
                self.free[self.ready_line] = tick + self.byte_time;
                self.last_served = self.ready_line;
                self.ready = false;
            }
            _ => {}
        }
    }
}

// Registers of the clock. Each of the first three is followed by its alarm.
const HOURS: usize = 4;
const WEEKDAY: usize = 6;
const DAY: usize = 7;
const MONTH: usize = 8;
const YEAR: usize = 9;
const A: usize = 10;
const B: usize = 11;
const C: usize = 12;
const D: usize = 13;

const UIP: u8 = 1 << 7;
const SET: u8 = 1 << 7;
const BINARY: u8 = 1 << 2;
const HOURS_24: u8 = 1 << 1;
const DAYLIGHT: u8 = 1;
const IRQF: u8 = 1 << 7;
const AFTERNOON: u8 = 1 << 7;

// Flags of C, which have their enables at the same places of B.
const PF: u8 = 1 << 6;
const AF: u8 = 1 << 5;
const UF: u8 = 1 << 4;

struct Clock {
    unit: u32,
    /// The tick that the divider is of.
    tick: u64,
    divider: u32,
    /// C holds its three flags, D nothing.
    registers: [u8; 64],
}

impl Clock {
    fn new(board: Board) -> Clock {
        let mut registers = [0; 64];
        registers[..12].copy_from_slice(&board.clock);
        Clock { unit: board.unit, tick: 0, divider: 0, registers }
    }

    fn second(&self) -> u32 {
        8192 * self.unit
    }

    fn runs(&self) -> bool {
        self.registers[A] & 0x70 == 0x20
    }

    fn updates(&self) -> bool {
        self.registers[B] & SET == 0
    }

    /// The ticks from one periodic flag to the next.
    fn period(&self) -> Option<u32> {
        match self.registers[A] & 0xF {
            0 => None,
            rate @ (1 | 2) => Some(16 * self.unit << rate),
            rate => Some(self.unit << (rate - 3)),
        }
    }

    /// The tick of the end of a second, or of a periodic flag that is not set yet.
    fn due(&self) -> u64 {
        let second = self.second() - self.divider;
        let flag = self.period().filter(|_| self.registers[C] & PF == 0).map(|it| it - self.divider % it);
        let count = flag.map_or(second, |flag| second.min(flag));
        if self.runs() { self.tick + u64::from(count) } else { u64::MAX }
    }

    /// Counts up to a tick that is not after the one that is due.
    fn tick_to(&mut self, tick: u64) {
        let count = (tick - self.tick) as u32;
        self.tick = tick;
        if count == 0 || !self.runs() {
            return;
        }
        self.divider = (self.divider + count) % self.second();
        if self.period().is_some_and(|period| self.divider % period == 0) {
            self.registers[C] |= PF;
        }
        if self.divider == 0 && self.updates() {
            self.update();
        }
    }

    fn line(&self) -> bool {
        self.registers[B] & self.registers[C] & (PF | AF | UF) != 0
    }

    fn read(&mut self, register: usize) -> u8 {
        let near = self.runs() && self.updates() && self.divider >= 8190 * self.unit;
        let request = if self.line() { IRQF } else { 0 };
        match register {
            A => self.registers[A] | if near { UIP } else { 0 },
            C => std::mem::take(&mut self.registers[C]) | request,
            D => 0x80,
            _ => self.registers[register],
        }
    }

    fn write(&mut self, register: usize, byte: u8) {
        match register {
            A => {
                self.registers[A] = byte & !UIP;
                self.divider = if self.runs() { self.divider } else { 0 };
            }
            B => {
                let begins = byte & SET != 0 && self.updates();
                self.registers[B] = byte & !DAYLIGHT & !if begins { UF } else { 0 };
            }
            C | D => {}
            _ => self.registers[register] = byte,
        }
    }

    /// The number that a byte stands for.
    fn number(&self, byte: u8) -> u8 {
        if self.registers[B] & BINARY != 0 { byte } else { (byte >> 4) * 10 + (byte & 0xF) }
    }

    fn byte(&self, number: u8) -> u8 {
        if self.registers[B] & BINARY != 0 { number } else { number / 10 << 4 | number % 10 }
    }

    /// Counts a field on, which goes from its last value to its first, and reports whether it did.
    fn count(&mut self, field: usize, first: u8, last: u8) -> bool {
        let number = self.number(self.registers[field]);
        let carries = number >= last;
        self.registers[field] = self.byte(if carries { first } else { number + 1 });
        carries
    }

    fn count_hours(&mut self) -> bool {
        if self.registers[B] & HOURS_24 != 0 {
            return self.count(HOURS, 0, 23);
        }
        let half = self.registers[HOURS] & AFTERNOON;
        let (hour, flips) = match self.number(self.registers[HOURS] & !AFTERNOON) {
            11 => (12, true),
            12.. => (1, false),
            hour => (hour + 1, false),
        };
        self.registers[HOURS] = self.byte(hour) | if flips { half ^ AFTERNOON } else { half };
        flips && half == AFTERNOON
    }

    fn last_day(&self) -> u8 {
        match (self.number(self.registers[MONTH]), self.number(self.registers[YEAR]) % 4) {
            (2, 0) => 29,
            (2, _) => 28,
            (4 | 6 | 9 | 11, _) => 30,
            _ => 31,
        }
    }

    /// The end of a second.
    fn update(&mut self) {
        let last_day = self.last_day();
        if self.count(0, 0, 59) && self.count(2, 0, 59) && self.count_hours() {
            self.count(WEEKDAY, 1, 7);
            let _ = self.count(DAY, 1, last_day) && self.count(MONTH, 1, 12) && self.count(YEAR, 0, 99);
        }
        let time = &self.registers[..6];
        let rings = time.chunks(2).all(|pair| pair[1] >= 0xC0 || pair[1] == pair[0]);
        self.registers[C] |= UF | if rings { AF } else { 0 };
    }
}
