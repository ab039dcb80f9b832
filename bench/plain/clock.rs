//! The clock: time, alarms and periodic interrupts, over a divider that counts steps.

const SECONDS: usize = 0;
const MINUTES: usize = 2;
const HOURS: usize = 4;
const WEEKDAY: usize = 6;
const DAY: usize = 7;
const MONTH: usize = 8;
const YEAR: usize = 9;
const A: usize = 10;
const B: usize = 11;
const C: usize = 12;
const D: usize = 13;

// A.
const UIP: u8 = 1 << 7;

// B. PIE, AIE and UIE stand where PF, AF and UF stand in C.
const SET: u8 = 1 << 7;
const UIE: u8 = 1 << 4;
const BINARY: u8 = 1 << 2;
const HOURS_24: u8 = 1 << 1;
const DAYLIGHT: u8 = 1;

// C.
const IRQF: u8 = 1 << 7;
const PF: u8 = 1 << 6;
const AF: u8 = 1 << 5;
const UF: u8 = 1 << 4;

const AFTERNOON: u8 = 1 << 7;

#[derive(Clone, Debug, PartialEq)]
pub struct Clock {
    unit: u32,
    divider: u32,
    /// Time, alarms, A, B, and after D the RAM; C holds its flags alone, D nothing.
    registers: [u8; 64],
}

impl Clock {
    pub fn new(start: [u8; 12], unit: u32) -> Clock {
        let mut registers = [0; 64];
        registers[..12].copy_from_slice(&start);
        Clock { unit, divider: 0, registers }
    }

    fn runs(&self) -> bool {
        self.registers[A] & 0x70 == 0x20
    }

    fn updates(&self) -> bool {
        self.registers[B] & SET == 0
    }

    /// The ticks between periodic interrupts, if there are any.
    fn period(&self) -> Option<u32> {
        match self.registers[A] & 0xF {
            0 => None,
            1 => Some(32 * self.unit),
            2 => Some(64 * self.unit),
            rate => Some(self.unit << (rate - 3)),
        }
    }

    #[inline]
    pub fn tick(&mut self) {
        if !self.runs() {
            return;
        }
        self.divider += 1;
        if self.divider == 8192 * self.unit {
            self.divider = 0;
        }
        if self.period().is_some_and(|period| self.divider % period == 0) {
            self.registers[C] |= PF;
        }
        if self.divider == 0 && self.updates() {
            self.update();
        }
    }

    /// The interrupt line: a flag and its enable are both 1.
    #[inline]
    pub fn line(&self) -> bool {
        self.registers[B] & self.registers[C] & (PF | AF | UF) != 0
    }

    pub fn read(&mut self, register: usize) -> u8 {
        match register {
            A => {
                let near = self.runs() && self.updates() && self.divider >= 8190 * self.unit;
                self.registers[A] | if near { UIP } else { 0 }
            }
            C => {
                let request = if self.line() { IRQF } else { 0 };
                std::mem::take(&mut self.registers[C]) | request
            }
            D => 0x80,
            _ => self.registers[register],
        }
    }

    /// The line that `devices` shows of it: what reads of copies give, and the ticks up to the end of the second and of the period.
    pub fn shown(&self) -> String {
        let ticks = |period: Option<u32>| {
            let left = period.filter(|_| self.runs()).map(|period| period - self.divider % period);
            left.map_or("none".into(), |left| left.to_string())
        };
        let (second, period) = (ticks(Some(8192 * self.unit)), ticks(self.period()));
        let registers: String = (0..64).map(|register| format!("{:02x}", self.clone().read(register))).collect();
        format!("clock interrupt {} second {second} period {period} registers {registers}\n", u32::from(self.line()))
    }

    pub fn write(&mut self, register: usize, byte: u8) {
        match register {
            A => {
                self.registers[A] = byte & !UIP;
                if !self.runs() {
                    self.divider = 0;
                }
            }
            B => {
                let sets = byte & SET != 0 && self.updates();
                self.registers[B] = byte & !DAYLIGHT & if sets { !UIE } else { 0xFF };
            }
            C | D => {}
            _ => self.registers[register] = byte,
        }
    }

    /// The number that a byte counts as, in binary or BCD.
    fn number(&self, byte: u8) -> u32 {
        if self.registers[B] & BINARY != 0 { byte.into() } else { u32::from(byte >> 4) * 10 + u32::from(byte & 0xF) }
    }

    fn byte(&self, number: u32) -> u8 {
        let number = number as u8;
        if self.registers[B] & BINARY != 0 { number } else { number / 10 << 4 | number % 10 }
    }

    /// Counts a field on from its first to its last value, and reports whether it carries.
    fn count(&mut self, register: usize, first: u32, last: u32) -> bool {
        let number = self.number(self.registers[register]);
        let carries = number >= last;
        self.registers[register] = self.byte(if carries { first } else { number + 1 });
        carries
    }

    /// Counts the hours on, and reports whether they carry a day.
    fn count_hours(&mut self) -> bool {
        if self.registers[B] & HOURS_24 != 0 {
            return self.count(HOURS, 0, 23);
        }
        let half = self.registers[HOURS] & AFTERNOON;
        let (hour, half_after) = match self.number(self.registers[HOURS] & !AFTERNOON) {
            11 => (12, half ^ AFTERNOON),
            hour if hour >= 12 => (1, half),
            hour => (hour + 1, half),
        };
        self.registers[HOURS] = self.byte(hour) | half_after;
        half == AFTERNOON && half_after == 0
    }

    fn last_day(&self) -> u32 {
        match self.number(self.registers[MONTH]) {
            2 if self.number(self.registers[YEAR]) % 4 == 0 => 29,
            2 => 28,
            4 | 6 | 9 | 11 => 30,
            _ => 31,
        }
    }

    /// The update of a second: time, and the flags of update and alarm.
    fn update(&mut self) {
        let last_day = self.last_day();
        let carries_day = self.count(SECONDS, 0, 59) && self.count(MINUTES, 0, 59) && self.count_hours();
        if carries_day {
            self.count(WEEKDAY, 1, 7);
            let _ = self.count(DAY, 1, last_day) && self.count(MONTH, 1, 12) && self.count(YEAR, 0, 99);
        }
        self.registers[C] |= UF;
        let matches = |field: usize| {
            let alarm = self.registers[field + 1];
            alarm >= 0xC0 || alarm == self.registers[field]
        };
        if matches(SECONDS) && matches(MINUTES) && matches(HOURS) {
            self.registers[C] |= AF;
        }
    }
}
