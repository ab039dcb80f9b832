//! The board beside memory: serial part, clock, external lines, and the register that enables interrupt lines.

use crate::clock::Clock;
use crate::image::Image;
use crate::log::{Event, Kind};
use crate::serial::{Sent, Serial};

const SERIAL: u32 = 0x1FE0_0000;
const SERIAL_LAST: u32 = 0x1FE0_001F;
const CLOCK: u32 = 0x1FE8_0000;
const CLOCK_LAST: u32 = 0x1FE8_00FF;
const BOARD: u32 = 0x1FF0_0000;
const BOARD_LAST: u32 = 0x1FF0_0003;

/// The serial part's line among the board's.
const SERIAL_LINE: u32 = 1 << 7;

#[derive(Clone, Debug, PartialEq)]
pub struct Bus {
    pub serial: Serial,
    pub clock: Clock,
    /// A bit for each of the board's eight lines.
    enables: u32,
    /// The levels of the external lines, which are the board's lines 0 to 2.
    levels: u32,
}

impl Bus {
    pub fn new(image: &Image) -> Bus {
        let serial = Serial::new(image.byte_time);
        Bus { serial, clock: Clock::new(image.clock, image.unit), enables: 0, levels: 0 }
    }

    /// An event takes effect.
    pub fn take(&mut self, event: Event) {
        match event.kind {
            Kind::Byte => self.serial.receive(event.line, event.byte, false),
            Kind::Framing => self.serial.receive(event.line, event.byte, true),
            Kind::Wire => self.levels = self.levels & !(1 << event.line) | u32::from(event.byte) << event.line,
        }
    }

    #[inline]
    pub fn tick(&mut self) {
        self.clock.tick();
        self.serial.tick();
    }

    fn lines(&self) -> u32 {
        self.levels | if self.serial.line() { SERIAL_LINE } else { 0 }
    }

    /// Whether the board and whether the clock asks for an interrupt.
    #[inline]
    pub fn interrupts(&self) -> (bool, bool) {
        (self.lines() & self.enables != 0, self.clock.line())
    }

    /// What `devices` shows.
    pub fn shown(&self) -> String {
        let csr = self.clone().load(BOARD).unwrap();
        let interrupt = u32::from(self.interrupts().0);
        self.serial.shown() + &self.clock.shown() + &format!("board csr {csr:#010x} interrupt {interrupt}\n")
    }

    /// Whether a device is at a physical address.
    pub fn has(physical: u32) -> bool {
        matches!(physical, SERIAL..=SERIAL_LAST | CLOCK..=CLOCK_LAST | BOARD..=BOARD_LAST)
    }

    /// Reads the aligned word of a physical address, if a device is there.
    pub fn load(&mut self, physical: u32) -> Option<u32> {
        let offset = physical & 0xFC;
        match physical {
            SERIAL..=SERIAL_LAST => Some(self.serial.read(offset)),
            CLOCK..=CLOCK_LAST => Some(self.clock.read(offset as usize / 4).into()),
            BOARD..=BOARD_LAST => Some(self.enables << 16 | self.lines()),
            _ => None,
        }
    }

    /// Writes the bytes of the aligned word of a physical address that `lanes` has bits for. Elsewhere nothing happens.
    pub fn store(&mut self, physical: u32, value: u32, lanes: u32) -> Option<Sent> {
        let offset = physical & 0xFC;
        match physical {
            SERIAL..=SERIAL_LAST => return self.serial.write(offset, value, lanes),
            CLOCK..=CLOCK_LAST if lanes & 1 != 0 => self.clock.write(offset as usize / 4, value as u8),
            BOARD..=BOARD_LAST if lanes & 4 != 0 => self.enables = value >> 16 & 0xFF,
            _ => {}
        }
        None
    }
}
