//! The control registers of coprocessor 0, and how an exception enters them.

/// Bits of Status: CU0 with KUc of user mode, BEV, what several matching entries and a missed isolated load leave, the
/// two bits of the isolated cache, and IEc. The mask of the interrupts stands at the same place in Cause.
pub const CU0: u32 = 1 << 28;
pub const BEV: u32 = 1 << 22;
pub const TS: u32 = 1 << 21;
const CM: u32 = 1 << 19;
pub const SWAPPED: u32 = 1 << 17;
pub const ISOLATED: u32 = 1 << 16;
const INTERRUPTS: u32 = 0xFF00;
pub const USER: u32 = 1 << 1;
const ENABLED: u32 = 1;

/// Bit 31 of Cause, and of Index.
const DELAY: u32 = 1 << 31;
const NOT_FOUND: u32 = 1 << 31;

const PAGE: u32 = 0xFFFF_F000;
const PROCESS: u32 = 0x0000_0FC0;

/// What keeps an instruction from completing.
#[derive(Clone, Copy, Debug, PartialEq)]
pub enum Exception {
    Interrupt,
    /// A store into a page that is not dirty.
    Modified(u32),
    /// No entry is for the page, or it is not valid.
    Translation {
        address: u32,
        store: bool,
        missing: bool,
    },
    Address {
        address: u32,
        store: bool,
    },
    FetchBus,
    LoadBus,
    SystemCall,
    Breakpoint,
    Reserved,
    Unusable(u32),
    Overflow,
}

impl Exception {
    fn code(self) -> u32 {
        match self {
            Exception::Interrupt => 0,
            Exception::Modified(_) => 1,
            Exception::Translation { store, .. } => 2 + u32::from(store),
            Exception::Address { store, .. } => 4 + u32::from(store),
            Exception::FetchBus => 6,
            Exception::LoadBus => 7,
            Exception::SystemCall => 8,
            Exception::Breakpoint => 9,
            Exception::Reserved => 10,
            Exception::Unusable(_) => 11,
            Exception::Overflow => 12,
        }
    }
}

#[derive(Clone, Debug, PartialEq)]
pub struct Control {
    pub index: u32,
    pub random: u32,
    pub entry_lo: u32,
    pub context: u32,
    pub bad_vaddr: u32,
    pub entry_hi: u32,
    pub status: u32,
    pub cause: u32,
    pub epc: u32,
}

impl Control {
    pub const PRID: u32 = 0x220;

    pub fn new() -> Control {
        Control {
            index: 0,
            random: 63 << 8,
            entry_lo: 0,
            context: 0,
            bad_vaddr: 0,
            entry_hi: 0,
            status: BEV,
            cause: 0,
            epc: 0,
        }
    }

    pub fn read(&self, register: usize) -> u32 {
        match register {
            0 => self.index,
            1 => self.random,
            2 => self.entry_lo,
            4 => self.context,
            8 => self.bad_vaddr,
            10 => self.entry_hi,
            12 => self.status,
            13 => self.cause,
            14 => self.epc,
            15 => Control::PRID,
            _ => 0,
        }
    }

    /// Writes the bits that mtc0 changes. `isolates` says whether the two bits of the isolated cache are among them.
    pub fn write(&mut self, register: usize, value: u32, isolates: bool) {
        let (register, mask) = match register {
            0 => (&mut self.index, 0x0000_3F00),
            2 => (&mut self.entry_lo, 0xFFFF_FF00),
            4 => (&mut self.context, 0xFFE0_0000),
            10 => (&mut self.entry_hi, PAGE | PROCESS),
            12 => (&mut self.status, if isolates { 0x1047_FF3F } else { 0x1044_FF3F }),
            13 => (&mut self.cause, 0x0000_0300),
            _ => return,
        };
        *register = *register & !mask | value & mask;
    }

    /// The two interrupt lines, in Cause: bit 10 the board's, bit 11 the clock's.
    #[inline]
    pub fn sample(&mut self, board: bool, clock: bool) {
        self.cause = self.cause & !0xFC00 | u32::from(board) << 10 | u32::from(clock) << 11;
    }

    #[inline]
    pub fn wants_interrupt(&self) -> bool {
        self.status & ENABLED != 0 && self.status & self.cause & INTERRUPTS != 0
    }

    /// Random falls by one, from 8 to 63.
    #[inline]
    pub fn fall(&mut self) {
        self.random = if self.random == 8 << 8 { 63 << 8 } else { self.random - (1 << 8) };
    }

    /// Takes an exception of the instruction at `pc`, and gives the address of its handler.
    #[cold]
    pub fn enter(&mut self, exception: Exception, pc: u32, delay: bool) -> u32 {
        let bootstrap = self.status & BEV != 0;
        self.status = self.status & !0x3F | self.status << 2 & 0x3C;
        let coprocessor = if let Exception::Unusable(number) = exception { number } else { 0 };
        let delayed = if delay { DELAY } else { 0 };
        self.cause = delayed | coprocessor << 28 | self.cause & INTERRUPTS | exception.code() << 2;
        self.epc = if delay { pc.wrapping_sub(4) } else { pc };
        let mut user_miss = false;
        match exception {
            Exception::Address { address, .. } => self.bad_vaddr = address,
            Exception::Modified(address) => self.load_page(address),
            Exception::Translation { address, missing, .. } => {
                self.load_page(address);
                user_miss = missing && address < 0x8000_0000;
            }
            _ => {}
        }
        match (bootstrap, user_miss) {
            (false, true) => 0x8000_0000,
            (false, false) => 0x8000_0080,
            (true, true) => 0xBFC0_0100,
            (true, false) => 0xBFC0_0180,
        }
    }

    /// An address that was to be translated, in BadVAddr, Context and EntryHi.
    fn load_page(&mut self, address: u32) {
        self.bad_vaddr = address;
        self.context = self.context & 0xFFE0_0000 | (address & 0x7FFF_F000) >> 10;
        self.entry_hi = self.entry_hi & !PAGE | address & PAGE;
    }

    pub fn return_from_exception(&mut self) {
        self.status = self.status & !0xF | self.status >> 2 & 0xF;
    }

    pub fn set_several(&mut self) {
        self.status |= TS;
    }

    pub fn set_missed(&mut self, missed: bool) {
        self.status = if missed { self.status | CM } else { self.status & !CM };
    }

    pub fn probed(&mut self, found: Option<usize>) {
        self.index = found.map_or(NOT_FOUND, |index| (index as u32) << 8);
    }
}
