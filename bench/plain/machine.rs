//! The processor with its memory and board: reset, one step, and what addresses mean.

use crate::bus::Bus;
use crate::caches::Caches;
use crate::control::{Control, Exception, ISOLATED, SWAPPED, USER};
use crate::image::{Image, ROM};
use crate::log::Event;
use crate::serial::Sent;
use crate::translation::{DIRTY, Entries, UNCACHED, VALID};

const ROM_WORDS: usize = 64 * 1024;

pub const KSEG0: u32 = 0x8000_0000;
const KSEG1: u32 = 0xA000_0000;
pub const KSEG2: u32 = 0xC000_0000;

/// The parts that the machine has.
#[derive(Clone, Copy, Debug, PartialEq)]
pub struct Parts {
    /// Pages of RAM.
    pub pages: u32,
    /// Translation entries. Without them mapped addresses are address errors, and their instructions are reserved.
    pub translation: bool,
    /// The isolated cache. Without it IsC and SwC stay 0.
    pub caches: bool,
    /// Serial part, clock, board and events. Without them their addresses are unassigned.
    pub devices: bool,
    /// Framing errors and external lines. Without them the random logs and scripts have sound bytes alone.
    pub kinds: bool,
}

impl Parts {
    fn ram_words(self) -> usize {
        self.pages as usize * 1024
    }

    /// Whether all words from a physical address on lie in RAM or ROM.
    pub fn has_memory(self, physical: u32, count: u32) -> bool {
        let is_memory = |address| place(self.ram_words(), address).is_some();
        (0..count).all(|word| physical.checked_add(4 * word).is_some_and(is_memory))
    }

    /// The program's machine.
    pub const ALL: Parts = Parts { pages: 2048, translation: true, caches: true, devices: true, kinds: true };
}

/// What a step reported: the word that it fetched, the byte that it sent, the address of the word of RAM that it stored into, and
/// whether it took an exception.
#[derive(Clone, Copy, Debug, Default, PartialEq)]
pub struct Done {
    pub fetched: Option<u32>,
    pub sent: Option<Sent>,
    pub stored: Option<u32>,
    pub excepted: bool,
}

/// A physical address.
#[derive(Clone, Copy, Debug, PartialEq)]
pub struct Physical {
    pub address: u32,
    pub cacheable: bool,
}

#[derive(Clone, Debug, PartialEq)]
pub struct Machine {
    pub parts: Parts,
    pub registers: [u32; 32],
    pub hi: u32,
    pub lo: u32,
    pub pc: u32,
    pub next_pc: u32,
    /// The instruction at `pc` stands in a delay slot.
    pub delay: bool,
    /// A load that has not landed: its register and the value. There is none where that is r0.
    pub load: (usize, u32),
    pub control: Control,
    pub entries: Entries,
    caches: Caches,
    bus: Bus,
    /// RAM, then ROM.
    words: Vec<u32>,
    /// What the present step has reported so far.
    done: Done,
}

/// The place of the word of a physical address, in a memory with this many words of RAM.
#[inline]
fn place(ram_words: usize, physical: u32) -> Option<usize> {
    let word = (physical / 4) as usize;
    if word < ram_words {
        return Some(word);
    }
    let word = word.wrapping_sub((ROM / 4) as usize);
    (word < ROM_WORDS).then(|| ram_words + word)
}

impl Machine {
    /// The machine at reset.
    pub fn new(image: &Image, parts: Parts) -> Machine {
        let mut words = vec![0; parts.ram_words() + ROM_WORDS];
        for (&address, &word) in &image.words {
            words[place(parts.ram_words(), address).expect("an image that fits")] = word;
        }
        Machine {
            parts,
            registers: [0; 32],
            hi: 0,
            lo: 0,
            pc: 0xBFC0_0000,
            next_pc: 0xBFC0_0004,
            delay: false,
            load: (0, 0),
            control: Control::new(),
            entries: Entries::new(),
            caches: Caches::new(),
            bus: Bus::new(image),
            words,
            done: Done::default(),
        }
    }

    /// The word of RAM or ROM at a physical address.
    pub fn word(&self, physical: u32) -> u32 {
        self.words[self.place(physical).expect("an address of memory")]
    }

    /// The same machine with its memory, which this one lacks until it is given back.
    pub fn lent(&mut self) -> Machine {
        let words = std::mem::take(&mut self.words);
        Machine { words, ..self.clone() }
    }

    /// Takes the memory back.
    pub fn give_back(&mut self, other: Machine) {
        self.words = other.words;
    }

    /// The same state with another's memory.
    #[cfg(test)]
    pub fn with_words_of(mut self, other: &Machine) -> Machine {
        self.words.clone_from(&other.words);
        self
    }

    #[inline]
    fn place(&self, physical: u32) -> Option<usize> {
        place(self.parts.ram_words(), physical)
    }

    /// The begin of a step: these events take effect, the devices tick, and the interrupts are sampled.
    #[inline]
    pub fn sample(&mut self, events: &[Event]) {
        if self.parts.devices {
            for &event in events {
                self.bus.take(event);
            }
            self.bus.tick();
            let (board, clock) = self.bus.interrupts();
            self.control.sample(board, clock);
        }
    }

    /// One step, in which these events take effect first.
    #[inline]
    pub fn step(&mut self, events: &[Event]) -> Done {
        self.sample(events);
        self.done = Done::default();
        let (pc, delay) = (self.pc, self.delay);
        let ran = if self.control.wants_interrupt() { Err(Exception::Interrupt) } else { self.instruct(pc) };
        if let Err(exception) = ran {
            self.land();
            self.done.excepted = true;
            self.pc = self.control.enter(exception, pc, delay);
            self.next_pc = self.pc + 4;
            self.delay = false;
        }
        self.control.fall();
        self.done
    }

    /// Lets the pending load land.
    #[inline]
    pub fn land(&mut self) {
        if self.load.0 != 0 {
            self.registers[self.load.0 % 32] = self.load.1;
            self.load.0 = 0;
        }
    }

    /// The physical address of an address, for a load (and a fetch) or a store. `low` are the bits that must be 0.
    #[inline]
    fn physical(&mut self, address: u32, low: u32, store: bool) -> Result<Physical, Exception> {
        let forbidden = address >= KSEG0 && self.control.status & USER != 0;
        if address & low != 0 || forbidden {
            return Err(Exception::Address { address, store });
        }
        if (KSEG0..KSEG2).contains(&address) {
            return Ok(Physical { address: address & 0x1FFF_FFFF, cacheable: address < KSEG1 });
        }
        self.mapped(address, store)
    }

    #[cold]
    /// The same for an address in kuseg or kseg2. Several matching entries are noted in Status.
    fn mapped(&mut self, address: u32, store: bool) -> Result<Physical, Exception> {
        if !self.parts.translation {
            return Err(Exception::Address { address, store });
        }
        let Some(found) = self.entries.lookup_address(address, self.control.entry_hi) else {
            return Err(Exception::Translation { address, store, missing: true });
        };
        if found.several {
            self.control.set_several();
        }
        let lo = found.entry.lo;
        if lo & VALID == 0 {
            return Err(Exception::Translation { address, store, missing: false });
        }
        if store && lo & DIRTY == 0 {
            return Err(Exception::Modified(address));
        }
        Ok(Physical { address: lo & 0xFFFF_F000 | address & 0xFFF, cacheable: lo & UNCACHED == 0 })
    }

    /// What the devices hold, as `devices` shows it.
    pub fn devices(&self) -> String {
        self.bus.shown()
    }

    /// What an address means for a load of a byte.
    pub fn where_is(&mut self, address: u32) -> Result<Physical, Exception> {
        self.physical(address, 0, false)
    }

    pub fn is_isolated(&self, physical: Physical) -> bool {
        physical.cacheable && self.control.status & ISOLATED != 0
    }

    /// Whether RAM or a device takes a store.
    pub fn takes_store(&self, physical: u32) -> bool {
        (physical / 4) < self.parts.ram_words() as u32 || Bus::has(physical)
    }

    fn is_second(&self) -> bool {
        self.control.status & SWAPPED != 0
    }

    /// The word at an address, which is fetched.
    #[inline]
    pub fn fetch(&mut self, address: u32) -> Result<u32, Exception> {
        let physical = self.physical(address, 3, false)?;
        self.done.fetched = self.place(physical.address).map(|place| self.words[place]);
        self.done.fetched.ok_or(Exception::FetchBus)
    }

    /// The aligned word at an address, of which a load takes bytes.
    #[inline]
    pub fn load(&mut self, address: u32, low: u32) -> Result<u32, Exception> {
        let physical = self.physical(address, low, false)?;
        if self.is_isolated(physical) {
            return Ok(self.load_isolated(physical.address));
        }
        if let Some(place) = self.place(physical.address) {
            return Ok(self.words[place]);
        }
        self.load_device(physical.address).ok_or(Exception::LoadBus)
    }

    #[cold]
    fn load_isolated(&mut self, physical: u32) -> u32 {
        let (word, hit) = self.caches.load(self.is_second(), physical);
        self.control.set_missed(!hit);
        word
    }

    #[cold]
    fn load_device(&mut self, physical: u32) -> Option<u32> {
        if self.parts.devices { self.bus.load(physical) } else { None }
    }

    /// Stores the bytes of a mask into the aligned word at an address. Only sw stores a word as a whole (`is_word`).
    #[inline]
    pub fn store(&mut self, address: u32, low: u32, value: u32, mask: u32, is_word: bool) -> Result<(), Exception> {
        let physical = self.physical(address, low, true)?;
        let ram_words = self.parts.ram_words();
        if self.is_isolated(physical) {
            self.store_isolated(physical.address, value, is_word);
        } else if let Some(word) = self.words[..ram_words].get_mut((physical.address / 4) as usize) {
            *word = *word & !mask | value & mask;
            self.done.stored = Some(physical.address & !3);
        } else if self.parts.devices {
            let lanes = (0..4).filter(|lane| mask >> (8 * lane) & 1 != 0).map(|lane| 1 << lane).sum();
            self.done.sent = self.bus.store(physical.address, value, lanes);
        }
        Ok(())
    }

    #[cold]
    fn store_isolated(&mut self, physical: u32, value: u32, is_word: bool) {
        let second = self.is_second();
        if is_word {
            self.caches.store_word(second, physical, value);
        } else {
            self.caches.store_part(second, physical);
        }
    }
}
