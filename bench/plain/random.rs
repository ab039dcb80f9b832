//! Random boot images, logs and scripts. A seed always makes the same.
//!
//! An image's code sets up registers, translation entries and devices, and then runs words that are mostly
//! instructions, with handlers that go on after what they are called for, or elsewhere, so that runs seldom come to rest.

use crate::image::{Image, ROM};
use crate::log::{Event, FORMAT_1_END, GREATEST, Kind, Log};
use crate::machine::Parts;
use crate::table::{ROWS, Shape};

/// A generator of random numbers (splitmix64).
pub struct Random(pub u64);

impl Random {
    pub fn next(&mut self) -> u32 {
        self.0 = self.0.wrapping_add(0x9E37_79B9_7F4A_7C15);
        let mut mixed = self.0;
        mixed = (mixed ^ mixed >> 30).wrapping_mul(0xBF58_476D_1CE4_E5B9);
        mixed = (mixed ^ mixed >> 27).wrapping_mul(0x94D0_49BB_1331_11EB);
        ((mixed ^ mixed >> 31) >> 32) as u32
    }

    pub fn below(&mut self, bound: u32) -> u32 {
        self.next() % bound
    }

    /// True one time in `count`.
    pub fn one_in(&mut self, count: u32) -> bool {
        self.below(count) == 0
    }

    fn pick_ref<'a, T>(&mut self, choices: &'a [T]) -> &'a T {
        &choices[self.below(choices.len() as u32) as usize]
    }

    pub fn pick<T: Copy>(&mut self, choices: &[T]) -> T {
        *self.pick_ref(choices)
    }
}

// Registers with a use: pointers to data, one for Status, two for the handlers, pointers to code.
const POINTERS: [u32; 9] = [16, 17, 18, 19, 20, 21, 22, 23, 24];
const STATUS: u32 = 25;
const HANDLER: [u32; 2] = [26, 27];
const CODE: [u32; 3] = [28, 29, 30];

// Registers of coprocessor 0.
pub const INDEX: u32 = 0;
const RANDOM: u32 = 1;
pub const ENTRY_LO: u32 = 2;
pub const ENTRY_HI: u32 = 10;
pub const CONTROL_STATUS: u32 = 12;
pub const CAUSE: u32 = 13;
pub const EPC: u32 = 14;

pub const NOP: u32 = 0;
pub const TLBWI: u32 = 0x4200_0002;
const TLBWR: u32 = 0x4200_0006;
pub const RFE: u32 = 0x4200_0010;

// Where parts of an image stand, as physical addresses.
const SETUP: u32 = ROM + 0x200;
pub const ROM_BODY: u32 = ROM + 0x1000;
pub const RAM_BODY: u32 = 0x1000;
pub const DATA: u32 = 0x2000;
const BODY_WORDS: u32 = 320;

/// Pages of kuseg and kseg2 that the code likes to use.
const MAPPED: [u32; 6] = [0x0000_0000, 0x0000_1000, 0x0040_0000, 0x7FFF_F000, 0xC000_0000, 0xFFFF_F000];

/// What the pages are mapped to: bodies, data, devices, and nothing.
const FRAMES: [u32; 8] = [RAM_BODY, RAM_BODY, ROM_BODY, DATA, DATA, 0x1FE0_0000, 0x1FE8_0000, 0x1000_0000];

fn lui(register: u32, value: u32) -> u32 {
    0x3C00_0000 | register << 16 | value >> 16
}

fn ori(register: u32, value: u32) -> u32 {
    0x3400_0000 | register << 21 | register << 16 | value & 0xFFFF
}

pub fn mtc0(register: u32, control: u32) -> u32 {
    0x4080_0000 | register << 16 | control << 11
}

pub fn mfc0(register: u32, control: u32) -> u32 {
    0x4000_0000 | register << 16 | control << 11
}

pub fn jr(register: u32) -> u32 {
    register << 21 | 8
}

/// Code in the making.
pub struct Code<'a> {
    pub random: &'a mut Random,
    pub words: Vec<u32>,
}

impl Code<'_> {
    pub fn set(&mut self, register: u32, value: u32) {
        self.words.extend([lui(register, value), ori(register, value)]);
    }

    pub fn set_control(&mut self, control: u32, value: u32) {
        self.set(1, value);
        self.words.push(mtc0(1, control));
    }

    /// Stores a word to an address.
    pub fn store(&mut self, address: u32, value: u32) {
        self.set(1, address & 0xFFFF_0000);
        self.set(2, value);
        self.words.push(0xAC22_0000 | address & 0xFFFF);
    }

    fn entry_lo(&mut self) -> u32 {
        // N, D, V and G: mostly dirty, valid and global.
        self.random.pick(&FRAMES) | self.random.pick(&[0x700, 0x700, 0x600, 0x300, 0xF00, 0xB00, 0x500, 0x200])
    }

    /// A few translation entries, of which some are for one page.
    fn set_entries(&mut self) {
        for _ in 0..6 + self.random.below(6) {
            let hi = self.random.pick(&MAPPED) | self.random.below(3) << 6;
            self.set_control(ENTRY_HI, hi);
            let lo = self.entry_lo();
            self.set_control(ENTRY_LO, lo);
            let index = self.random.below(64) << 8;
            self.set_control(INDEX, index);
            self.words.push(TLBWI);
        }
        let process = self.random.below(3) << 6;
        self.set_control(ENTRY_HI, process);
    }

    /// Receivers, lines, scanner, the clock and the board.
    pub fn set_devices(&mut self) {
        for line in 0..4 {
            let value = line | self.random.pick(&[0, 0x1000, 0x1000]);
            self.store(0xBFE0_0008, value);
        }
        let lines = self.random.below(16);
        self.store(0xBFE0_0010, lines);
        let control = self.random.pick(&[0x20, 0x20, 0x60, 0x68, 0x4020, 0x4060]);
        self.store(0xBFE0_0000, control);
        for register in [10, 11, 0, 2, 4, 1, 3, 5] {
            let value = match register {
                10 => self.random.pick(&[0x20, 0x23, 0x24, 0x26, 0x2F, 0x00]),
                11 => self.random.below(256),
                _ => self.random.pick(&[0x00, 0x11, 0x12, 0x23, 0x58, 0x59, 0x3B, 0xC0, 0x91, 0x8B]),
            };
            self.store(0xBFE8_0000 + 4 * register, value);
        }
        let external = self.random.below(8) << 16;
        let enables = self.random.pick(&[0, 0x80_0000, 0xFF_0000, external, 0x80_0000 | external]);
        self.store(0xBFF0_0000, enables);
    }

    /// A value that an operation may treat in a way of its own, or any.
    fn value(&mut self) -> u32 {
        let any = self.random.next();
        self.random.pick(&[0, 0, 1, u32::MAX, 0x7FFF_FFFF, 0x8000_0000, any % 64, any, any, any])
    }

    /// The address of something that loads and stores are good for.
    fn pointer(&mut self, parts: Parts) -> u32 {
        let near = if self.random.one_in(8) { self.random.below(64) } else { 4 * self.random.below(16) };
        let mapped = self.random.pick(&MAPPED) + near;
        let device = self.random.pick(&[0xBFE0_0000, 0xBFE8_0028, 0xBFE8_0000, 0xBFF0_0000, 0x9FE0_0000]);
        let kseg0 = 0x8000_0000 + DATA + near;
        let kseg1 = 0xA000_0000 + DATA + near;
        let usual = self.random.pick(&[
            kseg0,
            kseg1,
            kseg0,
            kseg1,
            0xBFC0_1000 + near,
            0x8000_0000 + 4096 * parts.pages - 32 + near,
            0xB000_0000,
        ]);
        match self.random.below(4) {
            0 if parts.translation => mapped,
            1 if parts.devices => device,
            _ => usual,
        }
    }

    /// Where a body begins.
    fn code_pointer(&mut self, parts: Parts) -> u32 {
        let usual = [0xA000_0000 + ROM_BODY, 0x8000_0000 + ROM_BODY, 0x8000_0000 + RAM_BODY, 0xA000_0000 + RAM_BODY];
        let place = 4 * self.random.below(BODY_WORDS);
        place
            + if parts.translation && self.random.one_in(2) {
                self.random.pick(&MAPPED)
            } else {
                self.random.pick(&usual)
            }
    }

    /// A value of Status in kernel mode, mostly with handlers in ROM.
    fn status(&mut self, parts: Parts) -> u32 {
        if self.random.one_in(8) {
            return self.random.next() & !2;
        }
        let bits = self.random.next() & 0x1004_FF3D | 0x300;
        let handlers = if self.random.one_in(3) { 0 } else { 0x0040_0000 };
        let isolated = if parts.caches && self.random.one_in(4) { self.random.next() & 0x0003_0000 } else { 0 };
        bits | handlers | isolated
    }

    fn set_up(&mut self, parts: Parts) {
        if parts.devices && self.random.one_in(2) {
            self.set_devices();
        }
        if parts.translation {
            self.set_entries();
        }
        for register in 1..32 {
            let value = if POINTERS.contains(&register) {
                self.pointer(parts)
            } else if CODE.contains(&register) {
                self.code_pointer(parts)
            } else if register == STATUS {
                self.status(parts)
            } else {
                self.value()
            };
            self.set(register, value);
        }
        if self.random.one_in(8) {
            self.set_control(CAUSE, 0x300);
        }
        // HI and LO, and Status last.
        self.words.extend([3 << 21 | 0x11, 4 << 21 | 0x13, mtc0(STATUS, CONTROL_STATUS)]);
        let start = self.random.pick(&CODE);
        let slot = self.random.pick(&[NOP, RFE]);
        self.words.extend([jr(start), slot]);
    }

    /// A handler that looks after what asks for interrupts, and goes on.
    fn handle(&mut self, parts: Parts) {
        let [first, second] = HANDLER;
        if self.random.one_in(2) {
            self.words.push(mtc0(0, CAUSE));
        }
        if parts.devices {
            // Takes a character, sends one, and takes the clock's flags.
            self.words.extend([lui(first, 0xBFE0_0000), 0x8C00_0008 | first << 21 | second << 16]);
            self.words.extend([NOP, 0xAC00_0018 | first << 21 | second << 16]);
            self.words.extend([lui(first, 0xBFE8_0000), 0x8C00_0030 | first << 21 | second << 16]);
        }
        // AdEL and IBE differ in one bit: after them the code goes on anywhere in a body with its first Status, else
        // after the instruction.
        let code = [0x3000_0074 | first << 21 | first << 16, 0x3800_0010 | first << 21 | first << 16];
        self.words.extend([mfc0(second, EPC), mfc0(first, CAUSE), 0x2400_0004 | second << 21 | second << 16]);
        self.words.extend([code[0], code[1], 0x1000_0003 | first << 21, NOP, jr(second), RFE]);
        let body = 0xA000_0000 + ROM_BODY;
        self.words.extend([mfc0(first, RANDOM), lui(second, body), 0x0000_0102 | first << 16 | first << 11]);
        self.words.extend([ori(second, body), 0x0000_0021 | first << 21 | second << 16 | second << 11]);
        self.words.extend([jr(second), mtc0(STATUS, CONTROL_STATUS)]);
    }

    /// A handler that writes an entry for the page, and tries again.
    fn refill(&mut self) {
        let [first, second] = HANDLER;
        let lo = self.entry_lo();
        self.set(first, lo);
        self.words.extend([mtc0(first, ENTRY_LO), mfc0(second, EPC), TLBWR, jr(second), RFE]);
    }

    /// How far a branch or a jump goes: mostly forward, so that few loops have no end.
    fn ahead(&mut self) -> u32 {
        if self.random.one_in(10) { self.random.below(6).wrapping_neg() } else { 1 + self.random.below(12) }
    }

    /// A word that is mostly an instruction, at a place of a body.
    fn word(&mut self, place: u32) -> u32 {
        if self.random.one_in(40) {
            return self.random.next();
        }
        if self.random.one_in(60) {
            return self.random.pick(&[mtc0(STATUS, CONTROL_STATUS), mtc0(1, CAUSE), mtc0(2, CAUSE)]);
        }
        // One in thirty has a bit turned.
        let turned = if self.random.one_in(30) { 1 << self.random.below(32) } else { 0 };
        let mut row = self.random.pick_ref(&ROWS);
        // Jumps to a register lead to few places, so they are rare.
        if matches!(row.name, "jr" | "jalr") && !self.random.one_in(4) {
            row = self.random.pick_ref(&ROWS);
        }
        let any = self.random.next() & !row.mask;
        let register = |random: &mut Random| if random.one_in(12) { random.below(32) } else { random.below(16) };
        let (rs, rt) = (register(self.random), register(self.random));
        let two = any & !0x03FF_0000 | rs << 21 | rt << 16;
        let operands = match row.shape {
            Shape::Memory => {
                let base = if self.random.one_in(12) { rs } else { self.random.pick(&POINTERS) };
                let offset = self.random.pick(&[0, 0, 4, 8, 12, 16, 24, 40, 48, 0xFFFC, 0xFFFF])
                    + self.random.pick(&[0, 0, 0, 1, 2, 3]);
                base << 21 | rt << 16 | offset & 0xFFFF
            }
            Shape::BranchOne | Shape::BranchTwo => two & !0xFFFF | self.ahead() & 0xFFFF,
            Shape::Jump => (ROM_BODY / 4).wrapping_add(place).wrapping_add(self.ahead()) & 0x03FF_FFFF,
            Shape::Source | Shape::Link if row.name.starts_with('j') => {
                self.random.pick(&CODE) << 21 | any & !0x03E0_0000 & 0x0000_7800
            }
            Shape::Control if row.name == "mtc0" => {
                let control = self.random.pick(&[0, 2, 4, 8, 10, 12, 12, 13, 13, 14, 1, 31]);
                // Cause gets the bits of interrupts by software, and Status mostly what stands ready for it.
                let from = if control == CONTROL_STATUS && !self.random.one_in(20) { STATUS } else { rt };
                from << 16 | control << 11
            }
            Shape::Control => rt << 16 | self.random.below(18) << 11,
            Shape::Bare => 0,
            // Results go where nothing is pointed to.
            Shape::Shift | Shape::ShiftBy | Shape::Three | Shape::Destination => any & !0xF800 | rt << 11,
            _ => two,
        };
        (row.value | operands & !row.mask) ^ turned
    }

    /// Words that end with a branch back to the first of them.
    fn body(&mut self) {
        for place in 0..BODY_WORDS {
            let word = self.word(place);
            self.words.push(word);
        }
        self.words.extend([0x1000_0000 | (!BODY_WORDS & 0xFFFF), NOP]);
    }
}

/// An image of this seed for a machine with these parts.
pub fn image(seed: u64, parts: Parts) -> Image {
    let mut random = Random(seed);
    let mut image = Image::raw_rom(&[]).expect("an empty ROM");
    image.byte_time = random.pick(&[1, 16, 40, 200]);
    if random.one_in(2) {
        image.clock =
            [0x59, 0, 0x59, 0, 0x23, 0, 7, 0x28, 2, 4, 0x20 + random.below(16) as u8, 2 + 4 * random.below(2) as u8];
    }
    let refills = parts.translation && random.one_in(2);
    let mut put = |address: u32, make: &dyn Fn(&mut Code)| {
        let mut code = Code { random: &mut random, words: Vec::new() };
        make(&mut code);
        image.words.extend((address..).step_by(4).zip(code.words));
    };
    put(ROM, &|code| code.words.extend([0x0800_0000 | SETUP >> 2 & 0x03FF_FFFF, NOP]));
    for vectors in [ROM + 0x100, 0] {
        put(vectors, &|code| if refills { code.refill() } else { code.handle(parts) });
        put(vectors + 0x80, &|code| code.handle(parts));
    }
    put(SETUP, &|code| code.set_up(parts));
    for body in [ROM_BODY, RAM_BODY] {
        put(body, &|code| code.body());
    }
    put(DATA, &|code| {
        for _ in 0..32 {
            let value = code.value();
            code.words.push(value);
        }
    });
    image
}

/// An event of any kind that these parts have, at a time.
pub fn event(random: &mut Random, time: u64, parts: Parts) -> Event {
    let kind = if parts.kinds { random.pick(&[Kind::Byte, Kind::Byte, Kind::Framing, Kind::Wire]) } else { Kind::Byte };
    let (line, byte) = kind.greatest();
    let below = |random: &mut Random, greatest: u8| random.below(u32::from(greatest) + 1) as u8;
    Event { time, kind, line: below(random, line), byte: below(random, byte) }
}

/// A number near the end of the times of format 1, or near the greatest position, on either side of it.
pub fn near_limit(random: &mut Random) -> u64 {
    random.pick(&[FORMAT_1_END, GREATEST]) - 3 + u64::from(random.below(6))
}

/// A log of this seed. One in four has sound bytes alone. One in four has times near the end of format 1, none past it, and
/// one in four times near both limits.
pub fn log(seed: u64, mut parts: Parts) -> Log {
    let mut random = Random(!seed);
    let mut log = Log::default();
    parts.kinds &= !random.one_in(4);
    let last = random.pick(&[None, None, Some(FORMAT_1_END - 1), Some(GREATEST - 1)]);
    for _ in 0..random.below(40) {
        let time = match last {
            Some(last) if random.one_in(8) => near_limit(&mut random).min(last),
            _ => random.below(3000).into(),
        };
        log.add(event(&mut random, time, parts)).expect("room in the log");
    }
    log
}

/// A script of this seed, with these commands, which change nothing but the position.
pub fn script(seed: u64, commands: &[&str]) -> String {
    let mut random = Random(seed ^ 0x5555_5555_5555_5555);
    let mut script = String::new();
    for _ in 0..6 {
        script += &format!("goto {}\n", random.below(4000));
        for name in commands {
            let address = random.pick(&[0, DATA, DATA, RAM_BODY, ROM_BODY]) + 4 * random.below(16);
            let line = random.below(4);
            let words = match *name {
                "step" | "back" => random.below(20).to_string(),
                "reg" => random.below(32).to_string(),
                "tlb" => random.below(64).to_string(),
                "where" => {
                    format!("{:#x}", (random.pick(&MAPPED) + random.pick(&[0, 3])) ^ random.pick(&[0, 0x8000_0000]))
                }
                "mem" | "dis" => format!("{address:#x} 16"),
                "console" => format!("{line} {} 256", random.below(3)),
                "stores" => format!("{address:#x} {}", 1 + random.below(32)),
                "finds" => format!("{line} {} {}", random.below(3), 1 + random.below(64)),
                "regwriter" => random.below(34).to_string(),
                "pcs" => format!("{} {}", 1 + random.below(100), 1 + random.below(64)),
                "trace" => (1 + random.below(64)).to_string(),
                "jumps" => format!("{} {}", random.below(2), 1 + random.below(64)),
                "log" => "0 32".into(),
                _ => String::new(),
            };
            script += &format!("{name} {words}\n");
        }
    }
    script
}
