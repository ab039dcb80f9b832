//! Random images whose code calls functions from page to page.

use crate::image::{Image, ROM};
use crate::random::{
    CAUSE, CONTROL_STATUS, Code, DATA, ENTRY_HI, ENTRY_LO, EPC, INDEX, NOP, RFE, ROM_BODY, Random, TLBWI, jr, mfc0, mtc0,
};

/// Physical pages that have functions. Two lie 512 pages apart, and one is of ROM.
const PAGES: [u32; 5] = [0x4000, 0x5000, 0x20_5000, 0x6000, ROM + 0x2000];
/// Virtual pages that lead to them, beside those of kseg0 and kseg1.
const NAMES: [u32; 4] = [0x0000_7000, 0x0040_3000, 0xC000_2000, 0xC000_3000];

// Registers of the code: data, a word beside functions, a function, three values of Status, the serial part, two instructions that are
// stored, where a function of the first level returns to, a function to call, and those of the handler.
const WORDS: u32 = 16;
const BESIDE: u32 = 17;
const FUNCTION: u32 = 18;
const STATUSES: [u32; 3] = [19, 20, 21];
const SERIAL: u32 = 22;
const STORED: [u32; 2] = [12, 13];
const RETURN: u32 = 23;
const CALLED: u32 = 25;
const HANDLER: [u32; 2] = [26, 27];
const LINK: u32 = 31;

fn load(base: u32, register: u32, offset: u32) -> u32 {
    0x8C00_0000 | base << 21 | register << 16 | offset
}

fn store(base: u32, register: u32, offset: u32) -> u32 {
    0xAC00_0000 | base << 21 | register << 16 | offset
}

fn moved(to: u32, from: u32) -> u32 {
    0x21 | from << 21 | to << 11
}

/// The functions that there are, by page and offset, and the virtual pages of each page.
struct Functions {
    places: Vec<(usize, u32)>,
    names: Vec<(usize, u32)>,
}

impl Functions {
    /// The address of a function, by one of its page's names.
    fn named(&self, random: &mut Random, page: usize, offset: u32) -> u32 {
        let names: Vec<u32> = self.names.iter().filter(|it| it.0 == page).map(|it| it.1).collect();
        random.pick(&names) + offset
    }

    fn any(&self, random: &mut Random) -> u32 {
        let (page, offset) = self.places[random.below(self.places.len() as u32) as usize];
        self.named(random, page, offset)
    }
}

impl Code<'_> {
    /// An instruction that counts, loads, stores, or moves to or from coprocessor 0.
    fn one(&mut self) -> u32 {
        let register = 8 + self.random.below(4);
        let offset = 4 * self.random.below(8);
        match self.random.below(16) {
            0..=4 => 0x2400_0000 | register << 21 | register << 16 | self.random.below(0x100),
            5 => load(WORDS, register, offset),
            6 | 7 => store(WORDS, register, offset),
            8 => store(BESIDE, register, offset),
            9 => store(FUNCTION, self.random.pick(&STORED), offset % 8),
            10 | 11 => mtc0(self.random.pick(&STATUSES), CONTROL_STATUS),
            12 => mfc0(register, self.random.pick(&[CONTROL_STATUS, CAUSE, 1])),
            13 => load(SERIAL, register, self.random.pick(&[0, 0, 8])),
            14 => store(SERIAL, register, 24),
            _ => NOP,
        }
    }

    fn call(&mut self, address: u32) {
        self.set(CALLED, address);
        let slot = self.one();
        self.words.extend([CALLED << 21 | LINK << 11 | 9, slot]);
    }

    /// A function of a few words, which may call one that calls none.
    fn function(&mut self, leaf: Option<u32>) {
        for _ in 0..self.random.below(6) {
            let word = self.one();
            self.words.push(word);
        }
        if let Some(leaf) = leaf {
            self.words.push(moved(RETURN, LINK));
            self.call(leaf);
            self.words.push(moved(LINK, RETURN));
        }
        let slot = self.one();
        self.words.extend([jr(LINK), slot]);
    }

    /// A handler that takes what asks for an interrupt, and goes on. After another exception the calls begin anew.
    fn go_on(&mut self, main: u32) {
        let [first, second] = HANDLER;
        self.words.extend([0x3C00_0000 | first << 16 | 0xBFE0, load(first, second, 8)]);
        self.words.extend([0x3C00_0000 | first << 16 | 0xBFE8, load(first, second, 0x30)]);
        self.words.extend([mfc0(first, CAUSE), mfc0(second, EPC), 0x3000_007C | first << 21 | first << 16]);
        // beq r26, r0, to the last two words
        self.words.extend([0x1000_0003 | first << 21, NOP]);
        self.set(second, main);
        self.words.extend([jr(second), RFE]);
    }
}

/// An image whose code calls functions: in RAM and in ROM, through kseg0, kseg1, kuseg and kseg2, by two names of one page, in pages of
/// which one takes the other's slot, in pages that are stored into, and over the end of a page. Status is written in them, so that
/// interrupts come to be wanted, or the cache is isolated.
pub fn caller(seed: u64) -> Image {
    let mut random = Random(seed ^ 0x1111_1111_1111_1111);
    let mut image = Image::raw_rom(&[]).expect("an empty ROM");
    image.byte_time = random.pick(&[1, 16, 40, 200]);
    let mut functions = Functions { places: Vec::new(), names: Vec::new() };
    for (page, address) in PAGES.into_iter().enumerate() {
        functions.names.extend([(page, 0x8000_0000 + address), (page, 0xA000_0000 + address)]);
    }
    let mapped: Vec<(u32, usize)> = NAMES.into_iter().map(|name| (name, random.below(5) as usize)).collect();
    functions.names.extend(mapped.iter().map(|&(name, page)| (page, name)));
    let mut leaf = None;
    for (page, address) in PAGES.into_iter().enumerate() {
        // At the start, in the middle, and so near the end that it may go on in the page after it.
        for offset in [0, 0x400, 0x1000 - 4 * random.below(8)] {
            let mut code = Code { random: &mut random, words: Vec::new() };
            let calls = if code.random.one_in(2) { leaf } else { None };
            code.function(calls);
            let end = offset + 4 * code.words.len() as u32;
            image.words.extend((address + offset..).step_by(4).zip(code.words));
            if offset < 0x1000 {
                functions.places.push((page, offset));
            }
            // What goes on in the page after it comes to a function there.
            if end <= 0x1000 && calls.is_none() {
                leaf = Some(functions.named(&mut random, page, offset));
            }
        }
    }
    let main = random.pick(&[0x8000_0000, 0xA000_0000]) + ROM_BODY;
    let mut code = Code { random: &mut random, words: Vec::new() };
    if code.random.one_in(2) {
        code.set_devices();
    }
    for (index, (name, page)) in (0..).zip(mapped) {
        code.set_control(ENTRY_HI, name);
        code.set_control(ENTRY_LO, PAGES[page] | 0x700);
        code.set_control(INDEX, index << 8);
        code.words.push(TLBWI);
    }
    let segment = code.random.pick(&[0x8000_0000, 0xA000_0000]);
    code.set(WORDS, segment + DATA);
    let beside = code.random.pick(&PAGES);
    code.set(BESIDE, segment + beside + 0xC00);
    let stored_into = functions.any(code.random);
    code.set(FUNCTION, stored_into);
    code.set(SERIAL, 0xBFE0_0000);
    for register in STATUSES {
        let value = code.random.pick(&[0x40_0000, 0x40_0000, 0x40_0001, 0x40_0401, 0x40_0801, 0x40_FF01, 0x40_0301, 0x41_0000]);
        code.set(register, value);
    }
    for register in STORED {
        let word = code.one();
        code.set(register, word);
    }
    if code.random.one_in(4) {
        code.set_control(CAUSE, 0x100);
    }
    code.set(CALLED, main);
    code.words.extend([jr(CALLED), NOP]);
    image.words.extend((ROM + 0x200..).step_by(4).zip(code.words));
    image.words.extend((ROM..).step_by(4).zip([0x0800_0000 | (ROM + 0x200) >> 2 & 0x03FF_FFFF, NOP]));
    for vector in [ROM + 0x100, ROM + 0x180] {
        let mut code = Code { random: &mut random, words: Vec::new() };
        code.go_on(main);
        image.words.extend((vector..).step_by(4).zip(code.words));
    }
    let mut code = Code { random: &mut random, words: Vec::new() };
    for _ in 0..4 + code.random.below(8) {
        let called = functions.any(code.random);
        code.call(called);
        for _ in 0..code.random.below(3) {
            let word = code.one();
            code.words.push(word);
        }
    }
    code.set(CALLED, main);
    let last = code.one();
    code.words.extend([jr(CALLED), last]);
    image.words.extend((ROM_BODY..).step_by(4).zip(code.words));
    image
}
