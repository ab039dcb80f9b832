//! Random scripts of edits, with questions about what they change.
//!
//! A script is made beside a session that runs it: it asks about words that are stored into, about addresses that the code
//! comes to and about bytes that are sent, and it edits before and after where it looks.

use std::collections::BTreeSet;

use crate::image::{Image, ROM};
use crate::log::{Event, GREATEST, Kind};
use crate::machine::{KSEG0, KSEG2};
use crate::random::{self, Code, DATA, NOP, RAM_BODY, ROM_BODY, Random};
use crate::session::Session;

/// The proved program keeps a record of every span of this many steps, so positions and times stand near their ends, too.
const SPAN: u32 = 65_536;
const LAST: u32 = 4 * SPAN + 4000;

/// Words that no image sets, in RAM and in ROM.
const UNSET: [u32; 4] = [0x3000, 0x0010_0000, 0x007F_FFFC, ROM + 0x2_0000];
/// What `patch` and `writer` refuse, or nearly so.
const WRONG: [u32; 4] = [0x0000_2002, 0x1FE0_0000, 0x0080_0000, 0x1FC4_0000];

/// Lines that are mostly refused, whatever the session. GREATEST stands for the greatest position, and PAST for the
/// number after it.
const REFUSED: [&str; 21] = [
    "goto PAST",
    "erase 0 PAST",
    "erase PAST PAST",
    "erase 5 4",
    "add GREATEST 0 1",
    "add 1 4 1",
    "add 1 0 256",
    "set 1000000 256",
    "set 1000000 255",
    "del 18446744073709551615",
    "move 0 GREATEST",
    "patch 0x100000000 0",
    "patch 0x101 0x100000000",
    "visit 0x2 1048576",
    "visit 0 0",
    "find 0 18446744073709551615",
    "finds 0 18446744073709551615 64",
    "stores 2 33",
    "stores 2 1",
    "regwriter 34",
    "pcs PAST 2",
];
/// The same of framing errors and external lines.
const REFUSED_KINDS: [&str; 8] = [
    "ferr GREATEST 0 1",
    "ferr 1 4 1",
    "ferr 1 0 256",
    "wire GREATEST 0 1",
    "wire 1 3 1",
    "wire 1 0 2",
    "set 0 2",
    "set 1 255",
];

// Registers of the reading loop: the serial part, the page of each turn, the page of the bytes, and the board.
const SERIAL: u32 = 16;
const TURNS: u32 = 17;
const BYTES: u32 = 18;
const BOARD: u32 = 19;
/// What RBUF gave.
const BYTE: u32 = 6;
/// addu r9, r0, r0
const CLEAR_9: u32 = 0x0000_4821;

fn load(base: u32, register: u32, offset: u32) -> u32 {
    0x8C00_0000 | base << 21 | register << 16 | offset
}

fn store(base: u32, register: u32, offset: u32) -> u32 {
    0xAC00_0000 | base << 21 | register << 16 | offset
}

fn branch(words: u32) -> u32 {
    0x1000_0000 | words & 0xFFFF
}

impl Code<'_> {
    fn offset(&mut self) -> u32 {
        4 * self.random.below(6)
    }

    /// What a turn does with a byte: it keeps something of it, or only sends it.
    fn take(&mut self) -> Vec<u32> {
        let keeps = self.random.one_in(2);
        let mut words = Vec::new();
        for _ in 0..1 + self.random.below(3) {
            let offset = self.offset();
            match self.random.below(4) {
                // A sum, and one byte.
                0 if keeps => {
                    words.extend([load(BYTES, 9, offset), NOP, 0x0126_4821, store(BYTES, 9, offset), CLEAR_9])
                }
                1 if keeps => words.push(0xA000_0000 | BYTES << 21 | BYTE << 16 | offset + self.random.below(4)),
                0 | 2 => words.push(store(BYTES, 0, offset)),
                _ => words.push(store(SERIAL, BYTE, 24)),
            }
        }
        words
    }

    /// An instruction that adds, branches on, or stores another one into one of the first `count` words of a body.
    fn rewriting(&mut self, count: u32) -> u32 {
        let register = 16 + self.random.below(4);
        match self.random.below(8) {
            0..3 => {
                // Seldom what the counts hold, which may be no instruction.
                let word = if self.random.one_in(32) { register } else { 11 + self.random.below(4) };
                0xAC00_0000 | (8 + self.random.below(3)) << 21 | word << 16 | 4 * self.random.below(count)
            }
            3 => branch(1 + self.random.below(2)),
            _ => 0x2400_0000 | register << 21 | register << 16 | self.random.below(0x100),
        }
    }

    /// One turn: reads RBUF, and takes the byte if one is there.
    fn turn(&mut self) {
        let begin = self.words.len() as u32;
        let offset = self.offset();
        self.words.extend([load(SERIAL, BYTE, 8), NOP]);
        if !self.random.one_in(4) {
            self.words.push(store(TURNS, BYTE, offset));
        }
        if self.random.one_in(4) {
            self.words.extend([load(BYTES, 9, offset), NOP]);
        }
        if self.random.one_in(4) {
            let offset = self.offset();
            self.words.extend([load(BOARD, 9, 0), NOP, store(TURNS, 9, offset), CLEAR_9]);
        }
        let taken = self.take();
        let count = taken.len() as u32;
        // Bit 15 says that a byte is there. Without one there are mostly as many steps.
        self.words.extend([0x0000_0400 | BYTE << 16 | 7 << 11, 0x0401_0000 | 7 << 21 | count + 3, NOP]);
        self.words.extend(taken);
        let waits = if self.random.one_in(4) { 0 } else { count + 2 };
        self.words.extend([branch(waits + 1), NOP]);
        self.words.extend((0..waits).map(|_| NOP));
        if self.random.one_in(2) {
            // Counts down.
            let turns = 1 + self.random.below(40);
            self.words.extend([0x2400_0000 | 10 << 16 | turns, 0x254A_FFFF, 0x1D40_FFFE, NOP]);
        }
        self.words.extend([branch(begin.wrapping_sub(self.words.len() as u32 + 1)), NOP]);
    }
}

/// An image that reads what arrives in a loop, keeps it and sends it back. A turn mostly takes as many steps with a byte
/// as without, so that a run mostly comes back, after an edit, to the states that it had before it.
pub fn reader(seed: u64) -> Image {
    let mut random = Random(seed ^ 0x3333_3333_3333_3333);
    let mut image = Image::raw_rom(&[]).expect("an empty ROM");
    image.byte_time = random.pick(&[1, 16, 40, 200]);
    let mut code = Code { random: &mut random, words: Vec::new() };
    for line in 0..4 {
        code.store(0xBFE0_0008, 0x1000 | line);
    }
    let lines = code.random.pick(&[1, 5, 15, 15]);
    code.store(0xBFE0_0010, lines);
    code.store(0xBFE0_0000, 0x20);
    code.set(SERIAL, 0xBFE0_0000);
    code.set(TURNS, 0xA000_0000 + DATA);
    let bytes = code.random.pick(&[DATA, DATA + 0x1000, DATA + 0x1000]);
    code.set(BYTES, 0x8000_0000 + bytes);
    code.set(BOARD, 0xBFF0_0000);
    code.words.extend([0x0800_0000 | ROM_BODY >> 2 & 0x03FF_FFFF, NOP]);
    image.words.extend((ROM..).step_by(4).zip(code.words));
    let mut code = Code { random: &mut random, words: Vec::new() };
    code.turn();
    image.words.extend((ROM_BODY..).step_by(4).zip(code.words));
    image
}

/// An image whose code stores instructions into its own page, into another one, and into one that lies 512 pages away, through kseg0
/// and kseg1, and in delay slots. An exception goes on with one of the pages.
pub fn rewriter(seed: u64) -> Image {
    let mut random = Random(seed ^ 0x7777_7777_7777_7777);
    let mut image = Image::raw_rom(&[]).expect("an empty ROM");
    let bodies = [RAM_BODY, RAM_BODY + 0x1000, RAM_BODY + 0x20_0000];
    let count = 8 + random.below(24);
    let mut code = Code { random: &mut random, words: Vec::new() };
    for (register, body) in (8..).zip(bodies) {
        let segment = code.random.pick(&[0x8000_0000, 0xA000_0000]);
        code.set(register, segment + body);
    }
    for register in 11..15 {
        let word = code.rewriting(count);
        code.set(register, word);
    }
    let first = 8 + code.random.below(3);
    code.words.extend([first << 21 | 8, NOP]);
    image.words.extend((ROM..).step_by(4).zip(code.words));
    image.words.extend((ROM + 0x180..).step_by(4).zip([first << 21 | 8, NOP]));
    for body in bodies {
        let mut code = Code { random: &mut random, words: Vec::new() };
        for _ in 0..count {
            let word = code.rewriting(count);
            code.words.push(word);
        }
        let next = 8 + code.random.below(3);
        let last = code.rewriting(count);
        code.words.extend([next << 21 | 8, last]);
        image.words.extend((body..).step_by(4).zip(code.words));
    }
    image
}

/// What a run does up to a position, and soon after it.
#[derive(Default)]
struct Seen {
    stored: BTreeSet<u32>,
    /// Physical addresses of instructions.
    code: BTreeSet<u32>,
    /// Addresses of the instructions from the position on.
    ahead: Vec<u32>,
    /// How many bytes were sent on each line.
    sent: [u32; 4],
}

impl Seen {
    fn of(session: &Session) -> Seen {
        let mut seen = Seen::default();
        session.run(session.position + 200, |time, done, machine| {
            if time >= session.position {
                seen.ahead.push(machine.pc);
                return;
            }
            seen.stored.extend(done.stored);
            if (KSEG0..KSEG2).contains(&machine.pc) {
                seen.code.insert(machine.pc & 0x1FFF_FFFC);
            }
            if let Some(sent) = done.sent {
                seen.sent[usize::from(sent.line)] += 1;
            }
        });
        seen
    }
}

struct Script {
    random: Random,
    session: Session,
    text: String,
}

impl Script {
    fn tell(&mut self, line: &str) {
        self.text += line;
        self.text += "\n";
    }

    /// The same, where the session changes with it.
    fn run(&mut self, line: &str) {
        crate::replies(&mut self.session, line.as_bytes());
        self.tell(line);
    }

    /// A position soon after reset, near the end of a span, or any.
    fn position(&mut self) -> u64 {
        let near_end = SPAN * (1 + self.random.below(4)) - 20 + self.random.below(40);
        let any = self.random.below(LAST);
        let soon = self.random.below(4000);
        self.random.pick(&[soon, near_end, any, any]).into()
    }

    /// A time, mostly before the position.
    fn time(&mut self) -> u64 {
        let position = self.session.position;
        match self.random.below(8) {
            0..=3 => self.random.below(position as u32 + 1).into(),
            4 | 5 => position.saturating_sub(20) + u64::from(self.random.below(40)),
            6 if self.random.one_in(3) => random::near_limit(&mut self.random),
            _ => self.position(),
        }
    }

    /// A range of times, mostly a short one.
    fn range(&mut self) -> (u64, u64) {
        let from = self.time();
        let longest = self.random.pick(&[2, 40, 1000, SPAN]);
        let near = from + u64::from(self.random.below(longest));
        let far = random::near_limit(&mut self.random);
        (from, self.random.pick(&[near, near, near, near, far]))
    }

    fn any_of(&mut self, words: &BTreeSet<u32>) -> Option<u32> {
        let place = self.random.below(words.len().max(1) as u32) as usize;
        words.iter().nth(place).copied()
    }

    /// The address of a word: one that is stored into, code, data, or one that no image sets.
    fn word(&mut self, seen: &Seen) -> u32 {
        let other = 4 * self.random.below(32) + self.random.pick(&[0, DATA, DATA, ROM_BODY]);
        let found = match self.random.below(8) {
            0..=2 => self.any_of(&seen.stored),
            3 | 4 => self.any_of(&seen.code),
            5 => Some(self.random.pick(&UNSET)),
            6 if self.random.one_in(3) => Some(self.random.pick(&WRONG)),
            _ => None,
        };
        found.unwrap_or(other)
    }

    fn patch(&mut self, seen: &Seen) -> String {
        let address = self.word(seen);
        let same = self.session.image.words.get(&address).copied().unwrap_or(0);
        let other = self.any_of(&seen.code).and_then(|place| self.session.image.words.get(&place).copied());
        let any = self.random.next();
        format!("patch {address:#x} {:#x}", self.random.pick(&[same, any, NOP, other.unwrap_or(1)]))
    }

    fn add(&mut self, time: u64) -> String {
        let Event { kind, line, byte, .. } = random::event(&mut self.random, time, self.session.parts);
        let name = match kind {
            Kind::Byte => "add",
            Kind::Framing => "ferr",
            Kind::Wire => "wire",
        };
        format!("{name} {time} {line} {byte}")
    }

    fn edit(&mut self) {
        let seen = Seen::of(&self.session);
        let event = self.random.below(self.session.log.events.len() as u32 + 1);
        let (time, any) = (self.time(), self.random.below(256));
        let byte = self.random.pick(&[any, any, 0, 1]);
        let line = match self.random.below(9) {
            0..=2 => self.add(time),
            3 => format!("del {event}"),
            4 => format!("set {event} {byte}"),
            5 => format!("move {event} {time}"),
            6 => {
                let (from, to) = self.range();
                format!("erase {from} {to}")
            }
            _ => self.patch(&seen),
        };
        self.run(&line);
    }

    fn ask(&mut self, seen: &Seen) {
        let stored = if self.random.one_in(2) { self.any_of(&seen.stored) } else { None };
        let address = stored.unwrap_or_else(|| self.word(seen));
        let used: Vec<u32> = (0..4).filter(|&line| seen.sent[line as usize] > 0).collect();
        let line =
            if used.is_empty() || self.random.one_in(6) { self.random.below(4) } else { self.random.pick(&used) };
        let sent = seen.sent[line as usize];
        let question = match self.random.below(16) {
            0..=3 => format!("writer {address:#x}"),
            4 => format!("mem {address:#x} {}", 1 + self.random.below(4)),
            5 => format!("find {line} {}", self.random.below(sent + 2)),
            6 => format!("console {line} {} 256", self.random.below(sent + 1)),
            7 => format!("trace {}", 1 + self.random.below(64)),
            14 => format!("jumps 0 {}", 1 + self.random.below(8)),
            15 => format!("jumps 1 {}", 1 + self.random.below(64)),
            8 => format!("stores {address:#x} {}", 1 + self.random.below(32)),
            9 => format!("finds {line} {} {}", self.random.below(sent + 2), 1 + self.random.below(64)),
            10 => format!("regwriter {}", self.random.below(34)),
            11 => format!("pcs {} {}", self.random.pick(&[1, 3, 64, 1000]), 1 + self.random.below(64)),
            12 => "devices".into(),
            _ => self.random.pick(&["regs", "cp0", "log 0 32", "pos"]).into(),
        };
        self.tell(&question);
    }

    /// Goes near the limits and back, and asks for nothing there that the machine must run for.
    fn go_far(&mut self) {
        let position = self.session.position;
        for _ in 0..2 {
            let far = random::near_limit(&mut self.random);
            self.run(&format!("goto {far}"));
            let count = self.random.below(6);
            let way = self.random.pick(&["step", "back"]);
            self.run(&format!("{way} {count}"));
            self.tell("pos");
        }
        self.run(&format!("goto {position}"));
    }

    /// Goes to where an address is met, and mostly back.
    fn visit(&mut self, seen: &Seen) {
        let position = self.session.position;
        let address = self.random.pick(&seen.ahead);
        let limit = self.random.pick(&[1, 20, 300, 70_000]);
        self.run(&format!("visit {address:#x} {limit}"));
        self.tell("regs");
        if !self.random.one_in(4) {
            self.run(&format!("goto {position}"));
        }
    }
}

/// A script of this seed for a session.
pub fn script(seed: u64, session: Session) -> String {
    let mut script = Script { random: Random(seed ^ 0x7777_7777_7777_7777), session, text: String::new() };
    for _ in 0..6 {
        let position = script.position();
        script.run(&format!("goto {position}"));
        for _ in 0..3 {
            script.edit();
            let seen = Seen::of(&script.session);
            for _ in 0..4 {
                script.ask(&seen);
            }
            if script.random.one_in(3) {
                script.visit(&seen);
            }
        }
        let is_other = script.session.parts.kinds && script.random.one_in(3);
        let refused = if is_other { script.random.pick(&REFUSED_KINDS) } else { script.random.pick(&REFUSED) };
        script.run(&refused.replace("GREATEST", &GREATEST.to_string()).replace("PAST", &(GREATEST + 1).to_string()));
        if script.random.one_in(3) {
            script.go_far();
        }
    }
    script.text
}
