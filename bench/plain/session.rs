//! A session: image, log and position. Each query runs the machine from reset.

use std::fmt::Write;

use crate::control::{Control, Exception};
use crate::image::Image;
use crate::log::{Event, GREATEST, Kind, Log};
use crate::machine::{Done, Machine, Parts};
use crate::script::{Command, Refusal};
use crate::table;

pub struct Session {
    pub image: Image,
    pub log: Log,
    pub position: u64,
    pub parts: Parts,
}

impl Session {
    pub fn new(image: Image, log: Log, parts: Parts) -> Session {
        Session { image, log, position: 0, parts }
    }

    /// The machine at a position. `watch` gets the number of each step on the way, what it reported, and the machine after it.
    pub fn run(&self, position: u64, mut watch: impl FnMut(u64, Done, &Machine)) -> Machine {
        let mut machine = Machine::new(&self.image, self.parts);
        let mut events = &self.log.events[..];
        for time in 0..position {
            let (now, later) = events.split_at(events.iter().take_while(|event| event.time == time).count());
            let done = machine.step(now);
            watch(time, done, &machine);
            events = later;
        }
        machine
    }

    /// The machine at the present position.
    fn machine(&self) -> Machine {
        self.run(self.position, |_, _, _| {})
    }

    /// The bytes that the steps so far sent on a line, each with its step.
    fn sent(&self, line: u8) -> Vec<(u64, u8)> {
        let mut sent = Vec::new();
        self.run(self.position, |time, done, _| {
            sent.extend(done.sent.filter(|it| it.line == line).map(|it| (time, it.byte)))
        });
        sent
    }

    /// The reply to a command, or why it is refused; then the session is as it was.
    pub fn answer(&mut self, command: Command) -> Result<String, Refusal> {
        match command {
            Command::Pos => self.move_to(Some(self.position)),
            Command::Goto(position) => self.move_to(Some(position)),
            Command::Step(count) => self.move_to(self.position.checked_add(count)),
            Command::Back(count) => self.move_to(self.position.checked_sub(count)),
            Command::Visit { address, limit } => self.visit(address, limit),
            Command::Add(added) => event(self.log.add(added)?),
            Command::Del(number) => {
                self.log.delete(number)?;
                Ok(self.left())
            }
            Command::Erase { from, to } => {
                self.log.erase(from, to)?;
                Ok(self.left())
            }
            Command::Set { event: number, byte } => event(self.log.set(number, byte)?),
            Command::Move { event: number, time } => event(self.log.move_to(number, time)?),
            Command::Patch { address, word } => {
                self.check_memory(address, 1)?;
                self.image.words.insert(address, word);
                Ok("ok\n".into())
            }
            Command::Quit => Ok(String::new()),
            query => self.query(query),
        }
    }

    fn move_to(&mut self, position: Option<u64>) -> Result<String, Refusal> {
        self.position = position.filter(|&it| it <= GREATEST).ok_or(Refusal::TooFar)?;
        Ok(format!("pos {}\n", self.position))
    }

    fn visit(&mut self, address: u32, limit: u64) -> Result<String, Refusal> {
        if address % 4 != 0 {
            return Err(Refusal::Unaligned);
        }
        let last = self.position + limit;
        if last > GREATEST {
            return Err(Refusal::TooFar);
        }
        let mut found = None;
        self.run(last, |time, _, machine| {
            if found.is_none() && time >= self.position && machine.pc == address {
                found = Some(time + 1);
            }
        });
        self.move_to(Some(found.ok_or(Refusal::NotFound)?))
    }

    /// The reply to a command that leaves the session as it is.
    fn query(&self, command: Command) -> Result<String, Refusal> {
        Ok(match command {
            Command::Regs => registers(&self.machine()),
            Command::Reg(register) => format!("r{register} {:#010x}\n", self.machine().registers[register]),
            Command::Cp0 => control(&self.machine().control),
            Command::Tlb(number) => {
                let entry = self.machine().entries.0[number];
                format!("tlb {number} {:#010x} {:#010x}\n", entry.hi, entry.lo)
            }
            Command::Where(address) => match self.machine().where_is(address) {
                Ok(it) => format!("where {:#010x} {}\n", it.address, if it.cacheable { "cached" } else { "uncached" }),
                Err(Exception::Address { .. }) => "where adel\n".into(),
                Err(Exception::Translation { missing: true, .. }) if address < 0x8000_0000 => {
                    "where tlbl refill\n".into()
                }
                Err(_) => "where tlbl\n".into(),
            },
            Command::Mem { address, count } => {
                self.check_memory(address, count)?;
                words(&self.machine(), address, count, |_, _| String::new())
            }
            Command::Dis { address, count } => {
                self.check_memory(address, count)?;
                words(&self.machine(), address, count, |address, word| format!(" {}", table::text(address, word)))
            }
            Command::Console { line, from, count } => self.console(line, from, count),
            Command::Writer(address) => {
                self.check_memory(address, 1)?;
                self.writer(address)
            }
            Command::Find { line, place } => {
                let sent = self.sent(line);
                let place = usize::try_from(place).map_err(|_| Refusal::NotFound)?;
                format!("find {}\n", sent.get(place).ok_or(Refusal::NotFound)?.0)
            }
            Command::Stores { address, count } => {
                self.check_memory(address, 1)?;
                self.stores(address, count)
            }
            Command::Finds { line, place, count } => self.finds(line, place, count),
            Command::RegisterWriter(register) => self.register_writer(register),
            Command::Pcs { distance, count } => self.pcs(distance, count)?,
            Command::Devices => self.machine().devices(),
            Command::Trace(count) => self.trace(count)?,
            Command::Jumps { local, count } => self.jumps(local, count),
            Command::Log { from, count } => self.events(from, count),
            _ => unreachable!("no query: {command:?}"),
        })
    }

    fn console(&self, line: u8, from: u64, count: usize) -> String {
        let sent = self.sent(line);
        let from = usize::try_from(from).unwrap_or(usize::MAX);
        let bytes: String = sent.iter().skip(from).take(count).map(|(_, byte)| format!("{byte:02x}")).collect();
        format!("console {line} {} {}\n", sent.len(), if bytes.is_empty() { "none" } else { &bytes })
    }

    fn writer(&self, address: u32) -> String {
        let mut last = None;
        self.run(self.position, |time, done, _| {
            if done.stored == Some(address) {
                last = Some(time);
            }
        });
        match last {
            Some(step) => format!("writer {step}\n"),
            None if self.image.words.contains_key(&address) => "writer image\n".into(),
            None => "writer never\n".into(),
        }
    }

    /// The last stores into a word, the last one first, each with the word after it.
    fn stores(&self, address: u32, count: usize) -> String {
        let mut stores = Vec::new();
        self.run(self.position, |time, done, machine| {
            if done.stored == Some(address) {
                stores.push((time, machine.word(address)));
            }
        });
        listed("stores", stores.into_iter().rev().take(count))
    }

    /// The steps that sent the bytes of a line from a place on.
    fn finds(&self, line: u8, place: u64, count: usize) -> String {
        let sent = self.sent(line);
        let from = usize::try_from(place).unwrap_or(usize::MAX);
        let found: Vec<String> = (from..sent.len()).take(count).map(|it| format!("{it} {}\n", sent[it].0)).collect();
        format!("finds {}\n{}", found.len(), found.concat())
    }

    fn register_writer(&self, register: usize) -> String {
        let mut last = None;
        self.run(self.position, |time, done, machine| {
            if machine.written(done).contains(&register) {
                last = Some(time);
            }
        });
        last.map_or("regwriter never\n".into(), |step| format!("regwriter {step}\n"))
    }

    /// The PC at the position and at later ones.
    fn pcs(&self, distance: u64, count: u64) -> Result<String, Refusal> {
        let last = u128::from(self.position) + u128::from(distance) * u128::from(count - 1);
        let last = u64::try_from(last).ok().filter(|&it| it <= GREATEST).ok_or(Refusal::TooFar)?;
        let mut pcs = vec![Machine::new(&self.image, self.parts).pc];
        self.run(last, |_, _, machine| pcs.push(machine.pc));
        let shown = (0..count).map(|it| self.position + it * distance).map(|position| (position, pcs[position as usize]));
        Ok(listed("pcs", shown))
    }

    /// What the next steps do.
    fn trace(&self, count: u64) -> Result<String, Refusal> {
        if self.position + count > GREATEST {
            return Err(Refusal::TooFar);
        }
        let mut machine = self.machine();
        let line = |time| {
            let now: Vec<Event> = self.log.events.iter().filter(|event| event.time == time).copied().collect();
            machine.traced(time, &now)
        };
        Ok((self.position..self.position + count).map(line).collect())
    }

    /// The next steps that transfer control, and the position from which to ask for later ones.
    fn jumps(&self, local: bool, count: usize) -> String {
        let last = (self.position + 1_048_576).min(GREATEST);
        if self.position == last {
            return format!("jumps 0 {last}\n");
        }
        let mut machine = self.machine();
        let (mut next, mut lines) = (self.position, Vec::new());
        while next < last && lines.len() < count {
            let now: Vec<Event> = self.log.events.iter().filter(|event| event.time == next).copied().collect();
            lines.extend(machine.jump(next, &now, local));
            next += 1;
        }
        format!("jumps {} {next}\n{}", lines.len(), lines.concat())
    }

    /// How many events the log has.
    fn left(&self) -> String {
        format!("log {}\n", self.log.events.len())
    }

    fn events(&self, from: u64, count: usize) -> String {
        let mut text = self.left();
        let from = usize::try_from(from).unwrap_or(usize::MAX);
        for (number, event) in self.log.events.iter().enumerate().skip(from).take(count) {
            let kind = match event.kind {
                Kind::Byte => "",
                Kind::Framing => " framing",
                Kind::Wire => " wire",
            };
            writeln!(text, "{number} {} {} {:#04x}{kind}", event.time, event.line, event.byte).unwrap();
        }
        text
    }

    /// The two refusals of a physical address.
    fn check_memory(&self, address: u32, count: u32) -> Result<(), Refusal> {
        if address % 4 != 0 {
            return Err(Refusal::Unaligned);
        }
        if self.parts.has_memory(address, count) { Ok(()) } else { Err(Refusal::NotMemory) }
    }
}

/// How many words there are, under a name, and each after its step or position.
fn listed(name: &str, words: impl Iterator<Item = (u64, u32)>) -> String {
    let lines: Vec<String> = words.map(|(time, word)| format!("{time} {word:#010x}\n")).collect();
    format!("{name} {}\n{}", lines.len(), lines.concat())
}

fn event(number: usize) -> Result<String, Refusal> {
    Ok(format!("event {number}\n"))
}

fn registers(machine: &Machine) -> String {
    let Machine { pc, next_pc, hi, lo, delay, load, .. } = machine;
    let load = match load {
        (0, _) => "none".into(),
        (register, value) => format!("r{register} {value:#010x}"),
    };
    let delay = u32::from(*delay);
    let mut text =
        format!("pc {pc:#010x} next {next_pc:#010x} hi {hi:#010x} lo {lo:#010x} delay {delay} load {load}\n");
    for (row, r) in machine.registers.chunks(4).enumerate() {
        writeln!(text, "r{} {:#010x} {:#010x} {:#010x} {:#010x}", 4 * row, r[0], r[1], r[2], r[3]).unwrap();
    }
    text
}

fn control(control: &Control) -> String {
    let named = [
        ("index", control.index),
        ("random", control.random),
        ("entrylo", control.entry_lo),
        ("context", control.context),
        ("badvaddr", control.bad_vaddr),
        ("entryhi", control.entry_hi),
        ("status", control.status),
        ("cause", control.cause),
        ("epc", control.epc),
        ("prid", Control::PRID),
    ];
    named.map(|(name, value)| format!("{name} {value:#010x}")).join(" ") + "\n"
}

/// Lines of words of memory, each with what follows it.
fn words(machine: &Machine, address: u32, count: u32, after: impl Fn(u32, u32) -> String) -> String {
    let line = |address| {
        let word = machine.word(address);
        format!("{address:#010x} {word:#010x}{}\n", after(address, word))
    };
    (0..count).map(|place| line(address + 4 * place)).collect()
}
