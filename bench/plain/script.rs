//! Script lines: commands, and why one is refused.

use crate::log::{Event, GREATEST, Kind};

/// The refusals of a command, in the order in which they are judged, without `Memory`, which never comes here.
#[derive(Clone, Copy, Debug, PartialEq)]
pub enum Refusal {
    Syntax,
    Range,
    Unaligned,
    NotMemory,
    TooFar,
    NoEvent,
    NotFound,
}

impl Refusal {
    pub fn number(self) -> u32 {
        match self {
            Refusal::Syntax => 2,
            Refusal::Range => 3,
            Refusal::NoEvent => 4,
            Refusal::Unaligned => 5,
            Refusal::NotMemory => 6,
            Refusal::TooFar => 7,
            Refusal::NotFound => 8,
        }
    }
}

#[derive(Clone, Copy, Debug, PartialEq)]
pub enum Command {
    Pos,
    Goto(u64),
    Step(u64),
    Back(u64),
    Regs,
    Reg(usize),
    Cp0,
    Tlb(usize),
    Where(u32),
    Mem { address: u32, count: u32 },
    Dis { address: u32, count: u32 },
    Console { line: u8, from: u64, count: usize },
    Writer(u32),
    Visit { address: u32, limit: u64 },
    Find { line: u8, place: u64 },
    Stores { address: u32, count: usize },
    Finds { line: u8, place: u64, count: usize },
    RegisterWriter(usize),
    Pcs { distance: u64, count: u64 },
    Devices,
    Trace(u64),
    Jumps { local: bool, count: usize },
    Log { from: u64, count: usize },
    Add(Event),
    Del(u64),
    Erase { from: u64, to: u64 },
    Set { event: u64, byte: u8 },
    Move { event: u64, time: u64 },
    Patch { address: u32, word: u32 },
    Quit,
}

const LINE: usize = 256;
const ANY: u64 = u64::MAX;
const WORD: u64 = 0xFFFF_FFFF;

/// The name of each command, with the least and the greatest of each of its numbers.
const COMMANDS: [(&str, &[(u64, u64)]); 32] = [
    ("pos", &[]),
    ("goto", &[(0, ANY)]),
    ("step", &[(0, ANY)]),
    ("back", &[(0, ANY)]),
    ("regs", &[]),
    ("reg", &[(0, 31)]),
    ("cp0", &[]),
    ("tlb", &[(0, 63)]),
    ("where", &[(0, WORD)]),
    ("mem", &[(0, WORD), (1, 32)]),
    ("dis", &[(0, WORD), (1, 32)]),
    ("console", &[(0, 3), (0, ANY), (1, 256)]),
    ("writer", &[(0, WORD)]),
    ("visit", &[(0, WORD), (1, 1_048_576)]),
    ("find", &[(0, 3), (0, ANY)]),
    ("stores", &[(0, WORD), (1, 32)]),
    ("finds", &[(0, 3), (0, ANY), (1, 64)]),
    ("regwriter", &[(0, 33)]),
    ("pcs", &[(1, ANY), (1, 64)]),
    ("devices", &[]),
    ("trace", &[(1, 64)]),
    ("jumps", &[(0, 1), (1, 64)]),
    ("log", &[(0, ANY), (1, 32)]),
    ("add", &[(0, GREATEST - 1), (0, 3), (0, 255)]),
    ("ferr", &[(0, GREATEST - 1), (0, 3), (0, 255)]),
    ("wire", &[(0, GREATEST - 1), (0, 2), (0, 1)]),
    ("del", &[(0, ANY)]),
    ("erase", &[(0, GREATEST), (0, GREATEST)]),
    ("set", &[(0, ANY), (0, 255)]),
    ("move", &[(0, ANY), (0, GREATEST - 1)]),
    ("patch", &[(0, WORD), (0, WORD)]),
    ("quit", &[]),
];

/// The command of a line without its line feed. A blank line and a comment have none.
pub fn parse(line: &[u8]) -> Result<Option<Command>, Refusal> {
    let line = line.strip_suffix(b"\r").unwrap_or(line);
    if line.len() > LINE {
        return Err(Refusal::Syntax);
    }
    let mut words = line.split(|byte| b" \t".contains(byte)).filter(|word| !word.is_empty());
    let Some(name) = words.next().filter(|word| word[0] != b'#') else {
        return Ok(None);
    };
    let numbers: Vec<Option<u64>> = words.map(number).collect::<Result<_, _>>()?;
    let &(name, bounds) = COMMANDS.iter().find(|command| command.0.as_bytes() == name).ok_or(Refusal::Syntax)?;
    if numbers.len() != bounds.len() {
        return Err(Refusal::Syntax);
    }
    let within = |(number, &(least, most)): (Option<u64>, &(u64, u64))| number.filter(|it| (least..=most).contains(it));
    let numbers: Option<Vec<u64>> = numbers.into_iter().zip(bounds).map(within).collect();
    Ok(Some(command(name, &numbers.ok_or(Refusal::Range)?)))
}

/// The command of a name, whose numbers are in their ranges.
fn command(name: &str, n: &[u64]) -> Command {
    match name {
        "pos" => Command::Pos,
        "goto" => Command::Goto(n[0]),
        "step" => Command::Step(n[0]),
        "back" => Command::Back(n[0]),
        "regs" => Command::Regs,
        "reg" => Command::Reg(n[0] as usize),
        "cp0" => Command::Cp0,
        "tlb" => Command::Tlb(n[0] as usize),
        "where" => Command::Where(n[0] as u32),
        "mem" => Command::Mem { address: n[0] as u32, count: n[1] as u32 },
        "dis" => Command::Dis { address: n[0] as u32, count: n[1] as u32 },
        "console" => Command::Console { line: n[0] as u8, from: n[1], count: n[2] as usize },
        "writer" => Command::Writer(n[0] as u32),
        "visit" => Command::Visit { address: n[0] as u32, limit: n[1] },
        "find" => Command::Find { line: n[0] as u8, place: n[1] },
        "stores" => Command::Stores { address: n[0] as u32, count: n[1] as usize },
        "finds" => Command::Finds { line: n[0] as u8, place: n[1], count: n[2] as usize },
        "regwriter" => Command::RegisterWriter(n[0] as usize),
        "pcs" => Command::Pcs { distance: n[0], count: n[1] },
        "devices" => Command::Devices,
        "trace" => Command::Trace(n[0]),
        "jumps" => Command::Jumps { local: n[0] == 1, count: n[1] as usize },
        "log" => Command::Log { from: n[0], count: n[1] as usize },
        "add" => added(Kind::Byte, n),
        "ferr" => added(Kind::Framing, n),
        "wire" => added(Kind::Wire, n),
        "del" => Command::Del(n[0]),
        "erase" => Command::Erase { from: n[0], to: n[1] },
        "set" => Command::Set { event: n[0], byte: n[1] as u8 },
        "move" => Command::Move { event: n[0], time: n[1] },
        "patch" => Command::Patch { address: n[0] as u32, word: n[1] as u32 },
        "quit" => Command::Quit,
        _ => unreachable!("no name of a command: {name}"),
    }
}

fn added(kind: Kind, n: &[u64]) -> Command {
    Command::Add(Event { time: n[0], kind, line: n[1] as u8, byte: n[2] as u8 })
}

/// The number that a word is, in decimal, or in hexadecimal after 0x; none where it is above 2^64 - 1.
fn number(word: &[u8]) -> Result<Option<u64>, Refusal> {
    let (digits, base) = match word.strip_prefix(b"0x") {
        Some(digits) => (digits, 16),
        None => (word, 10),
    };
    let digits: Option<Vec<u32>> = digits.iter().map(|&digit| char::from(digit).to_digit(base)).collect();
    let digits = digits.filter(|digits| !digits.is_empty()).ok_or(Refusal::Syntax)?;
    let append = |number: u64, &digit: &u32| number.checked_mul(base.into())?.checked_add(digit.into());
    Ok(digits.iter().try_fold(0, append))
}
