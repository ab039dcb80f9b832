//! Assembler source: an image, or the first fault with its line.

use std::collections::BTreeMap;
use std::collections::btree_map::Entry;

use crate::image::{Image, ROM, is_placed};
use crate::table::{ROWS, Row, Shape};

/// The kinds of fault of a source, those of the first pass in the order in which they are judged within a line.
#[derive(Clone, Copy, Debug, PartialEq)]
pub enum Kind {
    Name,
    Syntax,
    Number,
    Twice,
    Place,
    Overlap,
    Label,
    Reach,
}

use Kind::*;

/// The number of a line, from 1, and what is wrong there.
#[derive(Clone, Copy, Debug, PartialEq)]
pub struct SourceFault(pub usize, pub Kind);

/// A number of a line; none where it is too large for any operand.
type Written = Option<i64>;

enum Target<'a> {
    Label(&'a str),
    Address(Written),
}

enum Line<'a> {
    Empty,
    Label(&'a str),
    Org(Written),
    Word(Written),
    ByteTime(Written),
    Unit(Written),
    Clock(Vec<Written>),
    Instruction(&'static Row, Vec<Operand<'a>>),
}

/// An operand, and where its field stands.
enum Operand<'a> {
    Register(u32, u32),
    /// A number with its least and greatest value, its place, and the bits that it takes.
    Number(Written, i64, i64, u32, u32),
    Branch(Target<'a>),
    Jump(Target<'a>),
}

/// What is left of a line.
struct Rest<'a>(&'a str);

fn is_name(it: char) -> bool {
    it.is_ascii_alphanumeric() || it == '_'
}

impl<'a> Rest<'a> {
    fn blanks(&mut self) -> bool {
        let before = self.0.len();
        self.0 = self.0.trim_start_matches([' ', '\t']);
        self.0.len() < before
    }

    fn takes(&mut self, text: char) -> Result<(), Kind> {
        self.0 = self.0.strip_prefix(text).ok_or(Syntax)?;
        Ok(())
    }

    fn name(&mut self) -> &'a str {
        let (name, rest) = self.0.split_at(self.0.find(|it| !is_name(it)).unwrap_or(self.0.len()));
        self.0 = rest;
        name
    }

    /// A comma, with blanks around it.
    fn comma(&mut self) -> Result<(), Kind> {
        self.blanks();
        self.takes(',')?;
        self.blanks();
        Ok(())
    }

    fn register(&mut self, letter: char, shift: u32) -> Result<Operand<'a>, Kind> {
        let digits = self.name().strip_prefix(letter).ok_or(Syntax)?;
        let number = (0..32).find(|it| digits == format!("{it}")).ok_or(Syntax)?;
        Ok(Operand::Register(number, shift))
    }

    fn number(&mut self, signed: bool) -> Result<Written, Kind> {
        let minus = signed && self.0.starts_with('-');
        if minus {
            self.takes('-')?;
        }
        let word = self.name();
        let (digits, base) = word.strip_prefix("0x").map_or((word, 10), |digits| (digits, 16));
        if digits.is_empty() || !digits.chars().all(|it| it.is_digit(base)) {
            return Err(Syntax);
        }
        let number = i64::from_str_radix(digits, base).ok();
        Ok(number.map(|it| if minus { -it } else { it }))
    }

    fn target(&mut self) -> Result<Target<'a>, Kind> {
        if self.0.starts_with(|it: char| it.is_ascii_digit()) {
            return Ok(Target::Address(self.number(false)?));
        }
        let name = self.name();
        if name.is_empty() || name.len() > 32 { Err(Syntax) } else { Ok(Target::Label(name)) }
    }
}

/// What a line says.
fn line(text: &[u8]) -> Result<Line<'_>, Kind> {
    let text = &text[..text.iter().position(|&it| it == b'#').unwrap_or(text.len())];
    // The front that is text is judged before what is not.
    let (text, is_whole) = match std::str::from_utf8(text) {
        Ok(text) => (text, true),
        Err(fault) => (std::str::from_utf8(&text[..fault.valid_up_to()]).unwrap(), false),
    };
    let mut rest = Rest(text);
    rest.blanks();
    if rest.0.is_empty() {
        return if is_whole { Ok(Line::Empty) } else { Err(Syntax) };
    }
    let dot = rest.0.starts_with('.');
    if dot {
        rest.takes('.')?;
    }
    let name = rest.name();
    if !dot && name.chars().next().is_none_or(|it| it.is_ascii_digit()) {
        return Err(Syntax);
    }
    let read = if !dot && rest.0.starts_with(':') {
        rest.takes(':')?;
        if name.len() > 32 { Err(Syntax) } else { Ok(Line::Label(name)) }
    } else if dot {
        directive(name, &mut rest)
    } else {
        let row = ROWS.iter().find(|row| row.name == name).ok_or(Name)?;
        operands(row.shape, &mut rest).map(|operands| Line::Instruction(row, operands))
    }?;
    rest.blanks();
    if rest.0.is_empty() && is_whole { Ok(read) } else { Err(Syntax) }
}

fn directive<'a>(name: &str, rest: &mut Rest<'a>) -> Result<Line<'a>, Kind> {
    let made = match name {
        "org" => Line::Org,
        "word" => Line::Word,
        "bytetime" => Line::ByteTime,
        "unit" => Line::Unit,
        "clock" => return clock(rest),
        _ => return Err(Name),
    };
    if !rest.blanks() {
        return Err(Syntax);
    }
    rest.number(false).map(made)
}

fn clock<'a>(rest: &mut Rest<'a>) -> Result<Line<'a>, Kind> {
    let mut numbers = Vec::new();
    for _ in 0..12 {
        if !rest.blanks() {
            return Err(Syntax);
        }
        numbers.push(rest.number(false)?);
    }
    Ok(Line::Clock(numbers))
}

fn operands<'a>(shape: Shape, rest: &mut Rest<'a>) -> Result<Vec<Operand<'a>>, Kind> {
    // A letter for each operand: registers by their fields, a control register, and the others.
    let letters = match shape {
        Shape::Shift => "dt<",
        Shape::ShiftBy => "dts",
        Shape::Source => "s",
        Shape::Link => "ds",
        Shape::Code => "c",
        Shape::Destination => "d",
        Shape::Sources => "st",
        Shape::Three => "dst",
        Shape::BranchOne => "sb",
        Shape::Jump => "j",
        Shape::BranchTwo => "stb",
        Shape::Signed => "tsi",
        Shape::Unsigned => "tsu",
        Shape::Upper => "tu",
        Shape::Memory => "tm",
        Shape::Control => "tC",
        Shape::Bare => "",
    };
    let mut read = Vec::new();
    for (place, letter) in letters.chars().enumerate() {
        if place > 0 {
            rest.comma()?;
        } else if !rest.blanks() {
            return Err(Syntax);
        }
        read.push(match letter {
            's' => rest.register('r', 21)?,
            't' => rest.register('r', 16)?,
            'd' => rest.register('r', 11)?,
            'C' => rest.register('c', 11)?,
            '<' => Operand::Number(rest.number(false)?, 0, 31, 6, 0x1F),
            'c' => Operand::Number(rest.number(false)?, 0, 1_048_575, 6, 0xF_FFFF),
            'u' => Operand::Number(rest.number(false)?, 0, 65_535, 0, 0xFFFF),
            'b' => Operand::Branch(rest.target()?),
            'j' => Operand::Jump(rest.target()?),
            _ => Operand::Number(rest.number(true)?, -32_768, 32_767, 0, 0xFFFF),
        });
        if letter == 'm' {
            rest.blanks();
            rest.takes('(')?;
            rest.blanks();
            read.push(rest.register('r', 21)?);
            rest.blanks();
            rest.takes(')')?;
        }
    }
    Ok(read)
}

fn within(number: Written, least: i64, most: i64) -> Result<i64, Kind> {
    number.filter(|it| (least..=most).contains(it)).ok_or(Number)
}

const WORD: i64 = 0xFFFF_FFFF;

/// What the first pass makes.
struct Made<'a> {
    image: Image,
    place: u64,
    labels: BTreeMap<&'a str, u32>,
    /// The branches and jumps: line, address and target.
    waiting: Vec<(usize, u32, Target<'a>, bool)>,
    byte_time: Option<u32>,
    unit: Option<u32>,
    clock: Option<[u8; 12]>,
}

impl<'a> Made<'a> {
    fn word(&mut self, word: u32) -> Result<u32, Kind> {
        if self.place % 4 != 0 || !is_placed(self.place) {
            return Err(Place);
        }
        let address = self.place as u32;
        match self.image.words.entry(address) {
            Entry::Occupied(_) => return Err(Overlap),
            Entry::Vacant(entry) => entry.insert(word),
        };
        self.place += 4;
        Ok(address)
    }

    fn line(&mut self, number: usize, line: Line<'a>) -> Result<(), Kind> {
        match line {
            Line::Empty => Ok(()),
            Line::Label(name) => match self.labels.entry(name) {
                Entry::Occupied(_) => Err(Twice),
                Entry::Vacant(entry) => {
                    entry.insert(self.place as u32);
                    Ok(())
                }
            },
            Line::Org(place) => {
                self.place = within(place, 0, WORD)? as u64;
                Ok(())
            }
            Line::Word(word) => {
                let word = within(word, 0, WORD)? as u32;
                self.word(word).map(|_| ())
            }
            Line::ByteTime(it) => once(&mut self.byte_time, within(it, 1, 65_535)? as u32),
            Line::Unit(it) => once(&mut self.unit, within(it, 1, 65_535)? as u32),
            Line::Clock(numbers) => {
                let bytes: Result<Vec<u8>, Kind> = numbers.into_iter().map(|it| Ok(within(it, 0, 255)? as u8)).collect();
                let bytes: [u8; 12] = bytes?.try_into().unwrap();
                if bytes[10] & 0x80 != 0 || bytes[11] & 1 != 0 {
                    return Err(Number);
                }
                once(&mut self.clock, bytes)
            }
            Line::Instruction(row, operands) => self.instruction(number, row, operands),
        }
    }

    fn instruction(&mut self, number: usize, row: &Row, operands: Vec<Operand<'a>>) -> Result<(), Kind> {
        let mut word = row.value;
        let mut targets = Vec::new();
        for operand in operands {
            match operand {
                Operand::Register(register, shift) => word |= register << shift,
                Operand::Number(it, least, most, shift, mask) => word |= (within(it, least, most)? as u32 & mask) << shift,
                Operand::Branch(target) | Operand::Jump(target) => {
                    if let Target::Address(it) = target {
                        within(it, 0, WORD)?;
                    }
                    targets.push(target);
                }
            }
        }
        let address = self.word(word)?;
        let jumps = row.shape == Shape::Jump;
        self.waiting.extend(targets.into_iter().map(|target| (number, address, target, jumps)));
        Ok(())
    }

    /// Sets the field of a branch or a jump.
    fn reach(&mut self, address: u32, target: Target, jumps: bool) -> Result<(), Kind> {
        let target = match target {
            Target::Address(it) => it.unwrap_or_default() as u32,
            Target::Label(name) => *self.labels.get(name).ok_or(Label)?,
        };
        let distance = target.wrapping_sub(address.wrapping_add(4)) as i32;
        if target % 4 != 0 || !jumps && !(-131_072..=131_068).contains(&distance) {
            return Err(Reach);
        }
        let field = if jumps { target >> 2 & 0x03FF_FFFF } else { distance as u32 >> 2 & 0xFFFF };
        *self.image.words.get_mut(&address).unwrap() |= field;
        Ok(())
    }
}

fn once<T>(place: &mut Option<T>, value: T) -> Result<(), Kind> {
    if place.is_some() {
        return Err(Twice);
    }
    *place = Some(value);
    Ok(())
}

/// The image of a source.
pub fn assemble(source: &[u8]) -> Result<Image, SourceFault> {
    let mut made = Made {
        image: Image::raw_rom(&[]).unwrap(),
        place: ROM.into(),
        labels: BTreeMap::new(),
        waiting: Vec::new(),
        byte_time: None,
        unit: None,
        clock: None,
    };
    let mut lines: Vec<&[u8]> = source.split(|&it| it == b'\n').collect();
    let last = lines.pop();
    let lines = lines.into_iter().map(|it| it.strip_suffix(b"\r").unwrap_or(it)).chain(last);
    for (number, text) in lines.enumerate() {
        let read = line(text).and_then(|line| made.line(number + 1, line));
        read.map_err(|kind| SourceFault(number + 1, kind))?;
    }
    for (number, address, target, jumps) in std::mem::take(&mut made.waiting) {
        made.reach(address, target, jumps).map_err(|kind| SourceFault(number, kind))?;
    }
    let plain = made.image;
    Ok(Image {
        byte_time: made.byte_time.unwrap_or(plain.byte_time),
        unit: made.unit.unwrap_or(plain.unit),
        clock: made.clock.unwrap_or(plain.clock),
        words: plain.words,
    })
}
