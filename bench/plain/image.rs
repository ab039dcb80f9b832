//! Boot images: set words and three constants, in the project's format or as a raw ROM.

use std::collections::BTreeMap;

/// Whether a word may stand at a place that is a multiple of 4.
pub fn is_placed(place: u64) -> bool {
    place < RAM_END || (ROM.into()..ROM_END).contains(&place)
}

pub const ROM: u32 = 0x1FC0_0000;
const ROM_END: u64 = 0x1FC4_0000;
/// The end of the RAM of the largest machine.
const RAM_END: u64 = 0x0200_0000;
const RAW_ROM_BYTES: usize = 0x4_0000;
const MAGIC: &[u8] = b"R3KIMG1\n";

/// The kinds of fault of an image.
#[derive(Clone, Copy, Debug, PartialEq)]
pub enum ImageFault {
    Magic,
    ByteTime,
    Unit,
    ClockStart,
    Segment,
    Short,
    Extra,
    RawSize,
    Pages,
}

#[derive(Clone, Debug, PartialEq)]
pub struct Image {
    pub byte_time: u32,
    pub unit: u32,
    /// Registers 0 to 11 of the clock.
    pub clock: [u8; 12],
    /// The set words by their addresses.
    pub words: BTreeMap<u32, u32>,
}

/// Takes numbers off the front of an input.
pub struct Reader<'a>(pub &'a [u8]);

impl<'a> Reader<'a> {
    pub fn bytes(&mut self, count: usize) -> Option<&'a [u8]> {
        let (taken, rest) = self.0.split_at_checked(count)?;
        self.0 = rest;
        Some(taken)
    }

    pub fn byte(&mut self) -> Option<u8> {
        self.bytes(1).map(|it| it[0])
    }

    pub fn number(&mut self) -> Option<u32> {
        self.bytes(4).map(|it| u32::from_le_bytes(it.try_into().unwrap()))
    }
}

impl Image {
    /// The image of a raw ROM: its last word is filled with zero bytes.
    pub fn raw_rom(bytes: &[u8]) -> Result<Image, ImageFault> {
        if bytes.len() > RAW_ROM_BYTES {
            return Err(ImageFault::RawSize);
        }
        let word = |chunk: &[u8]| chunk.iter().rev().fold(0, |word, &byte| word << 8 | u32::from(byte));
        Ok(Image {
            byte_time: 16,
            unit: 1,
            clock: [0, 0, 0, 0, 0, 0, 1, 1, 1, 0, 0x20, 6],
            words: (ROM..).step_by(4).zip(bytes.chunks(4).map(word)).collect(),
        })
    }

    /// Reads the project's format, or answers the first fault in reading order.
    pub fn read(bytes: &[u8]) -> Result<Image, ImageFault> {
        let short = ImageFault::Short;
        let mut reader = Reader(bytes);
        if reader.bytes(8).ok_or(short)? != MAGIC {
            return Err(ImageFault::Magic);
        }
        let constant = |number: u32, fault| if (1..=65_535).contains(&number) { Ok(number) } else { Err(fault) };
        let byte_time = constant(reader.number().ok_or(short)?, ImageFault::ByteTime)?;
        let unit = constant(reader.number().ok_or(short)?, ImageFault::Unit)?;
        let clock: [u8; 12] = reader.bytes(12).ok_or(short)?.try_into().unwrap();
        if clock[10] & 0x80 != 0 || clock[11] & 1 != 0 {
            return Err(ImageFault::ClockStart);
        }
        let segment_count = reader.number().ok_or(short)?;
        let mut words = BTreeMap::new();
        let mut begin = 0;
        for _ in 0..segment_count {
            let address = u64::from(reader.number().ok_or(short)?);
            let count = u64::from(reader.number().ok_or(short)?);
            let end = address + 4 * count;
            let lies = end <= RAM_END || address >= u64::from(ROM) && end <= ROM_END;
            if address % 4 != 0 || count == 0 || !lies || address < begin {
                return Err(ImageFault::Segment);
            }
            for place in 0..count {
                words.insert((address + 4 * place) as u32, reader.number().ok_or(short)?);
            }
            begin = end;
        }
        if reader.0.is_empty() { Ok(Image { byte_time, unit, clock, words }) } else { Err(ImageFault::Extra) }
    }

    /// Writes the project's format: the longest runs of set words, ascending.
    pub fn write(&self) -> Vec<u8> {
        let mut segments: Vec<(u32, Vec<u32>)> = Vec::new();
        for (&address, &word) in &self.words {
            match segments.last_mut() {
                Some((begin, words)) if u64::from(*begin) + 4 * words.len() as u64 == address.into() => {
                    words.push(word)
                }
                _ => segments.push((address, vec![word])),
            }
        }
        let mut bytes = MAGIC.to_vec();
        bytes.extend(self.byte_time.to_le_bytes());
        bytes.extend(self.unit.to_le_bytes());
        bytes.extend(self.clock);
        bytes.extend((segments.len() as u32).to_le_bytes());
        for (begin, words) in segments {
            bytes.extend(begin.to_le_bytes());
            bytes.extend((words.len() as u32).to_le_bytes());
            bytes.extend(words.iter().flat_map(|word| word.to_le_bytes()));
        }
        bytes
    }

    /// All set words lie in the first `pages` pages of RAM, or in ROM.
    pub fn fits(&self, pages: u32) -> bool {
        self.words.range(4096 * pages..ROM).next().is_none()
    }
}
