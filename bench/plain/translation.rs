//! The 64 translation entries.

pub const VALID: u32 = 1 << 9;
pub const DIRTY: u32 = 1 << 10;
pub const UNCACHED: u32 = 1 << 11;
const GLOBAL: u32 = 1 << 8;
const PAGE: u32 = 0xFFFF_F000;
const PROCESS: u32 = 0x0000_0FC0;

/// EntryHi and EntryLo.
#[derive(Clone, Copy, Debug, Default, PartialEq)]
pub struct Entry {
    pub hi: u32,
    pub lo: u32,
}

/// The lowest entry that matches, and whether more than one does.
#[derive(Clone, Copy, Debug, PartialEq)]
pub struct Found {
    pub index: usize,
    pub entry: Entry,
    pub several: bool,
}

#[derive(Clone, Debug, PartialEq)]
pub struct Entries(pub [Entry; 64]);

impl Entries {
    pub fn new() -> Entries {
        Entries([Entry::default(); 64])
    }

    /// Looks up the page and the process that an EntryHi names.
    pub fn lookup(&self, hi: u32) -> Option<Found> {
        let matches = |entry: &Entry| {
            let apart = entry.hi ^ hi;
            apart & PAGE == 0 && (entry.lo & GLOBAL != 0 || apart & PROCESS == 0)
        };
        let mut found = self.0.iter().enumerate().filter(|(_, entry)| matches(entry));
        let (index, &entry) = found.next()?;
        Some(Found { index, entry, several: found.next().is_some() })
    }

    /// Looks up an address under the process of an EntryHi.
    pub fn lookup_address(&self, address: u32, hi: u32) -> Option<Found> {
        self.lookup(address & PAGE | hi & PROCESS)
    }
}
