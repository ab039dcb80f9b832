//! The two arrays of slots that cacheable loads and stores go to while the cache is isolated.

const SLOTS: usize = 16_384;

#[derive(Clone, Copy, Debug, Default, PartialEq)]
struct Slot {
    word: u32,
    tag: u32,
    valid: bool,
}

#[derive(Clone, Debug, PartialEq)]
pub struct Caches([Vec<Slot>; 2]);

impl Caches {
    pub fn new() -> Caches {
        Caches([vec![Slot::default(); SLOTS], vec![Slot::default(); SLOTS]])
    }

    fn slot(&mut self, second: bool, physical: u32) -> &mut Slot {
        &mut self.0[usize::from(second)][(physical / 4) as usize % SLOTS]
    }

    /// The slot's word, hit or miss, and whether it is a hit.
    pub fn load(&mut self, second: bool, physical: u32) -> (u32, bool) {
        let slot = self.slot(second, physical);
        (slot.word, slot.valid && slot.tag == physical >> 16)
    }

    pub fn store_word(&mut self, second: bool, physical: u32, word: u32) {
        *self.slot(second, physical) = Slot { word, tag: physical >> 16, valid: true };
    }

    /// A store of a part of a word, also of all its bytes by swl or swr.
    pub fn store_part(&mut self, second: bool, physical: u32) {
        self.slot(second, physical).valid = false;
    }
}
