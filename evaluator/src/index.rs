//! Document 02's index of names: 256 slots a sort, which the members' names
//! fill in file order.

const FNV_OFFSET: u32 = 2_166_136_261;
const FNV_PRIME: u32 = 16_777_619;

pub const SLOTS: usize = 256;

/// FNV-1a in 32 bits, each product keeping its low 32 bits.
pub fn fnv1a(text: &[u8]) -> u32 {
    let step = |hash: u32, &byte: &u8| (hash ^ u32::from(byte)).wrapping_mul(FNV_PRIME);
    text.iter().fold(FNV_OFFSET, step)
}

/// A name's own slot: the low eight bits.
pub fn slot(name: &[u8]) -> usize {
    fnv1a(name) as usize % SLOTS
}

/// What a search finds, and how many slots it reads, the one that ends it
/// included.
#[derive(Clone, Copy, Debug, PartialEq, Eq)]
pub struct Lookup {
    pub member: Option<usize>,
    pub read: usize,
}

impl std::fmt::Display for Lookup {
    fn fmt(&self, f: &mut std::fmt::Formatter) -> std::fmt::Result {
        match self.member {
            Some(member) => write!(f, "found,{member},{}", self.read),
            None => write!(f, "none,{}", self.read),
        }
    }
}

/// The index of one sort's names.
pub struct Index<'a> {
    names: &'a [Vec<u8>],
    slots: [Option<usize>; SLOTS],
}

impl Index<'_> {
    /// A sort has at most 64 members, so a slot is always free.
    pub fn new(names: &[Vec<u8>]) -> Index<'_> {
        let mut slots = [None; SLOTS];
        for (member, name) in names.iter().enumerate() {
            let mut at = slot(name);
            while slots[at].is_some() {
                at = (at + 1) % SLOTS;
            }
            slots[at] = Some(member);
        }
        Index { names, slots }
    }

    /// From the name's own slot on, round past the end, up to its member or to
    /// a free slot.
    pub fn search(&self, name: &[u8]) -> Lookup {
        let mut at = slot(name);
        let mut read = 1;
        while let Some(member) = self.slots[at] {
            if self.names[member] == name {
                let member = Some(member);
                return Lookup { member, read };
            }
            at = (at + 1) % SLOTS;
            read += 1;
        }
        let member = None;
        Lookup { member, read }
    }
}
