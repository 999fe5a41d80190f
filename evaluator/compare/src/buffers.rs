//! A lent buffer with guard bytes before and behind it.

const GUARD: usize = 64;
const FENCE: u8 = 0xA5;

pub struct Lent {
    bytes: Vec<u8>,
    len: usize,
    before: Vec<u8>,
}

impl Lent {
    /// `len` bytes of a pattern that depends on `salt`, between guards.
    pub fn new(len: usize, salt: u8) -> Lent {
        let mut bytes = vec![FENCE; GUARD + len + GUARD];
        for (i, byte) in bytes[GUARD..GUARD + len].iter_mut().enumerate() {
            *byte = (i as u8).wrapping_mul(31).wrapping_add(salt) | 1;
        }
        let before = bytes[GUARD..GUARD + len].to_vec();
        Lent { bytes, len, before }
    }

    pub fn lend(&mut self) -> &mut [u8] {
        &mut self.bytes[GUARD..GUARD + self.len]
    }

    pub fn now(&self) -> &[u8] {
        &self.bytes[GUARD..GUARD + self.len]
    }

    pub fn before(&self) -> &[u8] {
        &self.before
    }

    pub fn guards_stand(&self) -> bool {
        let (front, rest) = self.bytes.split_at(GUARD);
        front.iter().chain(&rest[self.len..]).all(|b| *b == FENCE)
    }
}

/// Working memory afterwards: zero in its first 65,536 bytes and unchanged beyond; unchanged after number 1.
pub fn memory_difference(lent: &Lent, number: usize) -> Option<String> {
    if !lent.guards_stand() {
        return Some("a guard byte of the working memory changed".to_string());
    }
    let cleared = if number == 1 { 0 } else { snowdell::MEMORY };
    if lent.now()[..cleared].iter().any(|b| *b != 0) {
        return Some("working memory is not cleared".to_string());
    }
    (lent.now()[cleared..] != lent.before()[cleared..]).then(|| "working memory changed".to_string())
}
