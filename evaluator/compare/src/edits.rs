//! A file cut at every byte, and with every byte changed in several ways.

use crate::{calls, Tally};

pub fn all(file: &[u8]) -> Tally {
    let mut tally = Tally::default();
    for end in 0..=file.len() {
        tally.count(|| format!("the first {end} bytes"), calls::all(&file[..end]));
        let mut closed = file[..end].to_vec();
        closed.push(b'\n');
        tally.count(|| format!("the first {end} bytes and LF"), calls::all(&closed));
    }
    for at in 0..file.len() {
        let mut edited = file.to_vec();
        edited.remove(at);
        tally.count(|| format!("without byte {at}"), calls::all(&edited));
        for byte in 0..=255u8 {
            if byte != file[at] {
                edited = file.to_vec();
                edited[at] = byte;
                tally.count(|| format!("byte {at} as {byte}"), calls::all(&edited));
            }
        }
    }
    tally
}
