//! Generated files for the proved program that runs Compose, and what it has
//! to say of each.

use crate::compose;
use crate::generate::{policy, Kind};

/// The result that the program lends, and each byte of it beforehand.
const RESULT: usize = 4096;
const LENT: u8 = 7;

/// Files near the limits, and sound ones that use every construct.
pub fn files() -> Vec<(String, Vec<u8>)> {
    let mut files = Vec::new();
    for (kind, count) in [(Kind::Large, 24), (Kind::Sound, 60)] {
        for number in 0..count {
            let name = format!("{}_{number:02}.pol", kind.word());
            files.push((name, policy(1, number, kind)));
        }
    }
    files
}

/// `number,line,place,N,permits,undecided,rounds,digest`.
pub fn fields(file: &[u8]) -> String {
    let mut result = [LENT; RESULT];
    match compose(file) {
        Ok(composed) => {
            let n = composed.answers.len();
            result[..n].copy_from_slice(&composed.answers);
            let (permits, undecided) = (composed.permits, composed.undecided);
            let (rounds, digest) = (composed.rounds, digest(&result));
            format!("0,0,0,{n},{permits},{undecided},{rounds},{digest}")
        }
        Err(refusal) => {
            let (number, line, place) = (refusal.number, refusal.line, refusal.place);
            format!("{number},{line},{place},0,0,0,0,{}", digest(&result))
        }
    }
}

/// The bytes as digits to the base 31, modulo the largest prime below 2 to
/// the 32.
fn digest(bytes: &[u8]) -> u64 {
    let mix = |sum: u64, byte: &u8| (sum * 31 + u64::from(*byte)) % 4_294_967_291;
    bytes.iter().fold(0, mix)
}
