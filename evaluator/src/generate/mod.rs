//! A seeded generator of policy files, for comparing programs on many files.
//! The same seed, number and kind give the same bytes on every machine.

mod barren;
mod crowded;
mod damaged;
mod expression;
mod large;
pub mod random;
mod ruled;
mod sound;
mod templates;
mod worst;

use random::Random;

#[derive(Clone, Copy, Debug, PartialEq, Eq)]
pub enum Kind {
    /// Accepted files that use every construct.
    Sound,
    /// Sound files with one to three faults; a few stay accepted.
    Damaged,
    /// Files near the limits, some of them just past one.
    Large,
    /// All of the above.
    Mixed,
    /// Files whose members' names share slots of the index.
    Crowded,
    /// Small accepted files with many rules and closures.
    Ruled,
    /// Accepted files whose closures cost much.
    Worst,
    /// Files with a template: three of four accepted, the others at the limits.
    Templates,
}

impl Kind {
    pub const ALL: [Kind; 8] = [
        Kind::Sound,
        Kind::Damaged,
        Kind::Large,
        Kind::Mixed,
        Kind::Crowded,
        Kind::Ruled,
        Kind::Worst,
        Kind::Templates,
    ];

    pub fn word(self) -> &'static str {
        match self {
            Kind::Sound => "sound",
            Kind::Damaged => "damaged",
            Kind::Large => "large",
            Kind::Mixed => "mixed",
            Kind::Crowded => "crowded",
            Kind::Ruled => "ruled",
            Kind::Worst => "worst",
            Kind::Templates => "templates",
        }
    }
}

/// The file with this number among those of a seed and kind.
pub fn policy(seed: u64, number: u64, kind: Kind) -> Vec<u8> {
    let random = &mut Random::new(seed, kind as u64, number);
    match kind {
        Kind::Sound => sound::policy(random).file(),
        Kind::Damaged => damaged::policy(random, number),
        Kind::Large => large::policy(random, number),
        Kind::Crowded => crowded::policy(random, number),
        Kind::Ruled => ruled::policy(random).file(),
        Kind::Worst => worst::policy(random, number),
        Kind::Templates => templates::policy(random, number).file(),
        Kind::Mixed => match number % 8 {
            0..=3 => sound::policy(random).file(),
            4..=6 => damaged::policy(random, number),
            _ => large::policy(random, number / 8),
        },
    }
}

/// Whether a template begins somewhere in a file. No line but E's has these
/// bytes, unless it is damaged.
pub fn has_template(file: &[u8]) -> bool {
    file.windows(3).any(|bytes| bytes == b"(t:")
}
