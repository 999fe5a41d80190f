//! The listing program's output for an accepted policy.

use crate::compose::{Composed, PERMIT, UNDECIDED};
use crate::policy::{Policy, Sort};

pub fn listing(policy: &Policy, composed: &Composed) -> String {
    let mut text = format!(
        "grants,{},{},{},{}\n",
        policy.accesses(),
        composed.permits,
        composed.undecided,
        composed.rounds
    );
    for (number, &answer) in composed.answers.iter().enumerate() {
        let word = match answer {
            PERMIT => "permit",
            UNDECIDED => "undecided",
            _ => continue,
        };
        text.push_str(word);
        let access = policy.access(number);
        for sort in Sort::ALL {
            let name = &policy.members_of(sort).names[access[sort.index()]];
            text.push(',');
            text.push_str(&String::from_utf8_lossy(name));
        }
        text.push('\n');
    }
    text
}
