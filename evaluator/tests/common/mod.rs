//! What the tests share.
#![allow(dead_code)]

pub mod tree;

use evaluator::policy::{Policy, Sort};
use evaluator::Refusal;

/// Lines parted by blanks, each closed by LF.
pub fn file(lines: &str) -> Vec<u8> {
    lines
        .split_whitespace()
        .map(|line| format!("{line}\n"))
        .collect::<String>()
        .into_bytes()
}

/// One member of each sort.
pub const M: &str = "S,x,- O,y,- A,z,-";
/// And one table.
pub const MB: &str = "S,x,- O,y,- A,z,- T,b,here";
/// The worked file's lines before E.
pub const W: &str = "S,staff,- S,ann,staff O,week,- O,mon,week A,read,- T,forms,here \
    G,forms,staff,week,read R,down,?0,?1,?2 B,grant,?3,?1,?2 B,le,S,?0,?3";
/// The same with `forms` away.
pub const WA: &str = "S,staff,- S,ann,staff O,week,- O,mon,week A,read,- T,forms,away \
    R,down,?0,?1,?2 B,grant,?3,?1,?2 B,le,S,?0,?3";

/// Numbered lines of one pattern, `#` standing for the number.
pub fn many(count: usize, pattern: &str) -> String {
    let lines = (0..count).map(|number| pattern.replace('#', &number.to_string()));
    lines.collect::<Vec<_>>().join(" ")
}

pub fn refusal(file: &[u8]) -> Option<(u32, usize, usize)> {
    let Refusal {
        number,
        line,
        place,
    } = evaluator::check(file).err()?;
    Some((number, line, place))
}

/// x le y by walking along the parents.
pub fn le(policy: &Policy, sort: Sort, x: usize, y: usize) -> bool {
    let parents = &policy.members_of(sort).parents;
    let mut at = Some(x);
    while let Some(member) = at {
        if member == y {
            return true;
        }
        at = parents[member];
    }
    false
}
