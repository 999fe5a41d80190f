//! Document 01's worked file, and those that it makes of it by another limit and expression.

/// All lines but E, in which the list is here.
const LINES: &str = "S,staff,-\nS,ann,staff\nO,week,-\nO,mon,week\nA,read,-\nT,forms,here\nG,forms,staff,week,read\n\
    R,down,?0,?1,?2\nB,grant,?3,?1,?2\nB,le,S,?0,?3\n";

/// The expression of K1.
pub const K1: &str = "forms*down^[o<=week]";

pub fn worked(limit: usize, expression: &str) -> Vec<u8> {
    format!("{LINES}E,{limit},{expression}\n").into()
}
