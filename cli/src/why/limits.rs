//! The least limit that already gives the answer.

use super::case::Case;
use super::Said;
use crate::calls::Answer;
use crate::shell::Stop;

pub fn said(case: &Case) -> Result<Said, Stop> {
    let least = least(case)?;
    let words = match case.answer {
        Answer::Undecided => "At every lower limit it is undecided too.".into(),
        _ => format!("The least limit that gives this answer is {least}; the file has {}.", case.limit),
    };
    Ok(Said { lines: vec![format!("limit,{least}")], words: vec![words] })
}

/// By bisection: a permit or a deny never changes as the limit is raised, so at the limits below the least all is undecided.
/// And what is undecided now is so at every lower limit.
fn least(case: &Case) -> Result<usize, Stop> {
    if case.answer == Answer::Undecided {
        return Ok(0);
    }
    let (mut low, mut high) = (0, case.limit);
    while low < high {
        let middle = (low + high) / 2;
        if case.at_limit(middle)? == case.answer {
            high = middle;
        } else {
            low = middle + 1;
        }
    }
    Ok(high)
}

/// How many questions that takes, at most.
pub fn questions(case: &Case) -> usize {
    (usize::BITS - case.limit.leading_zeros()) as usize
}
