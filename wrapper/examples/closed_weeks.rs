//! One access and all of them, by the crate's types.
use snowdell::{Answers, Memory, Policy};

fn main() -> Result<(), Box<dyn std::error::Error>> {
    let file = std::fs::read("examples/closed_weeks.pol")?;
    let policy = Policy::new(&file)?;
    let (mut answers, mut memory) = (Answers::new(), Memory::new());
    println!("{}", policy.decide("nurse", "wk3", "write", &mut memory)?.answer);
    let all = policy.compose(&mut answers, &mut memory);
    println!("{} of {} permitted", all.permits, all.accesses().len());
    Ok(())
}
