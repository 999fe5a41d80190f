//! The separate evaluator: document 01's three calls and its listing program,
//! and document 02's templates and index of names, written straight from these
//! documents. It lends no buffers and has no working memory, so number 1 never
//! comes from it.

pub mod closure;
pub mod compose;
pub mod corpus;
pub mod edges;
pub mod expression;
pub mod generate;
pub mod index;
pub mod larger;
pub mod listing;
pub mod lookups;
pub mod policy;
pub mod reader;
pub mod refusal;

pub use compose::{Composed, Decision};
pub use index::Lookup;
pub use refusal::Refusal;

/// Check: the three sort counts of an accepted file.
pub fn check(file: &[u8]) -> Result<[usize; 3], Refusal> {
    Ok(reader::read(file)?.counts())
}

/// Compose: the answer of every access, in access order, with the counts.
pub fn compose(file: &[u8]) -> Result<Composed, Refusal> {
    Ok(compose::compose(&reader::read(file)?))
}

/// Decide: the answer of one access, and the rounds of the whole composition.
pub fn decide(
    file: &[u8],
    subject: &[u8],
    object: &[u8],
    action: &[u8],
) -> Result<Decision, Refusal> {
    compose::decide(&reader::read(file)?, [subject, object, action])
}

/// A name looked up in the index of a sort's members.
pub fn lookup(file: &[u8], sort: policy::Sort, name: &[u8]) -> Result<Lookup, Refusal> {
    let policy = reader::read(file)?;
    Ok(index::Index::new(&policy.members_of(sort).names).search(name))
}

/// What the listing program prints for a file.
pub fn list(file: &[u8]) -> String {
    match reader::read(file) {
        Ok(policy) => listing::listing(&policy, &compose::compose(&policy)),
        Err(refusal) => format!("{refusal}\n"),
    }
}
