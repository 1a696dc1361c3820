//! An independent model of the planner, written from the documents in `docs/`.
//!
//! Nothing here is proved, and nothing is taken over from the proved planner. Where a cycle is small
//! the model goes from instant to instant; where it is large it writes down every span and compares
//! them two by two. Where both ways are open it goes both and insists that they agree.

pub mod bits;
pub mod calls;
pub mod compare;
pub mod fault;
pub mod flow;
pub mod gates;
pub mod generate;
pub mod instance;
pub mod instants;
#[cfg(feature = "library")]
pub mod library;
pub mod line;
pub mod pieces;
pub mod plan;
pub mod planner;
pub mod random;
pub mod records;
pub mod run;
pub mod stack;
pub mod tally;
pub mod witness;
pub mod words;

#[cfg(test)]
mod worked;
