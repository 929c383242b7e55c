//! The entries of documents 01 and 02 once more, with vectors and without proofs: written from these papers and from document 004 (Defrain, Porreca, Timofeeva:
//! Polynomial-delay generation of functional digraphs up to isomorphism), by the algorithm that it publishes. `tests/run` compares its answers with those of the
//! engine, and `bench/run` times the two beside each other.
//!
//! How independent it is: it shares no code and no data structure with the engine, and its author had not read the engine's code. But the author had read the same
//! notes on the definitions and on how unclear places are read as the authors of the definitions, so a misreading that stands in those notes would stand in both, and
//! no comparison would show it. The published examples, lists and totals, which both are held against, guard against that.
//! The step back came later, and its author had read the notes after which the engine's is made; `tools/plain_model.py` looks for it by the step forward alone.
//! Sum and product came later, too; their author had read the definitions, and numbers the points of a result otherwise than these do.
//! So did the turns of a component; they are counted over all rotations, and share nothing with the test for the least one.
//! The number of tables came later; its author knew by which formula the engine counts, and hands out names in its place.
//! The period came later; its author knew that the engine adds up multiples of the cycle lengths, and takes them apart into powers of primes.
//! The greatest period came later; its author knew that the engine has the cycle lengths of each count in a table, and looks for them.
//! The digraph6 lines came last; their author had read the definitions. Here a line is made and read as a list of bits, and its size has the shortest form where
//! the number is written so again.
//!
//! A reply is a length, n or another number that was asked for, minus the number of the cause of a refusal, or one of [`LAST`], [`NONE`] and [`FIRST`]; that of
//! a page and that of the greatest period are two numbers, [`PageReply`] and [`GreatestReply`].

mod component;
mod count;
mod digraph6;
mod entries;
mod generation;
mod landau;
mod map;
mod system;
mod written;

#[cfg(test)]
mod tests;

pub use entries::*;

/// Causes of refusal, numbered as in document 01, and from 10 on as in document 02.
#[derive(Clone, Copy, Debug, PartialEq, Eq)]
pub enum Cause {
    Count = 1,
    Image = 2,
    Truncated = 3,
    NumberForm = 4,
    Sizes = 5,
    NotCanonical = 6,
    Trailing = 7,
    Room = 8,
    Position = 9,
    Wanted = 10,
    TooLarge = 11,
    Uncounted = 12,
    TooManyPoints = 13,
    LineForm = 14,
    OutDegree = 15,
}

/// The most points that a map may have.
pub const MOST_POINTS: usize = 200;

/// Bytes that hold every code.
pub const EVERY_CODE: usize = 1000;

/// Bytes that hold every digraph6 line.
pub const EVERY_LINE: usize = 6672;

/// The most codes that may be wanted of a page.
pub const MOST_WANTED: usize = 1000;

/// The most points of a code whose tables are counted.
pub const MOST_COUNTED: usize = 15;

/// The most points of a map whose period is told, and of which the greatest is.
pub const MOST_PERIOD_POINTS: usize = 120;
