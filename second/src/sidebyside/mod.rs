//! Two lists laid side by side, document 02's twelfth ticket: which entries of
//! the first are removed, and which of the second added.
//!
//! All others are kept: pairs of an entry of the first and one of the second
//! with the same bytes, whose numbers rise in both. As many are kept as can
//! be. Of the ways to keep so many it is the least, compared pair by pair, in
//! each the first list's number before the second's. Where both lists have few
//! entries, every choice of them is tried; else a table tells.

mod call;
mod choices;
mod kept;
mod refused;
mod table;
mod ties;

pub use call::{Compared, compare, try_compare};
pub use kept::{FEW, Pair, kept};
pub use refused::{Refused, Which};
pub use ties::{Tie, ties};

/// The first list and the second, good or not.
pub type Lists = (Vec<u8>, Vec<u8>);

/// Of either list.
pub const MOST_ENTRIES: usize = 128;

/// Of the answer's bits.
pub const HEADERS_DIFFER: u32 = 1;
pub const SPARE_BYTES_DIFFER: u32 = 2;

#[cfg(test)]
mod tests;
