//! The independent second program: reads and refuses access lists and
//! identities, computes a new object's list, keeps a tree of objects with undo
//! and plays scripts, by document 01; says who may open, walks a list, evaluates
//! conditions and takes them as text, and compares two lists, by document 02. It
//! shares nothing with the verified code.
#![forbid(unsafe_code)]

pub mod access;
pub mod ace;
pub mod answer;
pub mod cases;
pub mod computing;
pub mod condition;
pub mod examples;
pub mod hex;
pub mod identity;
pub mod list;
pub mod random;
pub mod reading;
pub mod records;
pub mod refusal;
pub mod room;
pub mod script;
pub mod sidebyside;
pub mod tally;
pub mod tree;
pub mod wording;
