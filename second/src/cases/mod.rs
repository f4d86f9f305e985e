//! Making the stored cases, one module for each layer.

pub mod access;
pub mod build;
pub mod condition;
pub mod inherit;
pub mod list;
pub mod script;
pub mod sidebyside;
pub mod spoil;
pub mod tree;
pub mod wording;

use std::collections::HashSet;

use crate::examples::Example;
use crate::records::Case;

/// Every stored layer's cases, one layer after the other; new layers come
/// last, so that what is before them in the file stays. Those of two lists
/// side by side aren't stored: the gate runs them as they are made.
pub fn all(examples: &[Example]) -> Vec<Case> {
    [
        list::all(examples),
        inherit::all(),
        tree::all(),
        script::all(),
        access::all(),
        condition::all(),
        wording::all(),
    ]
    .concat()
}

/// The first cases as they are, then those of the others that are new.
fn joined(first: Vec<Case>, others: Vec<Case>) -> Vec<Case> {
    let mut all = first;
    let mut seen: HashSet<Case> = all.iter().cloned().collect();
    all.extend(others.into_iter().filter(|case| seen.insert(case.clone())));
    all
}
