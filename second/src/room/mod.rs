//! Rooms: the tree that lies in any bytes, by docs/ROOM.md alone.

mod found;
mod layout;
mod read;

pub use found::{Found, Step};
pub use layout::{lay_out, lay_out_over, own_data};
pub use read::read;

/// Lengths in bytes.
pub mod length {
    use crate::identity;
    use crate::tree::LONGEST_LIST;

    pub const SLOT: usize = 3 + LONGEST_LIST;
    pub const IDENTITY: usize = 1 + identity::LONGEST;
    pub const OWN_DATA: usize = 19 + 2 * IDENTITY + SLOT;
    /// What comes before the objects.
    pub const HEAD: usize = 21 + SLOT;
    /// Own data and computed list.
    pub const OBJECT: usize = OWN_DATA + SLOT;
    pub const STEP: usize = 2 + OWN_DATA;
}

pub const NO_PARENT: u8 = 0xFF;
pub const STEP_OF_ADD: u8 = 1;
pub const STEP_OF_OTHER: u8 = 2;

#[cfg(test)]
mod tests;
