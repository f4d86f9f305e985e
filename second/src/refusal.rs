//! Why something is refused, with document 01's number for it.

/// One name for each test, finer than document 01's numbers.
#[derive(Clone, Copy, Debug, PartialEq, Eq, PartialOrd, Ord)]
pub enum Fault {
    HeaderCut,
    Revision,
    HeaderNotZero,
    ListSize,
    /// (a) four bytes are there and the size is at most what remains
    EntryOutside,
    /// (b)
    EntryType,
    /// (c)
    EntryFlags,
    /// (d) the size holds the mask and, for object types, the word
    NoMaskOrWord,
    /// (e)
    ObjectWord,
    /// (f) GUIDs and eight SID bytes fit in the size
    NoGuidOrSidHead,
    /// (g)
    SidHead,
    /// Between (g) and (h), where the SID ends within the size
    Expression,
    /// (h)
    InexactSize,
    RowTooShort,
}

impl Fault {
    pub const ALL: [Fault; 14] = [
        Fault::HeaderCut,
        Fault::Revision,
        Fault::HeaderNotZero,
        Fault::ListSize,
        Fault::EntryOutside,
        Fault::EntryType,
        Fault::EntryFlags,
        Fault::NoMaskOrWord,
        Fault::ObjectWord,
        Fault::NoGuidOrSidHead,
        Fault::SidHead,
        Fault::Expression,
        Fault::InexactSize,
        Fault::RowTooShort,
    ];

    pub fn number(self) -> u32 {
        match self {
            Fault::HeaderCut | Fault::Revision | Fault::HeaderNotZero | Fault::ListSize => 1,
            Fault::EntryOutside
            | Fault::NoMaskOrWord
            | Fault::NoGuidOrSidHead
            | Fault::InexactSize => 2,
            Fault::EntryType => 3,
            Fault::EntryFlags | Fault::ObjectWord => 4,
            Fault::SidHead => 5,
            Fault::RowTooShort => 8,
            Fault::Expression => 15,
        }
    }

    /// Whether it is in the list itself: 1 to 5 and 15.
    pub fn is_of_list(self) -> bool {
        self != Fault::RowTooShort
    }

    pub fn name(self) -> &'static str {
        match self {
            Fault::HeaderCut => "header: under 8 bytes",
            Fault::Revision => "header: revision",
            Fault::HeaderNotZero => "header: zero bytes",
            Fault::ListSize => "header: size",
            Fault::EntryOutside => "(a) entry outside",
            Fault::EntryType => "(b) type",
            Fault::EntryFlags => "(c) flags",
            Fault::NoMaskOrWord => "(d) no mask or word",
            Fault::ObjectWord => "(e) object word",
            Fault::NoGuidOrSidHead => "(f) no GUIDs or SID head",
            Fault::SidHead => "(g) SID",
            Fault::Expression => "expression",
            Fault::InexactSize => "(h) inexact size",
            Fault::RowTooShort => "row too short",
        }
    }
}

/// A fault and where it stands: 0 for a header, else an entry's offset.
#[derive(Clone, Copy, Debug, PartialEq, Eq)]
pub struct Refusal {
    pub fault: Fault,
    pub offset: usize,
}
