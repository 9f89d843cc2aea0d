//! The listed reasons for which a call is refused, with the numbers of 01 and 02.

#[derive(Clone, Copy, Debug, PartialEq, Eq, PartialOrd, Ord)]
#[repr(u8)]
pub enum Refusal {
    /// Area lengths wrong or unequal.
    Lengths = 1,
    /// Page number not below the page count.
    PageNumber = 2,
    /// Restart: a page breaks the layout.
    Layout = 3,
    /// Restart: the log breaks its rows, numbers or batch chain, or a page is ahead of it.
    Log = 4,
    /// Restart: a change to be redone meets a page that it does not start from.
    Redo = 5,
    /// Restart: the redone pages break the tree rules or the pending rule.
    Tree = 6,
    /// The key of an insert, or one of a loading, is 0: the barcode was not read.
    Unread = 7,
    /// The columns of a loading differ in length.
    ColumnsDiffer = 8,
    /// The keys of a loading do not rise strictly.
    NotRising = 9,
    /// The working areas or the desk are not sound.
    Unsound = 11,
    /// No such open batch.
    NoBatch = 12,
    /// Eight batches are open.
    EightOpen = 13,
    /// The key is held by another batch.
    Held = 14,
    /// The key is present.
    Present = 15,
    /// The key is absent, or there is none above, or none below.
    Absent = 16,
    /// Log slots short.
    SlotsShort = 17,
    /// Pages short.
    PagesShort = 18,
    /// An abort or a return to a mark ran out of slots or pages.
    UndoShort = 19,
    /// The mark is not the number of a record of that batch.
    NoMark = 20,
}

impl Refusal {
    pub fn number(self) -> u8 {
        self as u8
    }
}
