//! The numbers of document 01, each once.

/// "Pages are 128 bytes, 16 to 896 of them."
pub const PAGE_BYTES: usize = 128;
pub const FEWEST_PAGES: usize = 16;
pub const MOST_PAGES: usize = 896;

/// "Log slots are 144 bytes, 64 to 16,384."
pub const SLOT_BYTES: usize = 144;
pub const FEWEST_SLOTS: usize = 64;
pub const MOST_SLOTS: usize = 16_384;

/// A page and a record have room for 14 entries of 64 bits.
pub const MOST_ENTRIES: usize = 14;
pub const ENTRY_BYTES: usize = 8;

/// "Pages hold 4 to 14 entries", the root aside. A page of 4 is about to underflow.
pub const FEWEST_ENTRIES: usize = 4;

/// "A split of 14 leaves 7 and 7."
pub const SPLIT_KEEPS: usize = 7;

/// A level has four bits.
pub const HIGHEST_LEVEL: usize = 15;

/// The highest key, and the high key of the last page of every level.
pub const TOP: u32 = u32::MAX;

/// "Page 0 is the map. Page 1 is always the root."
pub const MAP: usize = 0;
pub const ROOT: usize = 1;

/// A child has ten bits; the 22 above it are spare.
pub const CHILD_LIMIT: u32 = 1 << 10;

/// "The desk is a value with eight batch rows."
pub const MOST_BATCHES: usize = 8;
pub const DESK_NUMBERS: usize = 34;
pub const DESK_BYTES: usize = 136;

/// "One update writes at most 32 records and takes at most 7 pages."
pub const UPDATE_RECORDS: usize = 32;
pub const UPDATE_PAGES: usize = 7;

/// An open batch still needs its 7 and its 8, or its 6.
pub const BATCH_RECORDS: usize = 2;
