//! A log record: kind 4, count 4, level 4, spare 20; own log number 32; batch 32; previous 32; pages A, B, C of 10
//! each, spare 2; key 32; second 32; right 10, spare 22; 14 entries of 64 bits.

use super::entry::{read_entries, write_entries, Entry};
use super::words::{field, in_field, set_word, word};
use crate::sizes::{MOST_ENTRIES, SLOT_BYTES};

/// Where the entries begin.
const BODY: usize = 32;

#[derive(Clone, Copy, Debug, PartialEq, Eq, PartialOrd, Ord)]
#[repr(u8)]
pub enum Kind {
    Begin = 1,
    Insert = 2,
    Delete = 3,
    UndoInsert = 4,
    UndoDelete = 5,
    Commit = 6,
    AbortMark = 7,
    End = 8,
    Split = 9,
    Link = 10,
    Unlink = 11,
    Merge = 12,
    Redistribute = 13,
    Raise = 14,
    Lower = 15,
}

impl Kind {
    pub const ALL: [Kind; 15] = [
        Kind::Begin,
        Kind::Insert,
        Kind::Delete,
        Kind::UndoInsert,
        Kind::UndoDelete,
        Kind::Commit,
        Kind::AbortMark,
        Kind::End,
        Kind::Split,
        Kind::Link,
        Kind::Unlink,
        Kind::Merge,
        Kind::Redistribute,
        Kind::Raise,
        Kind::Lower,
    ];

    /// As the table of records calls it.
    pub fn name(self) -> &'static str {
        match self {
            Kind::Begin => "begin",
            Kind::Insert => "insert",
            Kind::Delete => "delete",
            Kind::UndoInsert => "undo-insert",
            Kind::UndoDelete => "undo-delete",
            Kind::Commit => "commit",
            Kind::AbortMark => "abort-mark",
            Kind::End => "end",
            Kind::Split => "split",
            Kind::Link => "link",
            Kind::Unlink => "unlink",
            Kind::Merge => "merge",
            Kind::Redistribute => "redistribute",
            Kind::Raise => "raise",
            Kind::Lower => "lower",
        }
    }

    fn of_number(number: usize) -> Option<Kind> {
        Kind::ALL.into_iter().find(|kind| *kind as usize == number)
    }
}

#[derive(Clone, Debug, PartialEq, Eq)]
pub struct Record {
    pub kind: Kind,
    pub level: usize,
    pub own: u32,
    pub batch: u32,
    pub previous: u32,
    pub a: usize,
    pub b: usize,
    pub c: usize,
    pub key: u32,
    pub second: u32,
    pub right: usize,
    pub entries: Vec<Entry>,
}

impl Record {
    /// A record of this kind with every other field zero. Its own number is given to it when it is written.
    pub fn new(kind: Kind) -> Record {
        Record {
            kind,
            level: 0,
            own: 0,
            batch: 0,
            previous: 0,
            a: 0,
            b: 0,
            c: 0,
            key: 0,
            second: 0,
            right: 0,
            entries: Vec::new(),
        }
    }

    /// None if the kind is 0, a spare bit or unused entry is not zero, or the count is above 14.
    pub fn read(bytes: &[u8]) -> Option<Record> {
        Record::shown(bytes).filter(|record| record.bytes() == bytes)
    }

    /// The same, or the byte and the rule that it breaks.
    pub fn judge(bytes: &[u8]) -> Result<Record, (usize, String)> {
        let Some(record) = Record::shown(bytes) else {
            return Err((0, "its kind is 0, and the slot is not empty".to_string()));
        };
        match record.bytes().iter().zip(bytes).position(|(shown, byte)| shown != byte) {
            Some(_) if field(word(bytes, 0), 4, 4) > MOST_ENTRIES => Err((0, "its count is 15".to_string())),
            Some(byte) => Err((byte, "a spare bit or an unused entry is not zero".to_string())),
            None => Ok(record),
        }
    }

    /// The fields that the bytes show. None if the kind is 0.
    fn shown(bytes: &[u8]) -> Option<Record> {
        let head = word(bytes, 0);
        let pages = word(bytes, 4);
        Some(Record {
            kind: Kind::of_number(field(head, 0, 4))?,
            level: field(head, 8, 4),
            own: word(bytes, 1),
            batch: word(bytes, 2),
            previous: word(bytes, 3),
            a: field(pages, 0, 10),
            b: field(pages, 10, 10),
            c: field(pages, 20, 10),
            key: word(bytes, 5),
            second: word(bytes, 6),
            right: field(word(bytes, 7), 0, 10),
            entries: read_entries(&bytes[BODY..], field(head, 4, 4)),
        })
    }

    pub fn bytes(&self) -> [u8; SLOT_BYTES] {
        let mut bytes = [0; SLOT_BYTES];
        let head = in_field(self.kind as usize, 0, 4) | in_field(self.entries.len(), 4, 4) | in_field(self.level, 8, 4);
        let pages = in_field(self.a, 0, 10) | in_field(self.b, 10, 10) | in_field(self.c, 20, 10);
        set_word(&mut bytes, 0, head);
        set_word(&mut bytes, 1, self.own);
        set_word(&mut bytes, 2, self.batch);
        set_word(&mut bytes, 3, self.previous);
        set_word(&mut bytes, 4, pages);
        set_word(&mut bytes, 5, self.key);
        set_word(&mut bytes, 6, self.second);
        set_word(&mut bytes, 7, in_field(self.right, 0, 10));
        write_entries(&self.entries, &mut bytes[BODY..]);
        bytes
    }
}
