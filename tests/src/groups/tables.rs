//! Lent tables (01, "Lent tables").
use super::refusal::{Reason, Refusal};
use super::{Key, MOST_ITEMS};
use crate::fault::{planted, Fault};
use crate::keys;
use crate::numbers::{self, Form, Read};

/// The bytes of a record: a number of 4, a key of 16.
const RECORD: usize = 20;

/// A tag or a length, and a key.
#[derive(Clone, Copy, PartialEq, Eq, Debug)]
pub struct Record {
    pub number: u64,
    pub key: Key,
}

pub struct Tables {
    pub tags: Vec<Record>,
    pub packs: Vec<Record>,
}

impl Tables {
    /// Both tables, or refusal 1 or 2.
    pub fn read(tags: &[u8], packs: &[u8]) -> Result<Tables, Refusal> {
        if planted(Fault::PackTableFirst) && records(packs).is_none() {
            return Err(Refusal::whole(Reason::PackTable));
        }
        let tags = records(tags).filter(|tags| rising(tags) && no_key_twice(tags));
        let tags = tags.ok_or(Refusal::whole(Reason::TagTable))?;
        let packs = records(packs).filter(|packs| !planted(Fault::PackKeysMayNotRepeat) || no_key_twice(packs));
        let packs = packs.filter(|packs| !packs.iter().any(mark_refused));
        let packs = packs.ok_or(Refusal::whole(Reason::PackTable))?;
        Ok(Tables { tags, packs })
    }

    /// The key of a tag.
    pub fn key_of(&self, tag: u64) -> Option<Key> {
        self.tags.iter().find(|record| record.number == tag).map(|record| record.key)
    }

    /// The tag of a key.
    pub fn tag_of(&self, key: &Key) -> Option<u64> {
        self.tags.iter().find(|record| keys::same(&record.key, key)).map(|record| record.number)
    }
}

/// The records, if they are whole, at most 256, and each has a key.
fn records(bytes: &[u8]) -> Option<Vec<Record>> {
    let whole = bytes.len().is_multiple_of(RECORD) || planted(Fault::TableMayEndInsideRecord);
    let most = MOST_ITEMS + usize::from(planted(Fault::TableOf257Records));
    let records: Vec<Record> = bytes.chunks_exact(RECORD).map(record).collect();
    let sound = records.iter().all(|record| keys::is_key(&record.key) || planted(Fault::TableKeysNotTested));
    (whole && records.len() <= most && sound).then_some(records)
}

fn record(bytes: &[u8]) -> Record {
    let Read::Value { value, width, .. } = numbers::read(Form::Four, bytes, 0) else {
        panic!("a record of fewer than 4 bytes");
    };
    Record { number: value, key: bytes[width..].try_into().unwrap() }
}

/// A pack table's length may be any; FF FF FF FF is refused while a fault is planted.
fn mark_refused(record: &Record) -> bool {
    record.number == 0xFFFF_FFFF && planted(Fault::MarkRefusedAsTable)
}

/// Every tag is larger than the one before it.
fn rising(tags: &[Record]) -> bool {
    let rises = |a: u64, b: u64| a < b || a == b && planted(Fault::TagsMayRepeat);
    tags.windows(2).all(|pair| rises(pair[0].number, pair[1].number)) || planted(Fault::TagsInAnyOrder)
}

fn no_key_twice(records: &[Record]) -> bool {
    let repeats = |i: usize| records[..i].iter().any(|earlier| keys::same(&earlier.key, &records[i].key));
    !(0..records.len()).any(repeats) || planted(Fault::TagTableKeysMayRepeat)
}
