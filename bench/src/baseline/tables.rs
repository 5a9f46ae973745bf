//! The lent tables: their tests, and the look-ups by tag and by key.
use super::key::Key;

/// A number of 4 bytes, most significant first, and a key.
type Record = [u8; 20];

/// The length of a pack record that marks an element that measures itself.
pub const MEASURED: u32 = 0xFFFF_FFFF;

/// The most records of a table.
const MOST: usize = 256;
/// Four times as many slots as records at the most, a power of two.
const SLOTS: usize = 1_024;

fn number_of(record: &Record) -> u32 {
    let [a, b, c, d, ..] = *record;
    u32::from_be_bytes([a, b, c, d])
}

fn key_of(record: &Record) -> Key {
    let [_, _, _, _, key @ ..] = record;
    Key::of(key)
}

/// Whole records, at most 256.
fn records(bytes: &[u8]) -> Option<&[Record]> {
    let (records, rest) = bytes.as_chunks();
    (rest.is_empty() && records.len() <= MOST).then_some(records)
}

/// Record numbers by the hash of their keys. 0 is an empty slot, n + 1 stands for record n.
pub struct Index {
    slots: [u16; SLOTS],
}

impl Index {
    /// Puts all records into an empty index, if no key stands twice.
    fn fill(&mut self, records: &[Record]) -> Option<()> {
        for (n, record) in records.iter().enumerate() {
            let (slot, there) = self.slot(records, key_of(record));
            if there.is_some() {
                return None;
            }
            self.slots[slot] = n as u16 + 1;
        }
        Some(())
    }

    /// The slot of a key, and the record number if one is there.
    #[inline(always)]
    fn slot(&self, records: &[Record], key: Key) -> (usize, Option<usize>) {
        let mixed = (key.low() ^ key.high().wrapping_mul(0xFF51_AFD7_ED55_8CCD)).wrapping_mul(0x9E37_79B9_7F4A_7C15);
        let mut slot = (mixed >> 54) as usize % SLOTS;
        while self.slots[slot] != 0 {
            let n = usize::from(self.slots[slot] - 1);
            if key_of(&records[n]) == key {
                return (slot, Some(n));
            }
            slot = (slot + 1) % SLOTS;
        }
        (slot, None)
    }
}

/// A tag table, and the index of its keys once it is needed. The index lies with the caller, so that it is not moved.
pub struct Tags<'a> {
    records: &'a [Record],
    index: &'a mut Option<Index>,
}

impl<'a> Tags<'a> {
    /// Tags rise, every key is one, and none stands twice. Where the keys rise too, none can.
    #[inline(always)]
    pub fn of(bytes: &'a [u8], index: &'a mut Option<Index>) -> Option<Tags<'a>> {
        let records = records(bytes)?;
        let (mut least, mut before, mut rising) = (0, Key(0), true);
        for record in records {
            let (tag, key) = (u64::from(number_of(record)), key_of(record));
            if tag < least || !key.is_key() {
                return None;
            }
            rising &= before < key;
            (least, before) = (tag + 1, key);
        }
        let tags = Tags { records, index };
        if !rising {
            tags.index.insert(Index { slots: [0; SLOTS] }).fill(records)?;
        }
        Some(tags)
    }

    /// The key of record n.
    #[inline(always)]
    pub fn key(&self, n: usize) -> Key {
        key_of(&self.records[n])
    }

    /// The tag of record n.
    #[inline(always)]
    pub fn tag(&self, n: usize) -> u32 {
        number_of(&self.records[n])
    }

    /// The record with a tag; the guess is looked at first.
    #[inline(always)]
    pub fn with_tag(&self, tag: u64, guess: usize) -> Option<usize> {
        match self.records.get(guess) {
            Some(record) if u64::from(number_of(record)) == tag => Some(guess),
            _ => self.records.binary_search_by_key(&tag, |record| u64::from(number_of(record))).ok(),
        }
    }

    /// The record with a key; the guess is looked at first.
    #[inline(always)]
    pub fn with_key(&mut self, key: Key, guess: usize) -> Option<usize> {
        match self.records.get(guess) {
            Some(record) if key_of(record) == key => Some(guess),
            _ => self.indexed(key),
        }
    }

    fn indexed(&mut self, key: Key) -> Option<usize> {
        if self.index.is_none() {
            self.index.insert(Index { slots: [0; SLOTS] }).fill(self.records)?;
        }
        self.index.as_ref()?.slot(self.records, key).1
    }
}

/// A pack table.
#[derive(Clone, Copy)]
pub struct Packs<'a> {
    records: &'a [Record],
}

impl<'a> Packs<'a> {
    pub fn of(bytes: &'a [u8]) -> Option<Packs<'a>> {
        let records = records(bytes)?;
        records.iter().all(|record| key_of(record).is_key()).then_some(Packs { records })
    }

    pub fn count(self) -> usize {
        self.records.len()
    }

    /// The length and the key of record n.
    #[inline(always)]
    pub fn record(self, n: usize) -> Option<(u32, Key)> {
        self.records.get(n).map(|record| (number_of(record), key_of(record)))
    }
}
