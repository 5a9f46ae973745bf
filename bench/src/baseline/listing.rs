//! The listing: every refusal in its order, then the keys and the numbers.
use super::kind::Kind;
use super::read::{Item, Reader, MOST};
use super::refusal::{Reason, Refusal};
use super::regroup::{items_begin, source, FEW};
use super::tables::{Packs, Tags};

/// The number that a host receives.
#[inline(never)]
pub fn answer(tags: &[u8], packs: &[u8], group: &[u8], keys: &mut [u8], numbers: &mut [u32]) -> u64 {
    match listing::<false>(tags, packs, group, keys, numbers) {
        Ok(listed) => listed.count as u64,
        Err(refusal) => refusal.answer(),
    }
}

/// The same, and how many items had a BER length that was longer than needed; a refusal leaves that number.
#[inline(never)]
pub fn answer_longer(
    tags: &[u8],
    packs: &[u8],
    group: &[u8],
    keys: &mut [u8],
    numbers: &mut [u32],
    longer: &mut u64,
) -> u64 {
    match listing::<true>(tags, packs, group, keys, numbers) {
        Ok(listed) => listed.told(longer),
        Err(refusal) => refusal.answer(),
    }
}

/// How many items were listed, and how many of them had a longer length than needed.
pub struct Listed {
    pub count: usize,
    pub longer: usize,
}

impl Listed {
    /// Tells both numbers.
    pub fn told(self, longer: &mut u64) -> u64 {
        *longer = self.longer as u64;
        self.count as u64
    }
}

/// Lists the items of one group.
fn listing<const LONGER: bool>(
    tags: &[u8],
    packs: &[u8],
    group: &[u8],
    keys: &mut [u8],
    numbers: &mut [u32],
) -> Result<Listed, Refusal> {
    let mut index = None;
    let tags = Tags::of(tags, &mut index).ok_or(Reason::TagTable.whole())?;
    let packs = Packs::of(packs).ok_or(Reason::PackTable.whole())?;
    let (_, kind) = source(group)?;
    let at = items_begin(group).ok_or(Reason::OuterLength.whole())?;
    let mut reader = Reader::<LONGER>::of(group, at);
    let mut few = [Item::NONE; FEW];
    let ended = reader.fill(kind, &tags, packs, &mut few)?;
    if ended {
        return list(&reader, &few, keys, numbers);
    }
    many(reader, kind, &few, &tags, packs, keys, numbers)
}

/// The same for a group with more items than the short list holds.
#[inline(never)]
fn many<const LONGER: bool>(
    mut reader: Reader<LONGER>,
    kind: Kind,
    few: &[Item; FEW],
    tags: &Tags,
    packs: Packs,
    keys: &mut [u8],
    numbers: &mut [u32],
) -> Result<Listed, Refusal> {
    let mut items = [Item::NONE; MOST];
    items[..FEW].copy_from_slice(few);
    reader.fill(kind, tags, packs, &mut items)?;
    list(&reader, &items, keys, numbers)
}

/// Lists the items that were read if both slices have room.
fn list<const LONGER: bool>(
    reader: &Reader<LONGER>,
    items: &[Item],
    keys: &mut [u8],
    numbers: &mut [u32],
) -> Result<Listed, Refusal> {
    let items = &items[..reader.count];
    let mut records = Records::of(keys, numbers, items.len())?;
    for (n, item) in items.iter().enumerate() {
        records.put(n, item, 1);
    }
    Ok(Listed { count: items.len(), longer: reader.longer })
}

/// The records of a listing: keys; and offset, length and depth.
pub struct Records<'a> {
    keys: &'a mut [[u8; 16]],
    numbers: &'a mut [[u32; 3]],
}

impl<'a> Records<'a> {
    /// So many records, if both slices have room.
    pub fn of(keys: &'a mut [u8], numbers: &'a mut [u32], count: usize) -> Result<Records<'a>, Refusal> {
        let keys = keys.as_chunks_mut().0.get_mut(..count).ok_or(Reason::ShortSlice.whole())?;
        let numbers = numbers.as_chunks_mut().0.get_mut(..count).ok_or(Reason::ShortSlice.whole())?;
        Ok(Records { keys, numbers })
    }

    /// Writes record n.
    #[inline(always)]
    pub fn put(&mut self, n: usize, item: &Item, depth: u32) {
        self.keys[n] = item.key.bytes();
        self.numbers[n] = [item.offset, item.length, depth];
    }
}
