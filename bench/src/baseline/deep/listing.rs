//! The deep listing: a checking pass that counts, then a writing pass.
use super::super::listing::{Listed, Records};
use super::super::refusal::Reason;
use super::super::tables::Tags;
use super::{below, nested, outermost, Fault, Items, Set, LEVELS};

/// The number that a host receives.
#[inline(never)]
pub fn answer(tags: &[u8], group: &[u8], keys: &mut [u8], numbers: &mut [u32]) -> u64 {
    match listing::<false>(tags, group, keys, numbers) {
        Ok(listed) => listed.count as u64,
        Err(fault) => fault.answer(),
    }
}

/// The same, and how many items had a BER length that was longer than needed; a refusal leaves that number.
#[inline(never)]
pub fn answer_longer(tags: &[u8], group: &[u8], keys: &mut [u8], numbers: &mut [u32], longer: &mut u64) -> u64 {
    match listing::<true>(tags, group, keys, numbers) {
        Ok(listed) => listed.told(longer),
        Err(fault) => fault.answer(),
    }
}

/// Lists all items, each nested one after its holder.
fn listing<const LONGER: bool>(
    tags: &[u8],
    group: &[u8],
    keys: &mut [u8],
    numbers: &mut [u32],
) -> Result<Listed, Fault> {
    let mut index = None;
    let tags = &Tags::of(tags, &mut index).ok_or(Reason::TagTable.whole())?;
    let (_, set) = outermost(group)?;
    let mut longer = 0;
    let count = count::<LONGER>(tags, group, set, LEVELS, &mut longer)?;
    let records = Records::of(keys, numbers, count)?;
    Lists { tags, group, records }.list(set, 0, 1)?;
    Ok(Listed { count, longer })
}

/// How many items a set and all sets in it have; those with a longer length than needed are added to `longer`.
fn count<const LONGER: bool>(
    tags: &Tags,
    group: &[u8],
    set: Set,
    levels: usize,
    longer: &mut usize,
) -> Result<usize, Fault> {
    let (mut items, mut inside) = (Items::<LONGER>::of(group, set), 0);
    while let Some(item) = items.next(tags)? {
        if let Some(inner) = nested(&item) {
            let counted = below(levels).and_then(|levels| count::<LONGER>(tags, group, inner, levels, longer));
            inside += counted.map_err(|fault| items.inside(fault))?;
        }
    }
    if LONGER {
        *longer += items.longer;
    }
    Ok(items.count + inside)
}

/// A group under the writing pass.
struct Lists<'a> {
    tags: &'a Tags<'a>,
    group: &'a [u8],
    records: Records<'a>,
}

impl Lists<'_> {
    /// Lists the items of a set from number n on; answers the number after them.
    fn list(&mut self, set: Set, n: usize, depth: u32) -> Result<usize, Fault> {
        let (mut items, mut n) = (Items::<false>::of(self.group, set), n);
        while let Some(item) = items.next(self.tags)? {
            self.records.put(n, &item, depth);
            n += 1;
            if let Some(inner) = nested(&item) {
                n = self.list(inner, n, depth + 1)?;
            }
        }
        Ok(n)
    }
}
