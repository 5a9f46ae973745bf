//! The listing call (01, "The host, the listing, the job").
use super::read::{self, Item};
use super::refusal::{Reason, Refusal};
use super::tables::Tables;
use super::{longer, outer};
use crate::fault::{planted, Fault};

/// Writes every item's key, and its value's offset and length and the depth of its set, gives the number of longer forms
/// (02, point 7), and answers the count. A refusal leaves both slices and the number as they were.
pub fn listing(
    tags: &[u8],
    packs: &[u8],
    group: &[u8],
    keys: &mut [u8],
    numbers: &mut [u32],
    longer: &mut u64,
) -> Result<usize, Refusal> {
    let items = items_of(tags, packs, group).map_err(|refusal| refusal.with_old_8(Fault::ListingKeepsOld8));
    let count = items.as_ref().map_or(0, |items| longer::of_items(group, items));
    let result = items.and_then(|items| put(group, &items, keys, numbers));
    longer::put(result, count, longer);
    result
}

/// Writes the records of all items, where both slices have room for them. The plain listing opens nothing and gives depth
/// 1 (02, point 1).
fn put(group: &[u8], items: &[Item], keys: &mut [u8], numbers: &mut [u32]) -> Result<usize, Refusal> {
    let room = (keys.len() / 16).min(numbers.len() / 3);
    let room = if planted(Fault::NumbersNotMeasured) { keys.len() / 16 } else { room };
    if items.len() > room {
        return Err(Refusal::whole(Reason::ShortSlice));
    }
    let depth = if planted(Fault::DepthFromZero) { 0 } else { 1 };
    let base = if planted(Fault::OffsetsFromFirstItem) { outer::items_begin(group)? } else { 0 };
    let key_places = keys.chunks_exact_mut(16);
    let records = numbers.chunks_exact_mut(3);
    for ((item, key), record) in items.iter().zip(key_places).zip(records) {
        key.copy_from_slice(&item.key);
        record.copy_from_slice(&[(item.offset - base) as u32, item.value.len() as u32, depth]);
    }
    Ok(items.len())
}

/// The item list of a group.
pub fn items_of<'a>(tags: &[u8], packs: &[u8], group: &'a [u8]) -> Result<Vec<Item<'a>>, Refusal> {
    let tables = Tables::read(tags, packs)?;
    let source = outer::group(group)?;
    let begin = outer::items_begin(group)?;
    read::items(&source, &tables, group, begin)
}
