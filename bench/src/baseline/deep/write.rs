//! The deep write: a checking pass that measures, then a writing pass.
use super::super::key::Key;
use super::super::number::{put, Layout};
use super::super::read::Item;
use super::super::refusal::Reason;
use super::super::regroup::MOST_BYTES;
use super::super::tables::Tags;
use super::super::write::put_value;
use super::{below, nested, outermost, Fault, Items, Set, LEVELS};

/// The sizes of so many nested sets are kept, the first in byte order; any other set is measured again.
const KEPT: usize = 512;

/// The number that a host receives.
#[inline(never)]
pub fn answer(tags: &[u8], group: &[u8], output: &mut [u8]) -> u64 {
    match deep(tags, group, output) {
        Ok(length) => length as u64,
        Err(fault) => fault.answer(),
    }
}

/// Writes a set with all nested sets in universal form; answers the output's length.
fn deep(tags: &[u8], group: &[u8], output: &mut [u8]) -> Result<usize, Fault> {
    let mut index = None;
    let tags = Tags::of(tags, &mut index).ok_or(Reason::TagTable.whole())?;
    let (key, set) = outermost(group)?;
    let mut sets = Sets { tags: &tags, group, sizes: [0; KEPT], met: 0 };
    let size = sets.measure(set, LEVELS)?;
    let length = 16 + Layout::Ber.width(size as u32) + size;
    if length > MOST_BYTES {
        return Err(Reason::LongOutput.whole().into());
    }
    let out = output.get_mut(..length).ok_or(Reason::ShortSlice.whole())?;
    let to = head(universal(key), size, out, 0);
    sets.met = 0;
    sets.write(set, out, to)
}

/// A group under one of the passes.
struct Sets<'a> {
    tags: &'a Tags<'a>,
    group: &'a [u8],
    /// The bytes that the items of a nested set take, by the set's number in byte order.
    sizes: [u32; KEPT],
    /// How many nested sets were met in this pass.
    met: usize,
}

impl Sets<'_> {
    /// How many bytes the items of a set take.
    fn measure(&mut self, set: Set, levels: usize) -> Result<usize, Fault> {
        let (mut items, mut size) = (Items::<false>::of(self.group, set), 0);
        while let Some(item) = items.next(self.tags)? {
            let length = match nested(&item) {
                None => item.length as usize,
                Some(inner) => self.measure_nested(inner, levels).map_err(|fault| items.inside(fault))?,
            };
            size += 16 + Layout::Ber.width(length as u32) + length;
        }
        Ok(size)
    }

    fn measure_nested(&mut self, set: Set, levels: usize) -> Result<usize, Fault> {
        let levels = below(levels)?;
        let number = self.met;
        self.met += 1;
        let size = self.measure(set, levels)?;
        if let Some(kept) = self.sizes.get_mut(number) {
            *kept = size as u32;
        }
        Ok(size)
    }

    /// The size of the next nested set, which has been measured before.
    fn size(&mut self, set: Set) -> Result<usize, Fault> {
        let number = self.met;
        let size = match self.sizes.get(number) {
            Some(kept) => *kept as usize,
            None => self.measure(set, LEVELS)?,
        };
        self.met = number + 1;
        Ok(size)
    }

    /// Writes the items of a measured set; answers the position after them.
    fn write(&mut self, set: Set, out: &mut [u8], to: usize) -> Result<usize, Fault> {
        let (mut items, mut to) = (Items::<false>::of(self.group, set), to);
        while let Some(item) = items.next(self.tags)? {
            to = match nested(&item) {
                None => put_item(&item, self.group, out, to),
                Some(inner) => {
                    let to = head(universal(item.key), self.size(inner)?, out, to);
                    self.write(inner, out, to)?
                }
            };
        }
        Ok(to)
    }
}

/// Writes an item that is not opened.
#[inline(always)]
fn put_item(item: &Item, group: &[u8], out: &mut [u8], to: usize) -> usize {
    let to = head(item.key, item.length as usize, out, to);
    put_value(out, to, group, item.offset as usize, item.length as usize)
}

/// Writes a key and a length.
#[inline(always)]
fn head(key: Key, length: usize, out: &mut [u8], to: usize) -> usize {
    let to = put(out, to, &key.bytes());
    Layout::Ber.write(length as u32, out, to)
}

/// A set's key with byte 6 made 01.
fn universal(key: Key) -> Key {
    Key(key.0 & !(0xFF << 80) | 0x01 << 80)
}
