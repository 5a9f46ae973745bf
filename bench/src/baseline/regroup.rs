//! The regrouping call: every refusal in its order, then the output.
use super::key::Key;
use super::kind::{kind_of, one_family, Kind};
use super::number::Layout;
use super::read::{Item, Reader, MOST};
use super::refusal::{Reason, Refusal};
use super::tables::{Packs, Tags};
use super::write::{measure, write};

/// The most bytes of a group, in and out.
pub const MOST_BYTES: usize = 65_536;
/// Up to so many items are kept in a short list, which is cheaper to make.
pub const FEW: usize = 16;

/// The number that a host receives.
#[inline(never)]
pub fn answer(tags: &[u8], packs: &[u8], target: &[u8], group: &[u8], output: &mut [u8]) -> u64 {
    match regroup(tags, packs, target, group, output) {
        Ok(length) => length as u64,
        Err(refusal) => refusal.answer(),
    }
}

/// Regroups one group; answers the output's length.
fn regroup(tags: &[u8], packs: &[u8], target: &[u8], group: &[u8], output: &mut [u8]) -> Result<usize, Refusal> {
    let mut index = None;
    let mut tags = Tags::of(tags, &mut index).ok_or(Reason::TagTable.whole())?;
    let packs = Packs::of(packs).ok_or(Reason::PackTable.whole())?;
    let target = target.try_into().ok().map(Key::of).ok_or(Reason::Target.whole())?;
    let to = kind_of(target).ok_or(Reason::Target.whole())?;
    let (source, from) = source(group)?;
    if !one_family(source, from, target, to) {
        return Err(Reason::Family.whole());
    }
    let at = items_begin(group).ok_or(Reason::OuterLength.whole())?;
    let mut reader = Reader::of(group, at);
    let mut few = [Item::NONE; FEW];
    let ended = reader.fill(from, &tags, packs, &mut few)?;
    if ended {
        return finish(target, to, &mut tags, packs, &mut few[..reader.count], group, output);
    }
    many(reader, from, &few, target, to, &mut tags, packs, output)
}

/// The same for a group with more items than the short list holds.
#[inline(never)]
#[allow(clippy::too_many_arguments)]
fn many(
    mut reader: Reader<false>,
    from: Kind,
    few: &[Item; FEW],
    target: Key,
    to: Kind,
    tags: &mut Tags,
    packs: Packs,
    output: &mut [u8],
) -> Result<usize, Refusal> {
    let mut items = [Item::NONE; MOST];
    items[..FEW].copy_from_slice(few);
    reader.fill(from, tags, packs, &mut items)?;
    finish(target, to, tags, packs, &mut items[..reader.count], reader.bytes, output)
}

/// The group's key and its kind.
#[inline(always)]
pub fn source(group: &[u8]) -> Result<(Key, Kind), Refusal> {
    if group.len() > MOST_BYTES {
        return Err(Reason::Oversize.whole());
    }
    let key = Key::at(group, 0).ok_or(Reason::GroupKey.whole())?;
    let kind = kind_of(key).ok_or(Reason::GroupKey.whole())?;
    Ok((key, kind))
}

/// Where the items begin, if the outer length is the bytes after it.
pub fn items_begin(group: &[u8]) -> Option<usize> {
    let (length, at) = Layout::Ber.read(group, 16)?;
    (length == (group.len() - at) as u64).then_some(at)
}

/// Measures the items as the target's, and writes them if the slice has room.
fn finish(
    target: Key,
    to: Kind,
    tags: &mut Tags,
    packs: Packs,
    items: &mut [Item],
    group: &[u8],
    output: &mut [u8],
) -> Result<usize, Refusal> {
    let size = measure(to, tags, packs, items, group)?;
    let length = 16 + Layout::Ber.width(size as u32) + size;
    if length > MOST_BYTES {
        return Err(Reason::LongOutput.whole());
    }
    let out = output.get_mut(..length).ok_or(Reason::ShortSlice.whole())?;
    write(target, to, size, items, group, out);
    Ok(length)
}
