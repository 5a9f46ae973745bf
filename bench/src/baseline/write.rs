//! Writing a list of items as a group: measured first, then written.
use super::key::Key;
use super::kind::Kind;
use super::number::{put, Layout};
use super::read::{triplet, Item};
use super::refusal::{Reason, Refusal};
use super::tables::{Packs, Tags, MEASURED};

/// How many bytes the items take, and what each one's label will be; 12 or 13 for the first that cannot be written.
pub fn measure(kind: Kind, tags: &mut Tags, packs: Packs, items: &mut [Item], from: &[u8]) -> Result<usize, Refusal> {
    match kind {
        Kind::Universal => sum(items, Layout::Ber, |_| Some((16, 0))),
        Kind::Global(root, lengths) => {
            sum(items, lengths, |item| root.tag_width(item.key).map(|width| (width, width as u32)))
        }
        Kind::Local(layout, lengths) => {
            let mut guess = 0;
            sum(items, lengths, |item| {
                let n = tags.with_key(item.key, guess)?;
                guess = n + 1;
                let tag = tags.tag(n);
                layout.fits(tag).then(|| (layout.width(tag), tag))
            })
        }
        Kind::Variable(lengths) => {
            elements(items, packs, |item, _| lengths.fits(item.length).then(|| lengths.width(item.length)))
        }
        Kind::Defined => elements(items, packs, |item, length| {
            // No value has MEASURED bytes: a constant length costs one comparison.
            let fits = item.length == length || length == MEASURED && is_triplet(item, from);
            fits.then_some(0)
        }),
    }
}

/// The items of a set. A label is its width and what the item keeps of it.
#[inline(always)]
fn sum<L>(items: &mut [Item], lengths: Layout, mut label: L) -> Result<usize, Refusal>
where
    L: FnMut(&Item) -> Option<(usize, u32)>,
{
    let mut size = 0;
    for (place, item) in items.iter_mut().enumerate() {
        let (width, kept) = label(item).ok_or(Reason::NoLabel.at(place))?;
        if !lengths.fits(item.length) {
            return Err(Reason::NoSpan.at(place));
        }
        item.label = kept;
        size += width + lengths.width(item.length) + item.length as usize;
    }
    Ok(size)
}

/// The elements of a pack; `span` answers the width of an element's length, given the record's.
#[inline(always)]
fn elements<S>(items: &[Item], packs: Packs, span: S) -> Result<usize, Refusal>
where
    S: Fn(&Item, u32) -> Option<usize>,
{
    let mut size = 0;
    for (place, item) in items.iter().enumerate() {
        let record = packs.record(place).filter(|(_, key)| *key == item.key);
        let (length, _) = record.ok_or(Reason::NoLabel.at(place))?;
        size += span(item, length).ok_or(Reason::NoSpan.at(place))? + item.length as usize;
    }
    if items.len() < packs.count() {
        return Err(Reason::NoLabel.at(items.len()));
    }
    Ok(size)
}

/// Whether a value is one whole triplet and no more.
#[inline(always)]
fn is_triplet(item: &Item, from: &[u8]) -> bool {
    let Item { offset, length, .. } = *item;
    triplet(&from[offset as usize..(offset + length) as usize], 0) == Some(u64::from(length))
}

/// Writes a measured group over the whole of a slice of its length.
pub fn write(key: Key, kind: Kind, size: usize, items: &[Item], from: &[u8], out: &mut [u8]) {
    let at = put(out, 0, &key.bytes());
    let at = Layout::Ber.write(size as u32, out, at);
    match kind {
        Kind::Universal => each(items, from, out, at, |item, out, at| {
            let at = put(out, at, &item.key.bytes());
            Layout::Ber.write(item.length, out, at)
        }),
        Kind::Global(root, lengths) => each(items, from, out, at, |item, out, at| {
            let at = root.write_tag(item.key, item.label as usize, out, at);
            lengths.write(item.length, out, at)
        }),
        Kind::Local(layout, lengths) => each(items, from, out, at, |item, out, at| {
            let at = layout.write(item.label, out, at);
            lengths.write(item.length, out, at)
        }),
        Kind::Variable(lengths) => each(items, from, out, at, |item, out, at| lengths.write(item.length, out, at)),
        Kind::Defined => each(items, from, out, at, |_, _, at| at),
    }
}

/// Every item: what stands before its value, by `head`, then the value.
#[inline(always)]
fn each<H>(items: &[Item], from: &[u8], out: &mut [u8], at: usize, head: H)
where
    H: Fn(&Item, &mut [u8], usize) -> usize,
{
    let mut at = at;
    for item in items {
        at = head(item, out, at);
        at = put_value(out, at, from, item.offset as usize, item.length as usize);
    }
}

/// Writes a value. A short one is copied as 32 bytes where both slices go on so far: what is over is written again by
/// the next items.
#[inline(always)]
pub fn put_value(out: &mut [u8], at: usize, from: &[u8], offset: usize, length: usize) -> usize {
    if length <= 32 {
        if let (Some(to), Some(value)) = (out.get_mut(at..at + 32), from.get(offset..offset + 32)) {
            to.copy_from_slice(value);
            return at + length;
        }
    }
    put(out, at, &from[offset..offset + length])
}
