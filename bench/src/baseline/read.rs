//! Reading a group into a list of items.
use super::key::Key;
use super::kind::Kind;
use super::number::Layout;
use super::refusal::{Reason, Refusal};
use super::root;
use super::tables::{Packs, Tags, MEASURED};

/// The most items of a set.
pub const MOST: usize = 256;

/// An item: its key, where its value stands, and what its label will be (a local tag, or a global tag's width).
#[derive(Clone, Copy)]
pub struct Item {
    pub key: Key,
    pub offset: u32,
    pub length: u32,
    pub label: u32,
}

impl Item {
    pub const NONE: Item = Item { key: Key(0), offset: 0, length: 0, label: 0 };
}

/// A group under reading: its bytes, the next item's offset, and the count of items before it. Where LONGER says so,
/// also how many of these had a BER length that was longer than needed.
pub struct Reader<'a, const LONGER: bool> {
    pub bytes: &'a [u8],
    pub at: usize,
    pub count: usize,
    pub longer: usize,
}

impl<const LONGER: bool> Reader<'_, LONGER> {
    pub fn of(bytes: &[u8], at: usize) -> Reader<'_, LONGER> {
        Reader { bytes, at, count: 0, longer: 0 }
    }

    /// Reads items until the list is full or the group ends; whether it ended.
    pub fn fill(&mut self, kind: Kind, tags: &Tags, packs: Packs, items: &mut [Item]) -> Result<bool, Refusal> {
        let bytes = self.bytes;
        match kind {
            Kind::Universal => {
                let label = |at| Key::at(bytes, at).filter(|key| key.is_key()).map(|key| (key, at + 16));
                self.set(items, kind, Layout::Ber, label)
            }
            Kind::Global(root, lengths) => self.set(items, kind, lengths, |at| root.read_tag(bytes, at)),
            Kind::Local(layout, lengths) => {
                let mut guess = 0;
                self.set(items, kind, lengths, |at| {
                    let (tag, after) = layout.read(bytes, at)?;
                    let n = tags.with_tag(tag, guess)?;
                    guess = n + 1;
                    Some((tags.key(n), after))
                })
            }
            Kind::Variable(lengths) => self.pack(items, packs, |_, at| lengths.read(bytes, at), |n| lengths.width(n)),
            Kind::Defined => {
                let span = |length, at| match length {
                    MEASURED => triplet(bytes, at).map(|length| (length, at)),
                    _ => Some((u64::from(length), at)),
                };
                self.pack(items, packs, span, |_| 0)
            }
        }
    }

    #[inline(always)]
    fn set<L>(&mut self, items: &mut [Item], kind: Kind, lengths: Layout, mut label: L) -> Result<bool, Refusal>
    where
        L: FnMut(usize) -> Option<(Key, usize)>,
    {
        let Reader { bytes, mut at, mut count, mut longer } = *self;
        while count < items.len() && at < bytes.len() {
            let (key, after) = label(at).ok_or_else(|| label_fault(kind, &bytes[at..]).at(count))?;
            let item = value(bytes, key, lengths.read(bytes, after)).ok_or(Reason::Span.at(count))?;
            if LONGER {
                longer += usize::from(item.offset as usize - after > lengths.width(item.length));
            }
            at = (item.offset + item.length) as usize;
            items[count] = item;
            count += 1;
        }
        (self.at, self.count, self.longer) = (at, count, longer);
        if count == MOST && at < bytes.len() {
            return Err(Reason::Count.at(MOST));
        }
        Ok(at == bytes.len())
    }

    /// The elements of a pack; `width` answers the fewest bytes of a length.
    #[inline(always)]
    fn pack<S, W>(&mut self, items: &mut [Item], packs: Packs, span: S, width: W) -> Result<bool, Refusal>
    where
        S: Fn(u32, usize) -> Option<(u64, usize)>,
        W: Fn(u32) -> usize,
    {
        while let Some(item) = items.get_mut(self.count) {
            let Some((length, key)) = packs.record(self.count) else {
                break;
            };
            *item = value(self.bytes, key, span(length, self.at)).ok_or(Reason::Span.at(self.count))?;
            if LONGER {
                self.longer += usize::from(item.offset as usize - self.at > width(item.length));
            }
            self.at = (item.offset + item.length) as usize;
            self.count += 1;
        }
        let ended = self.count == packs.count();
        if ended && self.at < self.bytes.len() {
            return Err(Reason::Surplus.at(self.count));
        }
        Ok(ended)
    }
}

/// Why no label was read from some bytes: they end before it does, it is malformed, or it is a tag that no record has.
#[cold]
pub fn label_fault(kind: Kind, rest: &[u8]) -> Reason {
    match kind {
        Kind::Local(layout, _) if layout.read(rest, 0).is_some() => Reason::LabelUnlisted,
        Kind::Local(layout, _) if layout.cuts_off(rest) => Reason::LabelCutOff,
        Kind::Global(..) if root::cuts_off(rest) => Reason::LabelCutOff,
        Kind::Universal if rest.len() < 16 => Reason::LabelCutOff,
        _ => Reason::LabelMalformed,
    }
}

/// How many bytes the triplet at a position has: a key, a BER length, and that many bytes. Nothing if none is whole.
#[inline(always)]
pub fn triplet(bytes: &[u8], at: usize) -> Option<u64> {
    Key::at(bytes, at).filter(|key| key.is_key())?;
    let (length, after) = Layout::Ber.read(bytes, at + 16)?;
    let fits = length <= (bytes.len() - after) as u64;
    fits.then(|| (after - at) as u64 + length)
}

/// The item with a value of this length at this offset, if so many bytes are left.
#[inline(always)]
pub fn value(bytes: &[u8], key: Key, span: Option<(u64, usize)>) -> Option<Item> {
    let (length, offset) = span?;
    let fits = length <= (bytes.len() - offset) as u64;
    fits.then_some(Item { key, offset: offset as u32, length: length as u32, label: 0 })
}
