//! The triplets with the source key, as groups to be regrouped.
use super::super::key::Key;
use super::super::kind::{one_family, Kind};
use super::super::number::Layout;
use super::super::read::{Item, Reader, MOST};
use super::super::regroup::{FEW, MOST_BYTES};
use super::super::tables::{Packs, Tags};
use super::super::write::{measure, write};
use super::Triplet;

/// What all triplets with the source key share.
pub struct Source<'a> {
    key: [u8; 16],
    from: Kind,
    target: Key,
    to: Kind,
    one_family: bool,
    tags: Tags<'a>,
    packs: Packs<'a>,
    items: Items,
}

/// A group that can be written: its items' count, the bytes that they take, and its length in the output.
pub struct Group {
    count: usize,
    size: usize,
    pub length: usize,
}

impl<'a> Source<'a> {
    pub fn of(source: (Key, Kind), target: (Key, Kind), tags: Tags<'a>, packs: Packs<'a>) -> Source<'a> {
        let ((key, from), (target, to)) = (source, target);
        let one_family = one_family(key, from, target, to);
        let items = Items { few: [Item::NONE; FEW], many: None };
        Source { key: key.bytes(), from, target, to, one_family, tags, packs, items }
    }

    /// Whether a triplet has the source key.
    #[inline(always)]
    pub fn has(&self, feed: &[u8], triplet: Triplet) -> bool {
        feed[triplet.at..].first_chunk() == Some(&self.key)
    }

    /// Reads a triplet's items and measures them as the target's; nothing if the plain call refuses.
    pub fn measure(&mut self, feed: &[u8], triplet: Triplet) -> Option<Group> {
        if triplet.end - triplet.at > MOST_BYTES || !self.one_family {
            return None;
        }
        let reader = Reader::of(&feed[..triplet.end], triplet.value);
        let items = self.items.read(reader, self.from, &self.tags, self.packs)?;
        let size = measure(self.to, &mut self.tags, self.packs, items, feed).ok()?;
        let length = 16 + Layout::Ber.width(size as u32) + size;
        (length <= MOST_BYTES).then_some(Group { count: items.len(), size, length })
    }

    /// Writes the group that was measured last to the front of a slice. A short value may be followed by other bytes,
    /// which what comes next writes over.
    pub fn write(&self, group: &Group, feed: &[u8], out: &mut [u8]) {
        write(self.target, self.to, group.size, &self.items.list()[..group.count], feed, out);
    }
}

/// The list of a group's items: a short one, and a long one from the first group on that needs it.
struct Items {
    few: [Item; FEW],
    many: Option<[Item; MOST]>,
}

impl Items {
    fn list(&self) -> &[Item] {
        match &self.many {
            Some(many) => many,
            None => &self.few,
        }
    }

    /// The items of a group, if it reads.
    fn read(&mut self, mut reader: Reader<false>, kind: Kind, tags: &Tags, packs: Packs) -> Option<&mut [Item]> {
        if self.many.is_none() {
            let ended = reader.fill(kind, tags, packs, &mut self.few).ok()?;
            if ended {
                return Some(&mut self.few[..reader.count]);
            }
            self.many.insert([Item::NONE; MOST])[..FEW].copy_from_slice(&self.few);
        }
        let many = self.many.as_mut()?;
        reader.fill(kind, tags, packs, many).ok()?;
        Some(&mut many[..reader.count])
    }
}
