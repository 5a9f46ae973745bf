//! Sets inside sets (02, point 1): the outermost set, the items of a set in turn, and the refusals from inside.
pub mod listing;
pub mod write;

use super::key::Key;
use super::kind::{kind_of, Kind};
use super::number::Layout;
use super::read::{label_fault, value, Item, MOST};
use super::refusal::{Reason, Refusal};
use super::regroup::{items_begin, MOST_BYTES};
use super::tables::Tags;

/// How many levels may be opened below the outermost set.
const LEVELS: usize = 3;
/// A set at depth 5, and a nested value that does not read.
const TOO_DEEP: u16 = 17;
const UNREAD: u16 = 18;

/// A refusal's number and place.
#[derive(Clone, Copy)]
struct Fault {
    number: u16,
    place: u16,
}

impl From<Refusal> for Fault {
    fn from(refusal: Refusal) -> Fault {
        Fault { number: refusal.reason as u16, place: refusal.place }
    }
}

impl Fault {
    /// The number that a host receives.
    fn answer(self) -> u64 {
        1_000_000 + 1_000 * u64::from(self.number) + u64::from(self.place)
    }
}

/// A set: its kind, universal or local, and where its items stand in the group.
#[derive(Clone, Copy)]
struct Set {
    kind: Kind,
    at: usize,
    end: usize,
}

/// The kind of a set that is opened.
#[inline(always)]
fn opened(key: Key) -> Option<Kind> {
    if key.byte(5) != 0x02 {
        return None;
    }
    kind_of(key).filter(|kind| matches!(kind, Kind::Universal | Kind::Local(..)))
}

/// The set that an item holds, if its key is that of a set.
#[inline(always)]
fn nested(item: &Item) -> Option<Set> {
    let at = item.offset as usize;
    opened(item.key).map(|kind| Set { kind, at, end: at + item.length as usize })
}

/// How many levels may be opened below a nested set; 17 if it may not be opened itself.
fn below(levels: usize) -> Result<usize, Fault> {
    levels.checked_sub(1).ok_or(Fault { number: TOO_DEEP, place: 0 })
}

/// The outermost key and its set.
fn outermost(group: &[u8]) -> Result<(Key, Set), Fault> {
    if group.len() > MOST_BYTES {
        return Err(Reason::Oversize.whole().into());
    }
    let key = Key::at(group, 0).ok_or(Reason::GroupKey.whole())?;
    let kind = opened(key).ok_or(Reason::GroupKey.whole())?;
    let at = items_begin(group).ok_or(Reason::OuterLength.whole())?;
    Ok((key, Set { kind, at, end: group.len() }))
}

/// A set under reading: its bytes and those before it, the next item's offset, and the count of items before it. Where
/// LONGER says so, also how many of these had a BER length that was longer than needed.
struct Items<'a, const LONGER: bool> {
    bytes: &'a [u8],
    kind: Kind,
    at: usize,
    count: usize,
    longer: usize,
    /// The record that the next tag is looked for at first.
    guess: usize,
}

impl<const LONGER: bool> Items<'_, LONGER> {
    fn of(group: &[u8], set: Set) -> Items<'_, LONGER> {
        Items { bytes: &group[..set.end], kind: set.kind, at: set.at, count: 0, longer: 0, guess: 0 }
    }

    /// The next item; nothing at the set's end.
    #[inline(always)]
    fn next(&mut self, tags: &Tags) -> Result<Option<Item>, Fault> {
        if self.at == self.bytes.len() {
            return Ok(None);
        }
        if self.count == MOST {
            return Err(Reason::Count.at(MOST).into());
        }
        let (key, after) = self.label(tags).ok_or_else(|| self.label_fault())?;
        let lengths = if let Kind::Local(_, lengths) = self.kind { lengths } else { Layout::Ber };
        let item = value(self.bytes, key, lengths.read(self.bytes, after)).ok_or(Reason::Span.at(self.count))?;
        if LONGER {
            self.longer += usize::from(item.offset as usize - after > lengths.width(item.length));
        }
        self.at = (item.offset + item.length) as usize;
        self.count += 1;
        Ok(Some(item))
    }

    /// The next item's key, and where its length stands.
    #[inline(always)]
    fn label(&mut self, tags: &Tags) -> Option<(Key, usize)> {
        let Kind::Local(layout, _) = self.kind else {
            return Key::at(self.bytes, self.at).filter(|key| key.is_key()).map(|key| (key, self.at + 16));
        };
        let (tag, after) = layout.read(self.bytes, self.at)?;
        let n = tags.with_tag(tag, self.guess)?;
        self.guess = n + 1;
        Some((tags.key(n), after))
    }

    #[cold]
    fn label_fault(&self) -> Fault {
        label_fault(self.kind, &self.bytes[self.at..]).at(self.count).into()
    }

    /// A fault inside the item that was read last.
    #[cold]
    fn inside(&self, fault: Fault) -> Fault {
        let number = if fault.number == TOO_DEEP { TOO_DEEP } else { UNREAD };
        Fault { number, place: self.count as u16 - 1 }
    }
}
