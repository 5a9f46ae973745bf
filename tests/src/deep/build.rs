//! Sets inside sets, as the batches put them together.
use crate::call::Call;
use crate::generate::nested::{self, item, OTHERS, SETS};
use crate::generate::table::{self, Record};
use crate::generate::wire::enclose;
use crate::groups::Key;

/// An item key that is that of no group, and its tag.
pub const PLAIN: Record = (0x07, [0x06, 0x0E, 0x2B, 0x34, 0x01, 0x01, 0x01, 0x01, 0x0F, 0x02, 0, 0, 0, 0, 0, 0]);

/// The tags of the keys of sets begin here, and those of other groups.
const SET_TAGS: u32 = 0x10;
const OTHER_TAGS: u32 = 0x30;

/// A tag that the table does not list, and sixteen bytes that are no key.
pub const UNLISTED: u32 = 0x7E;
pub const NO_KEY: Key = [0x07; 16];

/// The key of the outermost group: also with byte 6 of a global set it is that of a group, with a root of 8 bytes.
pub fn outermost(byte: u8) -> Key {
    [0x06, 0x0E, 0x2B, 0x34, 0x02, byte, 0x05, 0x01, 0x0F, 0x01, 0x01, 0x01, 0, 0, 0, 0]
}

/// The key of an item with this byte 6, that of a group likewise, with a root of 9 bytes.
pub fn inside(byte: u8) -> Key {
    [0x06, 0x0E, 0x2B, 0x34, 0x02, byte, 0x05, 0x01, 0x01, 0x01, 0x01, 0x02, 0x03, 0, 0, 0]
}

/// The record of a set inside a set.
pub fn set(byte: u8) -> Record {
    let place = SETS.iter().position(|set| *set == byte).expect("a set's byte 6");
    (SET_TAGS + place as u32, inside(byte))
}

/// The record of another group inside a set.
pub fn other(byte: u8) -> Record {
    let place = OTHERS.iter().position(|group| *group == byte).expect("another group's byte 6");
    (OTHER_TAGS + place as u32, inside(byte))
}

/// The tag table of all these: every set takes its tags.
pub fn tags() -> Vec<u8> {
    let groups = SETS.map(set).into_iter().chain(OTHERS.map(other));
    table::bytes(&[PLAIN].into_iter().chain(groups).collect::<Vec<Record>>())
}

/// A call of the outermost set that holds these bytes.
pub fn call(byte: u8, contents: &[u8]) -> Call {
    nested::call(tags(), enclose(&outermost(byte), contents))
}

/// What stands in a set of the first of these bytes 6, which holds one of the second, and so on. The innermost set holds
/// these bytes. Each of the others holds three items, the middle one of which is the set.
pub fn chain(sets: &[u8], innermost: &[u8]) -> Vec<u8> {
    let mut contents = innermost.to_vec();
    for pair in sets.windows(2).rev() {
        let [byte, nested] = [pair[0], pair[1]];
        let around = [item(byte, &PLAIN, &[0xAB]), item(byte, &PLAIN, &[])];
        contents = [&around[0][..], &item(byte, &set(nested), &contents), &around[1]].concat();
    }
    contents
}

/// The place of the set in each set of a chain.
pub const PLACE: u64 = 1;
