//! Each set holds at most 256 items; all of them together may be more.
use super::build::{call, set, NO_KEY, PLAIN, UNLISTED};
use crate::call::Call;
use crate::compare_deep::Deep;
use crate::generate::nested::{item, label, SETS};

/// 255 to 258 items of the outermost set, and of one inside it.
pub fn all(deep: &mut Deep, _seed: u64) {
    for byte in SETS {
        for count in [255, 256, 257, 258] {
            let items = item(byte, &PLAIN, &[]).repeat(count);
            let name = format!("{count} items of {byte:02X}");
            ends(deep, &name, count, byte, &items, (10, 256));
            let holder = if byte == 0x01 { 0x01 } else { 0x1B };
            let before = item(holder, &PLAIN, &[]);
            let inside = [&before[..], &item(holder, &set(byte), &items)].concat();
            ends(deep, &format!("{name} inside"), count, holder, &inside, (18, 1));
            let deeper = item(0x03, &set(holder), &inside);
            ends(deep, &format!("{name} at depth 3"), count, 0x03, &deeper, (18, 0));
        }
    }
}

/// The call is accepted with up to 256 items, else refused.
fn ends(deep: &mut Deep, name: &str, count: usize, byte: u8, contents: &[u8], refused: (u64, u64)) {
    let call = call(byte, contents);
    if count <= 256 {
        deep.accepted(name, &call);
    } else {
        deep.refused(name, &call, refused);
    }
}

/// A 257th item that does not read, one that is opened, and an earlier one that does not read.
pub fn last(deep: &mut Deep, _seed: u64) {
    for byte in SETS {
        let plain = item(byte, &PLAIN, &[]);
        let unread = item(byte, &set(0x03), &[0x7E]);
        let unlisted = item(byte, &(UNLISTED, NO_KEY), &[]);
        for last in [unlisted, label(byte, &PLAIN), unread.clone(), item(byte, &set(0x03), &[])] {
            let items = [&plain.repeat(256)[..], &last].concat();
            deep.refused("a 257th item", &call(byte, &items), (10, 256));
            deep.refused("a 257th item inside", &call(0x03, &item(0x03, &set(byte), &items)), (18, 0));
        }
        deep.accepted("256 items inside", &call(0x03, &item(0x03, &set(byte), &plain.repeat(256))));
        let items = [&plain.repeat(255)[..], &unread, &plain].concat();
        deep.refused("18, then 10", &call(byte, &items), (18, 255));
    }
}

/// Many items in all: 256 sets of one item, of two and of 126, which is too much for the output but not for the listing;
/// one set of 256 sets of 31 items; 126 sets of 256 items.
pub fn many(deep: &mut Deep, _seed: u64) {
    for count in [1, 2, 126] {
        let sets = item(0x03, &set(0x03), &item(0x03, &PLAIN, &[]).repeat(count)).repeat(256);
        let call = call(0x03, &sets);
        if count <= 2 {
            deep.accepted("256 sets", &call);
        } else {
            deep.write_refused("256 sets", &call, (14, 0));
        }
        listed(deep, &call, 256 * (1 + count));
    }
    let sets = item(0x03, &set(0x03), &item(0x03, &PLAIN, &[]).repeat(31)).repeat(256);
    listed(deep, &call(0x03, &item(0x03, &set(0x03), &sets)), 1 + 256 * 32);
    let most = item(0x03, &PLAIN, &[]).repeat(256);
    let sets = [item(0x03, &set(0x03), &most).repeat(126), item(0x03, &PLAIN, &[])].concat();
    listed(deep, &call(0x03, &sets), 126 * 257 + 1);
}

/// The listing has this many items: just enough room, and one item less.
fn listed(deep: &mut Deep, call: &Call, count: usize) {
    let got = deep.listing(call, 16 * count, 3 * count).answer;
    deep.tally.equal(got, count as u64, || format!("{count} items in all"));
    for (keys, numbers) in [(16 * count - 1, 3 * count), (16 * count, 3 * count - 1)] {
        let got = deep.listing(call, keys, numbers).answer;
        deep.tally.equal(got, 1_015_000, || format!("{keys} bytes and {numbers} numbers for {count} items"));
    }
}
