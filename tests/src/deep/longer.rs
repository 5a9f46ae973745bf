//! How many items of a deep listing had a longer BER form than needed (02, point 7): a holder's own length counts, and
//! every nested item by the kind of its own set.
use super::build::{call, set, tags, PLAIN};
use crate::compare_deep::Deep;
use crate::generate::nested::{self, item, label, lengths, SETS};
use crate::generate::table::Record;
use crate::generate::wire::{long_ber, longer_ber, shortest_ber};
use crate::hex;
use crate::numbers::Form;

/// Sets in each other with the number of longer forms, written out: tag 07 is a plain item, 11 a set 03, 1B a set 53.
pub fn examples(deep: &mut Deep, _seed: u64) {
    let key = "060E2B34020305010F01010100000000";
    for (group, longer) in [
        ("06 11 04 07 02 ABCD", 0),
        ("07 11 81 04 07 02 ABCD", 1),
        ("07 11 05 07 81 02 ABCD", 1),
        ("08 11 81 05 07 81 02 ABCD", 2),
        ("81 08 11 81 05 07 81 02 ABCD", 2),
        ("0B 11 84 00000005 07 81 02 ABCD", 2),
        ("08 1B 06 0007 0002 8100", 0),
        ("09 1B 81 06 0007 0002 8100", 1),
        ("0D 1B 0B 0011 0007 07 81 01 AB 07 01 AB", 1),
        ("0B 11 81 08 11 81 05 11 81 02 07 00", 3),
    ] {
        let call = nested::call(tags(), hex::bytes(&format!("{key} {group}")));
        deep.longer_is("an example", &call, Ok(longer));
    }
}

/// An item of a set with this byte 6, its BER length in one byte more than needed where that is asked for.
pub fn item_of(byte: u8, record: &Record, value: &[u8], longer: bool) -> Vec<u8> {
    if longer && lengths(byte) == Form::Ber {
        [&label(byte, record)[..], &longer_ber(value.len() as u64), value].concat()
    } else {
        item(byte, record, value)
    }
}

/// What stands in the first of these sets, each of which holds a plain item and the next set, and how many items in it are
/// longer than needed. Bit 2n asks for a longer plain item of the n-th set, bit 2n + 1 for a longer holder in it.
fn nest(sets: &[u8], chosen: u64) -> (Vec<u8>, u64) {
    let mut contents = Vec::new();
    let mut longer = 0;
    for (n, byte) in sets.iter().enumerate().rev() {
        let [plain, holder] = [2 * n, 2 * n + 1].map(|bit| chosen >> bit & 1 == 1);
        let counts = |asked: bool| u64::from(asked && lengths(*byte) == Form::Ber);
        let first = item_of(*byte, &PLAIN, &[0xAB; 3], plain);
        longer += counts(plain);
        contents = match sets.get(n + 1) {
            Some(next) => {
                longer += counts(holder);
                [first, item_of(*byte, &set(*next), &contents, holder)].concat()
            }
            None => first,
        };
    }
    (contents, longer)
}

fn nested(deep: &mut Deep, sets: &[u8], chosen: u64) {
    let (contents, longer) = nest(sets, chosen);
    deep.longer_is(&format!("{sets:02X?}, items {chosen:08b}"), &call(sets[0], &contents), Ok(longer));
}

/// Plain items longer, holders longer, both, neither.
const PLAIN_ITEMS: u64 = 0b0101_0101;
const HOLDERS: u64 = 0b1010_1010;
const SORTS: [u64; 4] = [PLAIN_ITEMS, HOLDERS, PLAIN_ITEMS | HOLDERS, 0];

/// Sets of one kind at depths 1 to 4.
pub fn depths(deep: &mut Deep, _seed: u64) {
    for byte in SETS {
        for depth in 1..=4 {
            for chosen in SORTS {
                nested(deep, &vec![byte; depth], chosen);
            }
        }
    }
}

/// Every choice of the seven items of four sets.
pub fn choices(deep: &mut Deep, _seed: u64) {
    let sets = [
        [0x01; 4],
        [0x03, 0x0B, 0x13, 0x1B],
        [0x01, 0x53, 0x01, 0x53],
        [0x53, 0x01, 0x53, 0x03],
        [0x7B, 0x03, 0x63, 0x01],
        [0x23, 0x2B, 0x43, 0x6B],
    ];
    for sets in sets {
        for chosen in 0..1 << 7 {
            nested(deep, &sets, chosen);
        }
    }
}

/// Every set in every set, twice over: fixed lengths in BER lengths and the reverse.
pub fn kinds(deep: &mut Deep, _seed: u64) {
    for outermost in SETS {
        for byte in SETS {
            for chosen in SORTS {
                nested(deep, &[outermost, byte, outermost, byte], chosen);
            }
        }
    }
}

/// A holder and a nested item, the length of each in every form of 1 to 9 bytes that holds it.
pub fn widths(deep: &mut Deep, _seed: u64) {
    for byte in [0x01, 0x03, 0x0B, 0x13, 0x1B] {
        for length in [0, 1, 127, 128, 255, 256] {
            let value = vec![0xAB; length];
            for inner in forms(length) {
                let items = [&label(byte, &PLAIN)[..], &inner, &value].concat();
                for outer in forms(items.len()) {
                    let holder = [&label(byte, &set(byte))[..], &outer, &items].concat();
                    let longer = [(&inner, length), (&outer, items.len())]
                        .map(|(form, length)| u64::from(form.len() > shortest_ber(length as u64).len()));
                    deep.longer_is("widths", &call(byte, &holder), Ok(longer[0] + longer[1]));
                }
            }
        }
    }
}

/// Every form of a length: the shortest, and those of more bytes.
fn forms(length: usize) -> Vec<Vec<u8>> {
    let shortest = shortest_ber(length as u64);
    let longer = (shortest.len()..=8).map(|count| long_ber(length as u64, count));
    [shortest.clone()].into_iter().chain(longer).collect()
}
