//! Tags of local sets at the borders of their forms.
use crate::call::Call;
use crate::compare_calls::Calls;
use crate::generate::table::{self, BORDERS};
use crate::generate::wire::{enclose, tag_bytes};
use crate::generate::{key, room, set};
use crate::groups::kind::{Sort, SORTS};
use crate::groups::Key;
use crate::numbers::Form;
use crate::random::Random;

/// Two forms of tags: one of the input, one of the output.
pub fn all(calls: &mut Calls, seed: u64) {
    let mut random = Random::new(seed ^ 0x50);
    for (source, sort, _) in SORTS {
        let Sort::Local(form) = sort else {
            continue;
        };
        for target in [0x01, 0x03, 0x0B, 0x13, 0x1B] {
            let keys = set::keys(&mut random, source, target);
            for tag in BORDERS {
                border(calls, &mut random, &keys, form, tag);
            }
        }
        let keys = set::keys(&mut random, source, 0x01);
        for label in odd_labels() {
            labelled(calls, &mut random, &keys, &label, 128);
        }
    }
}

/// A tag, the one before it and the one after it, of which the table lists the first.
fn border(calls: &mut Calls, random: &mut Random, keys: &set::Keys, form: Form, tag: u32) {
    for near in [tag, tag.wrapping_add(1), tag.wrapping_sub(1)] {
        labelled(calls, random, keys, &tag_bytes(form, u64::from(near)), tag);
    }
}

/// Labels that are cut off, begin with 80, or go on for too long.
fn odd_labels() -> Vec<Vec<u8>> {
    let firsts = [0x00, 0x01, 0x7F, 0x80, 0x81, 0xFF];
    let mut labels: Vec<Vec<u8>> = vec![Vec::new()];
    for length in 1..=5 {
        for first in firsts {
            for next in firsts {
                let mut label = vec![next; length];
                label[0] = first;
                labels.push(label.clone());
                label[length - 1] = 0x00;
                labels.push(label);
            }
        }
    }
    labels
}

/// Groups that hold this label alone, or this label and a value of one byte.
fn labelled(calls: &mut Calls, random: &mut Random, keys: &set::Keys, label: &[u8], tag: u32) {
    let item: Key = key::any(random);
    let length: &[u8] = match keys.source[5] & 0x60 {
        0x00 | 0x20 => &[1],
        0x40 => &[0, 1],
        _ => &[0, 0, 0, 1],
    };
    for contents in [label.to_vec(), [label, length, &[0xAB]].concat()] {
        let call = Call {
            tags: table::bytes(&[(tag, item)]),
            packs: Vec::new(),
            target: keys.target.to_vec(),
            group: enclose(&keys.source, &contents),
        };
        let output = room::output(random, &call);
        let _ = calls.regroup(&call, output);
    }
}
