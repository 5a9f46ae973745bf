//! The deep entries of the crate `probe`, called on slices that lie beside inaccessible pages.
use crate::access;
use crate::call::Call;
use crate::guard::{Area, Side};
use crate::hex::Bytes;
use crate::listed::{counted, Counted, Input, Listed, Lister, Room};
use std::fmt::{self, Debug, Formatter};

// On the side of C a slice is a pointer and a count of elements.
extern "C" {
    fn probe_deep(
        tags: *const u8,
        tags_count: usize,
        group: *const u8,
        group_count: usize,
        output: *mut u8,
        output_count: usize,
    ) -> u64;
    fn probe_deep_listing(
        tags: *const u8,
        tags_count: usize,
        group: *const u8,
        group_count: usize,
        keys: *mut u8,
        keys_count: usize,
        numbers: *mut u32,
        numbers_count: usize,
    ) -> u64;
    fn probe_deep_listing_longer(
        tags: *const u8,
        tags_count: usize,
        group: *const u8,
        group_count: usize,
        keys: *mut u8,
        keys_count: usize,
        numbers: *mut u32,
        numbers_count: usize,
        longer: *mut u64,
    ) -> u64;
}

/// The answer of a deep call, the output slice as the call left it, and whether all else is as it was.
#[derive(Clone, PartialEq, Eq)]
pub struct Written {
    pub answer: u64,
    pub output: Bytes,
    pub rest_unaltered: bool,
}

impl Debug for Written {
    fn fmt(&self, to: &mut Formatter) -> fmt::Result {
        write!(to, "answer {}, output {:?}, rest unaltered: {}", self.answer, self.output, self.rest_unaltered)
    }
}

/// The pages of the areas: tables of a few hundred records, groups and outputs of more than 65,536 bytes, and listings of
/// 32,768 items, as an item has at least two bytes.
const TABLE_PAGES: usize = 4;
const GROUP_PAGES: usize = 32;
const KEY_PAGES: usize = 132;
const NUMBER_PAGES: usize = 100;

pub struct DeepProbe {
    tags: Area,
    group: Area,
    bytes: Area,
    numbers: Area,
    longer: Area,
}

impl DeepProbe {
    pub fn new() -> DeepProbe {
        access::report();
        DeepProbe {
            tags: Area::new(TABLE_PAGES),
            group: Area::new(GROUP_PAGES),
            bytes: Area::new(KEY_PAGES),
            numbers: Area::new(NUMBER_PAGES),
            longer: Area::new(1),
        }
    }

    /// The areas that the slices lie in.
    pub fn areas(&self) -> [&Area; 5] {
        [&self.tags, &self.group, &self.bytes, &self.numbers, &self.longer]
    }

    fn inputs_unaltered(&self, side: Side, call: &Call) -> bool {
        self.tags.unaltered(side, &call.tags) && self.group.unaltered(side, &call.group)
    }

    /// A deep call on an output slice that holds these bytes. The call's pack table and target are not lent.
    pub fn write(&self, side: Side, call: &Call, output: &[u8]) -> Written {
        let tags = (self.tags.place(side, &call.tags).cast_const(), call.tags.len());
        let group = (self.group.place(side, &call.group).cast_const(), call.group.len());
        let out = self.bytes.place(side, output);
        access::note("probe_deep", &[output.len() as u64], &[tags, group]);
        // SAFETY: the pointers and the counts are those of slices of the areas.
        let answer = unsafe { probe_deep(tags.0, tags.1, group.0, group.1, out, output.len()) };
        let (output, margin) = self.bytes.take(side, output.len());
        Written { answer, output: Bytes(output), rest_unaltered: margin && self.inputs_unaltered(side, call) }
    }

    /// A deep listing on slices that hold these bytes and these numbers.
    pub fn listing(&self, side: Side, call: &Call, keys: &[u8], numbers: &[u32]) -> Listed {
        self.listing_by("probe_deep_listing", side, call, keys, numbers, |[tags, group], (keys, numbers)| {
            // SAFETY: the pointers and the counts are those of slices of the areas.
            unsafe { probe_deep_listing(tags.0, tags.1, group.0, group.1, keys.0, keys.1, numbers.0, numbers.1) }
        })
    }

    /// The same, with the number of longer forms, which is this at first.
    pub fn listing_longer(&self, side: Side, call: &Call, keys: &[u8], numbers: &[u32], longer: u64) -> Counted {
        let entry = "probe_deep_listing_longer";
        counted(&self.longer, side, longer, |place| {
            self.listing_by(entry, side, call, keys, numbers, |[tags, group], (keys, numbers)| {
                // SAFETY: the pointers and the counts are those of slices of the areas, the last is that of one number.
                unsafe {
                    probe_deep_listing_longer(
                        tags.0, tags.1, group.0, group.1, keys.0, keys.1, numbers.0, numbers.1, place,
                    )
                }
            })
        })
    }

    /// What an entry leaves of slices that hold these bytes and these numbers.
    fn listing_by(
        &self,
        name: &'static str,
        side: Side,
        call: &Call,
        keys: &[u8],
        numbers: &[u32],
        entry: impl FnOnce([Input; 2], Room) -> u64,
    ) -> Listed {
        let tags = (self.tags.place(side, &call.tags).cast_const(), call.tags.len());
        let group = (self.group.place(side, &call.group).cast_const(), call.group.len());
        let inputs = [tags, group];
        let lister = Lister { name, side, keys: &self.bytes, numbers: &self.numbers };
        let mut listed = lister.list(&inputs, keys, numbers, |room| entry(inputs, room));
        listed.rest_unaltered &= self.inputs_unaltered(side, call);
        listed
    }
}
