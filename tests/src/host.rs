//! The entries of the crate `perlenhuf`, and the listing of the crate `probe` that also gives the number of longer forms,
//! called on slices that lie beside inaccessible pages.
use crate::access;
use crate::call::Call;
use crate::guard::{Area, Side};
use crate::hex::Bytes;
use crate::listed::{counted, Counted, Input, Listed, Lister, Room};
use std::fmt::{self, Debug, Formatter};

// On the side of C a slice is a pointer and a count of elements.
extern "C" {
    fn perlenhuf_regroup(
        tag_table: *const u8,
        tag_table_len: usize,
        pack_table: *const u8,
        pack_table_len: usize,
        target: *const u8,
        target_len: usize,
        group: *const u8,
        group_len: usize,
        output: *mut u8,
        output_len: usize,
    ) -> u64;
    fn perlenhuf_listing(
        tag_table: *const u8,
        tag_table_len: usize,
        pack_table: *const u8,
        pack_table_len: usize,
        group: *const u8,
        group_len: usize,
        keys: *mut u8,
        keys_len: usize,
        numbers: *mut u32,
        numbers_len: usize,
    ) -> u64;
    fn probe_listing_longer(
        tags: *const u8,
        tags_count: usize,
        packs: *const u8,
        packs_count: usize,
        group: *const u8,
        group_count: usize,
        keys: *mut u8,
        keys_count: usize,
        numbers: *mut u32,
        numbers_count: usize,
        longer: *mut u64,
    ) -> u64;
}

/// The answer of a regrouping call, the output slice as the call left it, and whether all else is as it was.
#[derive(Clone, PartialEq, Eq)]
pub struct Regrouped {
    pub answer: u64,
    pub output: Bytes,
    pub rest_unaltered: bool,
}

impl Debug for Regrouped {
    fn fmt(&self, to: &mut Formatter) -> fmt::Result {
        write!(to, "answer {}, output {:?}, rest unaltered: {}", self.answer, self.output, self.rest_unaltered)
    }
}

/// The pages of the areas: tables of a few hundred records, groups and outputs of more than 65,536 bytes.
const TABLE_PAGES: usize = 4;
const GROUP_PAGES: usize = 32;

pub struct Host {
    tags: Area,
    packs: Area,
    target: Area,
    group: Area,
    bytes: Area,
    numbers: Area,
    longer: Area,
}

impl Host {
    pub fn new() -> Host {
        access::report();
        Host {
            tags: Area::new(TABLE_PAGES),
            packs: Area::new(TABLE_PAGES),
            target: Area::new(1),
            group: Area::new(GROUP_PAGES),
            bytes: Area::new(GROUP_PAGES),
            numbers: Area::new(TABLE_PAGES),
            longer: Area::new(1),
        }
    }

    /// The areas that the slices lie in.
    pub fn areas(&self) -> [&Area; 7] {
        [&self.tags, &self.packs, &self.target, &self.group, &self.bytes, &self.numbers, &self.longer]
    }

    fn inputs_unaltered(&self, side: Side, call: &Call) -> bool {
        self.tags.unaltered(side, &call.tags)
            && self.packs.unaltered(side, &call.packs)
            && self.group.unaltered(side, &call.group)
    }

    /// A regrouping call on an output slice that holds these bytes.
    pub fn regroup(&self, side: Side, call: &Call, output: &[u8]) -> Regrouped {
        let tags = (self.tags.place(side, &call.tags).cast_const(), call.tags.len());
        let packs = (self.packs.place(side, &call.packs).cast_const(), call.packs.len());
        let target = (self.target.place(side, &call.target).cast_const(), call.target.len());
        let group = (self.group.place(side, &call.group).cast_const(), call.group.len());
        let out = self.bytes.place(side, output);
        access::note("perlenhuf_regroup", &[output.len() as u64], &[tags, packs, target, group]);
        // SAFETY: the pointers and the counts are those of slices of the areas.
        let answer = unsafe {
            perlenhuf_regroup(tags.0, tags.1, packs.0, packs.1, target.0, target.1, group.0, group.1, out, output.len())
        };
        let (output, margin) = self.bytes.take(side, output.len());
        let target_unaltered = self.target.unaltered(side, &call.target);
        let rest_unaltered = margin && target_unaltered && self.inputs_unaltered(side, call);
        Regrouped { answer, output: Bytes(output), rest_unaltered }
    }

    /// A listing call on slices that hold these bytes and these numbers. The call's target is not lent.
    pub fn listing(&self, side: Side, call: &Call, keys: &[u8], numbers: &[u32]) -> Listed {
        self.listing_by("perlenhuf_listing", side, call, keys, numbers, |[tags, packs, group], (keys, numbers)| {
            // SAFETY: the pointers and the counts are those of slices of the areas.
            unsafe {
                perlenhuf_listing(
                    tags.0, tags.1, packs.0, packs.1, group.0, group.1, keys.0, keys.1, numbers.0, numbers.1,
                )
            }
        })
    }

    /// The same, with the number of longer forms, which is this at first.
    pub fn listing_longer(&self, side: Side, call: &Call, keys: &[u8], numbers: &[u32], longer: u64) -> Counted {
        let entry = "probe_listing_longer";
        counted(&self.longer, side, longer, |place| {
            self.listing_by(entry, side, call, keys, numbers, |[tags, packs, group], (keys, numbers)| {
                // SAFETY: the pointers and the counts are those of slices of the areas, the last is that of one number.
                unsafe {
                    probe_listing_longer(
                        tags.0, tags.1, packs.0, packs.1, group.0, group.1, keys.0, keys.1, numbers.0, numbers.1, place,
                    )
                }
            })
        })
    }

    /// What an entry leaves of slices that hold these bytes and these numbers.
    fn listing_by(
        &self,
        name: &'static str,
        side: Side,
        call: &Call,
        keys: &[u8],
        numbers: &[u32],
        entry: impl FnOnce([Input; 3], Room) -> u64,
    ) -> Listed {
        let tags = (self.tags.place(side, &call.tags).cast_const(), call.tags.len());
        let packs = (self.packs.place(side, &call.packs).cast_const(), call.packs.len());
        let group = (self.group.place(side, &call.group).cast_const(), call.group.len());
        let inputs = [tags, packs, group];
        let lister = Lister { name, side, keys: &self.bytes, numbers: &self.numbers };
        let mut listed = lister.list(&inputs, keys, numbers, |room| entry(inputs, room));
        listed.rest_unaltered &= self.inputs_unaltered(side, call);
        listed
    }
}
