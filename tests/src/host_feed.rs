//! The feed's entry of the crate `perlenhuf`, called on slices that lie beside inaccessible pages.
use crate::access;
use crate::feed_call::{shown, FeedCall};
use crate::guard::{Area, Side};
use std::fmt::{self, Debug, Formatter};

// On the side of C a slice is a pointer and a count of elements.
extern "C" {
    fn perlenhuf_feed(
        tag_table: *const u8,
        tag_table_len: usize,
        pack_table: *const u8,
        pack_table_len: usize,
        source: *const u8,
        source_len: usize,
        target: *const u8,
        target_len: usize,
        feed: *const u8,
        feed_len: usize,
        output: *mut u8,
        output_len: usize,
        numbers: *mut u64,
    );
}

/// The six numbers of a call, the output slice as the call left it, and whether all else is as it was.
#[derive(Clone, PartialEq, Eq)]
pub struct Fed {
    pub numbers: [u64; 6],
    pub output: Vec<u8>,
    pub rest_unaltered: bool,
}

impl Debug for Fed {
    fn fmt(&self, to: &mut Formatter) -> fmt::Result {
        let Fed { numbers, output, rest_unaltered } = self;
        write!(to, "numbers {numbers:?}, output {}, rest unaltered: {rest_unaltered}", shown(output))
    }
}

/// What the six numbers are before a call.
const UNSET: [u64; 6] = [0xC0DE_0000_0000_C0DE; 6];

/// The pages of the areas: tables of a few hundred records, feeds of more than 1 MiB, outputs of up to 10 MiB.
const TABLE_PAGES: usize = 4;
const FEED_PAGES: usize = 260;
const OUTPUT_PAGES: usize = 2_560;

pub struct FeedHost {
    tags: Area,
    packs: Area,
    source: Area,
    target: Area,
    feed: Area,
    output: Area,
    numbers: Area,
}

impl FeedHost {
    pub fn new() -> FeedHost {
        access::report();
        FeedHost {
            tags: Area::new(TABLE_PAGES),
            packs: Area::new(TABLE_PAGES),
            source: Area::new(1),
            target: Area::new(1),
            feed: Area::new(FEED_PAGES),
            output: Area::new(OUTPUT_PAGES),
            numbers: Area::new(1),
        }
    }

    /// The areas that the slices lie in.
    pub fn areas(&self) -> [&Area; 7] {
        [&self.tags, &self.packs, &self.source, &self.target, &self.feed, &self.output, &self.numbers]
    }

    fn inputs_unaltered(&self, side: Side, call: &FeedCall) -> bool {
        self.tags.unaltered(side, &call.tags)
            && self.packs.unaltered(side, &call.packs)
            && self.source.unaltered(side, &call.source)
            && self.target.unaltered(side, &call.target)
            && self.feed.unaltered(side, &call.feed)
    }

    /// A call on an output slice that holds these bytes.
    pub fn feed(&self, side: Side, call: &FeedCall, output: &[u8]) -> Fed {
        let place = self.output.place(side, output);
        let (numbers, unaltered) = self.enter(side, call, place, output.len());
        let (output, margin) = self.output.take(side, output.len());
        Fed { numbers, output, rest_unaltered: margin && unaltered }
    }

    /// A call on an output slice that lies elsewhere.
    pub fn feed_into(&self, call: &FeedCall, output: &mut [u8]) -> [u64; 6] {
        self.enter(Side::End, call, output.as_mut_ptr(), output.len()).0
    }

    /// The six numbers, and whether the inputs and what is beside the numbers are as they were.
    fn enter(&self, side: Side, call: &FeedCall, output: *mut u8, output_len: usize) -> ([u64; 6], bool) {
        let tags = (self.tags.place(side, &call.tags).cast_const(), call.tags.len());
        let packs = (self.packs.place(side, &call.packs).cast_const(), call.packs.len());
        let source = (self.source.place(side, &call.source).cast_const(), call.source.len());
        let target = (self.target.place(side, &call.target).cast_const(), call.target.len());
        let feed = (self.feed.place(side, &call.feed).cast_const(), call.feed.len());
        let numbers = self.numbers.place(side, &UNSET);
        access::note("perlenhuf_feed", &[output_len as u64], &[tags, packs, source, target, feed]);
        // SAFETY: the pointers and the counts are those of slices of the areas and of the output, the last is that of six
        // numbers.
        unsafe {
            perlenhuf_feed(
                tags.0, tags.1, packs.0, packs.1, source.0, source.1, target.0, target.1, feed.0, feed.1, output,
                output_len, numbers,
            )
        };
        let (numbers, margin) = self.numbers.take(side, UNSET.len());
        (numbers.try_into().expect("six numbers"), margin && self.inputs_unaltered(side, call))
    }
}
