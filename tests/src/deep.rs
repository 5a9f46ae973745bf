//! The batches of comparisons of the deep operations (02, points 1 and 7).
pub mod answers;
pub mod build;
pub mod carried;
pub mod counts;
pub mod depths;
pub mod examples;
pub mod heads;
pub mod lengths;
pub mod longer;
pub mod longer_others;
pub mod longer_refused;
pub mod order;
pub mod random;
pub mod samples;
pub mod sizes;
pub mod slices;
pub mod tables;
pub mod unread;

use crate::batch::{large, small, Batch};
use crate::cases::guards;
use crate::compare_deep::Deep;

pub const BATCHES: [Batch<Deep>; 45] = [
    small("pages around the slices", guards::pages_of_deep),
    small("margins around the slices", guards::margins_of_deep),
    small("worked examples: two levels", examples::two_levels),
    small("worked examples: depth 5", examples::too_deep),
    small("worked examples: values that do not read", examples::unread),
    large("depths 1 to 5 of every set in every set", depths::all),
    small("depths 2 to 5 of sets of all kinds", depths::mixed),
    large("items of a set at depth 4", depths::deepest),
    large("sets beside each other", depths::wide),
    large("255 to 258 items, outside and inside", counts::all),
    small("a 257th item", counts::last),
    large("many items in all", counts::many),
    small("order of the refusals", order::all),
    small("14 and 15 after the others", order::late),
    small("what does not read, outside and inside", unread::all),
    large("groups that stay bytes", carried::groups),
    small("every byte 6 inside", carried::byte_6),
    small("every byte 5 inside", carried::byte_5),
    small("words of several bytes in keys inside", carried::words),
    small("roots of global sets inside", carried::roots),
    small("whole groups as values", carried::whole_groups),
    small("longer lengths inside", lengths::longer),
    small("lengths that get wider", lengths::borders),
    small("longer forms: worked examples", longer::examples),
    small("longer forms: holders and items at depths 1 to 4", longer::depths),
    small("longer forms: every choice of items in four sets", longer::choices),
    large("longer forms: sets of two kinds in each other", longer::kinds),
    large("longer forms: widths 1 to 9", longer::widths),
    small("longer forms: a longer outer length, many items", longer_others::outer_and_many),
    small("longer forms: groups that stay bytes", longer_others::carried),
    small("longer forms: refused listings", longer_refused::all),
    small("longer forms: slices that are too short", longer_refused::short_slices),
    small("keys of the outermost group", heads::keys),
    small("outer lengths", heads::outer_lengths),
    small("inputs of 65,536 bytes and more", heads::sizes),
    large("outputs of 65,536 bytes and one more", sizes::outputs),
    small("lengths of the slices", slices::all),
    small("damaged tag tables", tables::damaged),
    large("changes of one byte of the tag table", tables::changed),
    small("valid tag tables", tables::valid),
    small("random trees, a few", random::few),
    large("random trees", random::all),
    large("changes of one byte of small trees", random::one_byte),
    large("truncations of small trees", random::truncations),
    large("samples", samples::all),
];
