//! The batches of comparisons of the two C entries, and of the listing with the number of longer forms (02, point 7);
//! `measured` and its like are of 02's point 5.
pub mod chains;
pub mod counts;
pub mod edges;
pub mod elements;
pub mod globals;
pub mod key_places;
pub mod labels;
pub mod lengths;
pub mod literals;
pub mod longer;
pub mod longer_refused;
pub mod measured;
pub mod measured_columns;
pub mod measured_cuts;
pub mod measured_inside;
pub mod measured_refused;
pub mod measured_samples;
pub mod one_byte;
pub mod order;
pub mod packs;
pub mod pairs;
pub mod random;
pub mod samples;
pub mod sizes;
pub mod slices;
pub mod slips;
pub mod tables;
pub mod tags;
pub mod truncations;
pub mod unused;

use crate::batch::{large, small, Batch};
use crate::cases::guards;
use crate::compare_calls::Calls;

pub const BATCHES: [Batch<Calls>; 65] = [
    small("pages around the slices", guards::pages_of_calls),
    small("margins around the slices", guards::margins_of_calls),
    small("edges of 01: the job", edges::job),
    small("edges of 01: lengths", edges::lengths),
    small("edges of 01: BER word tags", edges::word_tags),
    small("edges of 01: global sets", edges::globals),
    small("edges of 01: counts and values", edges::counts_and_values),
    small("edges of 01: sizes", edges::sizes),
    small("slips of 01", slips::all),
    small("order of the refusals", order::all),
    large("keys in their places: every change of one byte", key_places::one_byte_changed),
    large("keys in their places: bytes 5 and 6", key_places::bytes_5_and_6),
    small("labels of universal sets", labels::keys),
    small("labels of global sets", labels::global_tags),
    small("labels of local sets", labels::local_tags),
    small("elements of packs, which have no label", labels::elements),
    small("pairs of group bytes", pairs::all),
    large("0, 1, 255, 256 and 257 items", counts::all),
    large("lengths of values", lengths::values),
    large("lengths that stand in the group", lengths::fields),
    large("longer and malformed BER lengths", lengths::forms),
    small("longer forms: worked examples", longer::examples),
    small("longer forms: a longer outer length", longer::outer_length),
    small("longer forms: every group byte", longer::group_bytes),
    large("longer forms: widths 1 to 9", longer::widths),
    small("longer forms: 0, 1, 255 and 256 items", longer::counts),
    small("longer forms: elements of defined-length packs", longer::defined_packs),
    small("longer forms: refused listings", longer_refused::all),
    small("longer forms: slices that are too short", longer_refused::short_slices),
    large("inputs and outputs around 65,536 bytes", sizes::all),
    large("tags at the borders of their forms", tags::all),
    small("every c and g of global sets", globals::bounds),
    large("global tags", globals::tags),
    small("packs and their records", packs::all),
    small("measured elements: worked examples", measured::examples),
    small("measured elements: every choice among constant ones", measured::choices),
    small("measured elements: to every kind and back", measured::kinds),
    small("measured elements: forms of the length inside", measured_inside::forms),
    small("measured elements: values inside", measured_inside::values),
    small("measured elements: keys inside", measured_inside::keys),
    small("measured elements: 0 to 257", measured_inside::counts),
    small("measured elements: 65,536 bytes and one more", measured_inside::sizes),
    small("measured elements: no key inside", measured_refused::keys),
    small("measured elements: lengths inside that are refused", measured_refused::lengths),
    large("measured elements: every malformed length inside", measured_refused::malformed),
    small("measured elements: cut off at every byte", measured_cuts::cuts),
    small("measured elements: bytes too many", measured_cuts::surplus),
    small("measured elements: places of the refusals", measured_cuts::places),
    small("measured elements: order of the refusals", measured_cuts::order),
    small("measured elements: other lengths are constant", measured_columns::constants),
    small("measured elements: variable-length packs", measured_columns::variable_packs),
    small("measured elements: tables", measured_columns::tables),
    small("tables", tables::all),
    small("tables that are not used", unused::all),
    small("lengths of the slices", slices::all),
    large("truncations", truncations::all),
    large("changes of one byte", one_byte::all),
    small("random calls, a few", random::few),
    large("random calls", random::all),
    small("chains, a few", chains::few),
    large("chains", chains::all),
    large("samples", samples::all),
    large("samples as measured elements", measured_samples::elements),
    large("samples that are packs, with a record of FF FF FF FF", measured_samples::packs),
    large("samples that are packs, with a measured element more", measured_samples::longer_packs),
];
