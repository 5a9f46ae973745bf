//! The batches of comparisons of the feed (02, point 4).
pub mod build;
pub mod cuts;
pub mod examples;
pub mod growth;
pub mod images;
pub mod indices;
pub mod keys;
pub mod lengths;
pub mod order;
pub mod pairs;
pub mod random;
pub mod reasons;
pub mod samples;
pub mod sizes;
pub mod slices;
pub mod sources;
pub mod tables;

use crate::batch::{large, small, Batch};
use crate::cases::guards;
use crate::compare_feed::Feeds;

pub const BATCHES: [Batch<Feeds>; 44] = [
    small("pages around the slices", guards::pages_of_feed),
    small("margins around the slices", guards::margins_of_feed),
    small("worked examples", examples::all),
    small("elements that measure themselves", examples::measured),
    small("the empty feed", examples::empty),
    small("cut off at every byte", cuts::all),
    small("bad lengths", lengths::bad),
    small("lengths that are cut off", lengths::cut_off),
    small("lengths up to the last byte of the feed", lengths::borders),
    small("longer lengths", lengths::longer),
    small("longer lengths of many bytes", lengths::wide),
    small("keys near the source's", sources::near),
    small("keys that are no keys", sources::no_keys),
    small("triplets with the target's key", sources::target),
    small("equal source and target", sources::equal),
    small("two families", sources::families),
    small("source keys that are refused", keys::source),
    small("target keys that are refused", keys::target),
    small("words of several bytes in both keys", keys::words),
    small("every byte 6 of source and target", keys::byte_6),
    small("order of the refusals", order::all),
    small("15 comes last", order::late),
    small("index of the first bad triplet", indices::few),
    large("index of the first bad triplet, up to 61,680", indices::many),
    small("each refusal of a triplet", reasons::all),
    small("each refusal of a triplet between others", reasons::between),
    small("lengths of the slice", slices::all),
    large("every length of the slice", slices::every),
    small("1 MiB and one byte more", sizes::most),
    large("1 MiB of triplets of one sort", sizes::sorts),
    large("more than 1 MiB", sizes::over),
    small("source triplets of 65,536 bytes and one more", sizes::sources),
    large("images of 65,536 bytes and one more", sizes::images),
    small("outputs over 65,536 bytes", sizes::outputs),
    small("256 empty elements", growth::elements),
    large("1 MiB of packs of 256 empty elements", growth::most),
    small("tables of 0, 1, 16 and 256 records", tables::valid),
    small("damaged tables", tables::damaged),
    large("every pair of group bytes", pairs::all),
    small("random feeds, a few", random::few),
    large("random feeds", random::all),
    large("changes of one byte", random::one_byte),
    large("images by the plain call, and fed again", images::all),
    large("samples", samples::all),
];
