//! The feed (02, point 4): a first pass over all triplets splits and measures, a second one writes. The index of the tag
//! table and the list of items are made once and serve all triplets; no memory grows with the feed.
mod source;

use super::key::Key;
use super::kind::{kind_of, Kind};
use super::number::{put, Layout};
use super::refusal::{Reason, Refusal};
use super::tables::{Packs, Tags};
use source::Source;
use std::ops::Range;

/// The most bytes of a feed.
const MOST_BYTES: usize = 1_048_576;
/// A feed that is too long, or that is no run of whole triplets.
const FEED: u64 = 21;

/// What a host receives: the output's length, how many triplets were regrouped, refused and others, the refusal's number
/// and its place.
pub type Numbers = [u64; 6];

/// A refusal of the whole feed.
struct Fault {
    number: u64,
    place: usize,
}

impl From<Refusal> for Fault {
    fn from(refusal: Refusal) -> Fault {
        Fault { number: refusal.reason as u64, place: refusal.place.into() }
    }
}

/// Writes all six numbers, whatever the answer.
#[inline(never)]
pub fn answer(
    tags: &[u8],
    packs: &[u8],
    source: &[u8],
    target: &[u8],
    feed: &[u8],
    output: &mut [u8],
    numbers: &mut Numbers,
) {
    *numbers = match regroup(tags, packs, source, target, feed, output) {
        Ok(Measured { length, count, regrouped, refused, .. }) => {
            [length, regrouped, refused, count - regrouped - refused, 0, 0].map(|number| number as u64)
        }
        Err(fault) => [0, 0, 0, 0, fault.number, fault.place as u64],
    };
}

/// Every refusal in its order, then the output.
fn regroup(
    tags: &[u8],
    packs: &[u8],
    source: &[u8],
    target: &[u8],
    feed: &[u8],
    output: &mut [u8],
) -> Result<Measured, Fault> {
    let mut index = None;
    let tags = Tags::of(tags, &mut index).ok_or(Reason::TagTable.whole())?;
    let packs = Packs::of(packs).ok_or(Reason::PackTable.whole())?;
    let target = group(target).ok_or(Reason::Target.whole())?;
    let source = group(source).ok_or(Reason::GroupKey.whole())?;
    if feed.len() > MOST_BYTES {
        return Err(Fault { number: FEED, place: 0 });
    }
    let mut source = Source::of(source, target, tags, packs);
    let measured = measure(feed, &mut source)?;
    let out = output.get_mut(..measured.length).ok_or(Reason::ShortSlice.whole())?;
    write(feed, &measured.span, &mut source, out);
    Ok(measured)
}

/// A group's key and kind.
fn group(bytes: &[u8]) -> Option<(Key, Kind)> {
    let key = Key::of(bytes.try_into().ok()?);
    kind_of(key).map(|kind| (key, kind))
}

/// A triplet: where its key, its value and the next triplet stand in the feed.
#[derive(Clone, Copy)]
struct Triplet {
    at: usize,
    value: usize,
    end: usize,
}

impl Triplet {
    /// The triplet at a position, if it is whole. Its length stands after its key, which therefore is not cut off.
    #[inline(always)]
    fn at(feed: &[u8], at: usize) -> Option<Triplet> {
        let (length, value) = Layout::Ber.read(feed, at + 16)?;
        let fits = length <= (feed.len() - value) as u64;
        fits.then(|| Triplet { at, value, end: value + length as usize })
    }
}

/// What the first pass finds: the output's length, how many triplets there are, how many of the source's were regrouped
/// and refused, and the part of the feed from the first regrouped one to the last.
struct Measured {
    length: usize,
    count: usize,
    regrouped: usize,
    refused: usize,
    span: Range<usize>,
}

/// The first pass. The output is as long as the feed but for the triplets that are regrouped.
fn measure(feed: &[u8], source: &mut Source) -> Result<Measured, Fault> {
    let [mut count, mut regrouped, mut refused, mut less, mut more] = [0; 5];
    let (mut span, mut at) = (0..0, 0);
    while at < feed.len() {
        let triplet = Triplet::at(feed, at).ok_or(Fault { number: FEED, place: count })?;
        if source.has(feed, triplet) {
            if let Some(group) = source.measure(feed, triplet) {
                span = if regrouped == 0 { at..triplet.end } else { span.start..triplet.end };
                regrouped += 1;
                less += triplet.end - at;
                more += group.length;
            } else {
                refused += 1;
            }
        }
        count += 1;
        at = triplet.end;
    }
    Ok(Measured { length: feed.len() - less + more, count, regrouped, refused, span })
}

/// The second pass, over a slice of the output's length. What goes out unaltered is copied in runs, and outside the span
/// no triplet is looked at.
fn write(feed: &[u8], span: &Range<usize>, source: &mut Source, out: &mut [u8]) {
    let (mut at, mut to, mut copied) = (span.start, 0, 0);
    while at < span.end {
        let Some(triplet) = Triplet::at(feed, at) else {
            break;
        };
        if source.has(feed, triplet) {
            if let Some(group) = source.measure(feed, triplet) {
                if copied < at {
                    to = put(out, to, &feed[copied..at]);
                }
                source.write(&group, feed, &mut out[to..]);
                to += group.length;
                copied = triplet.end;
            }
        }
        at = triplet.end;
    }
    put(out, to, &feed[copied..]);
}
