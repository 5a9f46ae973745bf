//! The playout feed (02, point 4): every triplet with the source key is regrouped where the plain call does so; all others
//! go out as they came.
use super::image::{images, Image, Sort};
use super::kind::Group;
use super::refusal::{Reason, Refusal};
use super::regroup::put;
use super::tables::Tables;
use super::triplets::{self, Triplet};
use super::{family, outer, Key, MOST_BYTES, MOST_FEED};
use crate::fault::{planted, Fault};
use crate::feed_call::FeedCall;

/// The host's six numbers, and why the refused triplets were refused.
pub struct Answer {
    pub numbers: [u64; 6],
    pub refusals: Vec<Refusal>,
}

/// Writes the joined image of the triplets to the start of the output. A refusal leaves the output as it was.
pub fn feed(call: &FeedCall, output: &mut [u8]) -> Answer {
    let images = read(call, output.len()).map(|triplets| images(call, &triplets, output.len()));
    let needed = images.as_ref().map_or(0, |images| length(images));
    let counts = images.as_ref().map_or([0; 3], |images| counts(images));
    let refusals =
        images.as_ref().map_or(Vec::new(), |images| images.iter().filter_map(|image| image.refusal).collect());
    let written = images.and_then(|images| joined(&images, output.len()));
    Answer { numbers: host_numbers(put(written, output), needed, counts), refusals }
}

/// The length of the output, where the feed is accepted with a slice that is long enough.
pub fn output_length(call: &FeedCall) -> Option<usize> {
    let triplets = read(call, usize::MAX).ok()?;
    Some(length(&images(call, &triplets, usize::MAX)))
}

/// Output length, regrouped, refused, others, the refusal's number and its place; what does not apply is 0.
fn host_numbers(result: Result<usize, Refusal>, needed: usize, counts: [u64; 3]) -> [u64; 6] {
    let mut numbers = [0; 6];
    match result {
        Ok(length) => numbers[0] = length as u64,
        Err(refusal) => numbers[4..].copy_from_slice(&[refusal.number(), refusal.place as u64]),
    }
    if result.is_ok() || planted(Fault::CountsKeptOnRefusal) {
        numbers[1..4].copy_from_slice(&counts);
    }
    if result.is_err() && planted(Fault::LengthKeptOnRefusal) {
        numbers[0] = needed as u64;
    }
    if result.is_ok() && planted(Fault::PlaceKeptOnAcceptance) {
        numbers[5] = counts.iter().sum();
    }
    if planted(Fault::RegroupedAndOthersExchanged) {
        numbers.swap(1, 3);
    }
    numbers
}

/// The triplets, or refusal 1, 2, 3, 5 or 21. The room is looked at only while a fault is planted.
fn read(call: &FeedCall, room: usize) -> Result<Vec<Triplet<'_>>, Refusal> {
    if planted(Fault::FeedBeforeTables) {
        within_size(&call.feed)?;
    }
    Tables::read(&call.tags, &call.packs)?;
    if planted(Fault::SourceBeforeTarget) {
        source(&call.source)?;
    }
    let target = outer::target(&call.target)?;
    if planted(Fault::FeedBeforeSource) {
        triplets_of(call, room)?;
    }
    let source = source(&call.source)?;
    let families = Group::of_key(&source).is_some_and(|source| !family::same(&source, &target));
    if families && planted(Fault::FamilyRefusesFeed) {
        return Err(Refusal::whole(Reason::Family));
    }
    triplets_of(call, room)
}

/// The source key: just sixteen bytes, the key of a group.
fn source(bytes: &[u8]) -> Result<Key, Refusal> {
    let key: Option<&Key> = if planted(Fault::LongSourceIsCut) { bytes.first_chunk() } else { bytes.try_into().ok() };
    let group = |key: &&Key| Group::of_key(key).is_some() || planted(Fault::SourceMayBeNoGroup);
    key.filter(group).copied().ok_or(Refusal::whole(Reason::GroupKey))
}

/// A feed has at most 1 MiB.
fn within_size(feed: &[u8]) -> Result<(), Refusal> {
    let most = MOST_FEED - usize::from(planted(Fault::FeedOneByteLess)) + usize::from(planted(Fault::FeedOneByteMore));
    if feed.len() > MOST_BYTES && planted(Fault::FeedBoundAsGroup) {
        return Err(Refusal::whole(Reason::Oversize));
    }
    if feed.len() > most || feed.is_empty() && planted(Fault::EmptyFeedRefused) {
        return Err(Refusal::whole(Reason::Feed));
    }
    Ok(())
}

/// All triplets of the feed; the first bad one refuses it, at its index.
fn triplets_of(call: &FeedCall, room: usize) -> Result<Vec<Triplet<'_>>, Refusal> {
    if !planted(Fault::SizeAfterTriplets) {
        within_size(&call.feed)?;
    }
    let (triplets, left) = triplets::read(&call.feed);
    if planted(Fault::ShortSliceBeforeFeed) {
        joined(&images(call, &triplets, room), room)?;
    }
    if !left.is_empty() && !planted(Fault::BadTripletDropped) {
        return Err(Refusal::at(index(&triplets, call.feed.len() - left.len()), Reason::Feed));
    }
    within_size(&call.feed)?;
    Ok(triplets)
}

/// The index of the first bad triplet, which comes after these and begins at this offset.
fn index(triplets: &[Triplet], offset: usize) -> usize {
    let count = triplets.len();
    match () {
        () if planted(Fault::IndexIsZero) => 0,
        () if planted(Fault::IndexIsOffset) => offset,
        () if planted(Fault::IndexOfOneByte) => count % 256,
        () => count,
    }
}

/// How many triplets were regrouped, refused, and others.
fn counts(images: &[Image]) -> [u64; 3] {
    let count = |sort: Sort| images.iter().filter(|image| image.sort == sort).count() as u64;
    [Sort::Regrouped, Sort::Refused, Sort::Other].map(count)
}

fn length(images: &[Image]) -> usize {
    images.iter().map(|image| image.bytes.len()).sum()
}

/// The joined image of the triplets, where the slice has room for it. Nothing else bounds it.
fn joined(images: &[Image], room: usize) -> Result<Vec<u8>, Refusal> {
    let length = length(images);
    if length > MOST_BYTES && planted(Fault::OutputBoundAsGroup) {
        return Err(Refusal::whole(Reason::LongOutput));
    }
    let refusal = images.iter().find_map(|image| image.refusal);
    if let Some(refusal) = refusal.filter(|_| planted(Fault::RefusedTripletRefusesFeed)) {
        return Err(refusal);
    }
    if length > room {
        return Err(Refusal::whole(Reason::ShortSlice));
    }
    Ok(images.iter().flat_map(|image| image.bytes.iter()).copied().collect())
}
