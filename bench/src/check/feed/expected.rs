//! What a call of the feed must tell and write, triplet by triplet, by the archive's plain call.
use crate::archive::regroup;
use crate::baseline::feed::Numbers;
use crate::workload::feed::FeedJob;
use crate::workload::make::triplet_size;
use crate::workload::Job;

const REFUSED: u64 = 1_000_000;
const MOST: usize = 1_048_576;

/// The six numbers, the output, and the plain call's answers to the triplets with the source key.
pub struct Expected {
    pub numbers: Numbers,
    pub output: Vec<u8>,
    pub answers: Vec<u64>,
}

impl Expected {
    fn refused(number: u64, place: usize) -> Expected {
        Expected { numbers: [0, 0, 0, 0, number, place as u64], output: Vec::new(), answers: Vec::new() }
    }
}

pub fn expected(feed: &FeedJob, room: usize) -> Expected {
    if let number @ (1 | 2 | 3 | 5) = before_triplets(feed) {
        return Expected::refused(number, 0);
    }
    if feed.job.group.len() > MOST {
        return Expected::refused(21, 0);
    }
    let expected = joined(feed).unwrap_or_else(|index| Expected::refused(21, index));
    if expected.output.len() > room {
        return Expected::refused(15, 0);
    }
    expected
}

/// The plain call's refusal of an empty group with the source key.
fn before_triplets(feed: &FeedJob) -> u64 {
    let FeedJob { source, job: Job { tags, packs, target, .. } } = feed;
    let group = if source.len() == 16 { [&source[..], &[0x00]].concat() } else { Vec::new() };
    regroup(tags, packs, target, &group, &mut [0; 65_536]).saturating_sub(REFUSED) / 1_000
}

/// The joined images of the triplets; or the index of the first that is not whole.
fn joined(feed: &FeedJob) -> Result<Expected, usize> {
    let FeedJob { source, job: Job { tags, packs, target, group: feed } } = feed;
    let (mut output, mut answers, mut count, mut rest) = (Vec::new(), Vec::new(), 0, &feed[..]);
    let mut slice = vec![0; 65_536];
    while !rest.is_empty() {
        let (triplet, after) = rest.split_at(triplet_size(rest).ok_or(count)?);
        let answer = (triplet[..16] == source[..]).then(|| regroup(tags, packs, target, triplet, &mut slice));
        output.extend(match answer {
            Some(length @ 0..REFUSED) => &slice[..length as usize],
            _ => triplet,
        });
        answers.extend(answer);
        (count, rest) = (count + 1, after);
    }
    let regrouped = answers.iter().filter(|answer| **answer < REFUSED).count();
    let counts = [output.len(), regrouped, answers.len() - regrouped, count - answers.len(), 0, 0];
    Ok(Expected { numbers: counts.map(|count| count as u64), output, answers })
}
