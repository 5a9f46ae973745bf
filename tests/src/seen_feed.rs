//! What the calls of the feed came to: how often each refusal was given, of feeds and of triplets, and between which group
//! bytes triplets were regrouped.
use crate::feed_call::FeedCall;
use crate::groups::feed::Answer;
use crate::groups::kind::SORTS;
use crate::seen::NUMBERS;

pub struct SeenFeed {
    pub accepted: u64,
    /// Refused feeds, by the refusal's number.
    pub refused: [u64; NUMBERS],
    /// Triplets of accepted feeds: regrouped, refused, others.
    pub triplets: [u64; 3],
    /// Refused triplets, by the number that the plain call gives them.
    pub reasons: [u64; NUMBERS],
    /// Accepted feeds in which all three counts are above 0.
    pub mixed: u64,
    /// Accepted feeds with a regrouped triplet, by the places of source and target in the list of group bytes.
    pub pairs: [[u64; 26]; 26],
    /// The longest feed and the longest output.
    pub longest: [usize; 2],
}

impl SeenFeed {
    pub fn new() -> SeenFeed {
        SeenFeed {
            accepted: 0,
            refused: [0; NUMBERS],
            triplets: [0; 3],
            reasons: [0; NUMBERS],
            mixed: 0,
            pairs: [[0; 26]; 26],
            longest: [0; 2],
        }
    }

    pub fn note(&mut self, call: &FeedCall, answer: &Answer) {
        let [length, counts @ .., number, _] = answer.numbers;
        if number != 0 {
            self.refused[number as usize] += 1;
            return;
        }
        self.accepted += 1;
        for (sum, count) in self.triplets.iter_mut().zip(counts) {
            *sum += count;
        }
        for refusal in &answer.refusals {
            self.reasons[refusal.number() as usize] += 1;
        }
        self.mixed += u64::from(!counts.contains(&0));
        self.longest[0] = self.longest[0].max(call.feed.len());
        self.longest[1] = self.longest[1].max(length as usize);
        if counts[0] > 0 {
            self.pair(call.source[5], call.target[5]);
        }
    }

    fn pair(&mut self, source: u8, target: u8) {
        let place = |byte: u8| SORTS.iter().position(|(group, ..)| *group == byte);
        if let (Some(source), Some(target)) = (place(source), place(target)) {
            self.pairs[source][target] += 1;
        }
    }
}
