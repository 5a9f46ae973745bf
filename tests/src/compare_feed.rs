//! Compares the feed's C entry with the second implementation.
use crate::batch::Comparison;
use crate::compare_calls::filled;
use crate::fault;
use crate::feed_call::FeedCall;
use crate::groups::feed::{feed, output_length};
use crate::guard::Side;
use crate::host::Host;
use crate::host_feed::{Fed, FeedHost};
use crate::literal::Refused;
use crate::seen_feed::SeenFeed;
use crate::tally::Tally;

/// The room of calls that are refused before 15.
const ROOM: usize = 100;

pub struct Feeds {
    pub feeder: FeedHost,
    /// The plain call and the listing.
    pub host: Host,
    pub tally: Tally,
    pub seen: SeenFeed,
}

impl Comparison for Feeds {
    fn tally(&mut self) -> &mut Tally {
        &mut self.tally
    }
}

impl Feeds {
    /// A quiet comparison prints no mismatch.
    pub fn new(quiet: bool) -> Feeds {
        Feeds { feeder: FeedHost::new(), host: Host::new(), tally: Tally::new(quiet), seen: SeenFeed::new() }
    }

    /// A call with an output slice of this length, at both sides. Gives the six numbers that the entry left at the end of
    /// their pages.
    pub fn feed(&mut self, call: &FeedCall, room: usize) -> [u64; 6] {
        let before = filled(room);
        let mut output = before.clone();
        let answer = feed(call, &mut output);
        self.seen.note(call, &answer);
        let expected = Fed { numbers: answer.numbers, output, rest_unaltered: true };
        let [_, last] = Side::BOTH.map(|side| {
            let got = self.feeder.feed(side, call, &before);
            self.tally.equal(&got, &expected, || format!("feed {} output {room} bytes", call.text()));
            got.numbers
        });
        last
    }

    /// A call with just enough room.
    pub fn whole(&mut self, call: &FeedCall) -> [u64; 6] {
        let room = needed(call).unwrap_or(ROOM);
        self.feed(call, room)
    }

    /// The feed is accepted with these counts, with just enough room.
    pub fn counts(&mut self, name: &str, call: &FeedCall, counts: [u64; 3]) {
        let [_, got @ .., number, place] = self.whole(call);
        self.tally.equal((got, number, place), (counts, 0, 0), || format!("{name}: {}", call.text()));
    }

    /// The output is these bytes, just as long as the slice, with these counts.
    pub fn writes(&mut self, name: &str, call: &FeedCall, output: &[u8], [regrouped, refused, others]: [u64; 3]) {
        let numbers = [output.len() as u64, regrouped, refused, others, 0, 0];
        let expected = Fed { numbers, output: output.to_vec(), rest_unaltered: true };
        let got = self.feeder.feed(Side::End, call, &filled(output.len()));
        self.tally.equal(&got, &expected, || format!("{name}: {}", call.text()));
        self.feed(call, output.len());
    }

    /// The feed is refused so, and the slice is as it was.
    pub fn refused(&mut self, name: &str, call: &FeedCall, refused: Refused) {
        self.refused_in(name, call, ROOM, refused);
    }

    /// The same with a slice of this length.
    pub fn refused_in(&mut self, name: &str, call: &FeedCall, room: usize, (number, place): Refused) {
        let got = self.feed(call, room);
        self.tally.equal(got, [0, 0, 0, 0, number, place], || format!("{name}, {room} bytes: {}", call.text()));
    }
}

/// The length of the output, where the feed is accepted with a slice that is long enough.
pub fn needed(call: &FeedCall) -> Option<usize> {
    fault::without(|| output_length(call))
}
