//! How often each outcome, each refusal and each pair of group bytes must be seen.
use crate::compare::{Compare, Outcomes, FORMS};
use crate::compare_calls::Calls;
use crate::compare_deep::Deep;
use crate::compare_feed::Feeds;
use crate::compare_jobs::{Jobs, Printed};
use crate::groups::MOST_FEED;
use crate::seen::{Seen, NUMBERS};

/// How often each outcome of the key and length layer must be seen.
const OUTCOMES: u64 = 1_000;

/// How many listings must give no longer form, one, and more.
const LONGER: u64 = 500;

/// How often each refusal must be seen.
const REFUSALS: u64 = 100;

/// How often each sort of chain must be seen.
const CHAINS: u64 = 500;

/// How many calls with measured elements must be accepted, refused with 9, and with 13.
const MEASURED: u64 = 1_000;

/// How many regrouping calls there must be.
const CALLS: u64 = 200_000;

/// How many jobs must be accepted, and how often each refusal must be printed.
const ACCEPTED_JOBS: u64 = 500;
const PRINTED: u64 = 10;

/// The refusals of each call; the listing has no target and writes no group.
const OF_REGROUP: [usize; 17] = [1, 2, 3, 4, 5, 6, 7, 8, 9, 10, 11, 12, 13, 14, 15, 19, 20];
const OF_LISTING: [usize; 12] = [1, 2, 4, 5, 7, 8, 9, 10, 11, 15, 19, 20];

/// The refusals of jobs, and those that are never printed: no job file has room for a group of more than 65,536 bytes,
/// and the program's output slice is never too short.
const OF_JOBS: [usize; 16] = [1, 2, 3, 5, 6, 7, 8, 9, 10, 11, 12, 13, 14, 16, 19, 20];
const NEVER_PRINTED: [usize; 2] = [4, 15];

/// The refusals of the deep operations; the listing never gives 14.
const OF_DEEP: [usize; 13] = [1, 4, 5, 7, 8, 9, 10, 14, 15, 17, 18, 19, 20];
const NEVER_DEEP: [usize; 7] = [2, 3, 6, 11, 12, 13, 16];

/// How often each set must be opened in each, and how many items a deep listing must have had.
const OPENED: u64 = 20;
const MOST_LISTED: usize = 30_000;

/// The refusals of feeds; those of source triplets, and those that never come to them: the tables, the target and the
/// source key are tested before, a triplet has the right outer length, and the slice is long enough.
const OF_FEED: [usize; 6] = [1, 2, 3, 5, 15, 21];
const OF_TRIPLETS: [usize; 11] = [4, 6, 8, 9, 10, 11, 12, 13, 14, 19, 20];

/// How often each refusal of triplets must be seen; triplets of 65,536 bytes are few.
const TRIPLETS: u64 = 20;

/// How many accepted feeds must have all three counts above 0.
const MIXED: u64 = 1_000;

/// Every outcome that a form has was seen often enough.
pub fn outcomes(compare: &mut Compare) {
    let Outcomes { keys, no_keys, values, missing, malformed, written, too_large, no_room, shortest, longer } =
        compare.outcomes;
    println!("seen: {keys} keys, {no_keys} that are none");
    println!("seen: {shortest} BER lengths in the fewest bytes, {longer} longer ones");
    let mut enough = [keys, no_keys, shortest, longer].into_iter().all(|count| count >= OUTCOMES);
    for form in FORMS {
        let i = form as usize;
        println!(
            "seen, form {form}: {} values, {} missing, {} malformed; {} written, {} too large, {} without room",
            values[i], missing[i], malformed[i], written[i], too_large[i], no_room[i]
        );
        let can_be_malformed = form <= 1;
        let can_be_too_large = form >= 1;
        enough &= values[i] >= OUTCOMES && missing[i] >= OUTCOMES && written[i] >= OUTCOMES && no_room[i] >= OUTCOMES;
        enough &= (malformed[i] >= OUTCOMES) == can_be_malformed && (too_large[i] >= OUTCOMES) == can_be_too_large;
    }
    compare.equal(enough, true, || "every outcome is seen often enough".to_string());
}

/// There were enough calls, every refusal was seen often enough, and every pair of group bytes was accepted.
pub fn seen(compare: &mut Calls) {
    let seen = &compare.seen;
    println!("seen: {} regrouping calls, {} accepted", seen.regroup_calls, seen.accepted);
    println!("seen: {} listing calls, {} accepted", seen.listing_calls, seen.listed);
    println!("seen: {:?} of them with no longer form, one and more", seen.longer);
    println!("seen: refusals by number (regrouping, listing)");
    for number in OF_REGROUP {
        println!("{number:>9}: {:>7} {:>7}", seen.refused[number], seen.listing_refused[number]);
    }
    let accepted = seen.accepted_pairs();
    let least = seen.pairs.iter().flatten().min().copied().unwrap_or(0);
    println!("seen: {accepted} of 676 pairs of group bytes accepted, each {least} times or more");
    let Seen { chains, chain_calls, direct, two_families, two_chains, .. } = *seen;
    println!(
        "seen: {chains} chains with {chain_calls} accepted calls, {two_chains} pairs of them with one last target"
    );
    println!("seen: {direct} direct calls of one family, {two_families} of two");
    println!("seen: {:?} calls with measured elements accepted, refused with 9 and with 13", seen.measured);
    let measured = seen.measured.iter().all(|count| *count >= MEASURED);
    let fewest = [chains, chain_calls, direct, two_families, two_chains].into_iter().min();
    let rare = |counts: &[u64; NUMBERS], numbers: &[usize]| -> Vec<usize> {
        numbers.iter().copied().filter(|number| counts[*number] < REFUSALS).collect()
    };
    let rare = [rare(&seen.refused, &OF_REGROUP), rare(&seen.listing_refused, &OF_LISTING)];
    let enough = seen.regroup_calls >= CALLS;
    let longer = seen.longer.iter().all(|count| *count >= LONGER);
    compare.tally.equal(fewest >= Some(CHAINS), true, || "chains of every sort".to_string());
    compare.tally.equal(enough, true, || format!("{CALLS} regrouping calls"));
    compare.tally.equal(measured, true, || "calls with measured elements".to_string());
    compare.tally.equal(longer, true, || "listings with no longer form, one and more".to_string());
    compare.tally.equal(rare, [vec![], vec![]], || "refusals that were seen too seldom".to_string());
    compare.tally.equal(accepted, 676, || "pairs of group bytes accepted".to_string());
}

/// Enough jobs were accepted, and every refusal was printed often enough, but for those that never are.
pub fn printed(compare: &mut Jobs) {
    let Printed { accepted, refused, longest } = compare.printed;
    println!("seen: {accepted} jobs accepted; the longest text has {longest} bytes");
    println!("seen: refusals by number, as printed");
    for number in OF_JOBS {
        println!("{number:>9}: {:>7}", refused[number]);
    }
    let rare: Vec<usize> = OF_JOBS.into_iter().filter(|number| refused[*number] < PRINTED).collect();
    compare.tally.equal(accepted >= ACCEPTED_JOBS, true, || format!("{ACCEPTED_JOBS} jobs accepted"));
    compare.tally.equal(rare, vec![], || "refusals that were printed too seldom".to_string());
    compare.tally.equal(NEVER_PRINTED.map(|number| refused[number]), [0, 0], || "4 and 15 printed".to_string());
}

/// Every refusal of the deep operations was seen often enough and no other, and every set was opened in every set.
pub fn opened(compare: &mut Deep) {
    let seen = &compare.seen;
    println!(
        "seen: {} deep calls accepted, {} deep listings, of up to {} items",
        seen.accepted, seen.listed, seen.most
    );
    println!("seen: {:?} deep listings with no longer form, one and more", seen.longer);
    println!("seen: {:?} items at depths 1 to 4", &seen.depths[1..]);
    println!("seen: refusals by number (writing, listing)");
    for number in OF_DEEP {
        println!("{number:>9}: {:>7} {:>7}", seen.refused[number], seen.listing_refused[number]);
    }
    let least = seen.pairs.iter().flatten().min().copied().unwrap_or(0);
    println!("seen: every set opened in every set, each {least} times or more");
    let rare = |counts: &[u64; NUMBERS]| OF_DEEP.iter().filter(|number| counts[**number] < REFUSALS).count();
    let never = |counts: &[u64; NUMBERS]| NEVER_DEEP.iter().map(|number| counts[*number]).sum::<u64>();
    let found = [&seen.refused, &seen.listing_refused].map(|counts| (rare(counts), never(counts)));
    let long = seen.most >= MOST_LISTED && seen.depths[1..].iter().all(|count| *count >= OUTCOMES);
    let no_14 = seen.listing_refused[14] == 0;
    let longer = seen.longer.iter().all(|count| *count >= LONGER);
    compare.tally.equal(found, [(0, 0), (1, 0)], || "refusals seen too seldom, and those that never come".to_string());
    compare.tally.equal(longer, true, || "deep listings with no longer form, one and more".to_string());
    compare.tally.equal([long, no_14], [true; 2], || "long and deep listings, and no 14".to_string());
    compare.tally.equal(least >= OPENED, true, || "every set opened in every set".to_string());
}

/// Every refusal of feeds and of triplets was seen often enough and no other, and every pair of group bytes was regrouped.
pub fn fed(compare: &mut Feeds) {
    let seen = &compare.seen;
    let [regrouped, refused, others] = seen.triplets;
    println!("seen: {} feeds accepted, {} of them with all three counts", seen.accepted, seen.mixed);
    println!("seen: triplets {regrouped} regrouped, {refused} refused, {others} others");
    println!("seen: the longest feed has {} bytes, the longest output {}", seen.longest[0], seen.longest[1]);
    println!("seen: refusals by number (feeds, triplets)");
    for number in 1..NUMBERS {
        println!("{number:>9}: {:>7} {:>7}", seen.refused[number], seen.reasons[number]);
    }
    let least = seen.pairs.iter().flatten().min().copied().unwrap_or(0);
    println!("seen: every pair of group bytes regrouped, each {least} times or more");
    let wrong = |counts: &[u64; NUMBERS], given: &[usize], least: u64| -> Vec<usize> {
        let right = |number: usize| match given.contains(&number) {
            true => counts[number] >= least,
            false => counts[number] == 0,
        };
        (1..NUMBERS).filter(|number| !right(*number)).collect()
    };
    let wrong = [wrong(&seen.refused, &OF_FEED, REFUSALS), wrong(&seen.reasons, &OF_TRIPLETS, TRIPLETS)];
    let enough = [seen.mixed >= MIXED, least >= 1, seen.longest[0] == MOST_FEED];
    compare.tally.equal(wrong, [vec![], vec![]], || "refusals seen too seldom, and those that never come".to_string());
    compare.tally.equal(enough, [true; 3], || "feeds of all sorts, every pair of group bytes, 1 MiB".to_string());
}
