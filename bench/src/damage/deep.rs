//! Damage to a call of the deep operations.
use super::*;
use crate::workload::deep::deeper;

const DEEP_DAMAGES: [Damage; 17] = [
    tag_bytes, group_bytes, group_bytes, group_front, group_insert, other_source, swap_records, repeat_key, cut_tables,
    longer_body, short_output, more_items, change_key, other_set, other_record, one_deeper, cut_end,
];

/// None to three damages.
pub fn damaged(random: &mut Random, job: &Job) -> Damaged {
    let mut damaged = Damaged { job: job.clone(), room: 65_536 };
    for _ in 0..random.below(4) {
        random.choose(&DEEP_DAMAGES)(random, &mut damaged);
    }
    damaged
}

/// Byte 6 of a universal set, then of the local sets.
fn set_byte(random: &mut Random) -> u8 {
    let n = random.below(17);
    if n == 0 {
        KINDS[0]
    } else {
        KINDS[4 + n]
    }
}

/// The outermost set becomes one of another kind, if the regrouping call accepts that.
fn other_set(random: &mut Random, damaged: &mut Damaged) {
    let Damaged { job, .. } = damaged;
    let mut target = job.group[..16.min(job.group.len())].to_vec();
    if let Some(byte) = target.get_mut(5) {
        *byte = set_byte(random);
    }
    let target = std::mem::replace(&mut job.target, target);
    let mut output = vec![0; 65_536];
    let answer = Side::Archive.call(job, &mut output) as usize;
    job.target = target;
    if answer <= output.len() {
        output.truncate(answer);
        job.group = output;
    }
}

/// A record gets the key of a set of another kind, or of no group.
fn other_record(random: &mut Random, damaged: &mut Damaged) {
    let tags = &mut damaged.job.tags;
    if tags.len() >= RECORD {
        let at = RECORD * random.below(tags.len() / RECORD);
        tags[at + 8] = if random.one_in(4) { 0x01 } else { 0x02 };
        tags[at + 9] = if random.one_in(4) { random.choose(&KINDS) } else { set_byte(random) };
    }
}

/// The group becomes the one nested set of another.
fn one_deeper(_: &mut Random, damaged: &mut Damaged) {
    if damaged.job.group.len() < 65_000 {
        damaged.job = deeper(&damaged.job);
    }
}

/// The last bytes are taken off, and the outer length mended.
fn cut_end(random: &mut Random, damaged: &mut Damaged) {
    let group = &mut damaged.job.group;
    group.truncate(group.len() - group.len().min(1 + random.below(24)));
    mend(random, group);
}
