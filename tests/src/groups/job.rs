//! The job (01, "The host, the listing, the job"): the job file, and the text that is printed for it.
use super::read::Item;
use super::refusal::{Reason, Refusal};
use super::{listing, regroup, MOST_BYTES};
use crate::fault::{planted, Fault};
use crate::numbers::{self, Form, Read};

/// Tag table, pack table, target key and group.
type Parts<'a> = [&'a [u8]; 4];

/// The bytes of the four pairs.
pub const PAIRS: usize = 32;

const MALFORMED: Refusal = Refusal { reason: Reason::Job, place: 0 };

/// The text that is printed for a job file.
pub fn printed(file: &[u8]) -> String {
    let text = parts(file).and_then(regrouped).map_err(|refusal| refusal.with_old_8(Fault::TextKeepsOld8));
    let mut text = match text {
        Ok(text) => text,
        Err(refusal) if planted(Fault::RefusedWithoutPlace) => format!("REFUSED {}\n", refusal.number()),
        Err(refusal) => format!("REFUSED {} {}\n", refusal.number(), refusal.place),
    };
    if planted(Fault::NoLastLineEnd) {
        text.pop();
    }
    text
}

/// The four parts of a job file: the first offset is 32, each next is the previous end, the last end is the file's.
fn parts(file: &[u8]) -> Result<Parts<'_>, Refusal> {
    let most = MOST_BYTES - usize::from(planted(Fault::JobOneByteLess)) + usize::from(planted(Fault::JobOneByteMore));
    let mut parts: Parts = [&[]; 4];
    let mut end = PAIRS as u64;
    let mut sound = file.len() <= most;
    for (n, part) in parts.iter_mut().enumerate() {
        let (offset, length) = pair(file, n)?;
        sound &= offset == end || offset_not_seen(n, offset, end);
        end = sum(offset, length);
        *part = file.get(offset as usize..end as usize).unwrap_or(&[]);
    }
    sound &= end == file.len() as u64 || planted(Fault::LastEndNotSeen);
    if sound {
        return Ok(parts);
    }
    if planted(Fault::JobAfterOthers) {
        let [tags, packs, target, group] = parts;
        regroup::written(tags, packs, target, group, MOST_BYTES)?;
    }
    Err(MALFORMED)
}

/// The n-th pair: an offset and a length.
fn pair(file: &[u8], n: usize) -> Result<(u64, u64), Refusal> {
    match [8 * n, 8 * n + 4].map(|at| numbers::read(Form::Four, file, at)) {
        [Read::Value { value: offset, .. }, Read::Value { value: length, .. }] => Ok((offset, length)),
        _ => Err(MALFORMED),
    }
}

/// The end of a part.
fn sum(offset: u64, length: u64) -> u64 {
    let end = offset + length;
    if planted(Fault::EndsWrap) {
        end % (1 << 32)
    } else {
        end
    }
}

fn offset_not_seen(n: usize, offset: u64, end: u64) -> bool {
    n == 0 && planted(Fault::FirstOffsetNotSeen)
        || n > 0 && offset > end && planted(Fault::GapsPass)
        || n > 0 && offset < end && planted(Fault::OverlapsPass)
}

/// The text of an accepted job: OK, items, output length; every item; the output.
fn regrouped([tags, packs, target, group]: Parts) -> Result<String, Refusal> {
    let (tags, packs) = if planted(Fault::PackTableIsFirstPart) { (packs, tags) } else { (tags, packs) };
    let output = regroup::written(tags, packs, target, group, MOST_BYTES)?;
    let listed = if planted(Fault::OffsetsOfInput) { group } else { &output };
    let items = listing::items_of(tags, packs, listed)?;
    let mut numbers = [items.len(), output.len()];
    if planted(Fault::LengthBeforeCount) {
        numbers.reverse();
    }
    let mut lines = vec![format!("OK {} {}\n", numbers[0], numbers[1])];
    lines.extend(items.iter().map(item_line));
    lines.push(digits(&output) + "\n");
    Ok(lines.concat())
}

/// An item's key, and its value's offset and length.
fn item_line(item: &Item) -> String {
    let (key, offset, length) = (digits(&item.key), item.offset, item.value.len());
    match () {
        () if planted(Fault::ItemLineWithoutSpan) => format!("{key}\n"),
        () if planted(Fault::ItemLineWithoutLength) => format!("{key} {offset}\n"),
        () if planted(Fault::OffsetsInHexadecimal) => format!("{key} {offset:X} {length}\n"),
        () => format!("{key} {offset} {length}\n"),
    }
}

/// Capital digits.
fn digits(bytes: &[u8]) -> String {
    let digits = if planted(Fault::SmallDigits) { b"0123456789abcdef" } else { b"0123456789ABCDEF" };
    let halves = bytes.iter().flat_map(|byte| [byte >> 4, byte & 0x0F]);
    halves.map(|half| char::from(digits[usize::from(half)])).collect()
}
