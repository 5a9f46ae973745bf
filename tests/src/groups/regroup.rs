//! The regrouping call (01, "Reading and writing"): every refusal in its order, then the output.
use super::kind::Group;
use super::refusal::{Reason, Refusal};
use super::tables::Tables;
use super::{family, outer, read, write, MOST_BYTES};
use crate::fault::{planted, Fault};

/// Writes the group as the target says to the start of the output and answers its length. A refusal leaves the output
/// as it was.
pub fn regroup(tags: &[u8], packs: &[u8], target: &[u8], group: &[u8], output: &mut [u8]) -> Result<usize, Refusal> {
    put(written(tags, packs, target, group, output.len()), output)
}

/// Puts what is written to the start of the output and answers its length.
pub fn put(result: Result<Vec<u8>, Refusal>, output: &mut [u8]) -> Result<usize, Refusal> {
    if let Ok(written) = &result {
        output[..written.len()].copy_from_slice(written);
        if planted(Fault::RestOfOutputCleared) {
            output[written.len()..].fill(0x00);
        }
    } else if planted(Fault::RefusalClearsOutput) {
        output.fill(0x00);
    }
    result.map(|written| written.len())
}

/// The bytes that the call writes to a slice of this length.
pub fn written(tags: &[u8], packs: &[u8], target: &[u8], group: &[u8], room: usize) -> Result<Vec<u8>, Refusal> {
    let tables = Tables::read(tags, packs)?;
    if planted(Fault::TargetAfterGroup) {
        outer::group(group)?;
    }
    let target = outer::target(target)?;
    let source = outer::group(group)?;
    if planted(Fault::OuterLengthBeforeFamily) {
        outer::items_begin(group)?;
    }
    if !family::same(&source, &target) {
        return Err(Refusal::whole(Reason::Family));
    }
    let target = if planted(Fault::RootOfSource) { with_root_of(&source, target) } else { target };
    let begin = outer::items_begin(group)?;
    let items = read::items(&source, &tables, group, begin)?;
    if planted(Fault::ShortSliceBeforeMeasuring) && room < group.len() {
        return Err(Refusal::whole(Reason::ShortSlice));
    }
    let written = write::group(&target, &tables, &items)?;
    within_limits(written.len(), room)?;
    Ok(written)
}

/// The output is not over 65,536 bytes, and the slice has room for it.
pub fn within_limits(length: usize, room: usize) -> Result<(), Refusal> {
    let long = length > MOST_BYTES - usize::from(planted(Fault::LongOutputOneLess));
    let short = length > room;
    if long && !(short && planted(Fault::ShortSliceBeforeLongOutput)) {
        return Err(Refusal::whole(Reason::LongOutput));
    }
    if short {
        return Err(Refusal::whole(Reason::ShortSlice));
    }
    Ok(())
}

/// A global target with the root of a global source.
fn with_root_of(source: &Group, target: Group) -> Group {
    let both = source.sort == target.sort && !source.root.is_empty();
    Group { root: if both { source.root.clone() } else { target.root.clone() }, ..target }
}
