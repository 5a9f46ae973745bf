//! What a call is lent, but for the slices that it writes.
use crate::hex;

#[derive(Clone, PartialEq, Eq)]
pub struct Call {
    pub tags: Vec<u8>,
    pub packs: Vec<u8>,
    pub target: Vec<u8>,
    pub group: Vec<u8>,
}

impl Call {
    /// The same tables and the same target with another group.
    pub fn with_group(&self, group: Vec<u8>) -> Call {
        Call { group, ..self.clone() }
    }

    /// The same tables and the same group with another target.
    pub fn with_target(&self, target: &[u8]) -> Call {
        Call { target: target.to_vec(), ..self.clone() }
    }

    /// All the inputs as hexadecimal digits.
    pub fn text(&self) -> String {
        let [tags, packs, target, group] =
            [&self.tags, &self.packs, &self.target, &self.group].map(|bytes| hex::text(bytes));
        format!("tag table {tags} pack table {packs} target {target} group {group}")
    }
}
