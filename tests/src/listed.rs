//! What a listing leaves of the slices that it is lent, and of the number of longer forms beside them.
use crate::access;
use crate::guard::{Area, Side};
use crate::hex::Bytes;
use std::fmt::{self, Debug, Formatter};
use std::mem::size_of_val;

/// The answer of a listing, both slices as the call left them, and whether all else is as it was.
#[derive(Clone, PartialEq, Eq)]
pub struct Listed {
    pub answer: u64,
    pub keys: Bytes,
    pub numbers: Vec<u32>,
    pub rest_unaltered: bool,
}

/// What a listing left, and the number of longer forms as it left that.
#[derive(Clone, PartialEq, Eq, Debug)]
pub struct Counted {
    pub listed: Listed,
    pub longer: u64,
}

impl Debug for Listed {
    fn fmt(&self, to: &mut Formatter) -> fmt::Result {
        let Listed { answer, keys, numbers, rest_unaltered } = self;
        write!(to, "answer {answer}, keys {keys:?}, numbers {numbers:?}, rest unaltered: {rest_unaltered}")
    }
}

/// A slice that is only read, and the two that a listing writes: keys, numbers.
pub type Input = (*const u8, usize);
pub type Room = ((*mut u8, usize), (*mut u32, usize));

/// Which entry is called, at which side, and the areas of its keys and numbers.
pub struct Lister<'a> {
    pub name: &'static str,
    pub side: Side,
    pub keys: &'a Area,
    pub numbers: &'a Area,
}

impl Lister<'_> {
    /// What the entry leaves of slices that hold these bytes and these numbers. The inputs are not looked at again.
    pub fn list(&self, inputs: &[Input], keys: &[u8], numbers: &[u32], entry: impl FnOnce(Room) -> u64) -> Listed {
        let key_place = self.keys.place(self.side, keys);
        let number_place = self.numbers.place(self.side, numbers);
        let written = [(key_place.cast_const(), keys.len()), (number_place as *const u8, size_of_val(numbers))];
        access::note(self.name, &[keys.len() as u64, numbers.len() as u64], &[inputs, &written].concat());
        let answer = entry(((key_place, keys.len()), (number_place, numbers.len())));
        let (keys, key_margin) = self.keys.take(self.side, keys.len());
        let (numbers, number_margin) = self.numbers.take(self.side, numbers.len());
        Listed { answer, keys: Bytes(keys), numbers, rest_unaltered: key_margin && number_margin }
    }
}

/// The same beside a number of longer forms, which is this at first and lies in an area of its own.
pub fn counted(area: &Area, side: Side, longer: u64, list: impl FnOnce(*mut u64) -> Listed) -> Counted {
    let mut listed = list(area.place(side, &[longer]));
    let (longer, margin) = area.take(side, 1);
    listed.rest_unaltered &= margin;
    Counted { listed, longer: longer[0] }
}
