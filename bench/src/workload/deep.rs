//! Workloads of the deep operations: sets inside sets, made from fixed seeds.
use super::make::{ber, group_key, item_key, shuffle, table, SEED};
use super::tree::{Form, Node, Writer};
use super::{Job, Made};
use crate::random::Random;
use Shape::{Chain, Even, Mixed};

/// Byte 6 of sets with tags and lengths of 2 bytes, and of those with tags of 2 bytes and BER lengths.
const LOCAL: u8 = 0x53;
const LOCAL_BER: u8 = 0x13;
/// Byte 6 of every set that is opened, and of some groups that are not.
const SETS: [u8; 17] =
    [0x01, 0x03, 0x0B, 0x13, 0x1B, 0x23, 0x2B, 0x33, 0x3B, 0x43, 0x4B, 0x53, 0x5B, 0x63, 0x6B, 0x73, 0x7B];
const CLOSED: [u8; 4] = [0x02, 0x42, 0x04, 0x05];
/// How many records of a tag table have the key of a set.
const SET_KEYS: usize = 16;

/// Which items are nested sets, and how many items each set has.
enum Shape {
    /// Sets of so many items at depth 1, 2, 3 and 4, about every second one above depth 4 a nested set.
    Mixed([usize; 4]),
    /// Four sets in one another, each of so many items.
    Chain(usize),
    /// Sets of so many items at each depth, all of them nested sets above the last.
    Even(&'static [usize]),
}

/// One workload: the outermost set and all in it are local ones.
pub struct Deep {
    pub name: &'static str,
    shape: Shape,
    tags: usize,
    /// Whether the keys of the table stand in random order.
    shuffled: bool,
    /// The shortest and the longest value.
    values: [usize; 2],
    /// Byte 6 of the sets, and how their BER lengths are sent.
    byte: u8,
    form: Form,
}

/// What most workloads have.
const USUAL: Deep =
    Deep { name: "", shape: Chain(16), tags: 64, shuffled: false, values: [4, 40], byte: LOCAL, form: Form::Shortest };

/// The workloads that are timed. The last two have the same content, once and twice.
pub const DEEP: [Deep; 6] = [
    Deep { name: "deep-mixed", shape: Mixed([16, 4, 3, 3]), ..USUAL },
    Deep { name: "deep-chain", shape: Chain(16), ..USUAL },
    Deep { name: "deep-flat", shape: Even(&[256]), tags: 256, ..USUAL },
    Deep { name: "deep-wide", shape: Even(&[64, 8]), ..USUAL },
    Deep { name: "deep-half", shape: Even(&[4, 4, 4, 10]), ..USUAL },
    Deep { name: "deep-twice", shape: Even(&[8, 4, 4, 10]), ..USUAL },
];

/// Sets with BER lengths, shortest and in four bytes.
pub const BER: [Deep; 3] = [
    Deep { name: "deep-mixed-ber", shape: Mixed([16, 4, 3, 3]), byte: LOCAL_BER, ..USUAL },
    Deep { name: "deep-mixed-four", shape: Mixed([16, 4, 3, 3]), byte: LOCAL_BER, form: Form::Four, ..USUAL },
    Deep { name: "deep-flat-four", shape: Even(&[256]), tags: 256, byte: LOCAL_BER, form: Form::Four, ..USUAL },
];

/// More nested sets than the baseline keeps the sizes of: for the check alone.
pub const MANY: Deep = Deep { name: "deep-many", shape: Even(&[16, 8, 4, 2]), ..USUAL };

/// Long values, and a table that an index is made for: for the stack and the check.
pub const LONG: Deep =
    Deep { name: "deep-long", shape: Chain(4), tags: 256, shuffled: true, values: [1_025, 2_500], ..USUAL };

/// The workloads that the deep write and the deep listing are timed with.
pub fn deep() -> Vec<&'static dyn Made> {
    DEEP.iter().map(|deep| deep as &dyn Made).collect()
}

/// Those that the count of longer lengths is timed with.
pub fn deep_longer() -> Vec<&'static dyn Made> {
    DEEP.iter().chain(&BER).map(|deep| deep as &dyn Made).collect()
}

impl Made for Deep {
    fn name(&self) -> &'static str {
        self.name
    }

    fn job(&self) -> Job {
        let mut random = Random::new(SEED);
        let mut keys: Vec<[u8; 16]> = (0..self.tags - SET_KEYS).map(plain_key).collect();
        keys.extend((0..SET_KEYS).map(|n| set_key(self.byte, n)));
        if self.shuffled {
            shuffle(&mut random, &mut keys);
        }
        let records = [false, true].map(|set| (0..keys.len()).filter(|n| opens(&keys[*n]) == set).collect());
        let nodes = Maker { deep: self, records, random: &mut random }.set(1);
        job(self.byte, &nodes, Writer { keys: &keys, form: self.form, random })
    }
}

/// The same call with the group as the one nested set of another: all stands one level deeper.
pub fn deeper(job: &Job) -> Job {
    let group = [&job.target[..], &ber(job.group.len()), &job.group].concat();
    Job { group, ..job.clone() }
}

/// One value of so many bytes in a nested set.
pub fn one_value(length: usize) -> Job {
    let keys = [plain_key(0), set_key(LOCAL, 0)];
    let nodes = [Node::Nest(1, vec![Node::Leaf(0, vec![0x55; length])])];
    job(LOCAL, &nodes, Writer { keys: &keys, form: Form::Shortest, random: Random::new(SEED) })
}

/// A small tree of sets of any kind, among them some that are not opened, at times below depth 4.
pub fn any(random: &mut Random) -> Job {
    let mut keys: Vec<[u8; 16]> = (0..32).map(plain_key).collect();
    keys.extend((0..SET_KEYS).map(|n| set_key(random.choose(&SETS), n)));
    keys.extend((0..8).map(|n| set_key(random.choose(&CLOSED), SET_KEYS + n)));
    if random.one_in(2) {
        shuffle(random, &mut keys);
    }
    let levels = if random.one_in(8) { 5 } else { 4 };
    let nodes = any_set(random, &keys, levels);
    let byte = random.choose(&SETS);
    let form = random.choose(&[Form::Shortest, Form::Any]);
    job(byte, &nodes, Writer { keys: &keys, form, random: Random::new(random.next()) })
}

fn any_set(random: &mut Random, keys: &[[u8; 16]], levels: usize) -> Vec<Node> {
    let count = random.below(6);
    let mut nodes = Vec::new();
    for _ in 0..count {
        let record = random.below(keys.len());
        let nested = opens(&keys[record]);
        if nested && levels > 1 {
            nodes.push(Node::Nest(record, any_set(random, keys, levels - 1)));
        } else if !nested {
            let length = random.below(12);
            nodes.push(Node::Leaf(record, random.bytes(length)));
        }
    }
    nodes
}

/// The set of the items under a key with this byte 6.
fn job(byte: u8, nodes: &[Node], mut writer: Writer) -> Job {
    let items = writer.items(byte, nodes);
    let group = [&group_key(byte)[..], &ber(items.len()), &items].concat();
    let tags = table(writer.keys, |n| n as u32);
    Job { tags, packs: Vec::new(), target: group_key(0x01).to_vec(), group }
}

/// The n-th key of an item that is no group.
fn plain_key(n: usize) -> [u8; 16] {
    item_key(&[0x01 + n as u8 / 64, 0x05, 0x01 + n as u8 % 64, 0x01])
}

/// The n-th key of a nested set with this byte 6.
fn set_key(byte: u8, n: usize) -> [u8; 16] {
    let mut key = group_key(byte);
    key[13] = 0x01 + n as u8;
    key
}

/// Whether an item with this key is a nested set.
fn opens(key: &[u8; 16]) -> bool {
    key[4] == 0x02 && SETS.contains(&key[5])
}

/// The making of a workload's tree.
struct Maker<'a> {
    deep: &'a Deep,
    /// The records of plain keys, and those of sets.
    records: [Vec<usize>; 2],
    random: &'a mut Random,
}

impl Maker<'_> {
    /// The items of a set at this depth. Records follow one another, except where the shape is mixed.
    fn set(&mut self, depth: usize) -> Vec<Node> {
        let count = match self.deep.shape {
            Mixed(counts) => counts[depth - 1],
            Chain(count) => count,
            Even(counts) => counts[depth - 1],
        };
        let start = self.random.below(self.deep.tags);
        (0..count)
            .map(|place| {
                let nested = self.nested(depth, place == count / 2);
                let step = if let Mixed(_) = self.deep.shape { self.random.below(self.deep.tags) } else { place };
                let records = &self.records[usize::from(nested)];
                self.node(records[(start + step) % records.len()], nested, depth)
            })
            .collect()
    }

    /// Whether an item of a set at this depth is a nested set.
    fn nested(&mut self, depth: usize, middle: bool) -> bool {
        match self.deep.shape {
            Mixed(_) => depth < 4 && self.random.one_in(2),
            Chain(_) => depth < 4 && middle,
            Even(counts) => depth < counts.len(),
        }
    }

    fn node(&mut self, record: usize, nested: bool, depth: usize) -> Node {
        if nested {
            return Node::Nest(record, self.set(depth + 1));
        }
        let [least, most] = self.deep.values;
        let length = least + self.random.below(most + 1 - least);
        Node::Leaf(record, self.random.bytes(length))
    }
}
