//! The numbers of refusals (01, the table of "Reading and writing"; 02, points 1, 2 and 4).

#[derive(Clone, Copy, PartialEq, Eq, Debug)]
pub enum Reason {
    TagTable = 1,
    PackTable = 2,
    Target = 3,
    Oversize = 4,
    GroupKey = 5,
    Family = 6,
    OuterLength = 7,
    LabelCutOff = 8,
    Span = 9,
    Count = 10,
    Surplus = 11,
    NoLabel = 12,
    NoSpan = 13,
    LongOutput = 14,
    ShortSlice = 15,
    Job = 16,
    TooDeep = 17,
    Nested = 18,
    LabelMalformed = 19,
    LabelUnlisted = 20,
    Feed = 21,
}
