//! Sets of columns: column i is bit i.

/// Whether every column of `part` is also in `whole`.
pub fn contains(whole: u16, part: u16) -> bool {
    whole & part == part
}

/// Whether some column is in both.
pub fn share(one: u16, other: u16) -> bool {
    one & other != 0
}

/// The columns of a set, rising.
pub fn members(set: u16) -> impl Iterator<Item = usize> {
    (0..16).filter(move |column| set >> column & 1 == 1)
}

/// The set of all of the first `columns` columns, of which there are at most 16.
pub fn full(columns: usize) -> u16 {
    ((1u32 << columns) - 1) as u16
}
