//! Lent lists of records and of keys, and iterators over what a query put there.

use crate::Entry;

/// A lent list of records: rows of eight numbers.
#[derive(Clone, Debug)]
pub struct Records {
    pub(crate) rows: Vec<[u64; 8]>,
    pub(crate) filled: usize,
}

impl Records {
    /// A list with room for so many records; what a query gives has at most 64.
    pub fn with_room(room: usize) -> Records {
        Records { rows: vec![[0; 8]; room], filled: 0 }
    }

    /// How many records the list has room for.
    #[inline]
    pub fn room(&self) -> usize {
        self.rows.len()
    }

    /// The number of records that the last query gave.
    #[inline]
    pub fn len(&self) -> usize {
        self.filled
    }

    pub fn is_empty(&self) -> bool {
        self.filled == 0
    }

    /// All rows, also those behind what the last query gave: index, queue, sequence number, block offset, block length, compression type,
    /// entry offset, entry length.
    pub fn rows(&self) -> &[[u64; 8]] {
        &self.rows
    }

    /// Record i of those that the last query gave.
    #[inline]
    pub fn get(&self, i: usize) -> Option<Entry> {
        self.rows[..self.filled].get(i).map(|row| Entry::of_row(*row))
    }

    /// The records that the last query gave, in order.
    #[inline]
    pub fn iter(&self) -> impl Iterator<Item = Entry> + '_ {
        self.rows[..self.filled].iter().map(|row| Entry::of_row(*row))
    }
}

/// The same as eight slices of one length, one for each field.
#[derive(Clone, Debug)]
pub struct Columns {
    pub(crate) columns: [Vec<u64>; 8],
    pub(crate) filled: usize,
}

impl Columns {
    /// A list with room for so many records; what a query gives has at most 64.
    pub fn with_room(room: usize) -> Columns {
        Columns { columns: std::array::from_fn(|_| vec![0; room]), filled: 0 }
    }

    /// How many records the list has room for.
    #[inline]
    pub fn room(&self) -> usize {
        self.columns[0].len()
    }

    /// The number of records that the last query gave.
    #[inline]
    pub fn len(&self) -> usize {
        self.filled
    }

    pub fn is_empty(&self) -> bool {
        self.filled == 0
    }

    /// The eight slices, with the fields of a row in their order.
    pub fn columns(&self) -> &[Vec<u64>; 8] {
        &self.columns
    }

    /// Record i of those that the last query gave.
    #[inline]
    pub fn get(&self, i: usize) -> Option<Entry> {
        if i >= self.filled {
            return None;
        }
        Some(Entry::of_row(std::array::from_fn(|j| self.columns[j][i])))
    }
}

/// A lent list of keys with their values: two numbers and 64 bytes a row.
#[derive(Clone, Debug)]
pub struct Pairs {
    pub(crate) lens: Vec<u64>,
    pub(crate) bytes: Vec<u8>,
    pub(crate) filled: usize,
}

impl Pairs {
    /// A list with room for so many keys; what a query gives has at most 16.
    pub fn with_room(room: usize) -> Pairs {
        Pairs { lens: vec![0; room * 2], bytes: vec![0; room * 64], filled: 0 }
    }

    #[inline]
    pub fn room(&self) -> usize {
        self.lens.len() / 2
    }

    /// The number of keys that the last query gave.
    #[inline]
    pub fn len(&self) -> usize {
        self.filled
    }

    pub fn is_empty(&self) -> bool {
        self.filled == 0
    }

    /// The rows: key length and value length of each, and 32 bytes for the key and 32 for the value.
    pub fn rows(&self) -> (&[u64], &[u8]) {
        (&self.lens, &self.bytes)
    }

    /// Key and value i of those that the last query gave.
    #[inline]
    pub fn get(&self, i: usize) -> Option<(&[u8], &[u8])> {
        if i >= self.filled {
            return None;
        }
        let part = |at: usize, len: u64| &self.bytes[at..at + len as usize];
        Some((part(i * 64, self.lens[i * 2]), part(i * 64 + 32, self.lens[i * 2 + 1])))
    }

    /// The keys with their values that the last query gave, in order.
    #[inline]
    pub fn iter(&self) -> impl Iterator<Item = (&[u8], &[u8])> + '_ {
        (0..self.filled).filter_map(|i| self.get(i))
    }
}
