//! The area of a context or index, and the calls on it whatever its kind.

use crate::{ffi, Columns, Entry, FileId, Pairs, Queue, Records, Refusal, Rows};

/// The length of an area's numbers.
pub const NUMBERS: usize = 17_231;

/// The length of an area's bytes.
pub const BYTES: usize = 38_912;

const NO_PLACE: u64 = u64::MAX;
const ABSENT: u64 = u64::MAX;

/// The two slices that hold a context or index.
///
/// `fresh` makes one and only the calls write it, so that it has the lengths and the form that every call requires. Each call can
/// be made on each area: on one of the wrong kind it is refused with 1. [`crate::Context`] and [`crate::Index`] have the calls
/// of one kind.
pub struct Area {
    numbers: Box<[u64]>,
    bytes: Box<[u8]>,
}

impl Area {
    /// A fresh context of a queue.
    pub fn fresh(queue: Queue) -> Area {
        let mut area = Area {
            numbers: vec![0; NUMBERS].into_boxed_slice(),
            bytes: vec![0; BYTES].into_boxed_slice(),
        };
        area.reset(queue);
        area
    }

    /// Makes a fresh context of the area, whatever it held.
    pub fn reset(&mut self, queue: Queue) {
        // SAFETY: the lengths are those that the call requires.
        unsafe {
            ffi::galdnyrr_fresh(
                self.numbers.as_mut_ptr(),
                NUMBERS,
                self.bytes.as_mut_ptr(),
                BYTES,
                queue.number(),
            )
        }
    }

    /// The numbers, in the layout of docs/ARCHITECTURE.md.
    pub fn numbers(&self) -> &[u64] {
        &self.numbers
    }

    /// The bytes, in the layout of docs/ARCHITECTURE.md.
    pub fn bytes(&self) -> &[u8] {
        &self.bytes
    }

    /// Replays a batch into a context of its file's queue.
    #[inline]
    pub fn replay(&mut self, file: FileId, rows: Rows<'_>) -> Result<(), Refusal> {
        let mut place = NO_PLACE;
        // SAFETY: the area is one that the calls made, and the lent slices overlap nothing that is written.
        let number = unsafe {
            ffi::galdnyrr_replay(
                self.numbers.as_mut_ptr(),
                NUMBERS,
                self.bytes.as_mut_ptr(),
                BYTES,
                file.queue.number(),
                file.seq,
                rows.items.as_ptr(),
                rows.items.len(),
                rows.entries.as_ptr(),
                rows.entries.len(),
                rows.bytes.as_ptr(),
                rows.bytes.len(),
                &mut place,
            )
        };
        told(number, place)
    }

    /// Merges a newer context of the same queue, which is only read, into this one.
    pub fn merge(&mut self, newer: &Area) -> Result<(), Refusal> {
        let mut place = NO_PLACE;
        // SAFETY: both areas are ones that the calls made; `self` is borrowed mutably, so they are not one.
        let number = unsafe {
            ffi::galdnyrr_merge(
                self.numbers.as_mut_ptr(),
                NUMBERS,
                self.bytes.as_mut_ptr(),
                BYTES,
                newer.numbers.as_ptr(),
                NUMBERS,
                newer.bytes.as_ptr(),
                BYTES,
                &mut place,
            )
        };
        told(number, place)
    }

    /// Joins an Append context, which is only read, to this Rewrite context, which becomes the index.
    pub fn join(&mut self, append: &Area) -> Result<(), Refusal> {
        let mut place = NO_PLACE;
        // SAFETY: as above.
        let number = unsafe {
            ffi::galdnyrr_join(
                self.numbers.as_mut_ptr(),
                NUMBERS,
                self.bytes.as_mut_ptr(),
                BYTES,
                append.numbers.as_ptr(),
                NUMBERS,
                append.bytes.as_ptr(),
                BYTES,
                &mut place,
            )
        };
        told(number, place)
    }

    /// Hands out the cleaned numbers in order, at the front of a lent list, and empties their list. There are at most 64.
    pub fn take_cleaned_region_logs<'a>(&mut self, list: &'a mut [u64]) -> Result<&'a [u64], Refusal> {
        let mut count = 0;
        // SAFETY: as above.
        let number = unsafe {
            ffi::galdnyrr_take_cleaned_region_logs(
                self.numbers.as_mut_ptr(),
                NUMBERS,
                self.bytes.as_ptr(),
                BYTES,
                list.as_mut_ptr(),
                list.len(),
                &mut count,
            )
        };
        given(number, count).map(|n| &list[..n as usize])
    }

    /// Appends a batch to the index.
    #[inline]
    pub fn append(&mut self, file: FileId, rows: Rows<'_>) -> Result<(), Refusal> {
        let mut place = NO_PLACE;
        // SAFETY: as above.
        let number = unsafe {
            ffi::galdnyrr_append(
                self.numbers.as_mut_ptr(),
                NUMBERS,
                self.bytes.as_mut_ptr(),
                BYTES,
                file.queue.number(),
                file.seq,
                rows.items.as_ptr(),
                rows.items.len(),
                rows.entries.as_ptr(),
                rows.entries.len(),
                rows.bytes.as_ptr(),
                rows.bytes.len(),
                &mut place,
            )
        };
        told(number, place)
    }

    /// Rewrites a batch in the index, gated or not; a key's new number is the batch's.
    #[inline]
    pub fn rewrite(&mut self, gate: Option<u64>, file: FileId, rows: Rows<'_>) -> Result<(), Refusal> {
        let mut place = NO_PLACE;
        // SAFETY: as above.
        let number = unsafe {
            ffi::galdnyrr_rewrite(
                self.numbers.as_mut_ptr(),
                NUMBERS,
                self.bytes.as_mut_ptr(),
                BYTES,
                gate.is_some(),
                gate.unwrap_or(0),
                file.queue.number(),
                file.seq,
                rows.items.as_ptr(),
                rows.items.len(),
                rows.entries.as_ptr(),
                rows.entries.len(),
                rows.bytes.as_ptr(),
                rows.bytes.len(),
                &mut place,
            )
        };
        told(number, place)
    }
}

/// Queries of one group. An absent group is refused with 9.
impl Area {
    /// The index of a group's first entry.
    #[inline]
    pub fn first_index(&self, group: u64) -> Result<Option<u64>, Refusal> {
        let mut value = 0;
        // SAFETY: the area is one that the calls made, and is only read.
        let number = unsafe {
            ffi::galdnyrr_first_index(
                self.numbers.as_ptr(),
                NUMBERS,
                self.bytes.as_ptr(),
                BYTES,
                group,
                &mut value,
            )
        };
        found(number, value)
    }

    /// The index of a group's last entry.
    #[inline]
    pub fn last_index(&self, group: u64) -> Result<Option<u64>, Refusal> {
        let mut value = 0;
        // SAFETY: as above.
        let number = unsafe {
            ffi::galdnyrr_last_index(
                self.numbers.as_ptr(),
                NUMBERS,
                self.bytes.as_ptr(),
                BYTES,
                group,
                &mut value,
            )
        };
        found(number, value)
    }

    /// The number of a group's Rewrite entries.
    #[inline]
    pub fn rewrite_count(&self, group: u64) -> Result<u64, Refusal> {
        let mut value = 0;
        // SAFETY: as above.
        let number = unsafe {
            ffi::galdnyrr_rewrite_count(
                self.numbers.as_ptr(),
                NUMBERS,
                self.bytes.as_ptr(),
                BYTES,
                group,
                &mut value,
            )
        };
        given(number, value)
    }

    /// The number of a group's entries.
    #[inline]
    pub fn entry_count(&self, group: u64) -> Result<u64, Refusal> {
        let mut value = 0;
        // SAFETY: as above.
        let number = unsafe {
            ffi::galdnyrr_entry_count(
                self.numbers.as_ptr(),
                NUMBERS,
                self.bytes.as_ptr(),
                BYTES,
                group,
                &mut value,
            )
        };
        given(number, value)
    }

    /// The record at an index of a group, if it is held.
    #[inline]
    pub fn get_entry(&self, group: u64, index: u64) -> Result<Option<Entry>, Refusal> {
        let mut row = [0; 8];
        // SAFETY: as above.
        let number = unsafe {
            ffi::galdnyrr_get_entry(
                self.numbers.as_ptr(),
                NUMBERS,
                self.bytes.as_ptr(),
                BYTES,
                group,
                index,
                row.as_mut_ptr(),
                row.len(),
            )
        };
        found(number, Entry::of_row(row))
    }

    /// Whether a group's entry at place `count` − 1 has a sequence number up to the gate's. A count of 0 is refused with 10.
    #[inline]
    pub fn has_at_least_some_entries_before(
        &self,
        group: u64,
        gate: u64,
        count: usize,
    ) -> Result<bool, Refusal> {
        let mut value = 0;
        // SAFETY: as above.
        let number = unsafe {
            ffi::galdnyrr_has_at_least_some_entries_before(
                self.numbers.as_ptr(),
                NUMBERS,
                self.bytes.as_ptr(),
                BYTES,
                group,
                gate,
                count,
                &mut value,
            )
        };
        given(number, value == 1)
    }
}

/// A query that fills a lent list of records: the call, with the area, the group, what it asks, and the list.
macro_rules! fill_records {
    ($area:ident, $call:ident, $group:expr, [$($asked:expr),*], $list:ident) => {{
        let mut count = 0;
        // SAFETY: the area is one that the calls made, and the rows are eight numbers each, one behind the other.
        let number = unsafe {
            ffi::$call(
                $area.numbers.as_ptr(),
                NUMBERS,
                $area.bytes.as_ptr(),
                BYTES,
                $group,
                $($asked,)*
                $list.rows.as_mut_ptr().cast(),
                $list.rows.len() * 8,
                &mut count,
            )
        };
        given(number, count).map(|n| $list.filled = n as usize)
    }};
}

/// The same for a list of eight slices.
macro_rules! fill_columns {
    ($area:ident, $call:ident, $group:expr, [$($asked:expr),*], $list:ident) => {{
        let mut count = 0;
        let room = $list.room();
        let [index, queue, seq, offset, len, compression, entry_offset, entry_len] =
            &mut $list.columns;
        // SAFETY: the area is one that the calls made, and the eight slices have one length.
        let number = unsafe {
            ffi::$call(
                $area.numbers.as_ptr(),
                NUMBERS,
                $area.bytes.as_ptr(),
                BYTES,
                $group,
                $($asked,)*
                index.as_mut_ptr(),
                room,
                queue.as_mut_ptr(),
                room,
                seq.as_mut_ptr(),
                room,
                offset.as_mut_ptr(),
                room,
                len.as_mut_ptr(),
                room,
                compression.as_mut_ptr(),
                room,
                entry_offset.as_mut_ptr(),
                room,
                entry_len.as_mut_ptr(),
                room,
                &mut count,
            )
        };
        given(number, count).map(|n| $list.filled = n as usize)
    }};
}

/// The same for a lent list of keys.
macro_rules! fill_pairs {
    ($area:ident, $call:ident, $group:expr, [$($asked:expr),*], $list:ident) => {{
        let mut count = 0;
        // SAFETY: the area is one that the calls made, and what is lent overlaps nothing that is written.
        let number = unsafe {
            ffi::$call(
                $area.numbers.as_ptr(),
                NUMBERS,
                $area.bytes.as_ptr(),
                BYTES,
                $group,
                $($asked,)*
                $list.lens.as_mut_ptr(),
                $list.lens.len(),
                $list.bytes.as_mut_ptr(),
                $list.bytes.len(),
                &mut count,
            )
        };
        given(number, count).map(|n| $list.filled = n as usize)
    }};
}

/// Queries of one group's files, keys and records. A lent list is as it was after a refusal; one that is too short is 19.
impl Area {
    /// The least file of a queue in a group, with the group's span.
    #[inline]
    pub fn min_file_seq(&self, group: u64, queue: Queue) -> Result<Option<u64>, Refusal> {
        let mut value = 0;
        // SAFETY: as above.
        let number = unsafe {
            ffi::galdnyrr_min_file_seq(
                self.numbers.as_ptr(),
                NUMBERS,
                self.bytes.as_ptr(),
                BYTES,
                group,
                queue.number(),
                &mut value,
            )
        };
        found(number, value)
    }

    /// The number of a group's keys.
    #[inline]
    pub fn key_count(&self, group: u64) -> Result<u64, Refusal> {
        let mut value = 0;
        // SAFETY: as above.
        let number = unsafe {
            ffi::galdnyrr_key_count(
                self.numbers.as_ptr(),
                NUMBERS,
                self.bytes.as_ptr(),
                BYTES,
                group,
                &mut value,
            )
        };
        given(number, value)
    }

    /// The value of a key, copied to the front of `out`, with its length. No value is longer than 32 bytes.
    #[inline]
    pub fn get<'a>(
        &self,
        group: u64,
        key: &[u8],
        out: &'a mut [u8],
    ) -> Result<Option<&'a [u8]>, Refusal> {
        let mut len = 0;
        // SAFETY: as above.
        let number = unsafe {
            ffi::galdnyrr_get(
                self.numbers.as_ptr(),
                NUMBERS,
                self.bytes.as_ptr(),
                BYTES,
                group,
                key.as_ptr(),
                key.len(),
                out.as_mut_ptr(),
                out.len(),
                &mut len,
            )
        };
        Ok(found(number, len)?.map(|len| &out[..len as usize]))
    }

    /// The keys from `start` on and below `end`, up to `most` of them; a bound that is absent is open. A start above the end
    /// or a count of 0 is refused with 10.
    #[inline]
    pub fn scan(
        &self,
        group: u64,
        start: Option<&[u8]>,
        end: Option<&[u8]>,
        backwards: bool,
        most: usize,
        list: &mut Pairs,
    ) -> Result<(), Refusal> {
        let (from, to) = (start.unwrap_or(&[]), end.unwrap_or(&[]));
        fill_pairs!(
            self,
            galdnyrr_scan,
            group,
            [start.is_some(), from.as_ptr(), from.len(), end.is_some(), to.as_ptr(), to.len(), backwards, most],
            list
        )
    }

    /// The Append keys with a file up to the gate.
    #[inline]
    pub fn fetch_kvs_before(&self, group: u64, gate: u64, list: &mut Pairs) -> Result<(), Refusal> {
        fill_pairs!(self, galdnyrr_fetch_kvs_before, group, [gate], list)
    }

    /// All Rewrite keys.
    #[inline]
    pub fn fetch_rewritten_kvs(&self, group: u64, list: &mut Pairs) -> Result<(), Refusal> {
        fill_pairs!(self, galdnyrr_fetch_rewritten_kvs, group, [], list)
    }

    /// The entries with indexes in [begin, end), up to a size. Refused: 9, 11, 12, 19.
    #[inline]
    pub fn fetch_entries_to(
        &self,
        group: u64,
        begin: u64,
        end: u64,
        max_size: Option<u64>,
        list: &mut Records,
    ) -> Result<(), Refusal> {
        let (sized, size) = (max_size.is_some(), max_size.unwrap_or(0));
        fill_records!(self, galdnyrr_fetch_records_to, group, [begin, end, sized, size], list)
    }

    /// The Append entries from the front while their file is at most the gate.
    #[inline]
    pub fn fetch_entry_indexes_before(
        &self,
        group: u64,
        gate: u64,
        list: &mut Records,
    ) -> Result<(), Refusal> {
        fill_records!(self, galdnyrr_fetch_records_before, group, [gate], list)
    }

    /// All Rewrite entries.
    #[inline]
    pub fn fetch_rewritten_entry_indexes(
        &self,
        group: u64,
        list: &mut Records,
    ) -> Result<(), Refusal> {
        fill_records!(self, galdnyrr_fetch_rewritten_records, group, [], list)
    }

    /// The same as `fetch_entries_to`, into eight slices.
    #[inline]
    pub fn fetch_columns_to(
        &self,
        group: u64,
        begin: u64,
        end: u64,
        max_size: Option<u64>,
        list: &mut Columns,
    ) -> Result<(), Refusal> {
        let (sized, size) = (max_size.is_some(), max_size.unwrap_or(0));
        fill_columns!(self, galdnyrr_fetch_entries_to, group, [begin, end, sized, size], list)
    }

    /// The same as `fetch_entry_indexes_before`, into eight slices.
    #[inline]
    pub fn fetch_columns_before(
        &self,
        group: u64,
        gate: u64,
        list: &mut Columns,
    ) -> Result<(), Refusal> {
        fill_columns!(self, galdnyrr_fetch_entry_indexes_before, group, [gate], list)
    }

    /// The same as `fetch_rewritten_entry_indexes`, into eight slices.
    #[inline]
    pub fn fetch_rewritten_columns(&self, group: u64, list: &mut Columns) -> Result<(), Refusal> {
        fill_columns!(self, galdnyrr_fetch_rewritten_entry_indexes, group, [], list)
    }
}

/// Queries of all groups.
impl Area {
    /// Whether there are no groups.
    pub fn is_empty(&self) -> bool {
        // SAFETY: the area is one that the calls made, and is only read.
        unsafe { ffi::galdnyrr_is_empty(self.numbers.as_ptr(), NUMBERS, self.bytes.as_ptr(), BYTES) }
    }

    /// The numbers of all groups, ascending, at the front of a lent list. There are at most 8.
    pub fn group_numbers<'a>(&self, list: &'a mut [u64]) -> Result<&'a [u64], Refusal> {
        let mut count = 0;
        // SAFETY: as above.
        let number = unsafe {
            ffi::galdnyrr_group_numbers(
                self.numbers.as_ptr(),
                NUMBERS,
                self.bytes.as_ptr(),
                BYTES,
                list.as_mut_ptr(),
                list.len(),
                &mut count,
            )
        };
        given(number, count).map(|n| &list[..n as usize])
    }

    /// The live count of a queue: the entries and keys of all groups but adopted ones.
    pub fn live_entries(&self, queue: Queue) -> usize {
        // SAFETY: as above.
        unsafe {
            ffi::galdnyrr_live_entries(
                self.numbers.as_ptr(),
                NUMBERS,
                self.bytes.as_ptr(),
                BYTES,
                queue.number(),
            )
        }
    }
}

impl Clone for Area {
    fn clone(&self) -> Area {
        Area { numbers: self.numbers.clone(), bytes: self.bytes.clone() }
    }
}

/// An answer that may be absent.
#[inline]
fn found<T>(number: u64, value: T) -> Result<Option<T>, Refusal> {
    match number {
        0 => Ok(Some(value)),
        ABSENT => Ok(None),
        _ => Err(Refusal::new(number, None)),
    }
}

/// An answer that is always there.
#[inline]
fn given<T>(number: u64, value: T) -> Result<T, Refusal> {
    match number {
        0 => Ok(value),
        _ => Err(Refusal::new(number, None)),
    }
}

/// An answer by its number and place.
#[inline]
fn told(number: u64, place: u64) -> Result<(), Refusal> {
    if number == 0 {
        return Ok(());
    }
    let place = if place == NO_PLACE { None } else { Some(place as usize) };
    Err(Refusal::new(number, place))
}
