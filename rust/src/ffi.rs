//! The functions of include/galdnyrr.h.

extern "C" {
    pub fn galdnyrr_fresh(
        numbers: *mut u64,
        numbers_len: usize,
        bytes: *mut u8,
        bytes_len: usize,
        queue: u64,
    );

    pub fn galdnyrr_merge(
        numbers: *mut u64,
        numbers_len: usize,
        bytes: *mut u8,
        bytes_len: usize,
        newer_numbers: *const u64,
        newer_numbers_len: usize,
        newer_bytes: *const u8,
        newer_bytes_len: usize,
        place: *mut u64,
    ) -> u64;

    pub fn galdnyrr_join(
        numbers: *mut u64,
        numbers_len: usize,
        bytes: *mut u8,
        bytes_len: usize,
        append_numbers: *const u64,
        append_numbers_len: usize,
        append_bytes: *const u8,
        append_bytes_len: usize,
        place: *mut u64,
    ) -> u64;

    pub fn galdnyrr_take_cleaned_region_logs(
        numbers: *mut u64,
        numbers_len: usize,
        bytes: *const u8,
        bytes_len: usize,
        list: *mut u64,
        list_len: usize,
        count: *mut u64,
    ) -> u64;

    pub fn galdnyrr_replay(
        numbers: *mut u64,
        numbers_len: usize,
        bytes: *mut u8,
        bytes_len: usize,
        queue: u64,
        seq: u64,
        items: *const u64,
        items_len: usize,
        entries: *const u64,
        entries_len: usize,
        batch_bytes: *const u8,
        batch_bytes_len: usize,
        place: *mut u64,
    ) -> u64;

    pub fn galdnyrr_append(
        numbers: *mut u64,
        numbers_len: usize,
        bytes: *mut u8,
        bytes_len: usize,
        queue: u64,
        seq: u64,
        items: *const u64,
        items_len: usize,
        entries: *const u64,
        entries_len: usize,
        batch_bytes: *const u8,
        batch_bytes_len: usize,
        place: *mut u64,
    ) -> u64;

    pub fn galdnyrr_rewrite(
        numbers: *mut u64,
        numbers_len: usize,
        bytes: *mut u8,
        bytes_len: usize,
        gated: bool,
        gate: u64,
        queue: u64,
        seq: u64,
        items: *const u64,
        items_len: usize,
        entries: *const u64,
        entries_len: usize,
        batch_bytes: *const u8,
        batch_bytes_len: usize,
        place: *mut u64,
    ) -> u64;

    pub fn galdnyrr_first_index(
        numbers: *const u64,
        numbers_len: usize,
        bytes: *const u8,
        bytes_len: usize,
        group: u64,
        value: *mut u64,
    ) -> u64;

    pub fn galdnyrr_last_index(
        numbers: *const u64,
        numbers_len: usize,
        bytes: *const u8,
        bytes_len: usize,
        group: u64,
        value: *mut u64,
    ) -> u64;

    pub fn galdnyrr_rewrite_count(
        numbers: *const u64,
        numbers_len: usize,
        bytes: *const u8,
        bytes_len: usize,
        group: u64,
        value: *mut u64,
    ) -> u64;

    pub fn galdnyrr_entry_count(
        numbers: *const u64,
        numbers_len: usize,
        bytes: *const u8,
        bytes_len: usize,
        group: u64,
        value: *mut u64,
    ) -> u64;

    pub fn galdnyrr_get_entry(
        numbers: *const u64,
        numbers_len: usize,
        bytes: *const u8,
        bytes_len: usize,
        group: u64,
        index: u64,
        row: *mut u64,
        row_len: usize,
    ) -> u64;

    pub fn galdnyrr_has_at_least_some_entries_before(
        numbers: *const u64,
        numbers_len: usize,
        bytes: *const u8,
        bytes_len: usize,
        group: u64,
        gate: u64,
        count: usize,
        value: *mut u64,
    ) -> u64;

    pub fn galdnyrr_key_count(
        numbers: *const u64,
        numbers_len: usize,
        bytes: *const u8,
        bytes_len: usize,
        group: u64,
        value: *mut u64,
    ) -> u64;

    pub fn galdnyrr_min_file_seq(
        numbers: *const u64,
        numbers_len: usize,
        bytes: *const u8,
        bytes_len: usize,
        group: u64,
        queue: u64,
        value: *mut u64,
    ) -> u64;

    pub fn galdnyrr_get(
        numbers: *const u64,
        numbers_len: usize,
        bytes: *const u8,
        bytes_len: usize,
        group: u64,
        key: *const u8,
        key_len: usize,
        out: *mut u8,
        out_len: usize,
        len: *mut u64,
    ) -> u64;

    pub fn galdnyrr_scan(
        numbers: *const u64,
        numbers_len: usize,
        bytes: *const u8,
        bytes_len: usize,
        group: u64,
        started: bool,
        start: *const u8,
        start_len: usize,
        ended: bool,
        end: *const u8,
        end_len: usize,
        backwards: bool,
        most: usize,
        lens: *mut u64,
        lens_len: usize,
        out: *mut u8,
        out_len: usize,
        count: *mut u64,
    ) -> u64;

    pub fn galdnyrr_fetch_kvs_before(
        numbers: *const u64,
        numbers_len: usize,
        bytes: *const u8,
        bytes_len: usize,
        group: u64,
        gate: u64,
        lens: *mut u64,
        lens_len: usize,
        out: *mut u8,
        out_len: usize,
        count: *mut u64,
    ) -> u64;

    pub fn galdnyrr_fetch_rewritten_kvs(
        numbers: *const u64,
        numbers_len: usize,
        bytes: *const u8,
        bytes_len: usize,
        group: u64,
        lens: *mut u64,
        lens_len: usize,
        out: *mut u8,
        out_len: usize,
        count: *mut u64,
    ) -> u64;

    pub fn galdnyrr_fetch_records_to(
        numbers: *const u64,
        numbers_len: usize,
        bytes: *const u8,
        bytes_len: usize,
        group: u64,
        begin: u64,
        end: u64,
        sized: bool,
        max_size: u64,
        out: *mut u64,
        out_len: usize,
        count: *mut u64,
    ) -> u64;
    pub fn galdnyrr_fetch_records_before(
        numbers: *const u64,
        numbers_len: usize,
        bytes: *const u8,
        bytes_len: usize,
        group: u64,
        gate: u64,
        out: *mut u64,
        out_len: usize,
        count: *mut u64,
    ) -> u64;
    pub fn galdnyrr_fetch_rewritten_records(
        numbers: *const u64,
        numbers_len: usize,
        bytes: *const u8,
        bytes_len: usize,
        group: u64,
        out: *mut u64,
        out_len: usize,
        count: *mut u64,
    ) -> u64;
    pub fn galdnyrr_fetch_entries_to(
        numbers: *const u64,
        numbers_len: usize,
        bytes: *const u8,
        bytes_len: usize,
        group: u64,
        begin: u64,
        end: u64,
        sized: bool,
        max_size: u64,
        index: *mut u64,
        index_len: usize,
        queue: *mut u64,
        queue_len: usize,
        seq: *mut u64,
        seq_len: usize,
        offset: *mut u64,
        offset_len: usize,
        len: *mut u64,
        len_len: usize,
        compression: *mut u64,
        compression_len: usize,
        entry_offset: *mut u64,
        entry_offset_len: usize,
        entry_len: *mut u64,
        entry_len_len: usize,
        count: *mut u64,
    ) -> u64;

    pub fn galdnyrr_fetch_entry_indexes_before(
        numbers: *const u64,
        numbers_len: usize,
        bytes: *const u8,
        bytes_len: usize,
        group: u64,
        gate: u64,
        index: *mut u64,
        index_len: usize,
        queue: *mut u64,
        queue_len: usize,
        seq: *mut u64,
        seq_len: usize,
        offset: *mut u64,
        offset_len: usize,
        len: *mut u64,
        len_len: usize,
        compression: *mut u64,
        compression_len: usize,
        entry_offset: *mut u64,
        entry_offset_len: usize,
        entry_len: *mut u64,
        entry_len_len: usize,
        count: *mut u64,
    ) -> u64;

    pub fn galdnyrr_fetch_rewritten_entry_indexes(
        numbers: *const u64,
        numbers_len: usize,
        bytes: *const u8,
        bytes_len: usize,
        group: u64,
        index: *mut u64,
        index_len: usize,
        queue: *mut u64,
        queue_len: usize,
        seq: *mut u64,
        seq_len: usize,
        offset: *mut u64,
        offset_len: usize,
        len: *mut u64,
        len_len: usize,
        compression: *mut u64,
        compression_len: usize,
        entry_offset: *mut u64,
        entry_offset_len: usize,
        entry_len: *mut u64,
        entry_len_len: usize,
        count: *mut u64,
    ) -> u64;

    pub fn galdnyrr_is_empty(
        numbers: *const u64,
        numbers_len: usize,
        bytes: *const u8,
        bytes_len: usize,
    ) -> bool;

    pub fn galdnyrr_group_numbers(
        numbers: *const u64,
        numbers_len: usize,
        bytes: *const u8,
        bytes_len: usize,
        list: *mut u64,
        list_len: usize,
        count: *mut u64,
    ) -> u64;

    pub fn galdnyrr_live_entries(
        numbers: *const u64,
        numbers_len: usize,
        bytes: *const u8,
        bytes_len: usize,
        queue: u64,
    ) -> usize;
}
