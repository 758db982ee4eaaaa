/* The take index of the plate rig: the in-memory index of raft-engine 0.4.2, proved, for C programs.
 *
 * A context gathers the batches of one queue during recovery; the index takes live writes. Either lies in an AREA of two
 * arrays that the program owns: GALDNYRR_NUMBERS numbers and GALDNYRR_BYTES bytes. galdnyrr_fresh makes a context of
 * an area, whatever the arrays held; from then on only calls of this header may write it. Nothing is kept outside of an area, and a
 * call allocates nothing, so that areas may be used by several threads, each by one at a time.
 *
 * What is proved of each call (crates/galdnyrr/src) is proved for an area of these lengths that the calls made. NOT TESTED,
 * and for the program to ensure: that the lengths are these, that no one else wrote the area, that pointers are neither null nor
 * misaligned (even for a length of 0), and that what a call writes overlaps nothing else that it is lent. Everything else,
 * every content of a batch included, is answered as document 01 says: a call is accepted, or it is refused by one of the
 * numbers below and leaves everything as it was.
 *
 * Build: tools/library, then link target/staticlib/libgaldnyrr.a. */
#ifndef GALDNYRR_H
#define GALDNYRR_H

#include <stdbool.h>
#include <stddef.h>
#include <stdint.h>

#ifdef __cplusplus
extern "C" {
#endif

/* The lengths of an area. */
#define GALDNYRR_NUMBERS 17231
#define GALDNYRR_BYTES 38912

/* Queues. Any number but 0 stands for the Rewrite queue. */
#define GALDNYRR_APPEND 0
#define GALDNYRR_REWRITE 1

/* ---- Answers: 0, or the number of the cause for which the call is refused. */
enum {
    GALDNYRR_OK = 0,
    /* The wrong kind: a call of the index on a context or the reverse, or a batch file of the other queue. */
    GALDNYRR_WRONG_KIND = 1,
    /* A batch over 32 items, a list over 32 entries, a key or value over 32 bytes. */
    GALDNYRR_TOO_LONG = 2,
    /* A Put without value or file, an entry without a file, indexes that are not consecutive, a row that is no item. */
    GALDNYRR_INCOMPLETE = 3,
    /* An index or compaction target above 2^63-1, an entry length above 2^25. */
    GALDNYRR_OUT_OF_RANGE = 4,
    /* A file that the call reads is not of the queue that it writes. */
    GALDNYRR_WRONG_QUEUE = 5,
    /* A Del or Compact in a live rewrite. */
    GALDNYRR_NOT_REWRITABLE = 6,
    /* Rewrite replay: two marks, a status above 2, an item of another group in a marked batch. */
    GALDNYRR_BAD_MARK = 7,
    /* The files of an atomic group go back. */
    GALDNYRR_FILES_GO_BACK = 8,
    /* The group of a query is absent. */
    GALDNYRR_GROUP_ABSENT = 9,
    /* A scan's start above its end, or a count of 0. */
    GALDNYRR_BAD_RANGE = 10,
    /* A fetch below the first entry. */
    GALDNYRR_ENTRY_COMPACTED = 11,
    /* A fetch of entries that are not held. */
    GALDNYRR_ENTRY_NOT_FOUND = 12,
    /* A live append below the first entry. */
    GALDNYRR_BELOW_FIRST = 13,
    /* An append, live or replayed, above last + 1. */
    GALDNYRR_ABOVE_LAST = 14,
    /* A live rewrite would leave an Append entry before it. */
    GALDNYRR_APPEND_LEFT = 15,
    /* A gated rewrite meets a Rewrite entry. */
    GALDNYRR_ALREADY_REWRITTEN = 16,
    /* A key rewrite to a lower sequence number. */
    GALDNYRR_KEY_GOES_BACK = 17,
    /* A limit is passed: 8 groups; 64 entries and 16 keys a group; 64 tombstones; 64 cleaned numbers; what waits. */
    GALDNYRR_LIMIT_PASSED = 18,
    /* An answer is longer than the lent list. */
    GALDNYRR_LIST_TOO_SHORT = 19
};

/* The place of a refusal that was met at no item, and of an accepted call. */
#define GALDNYRR_NO_PLACE UINT64_MAX

/* ---- A batch as it is lent: three arrays, whose lengths are counted in numbers and bytes.
 *
 * items: rows of 9 numbers, group, tag, a, b, c, d, e, f, g. Numbers that a tag does not name are not read.
 *   GALDNYRR_ENTRIES  the b rows of `entries` from row a
 *   GALDNYRR_CLEAN    the group goes
 *   GALDNYRR_COMPACT  entries below index a go
 *   GALDNYRR_PUT      the key is the b bytes from place a; c is 0 for no value and 1 for the e bytes from place d as value; f is
 *                     0 for a file of the Append queue, 1 for one of the Rewrite queue, with sequence number g, and above 1
 *                     for no file
 *   GALDNYRR_DEL      the key is the b bytes from place a
 * entries: rows of 8 numbers, index, queue, sequence number, block offset, block length, compression type (0 none, 1 LZ4), entry
 *   offset, entry length. A queue or compression type above 1, or an entry offset of 2^32 or more, is an entry without a file.
 * bytes: keys and values.
 *
 * A row that is none of these (another tag, c above 1, places past the end of their array, a last row that is cut short) is refused
 * by 3 at its position. */
#define GALDNYRR_ITEM_WIDTH 9
#define GALDNYRR_ENTRY_WIDTH 8
#define GALDNYRR_ENTRIES 0
#define GALDNYRR_CLEAN 1
#define GALDNYRR_COMPACT 2
#define GALDNYRR_PUT 3
#define GALDNYRR_DEL 4
#define GALDNYRR_NO_FILE 2

/* ---- Contexts */

/* Makes a fresh context of a queue, whatever the area held. Never refused. */
void galdnyrr_fresh(uint64_t *numbers, size_t numbers_len, uint8_t *bytes, size_t bytes_len, uint64_t queue);

/* Replays a batch into a context of its file's queue. A marked batch of the Rewrite queue waits, or finishes what waited. `place` gets
 * the position of the item that is refused, or GALDNYRR_NO_PLACE. Refused: 1, 2 to 5, 7, 8, 14, 18. */
uint64_t galdnyrr_replay(uint64_t *numbers, size_t numbers_len, uint8_t *bytes, size_t bytes_len, uint64_t queue,
                         uint64_t seq, const uint64_t *items, size_t items_len, const uint64_t *entries,
                         size_t entries_len, const uint8_t *batch_bytes, size_t batch_bytes_len, uint64_t *place);

/* Merges the newer context of the same queue, which is only read, into the older one. Refused, without a place: 1, 8, 14, 18. */
uint64_t galdnyrr_merge(uint64_t *numbers, size_t numbers_len, uint8_t *bytes, size_t bytes_len,
                        const uint64_t *newer_numbers, size_t newer_numbers_len, const uint8_t *newer_bytes,
                        size_t newer_bytes_len, uint64_t *place);

/* Joins an Append context, which is only read, to a Rewrite context, which becomes the index. Refused, without a place: 1, 18. */
uint64_t galdnyrr_join(uint64_t *numbers, size_t numbers_len, uint8_t *bytes, size_t bytes_len,
                       const uint64_t *append_numbers, size_t append_numbers_len, const uint8_t *append_bytes,
                       size_t append_bytes_len, uint64_t *place);

/* ---- The index */

/* Appends a batch, whose file is of the Append queue, to the index. Refused: 1, 2 to 5, 13, 14, 18. */
uint64_t galdnyrr_append(uint64_t *numbers, size_t numbers_len, uint8_t *bytes, size_t bytes_len, uint64_t queue,
                         uint64_t seq, const uint64_t *items, size_t items_len, const uint64_t *entries,
                         size_t entries_len, const uint8_t *batch_bytes, size_t batch_bytes_len, uint64_t *place);

/* Rewrites a batch, whose file is of the Rewrite queue, in the index. Gated, an Append entry or key is rewritten only if its
 * file is at most the gate; a key's new sequence number is the batch's. Refused: 1, 2 to 6, 15 to 18. */
uint64_t galdnyrr_rewrite(uint64_t *numbers, size_t numbers_len, uint8_t *bytes, size_t bytes_len, bool gated,
                          uint64_t gate, uint64_t queue, uint64_t seq, const uint64_t *items, size_t items_len,
                          const uint64_t *entries, size_t entries_len, const uint8_t *batch_bytes,
                          size_t batch_bytes_len, uint64_t *place);

/* Hands out the cleaned numbers of the index in order, at most 64, and empties their list; `count` gets how many. Refused: 1, 19. */
uint64_t galdnyrr_take_cleaned_region_logs(uint64_t *numbers, size_t numbers_len, const uint8_t *bytes, size_t bytes_len,
                                           uint64_t *list, size_t list_len, uint64_t *count);

/* ---- Queries of a group of a context or the index
 *
 * They write nothing but `value`, `row` or a lent list, and these only if 0 is returned. Each is refused by 9 for an absent group. */

/* What is returned for an answer that is absent. */
#define GALDNYRR_ABSENT UINT64_MAX

/* The index of the first entry; GALDNYRR_ABSENT if there is none. Refused: 9. */
uint64_t galdnyrr_first_index(const uint64_t *numbers, size_t numbers_len, const uint8_t *bytes, size_t bytes_len,
                              uint64_t group, uint64_t *value);

/* The index of the last entry; GALDNYRR_ABSENT if there is none. Refused: 9. */
uint64_t galdnyrr_last_index(const uint64_t *numbers, size_t numbers_len, const uint8_t *bytes, size_t bytes_len,
                             uint64_t group, uint64_t *value);

/* The number of Rewrite entries. Refused: 9. */
uint64_t galdnyrr_rewrite_count(const uint64_t *numbers, size_t numbers_len, const uint8_t *bytes, size_t bytes_len,
                                uint64_t group, uint64_t *value);

/* The number of entries. Refused: 9. */
uint64_t galdnyrr_entry_count(const uint64_t *numbers, size_t numbers_len, const uint8_t *bytes, size_t bytes_len,
                              uint64_t group, uint64_t *value);

/* The record at an index, as a row of 8 numbers; GALDNYRR_ABSENT if it is not held. Refused: 9, 19 (a row of less than 8). */
uint64_t galdnyrr_get_entry(const uint64_t *numbers, size_t numbers_len, const uint8_t *bytes, size_t bytes_len,
                            uint64_t group, uint64_t index, uint64_t *row, size_t row_len);

/* 1 if the entry at place count - 1 has a sequence number up to the gate's, else 0. Refused: 9, 10 (a count of 0). */
uint64_t galdnyrr_has_at_least_some_entries_before(const uint64_t *numbers, size_t numbers_len, const uint8_t *bytes,
                                                   size_t bytes_len, uint64_t group, uint64_t gate, size_t count,
                                                   uint64_t *value);

/* The number of keys. Refused: 9. */
uint64_t galdnyrr_key_count(const uint64_t *numbers, size_t numbers_len, const uint8_t *bytes, size_t bytes_len,
                            uint64_t group, uint64_t *value);

/* The least file of a queue among the entries and keys, with the group's span; GALDNYRR_ABSENT if there is none. Refused: 9. */
uint64_t galdnyrr_min_file_seq(const uint64_t *numbers, size_t numbers_len, const uint8_t *bytes, size_t bytes_len,
                               uint64_t group, uint64_t queue, uint64_t *value);

/* The value of a key of any length, copied to the front of `out`, and its length, at most 32; GALDNYRR_ABSENT if the key is
 * absent. Refused: 9, 19. */
uint64_t galdnyrr_get(const uint64_t *numbers, size_t numbers_len, const uint8_t *bytes, size_t bytes_len,
                      uint64_t group, const uint8_t *key, size_t key_len, uint8_t *out, size_t out_len, uint64_t *len);

/* ---- Lent lists. `count` gets the number of rows that were filled; what lies behind them stays as it was. */

/* A list of keys: rows of two numbers in `lens`, key length and value length, and of 64 bytes in `out`, 32 for the key and 32 for the
 * value. A group has at most 16 keys. */
#define GALDNYRR_KEY_NUMBERS 2
#define GALDNYRR_KEY_BYTES 64

/* The keys from `start` on and below `end`, in byte order or backwards, up to `most` of them; a bound that is not there is open.
 * Refused: 9, 10 (start above end, or most = 0), 19. */
uint64_t galdnyrr_scan(const uint64_t *numbers, size_t numbers_len, const uint8_t *bytes, size_t bytes_len,
                       uint64_t group, bool started, const uint8_t *start, size_t start_len, bool ended,
                       const uint8_t *end, size_t end_len, bool backwards, size_t most, uint64_t *lens, size_t lens_len,
                       uint8_t *out, size_t out_len, uint64_t *count);

/* The Append keys whose file is at most the gate. Refused: 9, 19. */
uint64_t galdnyrr_fetch_kvs_before(const uint64_t *numbers, size_t numbers_len, const uint8_t *bytes, size_t bytes_len,
                                   uint64_t group, uint64_t gate, uint64_t *lens, size_t lens_len, uint8_t *out,
                                   size_t out_len, uint64_t *count);

/* All Rewrite keys. Refused: 9, 19. */
uint64_t galdnyrr_fetch_rewritten_kvs(const uint64_t *numbers, size_t numbers_len, const uint8_t *bytes,
                                      size_t bytes_len, uint64_t group, uint64_t *lens, size_t lens_len, uint8_t *out,
                                      size_t out_len, uint64_t *count);

/* A record is a row of eight numbers. The length of a list of records is counted in numbers; those behind the last whole record are
 * never written. A group has at most 64 entries. */
#define GALDNYRR_RECORD_WIDTH 8

struct galdnyrr_record {
    uint64_t index;
    /* 0 for Append, 1 for Rewrite. */
    uint64_t queue;
    uint64_t seq;
    uint64_t block_offset;
    uint64_t block_len;
    /* 0 for none, 1 for Lz4. */
    uint64_t compression;
    uint64_t entry_offset;
    uint64_t entry_len;
};

/* The entries with indexes in [begin, end); with a size, up to the record with which their lengths would sum above it. `out` may be a
 * list of galdnyrr_record, and `count` gets how many. Refused: 9, 11, 12, 19. */
uint64_t galdnyrr_fetch_records_to(const uint64_t *numbers, size_t numbers_len, const uint8_t *bytes, size_t bytes_len,
                                   uint64_t group, uint64_t begin, uint64_t end, bool sized, uint64_t max_size,
                                   uint64_t *out, size_t out_len, uint64_t *count);

/* The Append entries from the front while their file is at most the gate. Refused: 9, 19. */
uint64_t galdnyrr_fetch_records_before(const uint64_t *numbers, size_t numbers_len, const uint8_t *bytes,
                                       size_t bytes_len, uint64_t group, uint64_t gate, uint64_t *out, size_t out_len,
                                       uint64_t *count);

/* All Rewrite entries. Refused: 9, 19. */
uint64_t galdnyrr_fetch_rewritten_records(const uint64_t *numbers, size_t numbers_len, const uint8_t *bytes,
                                          size_t bytes_len, uint64_t group, uint64_t *out, size_t out_len,
                                          uint64_t *count);

/* The same three fetches into eight arrays, one for each field of a record. The list is as long as the shortest of them; what lies
 * behind that in a longer one is never written. */

/* The entries with indexes in [begin, end); with a size, up to the record with which their lengths would sum above it. Refused: 9,
 * 11, 12, 19. */
uint64_t galdnyrr_fetch_entries_to(const uint64_t *numbers, size_t numbers_len, const uint8_t *bytes, size_t bytes_len,
                                   uint64_t group, uint64_t begin, uint64_t end, bool sized, uint64_t max_size,
                                   uint64_t *index, size_t index_len, uint64_t *queue, size_t queue_len, uint64_t *seq,
                                   size_t seq_len, uint64_t *offset, size_t offset_len, uint64_t *len, size_t len_len,
                                   uint64_t *compression, size_t compression_len, uint64_t *entry_offset,
                                   size_t entry_offset_len, uint64_t *entry_len, size_t entry_len_len, uint64_t *count);

/* The Append entries from the front while their file is at most the gate. Refused: 9, 19. */
uint64_t galdnyrr_fetch_entry_indexes_before(const uint64_t *numbers, size_t numbers_len, const uint8_t *bytes,
                                             size_t bytes_len, uint64_t group, uint64_t gate, uint64_t *index,
                                             size_t index_len, uint64_t *queue, size_t queue_len, uint64_t *seq,
                                             size_t seq_len, uint64_t *offset, size_t offset_len, uint64_t *len,
                                             size_t len_len, uint64_t *compression, size_t compression_len,
                                             uint64_t *entry_offset, size_t entry_offset_len, uint64_t *entry_len,
                                             size_t entry_len_len, uint64_t *count);

/* All Rewrite entries. Refused: 9, 19. */
uint64_t galdnyrr_fetch_rewritten_entry_indexes(const uint64_t *numbers, size_t numbers_len, const uint8_t *bytes,
                                                size_t bytes_len, uint64_t group, uint64_t *index, size_t index_len,
                                                uint64_t *queue, size_t queue_len, uint64_t *seq, size_t seq_len,
                                                uint64_t *offset, size_t offset_len, uint64_t *len, size_t len_len,
                                                uint64_t *compression, size_t compression_len, uint64_t *entry_offset,
                                                size_t entry_offset_len, uint64_t *entry_len, size_t entry_len_len,
                                                uint64_t *count);

/* ---- Queries of all groups */

/* Whether there are no groups. Never refused. */
bool galdnyrr_is_empty(const uint64_t *numbers, size_t numbers_len, const uint8_t *bytes, size_t bytes_len);

/* The numbers of all groups, ascending, at most 8; `count` gets how many. Refused: 19. */
uint64_t galdnyrr_group_numbers(const uint64_t *numbers, size_t numbers_len, const uint8_t *bytes, size_t bytes_len,
                                uint64_t *list, size_t list_len, uint64_t *count);

/* The live count of a queue: the entries and keys of all groups but those that a join adopted. Never refused. */
size_t galdnyrr_live_entries(const uint64_t *numbers, size_t numbers_len, const uint8_t *bytes, size_t bytes_len,
                             uint64_t queue);

#ifdef __cplusplus
}
#endif

#endif
