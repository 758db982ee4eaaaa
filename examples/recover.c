/* Recovers two runs of the Append queue, each into a context of its own; the newer one is merged into the older one, which is joined to
 * a Rewrite context. The index that this makes takes a live batch, and what it holds is read. */
#include "galdnyrr.h"

#include <inttypes.h>
#include <stdio.h>

/* An area is 173 KiB: it stands outside of the stack. */
struct area {
    uint64_t numbers[GALDNYRR_NUMBERS];
    uint8_t bytes[GALDNYRR_BYTES];
};

static struct area older, newer, all;

/* A batch in the making, with room for what a call takes at most. */
struct batch {
    uint64_t items[32 * GALDNYRR_ITEM_WIDTH];
    size_t items_len;
    uint64_t entries[64 * GALDNYRR_ENTRY_WIDTH];
    size_t entries_len;
    uint8_t bytes[32 * 64];
    size_t bytes_len;
};

static void add_item(struct batch *b, uint64_t group, uint64_t tag, const uint64_t rest[7]) {
    uint64_t *row = b->items + b->items_len;
    row[0] = group;
    row[1] = tag;
    for (int i = 0; i < 7; i++) {
        row[2 + i] = rest[i];
    }
    b->items_len += GALDNYRR_ITEM_WIDTH;
}

/* Adds a list of `count` entries from an index on, each of `length` bytes in a file of the Append queue. */
static void add_entries(struct batch *b, uint64_t group, uint64_t first, uint64_t count, uint64_t seq, uint64_t length) {
    uint64_t at = b->entries_len / GALDNYRR_ENTRY_WIDTH;
    for (uint64_t i = 0; i < count; i++) {
        uint64_t *row = b->entries + b->entries_len;
        row[0] = first + i;
        row[1] = GALDNYRR_APPEND;
        row[2] = seq;
        row[3] = 0;
        row[4] = 0;
        row[5] = 0;
        row[6] = i * length;
        row[7] = length;
        b->entries_len += GALDNYRR_ENTRY_WIDTH;
    }
    add_item(b, group, GALDNYRR_ENTRIES, (const uint64_t[7]){at, count, 0, 0, 0, 0, 0});
}

static size_t add_bytes(struct batch *b, const char *text, size_t len) {
    size_t at = b->bytes_len;
    for (size_t i = 0; i < len; i++) {
        b->bytes[at + i] = (uint8_t)text[i];
    }
    b->bytes_len += len;
    return at;
}

/* Adds a Put of one key and value in a file of the Append queue. */
static void add_put(struct batch *b, uint64_t group, const char *key, size_t key_len, const char *value, size_t value_len,
                    uint64_t seq) {
    uint64_t key_at = add_bytes(b, key, key_len);
    uint64_t value_at = add_bytes(b, value, value_len);
    add_item(b, group, GALDNYRR_PUT, (const uint64_t[7]){key_at, key_len, 1, value_at, value_len, GALDNYRR_APPEND, seq});
}

static void fresh(struct area *a, uint64_t queue) {
    galdnyrr_fresh(a->numbers, GALDNYRR_NUMBERS, a->bytes, GALDNYRR_BYTES, queue);
}

/* Prints what a call answered. */
static void tell(const char *call, uint64_t number, uint64_t place) {
    if (number == GALDNYRR_OK) {
        printf("%s: ok\n", call);
    } else if (place == GALDNYRR_NO_PLACE) {
        printf("%s refused: %" PRIu64 "\n", call, number);
    } else {
        printf("%s refused: %" PRIu64 " at item %" PRIu64 "\n", call, number, place);
    }
}

static void replay(struct area *a, uint64_t seq, const struct batch *b) {
    uint64_t place;
    uint64_t number =
        galdnyrr_replay(a->numbers, GALDNYRR_NUMBERS, a->bytes, GALDNYRR_BYTES, GALDNYRR_APPEND, seq, b->items,
                        b->items_len, b->entries, b->entries_len, b->bytes, b->bytes_len, &place);
    tell("replay", number, place);
}

static void append(struct area *a, uint64_t seq, const struct batch *b) {
    uint64_t place;
    uint64_t number =
        galdnyrr_append(a->numbers, GALDNYRR_NUMBERS, a->bytes, GALDNYRR_BYTES, GALDNYRR_APPEND, seq, b->items,
                        b->items_len, b->entries, b->entries_len, b->bytes, b->bytes_len, &place);
    tell("append", number, place);
}

static void merge(struct area *a, const struct area *its) {
    uint64_t place;
    uint64_t number = galdnyrr_merge(a->numbers, GALDNYRR_NUMBERS, a->bytes, GALDNYRR_BYTES, its->numbers,
                                     GALDNYRR_NUMBERS, its->bytes, GALDNYRR_BYTES, &place);
    tell("merge", number, place);
}

static void join(struct area *a, const struct area *its) {
    uint64_t place;
    uint64_t number = galdnyrr_join(a->numbers, GALDNYRR_NUMBERS, a->bytes, GALDNYRR_BYTES, its->numbers,
                                    GALDNYRR_NUMBERS, its->bytes, GALDNYRR_BYTES, &place);
    tell("join", number, place);
}

/* A list of records for a fetch; its length is counted in numbers. */
#define ROOM 64
static struct galdnyrr_record records[ROOM];

static void fetch(const struct area *a, uint64_t group, uint64_t begin, uint64_t end) {
    uint64_t count;
    uint64_t number = galdnyrr_fetch_records_to(a->numbers, GALDNYRR_NUMBERS, a->bytes, GALDNYRR_BYTES, group, begin, end,
                                                false, 0, &records[0].index, ROOM * GALDNYRR_RECORD_WIDTH, &count);
    if (number != GALDNYRR_OK) {
        printf("fetch [%" PRIu64 ", %" PRIu64 ") refused: %" PRIu64 "\n", begin, end, number);
        return;
    }
    for (uint64_t i = 0; i < count; i++) {
        const struct galdnyrr_record *r = &records[i];
        printf("entry %" PRIu64 ": file %" PRIu64 ", %" PRIu64 " bytes at %" PRIu64 "\n", r->index, r->seq, r->entry_len,
               r->entry_offset);
    }
}

static void get(const struct area *a, uint64_t group, const char *key, size_t key_len) {
    uint8_t value[32];
    uint64_t len;
    switch (galdnyrr_get(a->numbers, GALDNYRR_NUMBERS, a->bytes, GALDNYRR_BYTES, group, (const uint8_t *)key, key_len, value,
                         sizeof value, &len)) {
    case GALDNYRR_OK:
        printf("%.*s = %.*s\n", (int)key_len, key, (int)len, (const char *)value);
        break;
    case GALDNYRR_ABSENT:
        printf("%.*s is absent\n", (int)key_len, key);
        break;
    default:
        printf("group %" PRIu64 " is absent\n", group);
    }
}

int main(void) {
    fresh(&older, GALDNYRR_APPEND);
    struct batch first = {.items_len = 0};
    add_entries(&first, 7, 1, 10, 1, 100);
    add_put(&first, 7, "key", 3, "value", 5, 1);
    replay(&older, 1, &first);

    /* A gap: the group ends at 10. Nothing of this batch stays. */
    struct batch gap = {.items_len = 0};
    add_put(&gap, 8, "key", 3, "", 0, 2);
    add_entries(&gap, 7, 12, 1, 2, 100);
    replay(&older, 2, &gap);

    /* The run behind it, in a context of its own: its entries take the place of those from 9 on. */
    fresh(&newer, GALDNYRR_APPEND);
    struct batch second = {.items_len = 0};
    add_entries(&second, 7, 9, 3, 3, 50);
    replay(&newer, 3, &second);

    merge(&older, &newer);
    printf("live entries: %zu\n",
           galdnyrr_live_entries(older.numbers, GALDNYRR_NUMBERS, older.bytes, GALDNYRR_BYTES, GALDNYRR_APPEND));

    /* A context of the other queue is joined, not merged. */
    fresh(&all, GALDNYRR_REWRITE);
    merge(&older, &all);
    join(&all, &older);

    struct batch live = {.items_len = 0};
    add_entries(&live, 7, 12, 1, 4, 50);
    append(&all, 4, &live);

    fetch(&all, 7, 8, 13);
    fetch(&all, 7, 9, 14);
    get(&all, 7, "key", 3);
    get(&all, 7, "other", 5);
    get(&all, 8, "key", 3);
    return 0;
}
