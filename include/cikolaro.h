/*
 * A B-tree of order 8 in a byte store that the caller lends.
 *
 * "01" is document 01 of the project, which says what the tree must do, and "02" the one that changes it. Each function below is proved
 * to meet its contract for all inputs: no argument has to be checked before a call. What C itself asks stays with the caller:
 *
 *  - a pointer names as many elements as the length beside it says; with length 0 it may be any pointer that is not null;
 *  - a pointer without a length names one element, or one whole array where the comment tells how many elements it has (288 for a
 *    cursor's key), and is not null;
 *  - what is lent for writing overlaps nothing else that is lent to the same call;
 *  - no other thread writes to what is lent while the call runs.
 *
 * The caller owns everything. No function keeps a pointer after it returns, allocates, or calls anything.
 *
 * Each function but cikolaro_node_child returns a number: 0 for done, else a refusal (CIKOLARO_... below).
 */
#ifndef CIKOLARO_H
#define CIKOLARO_H

#include <stddef.h>
#include <stdint.h>

#ifdef __cplusplus
extern "C" {
#endif

/* 01's numbers, and from 18 on 02's. */
enum {
    CIKOLARO_DONE = 0,
    CIKOLARO_NOT_STORE = 1,  /* the size, the count or bytes 20..23 are not a store's */
    CIKOLARO_FEW_MARKS = 2,  /* too few mark words */
    CIKOLARO_SHORT = 3,      /* a record cut short, or of an unknown kind */
    CIKOLARO_LONG_KEY = 4,   /* a key, or a cursor's length, over 288; a cursor's kind above 3 */
    CIKOLARO_BAD_VALUE = 5,  /* a set, or a separator to be written, with value 0; a dereference with another value */
    CIKOLARO_FALLS = 6,      /* a key below the one before */
    CIKOLARO_TOO_MANY = 7,   /* a 65,536th record */
    CIKOLARO_FAILS = 8,      /* the audit fails; a walk meets a node that is bad or not in standard form, or a depth above 7 */
    CIKOLARO_NO_ROOM = 9,    /* too few free slots */
    CIKOLARO_SHORT_DESTINATION = 10, /* too few bytes for the node that is to be written */
    /* of node bytes alone: under 8 bytes for a child, under 9 for a separator's head, under 4 for a long size, a key cut short */
    CIKOLARO_SHORT_CHILD = 11,
    CIKOLARO_SHORT_HEAD = 12,
    CIKOLARO_SHORT_SIZE = 13,
    CIKOLARO_SHORT_KEY = 14,
    CIKOLARO_BAD_TEXT = 15,            /* a bad line, too much text, or too little room for its records */
    CIKOLARO_TOO_MANY_SEPARATORS = 16, /* a node that is to be written has more than 8 */
    /* of node bytes read strictly: 0xFF before a length below 255, a separator with value 0, bytes behind the ninth child */
    CIKOLARO_LOW_SIZE = 18,
    CIKOLARO_ZERO_VALUE = 19,
    CIKOLARO_BYTES_BEHIND = 20
};

#define CIKOLARO_LONGEST_KEY 288
#define CIKOLARO_MOST_SLOTS 65535
#define CIKOLARO_MOST_SEPARATORS 8
#define CIKOLARO_LONGEST_NODE 2480
#define CIKOLARO_MOST_TEXT 16384

/* How many bytes the records of any text of at most CIKOLARO_MOST_TEXT bytes fit in. */
#define CIKOLARO_MOST_RECORD_BYTES 36038

/* How many bytes a store of so many slots has. */
#define CIKOLARO_STORE_SIZE(count) ((size_t)24 + (size_t)2560 * (size_t)(count))

/* How many mark words the audit of a store of so many slots asks for. */
#define CIKOLARO_MARK_WORDS(count) (((size_t)(count) + 63) / 64)

/*
 * Makes the lent bytes an empty store of `count` slots, whatever they held.
 * 0: all bytes are written. 1 (size or count is not a store's): all bytes stay.
 */
uint32_t cikolaro_format(uint8_t *store, size_t store_len, uint32_t count);

/*
 * Whether the store is one that passes 01's audit. The store is only read.
 * 0: mark word (s-1)/64 has bit (s-1)%64 set exactly for each slot s that the tree reaches, all other bits of all lent words are
 *    0, and *reached is how many are set.
 * 1, 2: the marks stay. 8: all marks are zero. With any refusal *reached is 0. What it held before is not read.
 */
uint32_t cikolaro_audit(const uint8_t *store, size_t store_len, uint64_t *marks, size_t marks_len, size_t *reached);

/*
 * Runs a batch of records on the store: kind (1 byte; 1 set, 2 dereference), key length (2), value (8; 0 for kind 2), key; numbers
 * are little-endian, keys never fall, a run of equal keys acts as its last record. The records are only read.
 * 0: all records are applied, *applied is how many there are, the marks are zero.
 * 9: the runs before the first one without room are applied, *applied is how many records they have, the marks are zero.
 * 1 to 7: store and marks stay. 8 (the audit fails): the store stays, the marks are zero. Then *applied is 0.
 * What *applied held before is not read.
 */
uint32_t cikolaro_batch(uint8_t *store, size_t store_len, uint64_t *marks, size_t marks_len, const uint8_t *records,
                        size_t records_len, size_t *applied);

/*
 * House lines to the records that cikolaro_batch takes: `set` TAB key in lowercase hex TAB decimal, or `del` TAB key; each ends in
 * LF. The text is only read.
 * 0: the front of `records` holds the records in the order of the lines, *length is how many bytes they have, and the bytes behind
 *    them are zero.
 * 15 (a bad line, more than 16,384 bytes of text, or more records than fit): all lent record bytes are zero, *length is 0.
 * What records and *length held before is not read. Whether a batch takes the records is not looked at here.
 */
uint32_t cikolaro_parse(const uint8_t *text, size_t text_len, uint8_t *records, size_t records_len, size_t *length);

/*
 * Runs house lines as one batch. `records` is the caller's room for their records. The text is only read.
 * 15 (as cikolaro_parse): store and marks stay, all lent record bytes are zero, *applied is 0.
 * Else the lent record bytes are as cikolaro_parse leaves them, and the number, the store, the marks and *applied are as
 * cikolaro_batch answers and leaves them for these records. What records and *applied held before is not read.
 */
uint32_t cikolaro_run_lines(uint8_t *store, size_t store_len, uint64_t *marks, size_t marks_len, uint8_t *records,
                            size_t records_len, const uint8_t *text, size_t text_len, size_t *applied);

/*
 * The value of a key. Store and key are only read; the store need not be audited. Nodes are read strictly (cikolaro_node_read_strict).
 * 0: *present is 1 and *value the value, or both are 0 where the key is absent.
 * 1, 4, 8: *present and *value are 0. What they held before is not read. 8 is also for a node that only the lenient reading takes
 *    (cikolaro_node_read): a store that passes the audit has none.
 */
uint32_t cikolaro_lookup(const uint8_t *store, size_t store_len, const uint8_t *key, size_t key_len, uint32_t *present,
                         uint64_t *value);

/* Where a cursor is. At and Seeked have a length: the front of the key array that is the key. */
enum {
    CIKOLARO_START = 0,
    CIKOLARO_END = 1,
    CIKOLARO_AT = 2,
    CIKOLARO_SEEKED = 3
};

/*
 * A cursor: the three things that the functions below are lent, in one struct for those who want it so. It names no store and
 * stays good when the store changes. All zero is a cursor at Start.
 */
typedef struct cikolaro_cursor {
    uint32_t kind;
    size_t length;
    uint8_t key[CIKOLARO_LONGEST_KEY];
} cikolaro_cursor;

/*
 * Puts the cursor to Seeked with this key, reading no store.
 * 0: kind, length and all 288 key bytes are written, those past the key with 0. 4: the cursor stays.
 */
uint32_t cikolaro_seek(const uint8_t *key, size_t key_len, uint32_t *cursor_kind, size_t *cursor_length, uint8_t *cursor_key);

/*
 * A step forward: Start gives the smallest key, Seeked the first not below, At the first above, End none.
 * 0: an entry (*present 1, *value its value, the cursor At its key), or none (*present 0, *value 0, the cursor at End). All 288
 *    key bytes are written, those past the key with 0.
 * 1, 4, 8: the cursor stays, *present and *value are 0. What they held before is not read. The store is only read; it need not be
 *    audited, and 8 is also for a node that only the lenient reading takes, as for cikolaro_lookup.
 */
uint32_t cikolaro_forward(const uint8_t *store, size_t store_len, uint32_t *cursor_kind, size_t *cursor_length,
                          uint8_t *cursor_key, uint32_t *present, uint64_t *value);

/*
 * A step backward: End gives the largest key, Seeked the last not above, At the last below, Start none, which leaves the cursor at
 * Start. All else as for forward.
 */
uint32_t cikolaro_backward(const uint8_t *store, size_t store_len, uint32_t *cursor_kind, size_t *cursor_length,
                           uint8_t *cursor_key, uint32_t *present, uint64_t *value);

/*
 * Node bytes, read where they stand: for who looks into a slot. This is the lenient reading: it takes 0xFF before a length below
 * 255, ends at a separator with value 0, and ignores what is behind the end. The bytes are only read.
 * 0: *count is how many separators there are (0 to 8). 4, 11 to 14: *count is 0. What it held before is not read.
 */
uint32_t cikolaro_node_read(const uint8_t *bytes, size_t bytes_len, size_t *count);

/*
 * The child at an index, as it stands in the bytes: 0 where there is none, and for refused bytes.
 */
uint64_t cikolaro_node_child(const uint8_t *bytes, size_t bytes_len, size_t index);

/*
 * A separator: its key is the part of `bytes` that begins at *start and is *length long; its value is *value, never 0.
 * Returns what cikolaro_node_read does. All three are 0 for a separator that isn't there, and for refused bytes. What they held before
 * is not read.
 */
uint32_t cikolaro_node_separator(const uint8_t *bytes, size_t bytes_len, size_t index, size_t *start, size_t *length,
                                 uint64_t *value);

/*
 * The strict reading: it takes exactly the bytes that cikolaro_node_write makes, so two byte strings that it reads as the same node
 * are the same. Store calls read nodes so. The bytes are only read.
 * 0: *count is how many separators there are (0 to 8), *place is bytes_len. cikolaro_node_read takes these bytes too, as the same node,
 *    so cikolaro_node_child gives its children.
 * 4, 11 to 14, 18 to 20: *count is 0, *place is where the refused child or separator begins (a separator begins with its value); for 20
 *    it is where the first byte behind the ninth child is. Reading goes from the front and stops at the first refusal: 11 for a child;
 *    within a separator 12, 13, 14, 18, 19, 4; 20 behind the ninth child.
 * What *count and *place held before is not read.
 */
uint32_t cikolaro_node_read_strict(const uint8_t *bytes, size_t bytes_len, size_t *count, size_t *place);

/*
 * A separator by the strict reading: its key is the part of `bytes` that begins at *start and is *length long; its value is *value,
 * never 0. The bytes are only read.
 * Returns what cikolaro_node_read_strict does. All three are 0 for a separator that isn't there, and for refused bytes. What they held
 * before is not read.
 */
uint32_t cikolaro_node_separator_strict(const uint8_t *bytes, size_t bytes_len, size_t index, size_t *start, size_t *length,
                                        uint64_t *value);

/*
 * Writes a node of `count` separators in standard form to the front of the destination. Lent are 9 children, 8 values, 8 key lengths
 * and 2,304 key bytes, all only read; the key of separator i is the first lengths[i] bytes from keys[288 * i] on. Children past
 * the separators plus one, and lengths, values and key bytes that no separator uses, are dropped. They may hold anything.
 * 0: *written is the node's length (8 to 2,480); the bytes behind it stay.
 * 16 (count over 8), 4 (a length over 288), 5 (a value 0), 10 (a destination too short), looked for in this order: the destination
 *    stays, *written is 0. What *written held before is not read.
 */
uint32_t cikolaro_node_write(size_t count, const uint64_t *children, const uint64_t *values, const size_t *lengths,
                             const uint8_t *keys, uint8_t *destination, size_t destination_len, size_t *written);

#ifdef __cplusplus
}
#endif

#endif
