/*
 * A store in a C program: rows that were emitted are set, one is taken back, house lines are run, a key is looked up, the entries are
 * walked in both directions, a node is written anew, and one that somebody else wrote is read strictly. Everything lies in static
 * memory; nothing is allocated.
 */
#include <inttypes.h>
#include <stdio.h>
#include <stdlib.h>
#include <string.h>

#include "cikolaro.h"

enum { SLOTS = 8, MOST_RECORD_BYTES = 4096 };

static uint8_t store[CIKOLARO_STORE_SIZE(SLOTS)];
static uint64_t marks[CIKOLARO_MARK_WORDS(SLOTS)];

/* Records of one batch, put one behind the other with keys that never fall. */
static uint8_t records[MOST_RECORD_BYTES];
static size_t records_len;

static void must(int holds, const char *what) {
    if (!holds) {
        fprintf(stderr, "emitted: %s does not hold\n", what);
        exit(1);
    }
}

/* Value 0 is a dereference, as no set has it. */
static void put(const char *key, uint64_t value) {
    size_t length = strlen(key);
    must(records_len + 11 + length <= sizeof records, "room for the record");
    uint8_t *at = records + records_len;
    at[0] = value ? 1 : 2;
    at[1] = (uint8_t)(length & 255);
    at[2] = (uint8_t)(length >> 8);
    for (int i = 0; i < 8; i++) {
        at[3 + i] = (uint8_t)(value >> (8 * i));
    }
    memcpy(at + 11, key, length);
    records_len += 11 + length;
}

/* Runs the batch and begins the next. */
static uint32_t run(size_t *applied) {
    uint32_t number = cikolaro_batch(store, sizeof store, marks, CIKOLARO_MARK_WORDS(SLOTS), records, records_len, applied);
    records_len = 0;
    return number;
}

static uint32_t forward(cikolaro_cursor *c, uint32_t *present, uint64_t *value) {
    return cikolaro_forward(store, sizeof store, &c->kind, &c->length, c->key, present, value);
}

static uint32_t backward(cikolaro_cursor *c, uint32_t *present, uint64_t *value) {
    return cikolaro_backward(store, sizeof store, &c->kind, &c->length, c->key, present, value);
}

static void print_all(void) {
    cikolaro_cursor cursor = {0};
    uint32_t present;
    uint64_t value;
    while (forward(&cursor, &present, &value) == CIKOLARO_DONE && present) {
        printf("%.*s\t%" PRIu64 "\n", (int)cursor.length, (const char *)cursor.key, value);
    }
    must(cursor.kind == CIKOLARO_END, "a walk ends at End");
}

static void fill(void) {
    size_t applied;
    const char *keys[] = {"row-01", "row-02", "row-03", "row-04", "row-05", "row-06", "row-07", "row-08", "row-09"};
    for (uint64_t i = 0; i < 9; i++) {
        put(keys[i], 100 + i);
    }
    must(run(&applied) == CIKOLARO_DONE && applied == 9, "nine records applied");
    put("row-05", 0);
    put("row-10", 109);
    must(run(&applied) == CIKOLARO_DONE && applied == 2, "two records applied");
}

/* "row-11" in lowercase hex; a text whose last line has no LF is refused and changes nothing. */
static void run_text(void) {
    static const char text[] = "set\t726f772d3131\t110\n";
    static uint8_t room[CIKOLARO_MOST_RECORD_BYTES];
    size_t applied, length, text_len = sizeof text - 1;
    const uint8_t *bytes = (const uint8_t *)text;
    must(cikolaro_parse(bytes, text_len, room, sizeof room, &length) == CIKOLARO_DONE && length == 17, "one record of 17 bytes");
    must(cikolaro_run_lines(store, sizeof store, marks, CIKOLARO_MARK_WORDS(SLOTS), room, sizeof room, bytes, text_len, &applied)
             == CIKOLARO_DONE && applied == 1, "one line applied");
    must(cikolaro_run_lines(store, sizeof store, marks, CIKOLARO_MARK_WORDS(SLOTS), room, sizeof room, bytes, text_len - 1, &applied)
             == CIKOLARO_BAD_TEXT && applied == 0, "a line without its end is refused");
}

static void ask(void) {
    uint32_t present;
    uint64_t value;
    const uint8_t *store_bytes = store;
    must(cikolaro_lookup(store_bytes, sizeof store, (const uint8_t *)"row-03", 6, &present, &value) == CIKOLARO_DONE, "lookup");
    must(present == 1 && value == 102, "row-03 is 102");
    must(cikolaro_lookup(store_bytes, sizeof store, (const uint8_t *)"row-05", 6, &present, &value) == CIKOLARO_DONE, "lookup");
    must(present == 0 && value == 0, "row-05 is absent");

    cikolaro_cursor cursor = {0};
    must(cikolaro_seek((const uint8_t *)"row-05", 6, &cursor.kind, &cursor.length, cursor.key) == CIKOLARO_DONE, "seek");
    must(backward(&cursor, &present, &value) == CIKOLARO_DONE && present == 1 && value == 103, "row-04 is before row-05");
    must(forward(&cursor, &present, &value) == CIKOLARO_DONE && present == 1 && value == 105, "row-06 is behind row-04");
}

/* Looks into the root's slot: 4 bytes of length, then the node. The store's first byte is enough of the root's number here. */
static void look_inside(void) {
    must(store[0] == 2, "the root is in slot 2");
    const uint8_t *slot = store + CIKOLARO_STORE_SIZE(store[0] - 1);
    size_t node_len = (size_t)slot[0] | (size_t)slot[1] << 8;
    size_t count, start, length;
    uint64_t value;
    must(cikolaro_node_read(slot + 4, node_len, &count) == CIKOLARO_DONE && count == 1, "the root has one separator");
    must(cikolaro_node_separator(slot + 4, node_len, 0, &start, &length, &value) == CIKOLARO_DONE, "it is read");
    must(length == 6 && memcmp(slot + 4 + start, "row-06", 6) == 0 && value == 105, "it is row-06");
    must(cikolaro_node_child(slot + 4, node_len, 0) == 1 && cikolaro_node_child(slot + 4, node_len, 1) == 3, "its children");
    must(cikolaro_node_child(slot + 4, node_len, 2) == 0, "no third child");
    must(cikolaro_node_read(slot + 4, 7, &count) == CIKOLARO_SHORT_CHILD && count == 0, "bytes cut short");

    /* The same node, written from its parts. */
    static const uint64_t children[CIKOLARO_MOST_SEPARATORS + 1] = {1, 3};
    static const uint64_t values[CIKOLARO_MOST_SEPARATORS] = {105};
    static const size_t lengths[CIKOLARO_MOST_SEPARATORS] = {6};
    static const uint8_t keys[CIKOLARO_MOST_SEPARATORS * CIKOLARO_LONGEST_KEY] = "row-06";
    uint8_t written[CIKOLARO_LONGEST_NODE];
    must(cikolaro_node_write(1, children, values, lengths, keys, written, sizeof written, &length) == CIKOLARO_DONE, "it is written");
    must(length == node_len && memcmp(written, slot + 4, length) == 0, "to the bytes in the slot");
    must(cikolaro_node_write(1, children, values, lengths, keys, written, length - 1, &length) == CIKOLARO_SHORT_DESTINATION,
         "a destination too short");
}

/* A partner's node: child 0, value 5, 0xFF before a key of two bytes, child 0. It says what a plain one says, in other bytes. */
static void read_strictly(void) {
    static const uint8_t theirs[31] = {[8] = 5, [16] = 0xFF, [17] = 2, [21] = 'a', [22] = 'b'};
    static const uint8_t ours[27] = {[8] = 5, [16] = 2, [17] = 'a', [18] = 'b'};
    size_t count, place, start, length;
    uint64_t value;
    must(cikolaro_node_read(theirs, sizeof theirs, &count) == CIKOLARO_DONE && count == 1, "the lenient reading takes it");
    must(cikolaro_node_read_strict(theirs, sizeof theirs, &count, &place) == CIKOLARO_LOW_SIZE && count == 0 && place == 8,
         "the strict one refuses the separator at byte 8");
    must(cikolaro_node_read_strict(ours, sizeof ours, &count, &place) == CIKOLARO_DONE && count == 1 && place == sizeof ours,
         "standard form is taken");
    must(cikolaro_node_separator_strict(ours, sizeof ours, 0, &start, &length, &value) == CIKOLARO_DONE, "its separator is read");
    must(start == 17 && length == 2 && value == 5, "it is ab");
}

static void refusals(void) {
    size_t applied = 77;
    uint32_t present = 77;
    uint64_t value = 77;
    static uint8_t before[sizeof store];
    memcpy(before, store, sizeof store);
    put("b", 1);
    put("a", 1);
    must(run(&applied) == CIKOLARO_FALLS && applied == 0, "a falling key is refused");
    must(memcmp(before, store, sizeof store) == 0, "the store stays");
    must(cikolaro_format(store, sizeof store, SLOTS + 1) == CIKOLARO_NOT_STORE, "another count is refused");
    must(memcmp(before, store, sizeof store) == 0, "the store stays");

    cikolaro_cursor bad = {.kind = 9};
    must(forward(&bad, &present, &value) == CIKOLARO_LONG_KEY && present == 0 && value == 0, "no such kind of place");
    must(bad.kind == 9, "the cursor stays");

    size_t reached = 77;
    store[sizeof store - 1] = 1;
    must(cikolaro_audit(store, sizeof store, marks, CIKOLARO_MARK_WORDS(SLOTS), &reached) == CIKOLARO_FAILS, "damage is found");
    must(reached == 0 && marks[0] == 0, "the marks are zero");
    store[sizeof store - 1] = 0;
}

int main(void) {
    size_t reached;
    must(cikolaro_format(store, sizeof store, SLOTS) == CIKOLARO_DONE, "format");
    fill();
    run_text();
    ask();
    look_inside();
    read_strictly();
    refusals();
    must(cikolaro_audit(store, sizeof store, marks, CIKOLARO_MARK_WORDS(SLOTS), &reached) == CIKOLARO_DONE, "the audit passes");
    print_all();
    printf("slots reached: %zu\n", reached);
    return 0;
}
