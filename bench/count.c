/*
 * The work that bench/count counts: a store filled by five batches, its audit, lookups, all steps forward, nodes read and written,
 * removals, and house lines read. The last line is a sum over every byte of the store, which two libraries have to agree on.
 */
#include "cikolaro.h"

#include <stdio.h>
#include <stdlib.h>
#include <string.h>

enum { SLOTS = 3000, KEYS = 10000, KEY_LENGTH = 24, RECORD = 11 + KEY_LENGTH, MARKS = 47 };

static uint8_t *store;
static uint8_t records[RECORD * KEYS];
static uint64_t marks[MARKS];

/* Bad answers end the program, so that no work is counted that was not done. */
static void want(uint32_t number) {
    if (number != CIKOLARO_DONE) {
        fprintf(stderr, "count: refused with %u\n", number);
        exit(1);
    }
}

/* Keys share their first 16 bytes, and rise with n. */
static void put_key(uint8_t *key, uint64_t n) {
    memset(key, 'a', 16);
    for (int i = 0; i < 8; i++) {
        key[16 + i] = (uint8_t)(n >> (56 - 8 * i));
    }
}

static size_t put_record(size_t at, uint8_t kind, uint64_t n, uint64_t value) {
    records[at] = kind;
    records[at + 1] = KEY_LENGTH;
    records[at + 2] = 0;
    memcpy(records + at + 3, &value, 8);
    put_key(records + at + 11, n);
    return at + RECORD;
}

static void batch(size_t length) {
    size_t applied;
    want(cikolaro_batch(store, CIKOLARO_STORE_SIZE(SLOTS), marks, MARKS, records, length, &applied));
}

static void fill(void) {
    for (uint64_t first = 0; first < 5; first++) {
        size_t at = 0;
        for (uint64_t n = first; n < KEYS; n += 5) {
            at = put_record(at, 1, 2 * n, n + 1);
        }
        batch(at);
    }
}

static void remove_every_fifth(void) {
    size_t at = 0;
    for (uint64_t n = 0; n < KEYS; n += 5) {
        at = put_record(at, 2, 2 * n, 0);
    }
    batch(at);
}

/* Every second key is present; they are asked in no order. */
static void look_up(void) {
    uint64_t seed = 88172645463325252u;
    uint8_t key[KEY_LENGTH];
    uint32_t present;
    uint64_t value;
    for (int i = 0; i < 20000; i++) {
        seed ^= seed << 13;
        seed ^= seed >> 7;
        seed ^= seed << 17;
        put_key(key, seed % (2 * KEYS));
        want(cikolaro_lookup(store, CIKOLARO_STORE_SIZE(SLOTS), key, KEY_LENGTH, &present, &value));
    }
}

static void step_through(void) {
    cikolaro_cursor cursor = {0};
    uint32_t present = 1;
    uint64_t value;
    while (present) {
        want(cikolaro_forward(store, CIKOLARO_STORE_SIZE(SLOTS), &cursor.kind, &cursor.length, cursor.key, &present, &value));
    }
}

static void read_nodes(void) {
    size_t count;
    for (size_t slot = 0; slot < 1000; slot++) {
        const uint8_t *at = store + 24 + 2560 * slot;
        uint32_t length;
        memcpy(&length, at, 4);
        if (length >= 8) {
            want(cikolaro_node_read(at + 4, length, &count));
        }
    }
}

static void write_nodes(void) {
    static uint64_t children[9], values[8];
    static size_t lengths[8];
    static uint8_t keys[8 * CIKOLARO_LONGEST_KEY], node[CIKOLARO_LONGEST_NODE];
    size_t written;
    for (int i = 0; i < 8; i++) {
        values[i] = (uint64_t)i + 1;
        lengths[i] = KEY_LENGTH;
        put_key(keys + CIKOLARO_LONGEST_KEY * i, (uint64_t)i);
    }
    for (int i = 0; i < 1000; i++) {
        want(cikolaro_node_write(8, children, values, lengths, keys, node, sizeof node, &written));
    }
}

static void read_lines(void) {
    static char text[CIKOLARO_MOST_TEXT];
    static uint8_t read[CIKOLARO_MOST_RECORD_BYTES];
    size_t length = 0, bytes;
    for (int i = 0; i < 300; i++) {
        length += (size_t)sprintf(text + length, "set\t%08x\t%d\n", i, i + 1);
    }
    for (int i = 0; i < 20; i++) {
        want(cikolaro_parse((const uint8_t *)text, length, read, sizeof read, &bytes));
    }
}

int main(void) {
    size_t reached;
    uint64_t sum = 0;
    store = malloc(CIKOLARO_STORE_SIZE(SLOTS));
    want(cikolaro_format(store, CIKOLARO_STORE_SIZE(SLOTS), SLOTS));
    fill();
    want(cikolaro_audit(store, CIKOLARO_STORE_SIZE(SLOTS), marks, MARKS, &reached));
    look_up();
    step_through();
    read_nodes();
    write_nodes();
    remove_every_fifth();
    read_lines();
    for (size_t i = 0; i < CIKOLARO_STORE_SIZE(SLOTS); i++) {
        sum = sum * 1099511628211u + store[i];
    }
    printf("%016llx\n", (unsigned long long)sum);
    return 0;
}
