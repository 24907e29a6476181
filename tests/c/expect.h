/* What the blocks of console_test stand on: a block goes on after a difference, and tells every one. */
#ifndef EXPECT_H
#define EXPECT_H

#include <stdbool.h>
#include <stdint.h>
#include <stdio.h>
#include <stdlib.h>
#include <string.h>

static bool block_ok;

static void expect(bool holds, const char *what, const char *of) {
    if (holds) return;
    block_ok = false;
    printf("  %.40s: %s\n", of, what);
}

/* A number of an answer, by the name of its field. */
static void expect_same(const char *field, size_t found, size_t due, const char *of) {
    if (found == due) return;
    block_ok = false;
    printf("  %.40s: expected %s=%zu, found %s=%zu\n", of, field, due, field, found);
}

/* A heap block of just these bytes; null for none, which the calls take. */
static uint8_t *copy_of(const void *bytes, size_t length) {
    if (length == 0) return NULL;
    uint8_t *copy = malloc(length);
    if (copy == NULL) abort();
    memcpy(copy, bytes, length);
    return copy;
}

static bool all_are(const uint8_t *bytes, size_t length, uint8_t byte) {
    for (size_t i = 0; i < length; i++)
        if (bytes[i] != byte) return false;
    return true;
}

#endif
