/* Slices on the heap: just of their size, or with a painted frame. */
#include "lend.h"

#include <stdio.h>
#include <stdlib.h>
#include <string.h>

#define FRAME 32
#define PAINT 0xA5

void *memory(size_t len)
{
    void *block = malloc(len);
    if (block == NULL) {
        printf("boundary: no memory for %zu bytes\n", len);
        exit(2);
    }
    return block;
}

struct slice lend(enum way way, size_t len)
{
    size_t frame = way == FRAMED ? FRAME : 0;
    struct slice slice = {NULL, NULL, len, way};
    if (len == 0 && way == EXACT_OR_NULL)
        return slice;
    slice.block = memory(len + 2 * frame);
    slice.at = slice.block + frame;
    if (way == FRAMED)
        memset(slice.block, PAINT, len + 2 * FRAME);
    return slice;
}

struct slice lend_copy(enum way way, struct bytes bytes)
{
    struct slice slice = lend(way, bytes.len);
    if (bytes.len > 0)
        memcpy(slice.at, bytes.at, bytes.len);
    return slice;
}

bool equal_bytes(const uint8_t *a, const uint8_t *b, size_t len)
{
    return len == 0 || memcmp(a, b, len) == 0;
}

static bool painted(const uint8_t *at, const uint8_t *end)
{
    while (at < end && *at == PAINT)
        at++;
    return at == end;
}

bool painted_from(const struct slice *slice, size_t offset)
{
    if (slice->way != FRAMED)
        return true;
    return painted(slice->block, slice->at) && painted(slice->at + offset, slice->at + slice->len + FRAME);
}

bool holds(const struct slice *slice, struct bytes bytes)
{
    return equal_bytes(slice->at, bytes.at, bytes.len) && painted_from(slice, bytes.len);
}

void give_back(struct slice *slice)
{
    free(slice->block);
    slice->block = NULL;
    slice->at = NULL;
}
