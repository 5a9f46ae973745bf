/* Slices on the heap that a call is lent, and what was found wrong with them. */
#ifndef LEND_H
#define LEND_H

#include <stdbool.h>
#include <stddef.h>
#include <stdint.h>

/*
 * How a slice lies. EXACT_OR_NULL: a block of just its size, so that the tool sees an access beside it, and NULL for a
 * slice of no elements; an output is not initialised, so that the tool sees a byte of the answer that was not written.
 * FRAMED: painted, with painted bytes on both sides. EXACT: a block of just its size, also where that is no byte.
 */
enum way { EXACT_OR_NULL, FRAMED, EXACT, WAYS };

struct bytes {
    const uint8_t *at;
    size_t len;
};

struct slice {
    uint8_t *block;
    uint8_t *at;
    size_t len;
    enum way way;
};

/* A slice to write to, and one that holds a copy. */
struct slice lend(enum way way, size_t len);
struct slice lend_copy(enum way way, struct bytes bytes);

/* Whether a slice still holds the copy, whether a painted one still has its paint from an offset on, frame included. */
bool holds(const struct slice *slice, struct bytes bytes);
bool painted_from(const struct slice *slice, size_t offset);

void give_back(struct slice *slice);

/* Memory, or the end of the program. */
void *memory(size_t len);

bool equal_bytes(const uint8_t *a, const uint8_t *b, size_t len);

#endif
