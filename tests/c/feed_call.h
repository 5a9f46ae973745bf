/* A call of the feed's C entry: inputs and frames must be unaltered, and every way must give the same. */
#ifndef FEED_CALL_H
#define FEED_CALL_H

#include "lend.h"

enum feed_part { FEED_TAGS, FEED_PACKS, FEED_SOURCE, FEED_TARGET, FEED_TRIPLETS, FEED_PARTS };

/* What a call is lent, but for the slices that it writes. */
struct feed_call {
    struct bytes part[FEED_PARTS];
};

/* A comparison that must hold. */
void hold_feed(bool holds, const char *name, const struct feed_call *call);

/* The six numbers of a call with an output slice of this length, in every way; all ways must give the same. */
const uint64_t *feed(const struct feed_call *call, size_t room);

/* The length of the output, or 0 where there is none. */
size_t feed_length(const struct feed_call *call);

#endif
