/* Calls of the feed's C entry in every way that a slice can lie, and the count of them. */
#ifndef FEED_H
#define FEED_H

#include "call.h"

extern struct count feeds;

/* Feeds of the job's group among other triplets, of the samples, of 1 MiB, and damaged ones. */
void feed_calls(const struct call *job);

#endif
