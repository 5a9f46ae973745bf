/* The groups of other makers' programs (data/groups.tsv). */
#ifndef SAMPLES_H
#define SAMPLES_H

#include "call.h"

#define SAMPLES_MOST 300

/* Every sample that is read twice: with its tables, and with tables of its own items where it does not use a table. */
extern struct call samples[SAMPLES_MOST];
extern size_t sample_count;

void load_samples(const char *path);

/* How many targets a group has, and the n-th: the group's own key with another group byte, or a global set. */
#define TARGETS 30
void set_target(struct call *call, size_t n, uint8_t key[16]);

/* The n-th record's bytes: a number, most significant byte first, and a key. */
void set_record(uint8_t *table, size_t n, uint32_t number, const uint8_t *key);

#endif
