/* Calls of the plain C entries in every way that a slice can lie, and the count of them. */
#ifndef CALL_H
#define CALL_H

#include "lend.h"
#include "perlenhuf.h"

enum part { TAGS, PACKS, TARGET, GROUP, PARTS };

/* One more than the largest number of a refusal. */
#define NUMBERS (PERLENHUF_FEED + 1)

/* What a call is lent, but for the slices that it writes. */
struct call {
    struct bytes part[PARTS];
};

/* The answers of an entry: how many, accepted, by the refusal's number; and what was found wrong. */
struct count {
    unsigned long calls;
    unsigned long accepted;
    unsigned long refused[NUMBERS];
};

extern struct count regroups, listings;
extern unsigned long failures;

/* A comparison that must hold, of a call and of so many parts. */
void hold(bool holds, const char *name, const struct call *call);
void hold_parts(bool holds, const char *name, const struct bytes *parts, int count);

/* A call with slices of these lengths, in every way; all ways must give the same answer and the same bytes. */
uint64_t regroup(const struct call *call, size_t room);
uint64_t listing(const struct call *call, size_t keys, size_t numbers);

/* The length of the output, or 0 where there is none. */
size_t output_length(const struct call *call);

#endif
