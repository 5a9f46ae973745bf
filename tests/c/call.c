/* Calls of both C entries: inputs and frames must be unaltered, and every way must give the same. */
#include "call.h"

#include <stdio.h>
#include <string.h>

#include "perlenhuf.h"

#define SHOWN 10
#define LARGEST 70000

struct count regroups, listings;
unsigned long failures;

/* What a call left: its answer, and the front of its slices as far as the answer says. */
struct left {
    uint64_t answer;
    size_t len;
    uint8_t bytes[LARGEST];
};

static struct left lefts[WAYS];

static void show(struct bytes bytes)
{
    size_t i;
    printf(bytes.len == 0 ? " -" : " ");
    for (i = 0; i < bytes.len && i < 400; i++)
        printf("%02X", bytes.at[i]);
    printf(" (%zu)", bytes.len);
}

void hold_parts(bool holds, const char *name, const struct bytes *parts, int count)
{
    int i;
    if (holds)
        return;
    failures++;
    if (failures > SHOWN)
        return;
    printf("MISMATCH %s:", name);
    for (i = 0; i < count; i++)
        show(parts[i]);
    printf("\n");
}

void hold(bool holds, const char *name, const struct call *call)
{
    hold_parts(holds, name, call == NULL ? NULL : call->part, call == NULL ? 0 : PARTS);
}

static void lend_parts(enum way way, const struct call *call, struct slice parts[PARTS])
{
    int i;
    for (i = 0; i < PARTS; i++)
        parts[i] = lend_copy(way, call->part[i]);
}

/* Gives the inputs back, which must be as they were. */
static void take_parts(const struct call *call, struct slice parts[PARTS])
{
    int i;
    for (i = 0; i < PARTS; i++) {
        hold(holds(&parts[i], call->part[i]), "an input is unaltered", call);
        give_back(&parts[i]);
    }
}

/* Notes the front of an output slice; the rest must be as it was. */
static void take_output(const struct call *call, struct slice *slice, size_t len, struct left *left)
{
    bool fits = len <= slice->len && left->len + len <= LARGEST;
    hold(fits, "the answer lies in the slice", call);
    if (!fits)
        len = 0;
    hold(painted_from(slice, len), "the rest of an output slice is unaltered", call);
    if (len > 0)
        memcpy(left->bytes + left->len, slice->at, len);
    left->len += len;
    give_back(slice);
}

static size_t accepted(uint64_t answer)
{
    return PERLENHUF_REFUSED(answer) ? 0 : (size_t)answer;
}

static void note(struct count *count, uint64_t answer, const struct call *call)
{
    count->calls++;
    if (!PERLENHUF_REFUSED(answer))
        count->accepted++;
    else if (PERLENHUF_NUMBER(answer) < NUMBERS)
        count->refused[PERLENHUF_NUMBER(answer)]++;
    else
        hold(false, "a refusal has a number of the header", call);
}

static void regroup_in(enum way way, const struct call *call, size_t room)
{
    struct left *left = &lefts[way];
    struct slice output = lend(way, room), s[PARTS];
    lend_parts(way, call, s);
    left->answer = perlenhuf_regroup(s[TAGS].at, s[TAGS].len, s[PACKS].at, s[PACKS].len, s[TARGET].at, s[TARGET].len,
                                     s[GROUP].at, s[GROUP].len, output.at, output.len);
    left->len = 0;
    note(&regroups, left->answer, call);
    take_output(call, &output, accepted(left->answer), left);
    take_parts(call, s);
}

static void listing_in(enum way way, const struct call *call, size_t key_bytes, size_t numbers)
{
    struct left *left = &lefts[way];
    struct slice keys = lend(way, key_bytes), records = lend(way, 4 * numbers), s[PARTS];
    lend_parts(way, call, s);
    left->answer = perlenhuf_listing(s[TAGS].at, s[TAGS].len, s[PACKS].at, s[PACKS].len, s[GROUP].at, s[GROUP].len,
                                     keys.at, keys.len, (uint32_t *)(void *)records.at, numbers);
    left->len = 0;
    note(&listings, left->answer, call);
    take_output(call, &keys, 16 * accepted(left->answer), left);
    take_output(call, &records, 12 * accepted(left->answer), left);
    take_parts(call, s);
}

/* How many ways differ: a block of no byte and NULL do, where a slice is empty. */
static int ways_of(const struct call *call, bool empty_output)
{
    int i = 0;
    while (i < PARTS && call->part[i].len > 0)
        i++;
    return i < PARTS || empty_output ? WAYS : EXACT;
}

/* Under the tool the comparison also finds bytes that were not written. */
static uint64_t same_in_ways(int ways, const struct call *call)
{
    const struct left *first = &lefts[0];
    int way;
    for (way = 1; way < ways; way++) {
        const struct left *left = &lefts[way];
        bool same = left->answer == first->answer && left->len == first->len;
        hold(same && equal_bytes(left->bytes, first->bytes, first->len), "every way gives the same", call);
    }
    return first->answer;
}

uint64_t regroup(const struct call *call, size_t room)
{
    int way, ways = ways_of(call, room == 0);
    for (way = 0; way < ways; way++)
        regroup_in((enum way)way, call, room);
    return same_in_ways(ways, call);
}

uint64_t listing(const struct call *call, size_t keys, size_t numbers)
{
    int way, ways = ways_of(call, keys == 0 || numbers == 0);
    for (way = 0; way < ways; way++)
        listing_in((enum way)way, call, keys, numbers);
    return same_in_ways(ways, call);
}

size_t output_length(const struct call *call)
{
    static uint8_t output[PERLENHUF_OUTPUT_MAX];
    const struct bytes *p = call->part;
    uint64_t answer = perlenhuf_regroup(p[TAGS].at, p[TAGS].len, p[PACKS].at, p[PACKS].len, p[TARGET].at,
                                        p[TARGET].len, p[GROUP].at, p[GROUP].len, output, sizeof output);
    note(&regroups, answer, call);
    return accepted(answer);
}
