/* Feeds: empty slices, slices of one byte, tables, keys and feeds of every length, each refusal, 1 MiB, the samples. */
#include "feed.h"

#include <stdlib.h>
#include <string.h>

#include "damage.h"
#include "feed_call.h"
#include "samples.h"

#define MOST 1048576
#define DAMAGED 1000

/* Another triplet of 18 bytes, the job's group of 36, and one of 18 with the source key that the plain call refuses. */
static uint8_t small_feed[18 + 36 + 18 + 2];
static struct feed_call small;

/* What the entry answers for it: the group becomes one of 23 bytes. */
static const uint64_t small_numbers[6] = {18 + 23 + 18, 1, 1, 1, 0, 0};

static void make_small(const struct call *job)
{
    memset(small_feed, 0x00, sizeof small_feed);
    small_feed[16] = 0x01;
    memcpy(small_feed + 18, job->part[GROUP].at, 36);
    memcpy(small_feed + 54, job->part[GROUP].at, 16);
    small_feed[54 + 16] = 0x01;
    small.part[FEED_TAGS] = job->part[TAGS];
    small.part[FEED_PACKS] = job->part[PACKS];
    small.part[FEED_SOURCE] = (struct bytes){job->part[GROUP].at, 16};
    small.part[FEED_TARGET] = job->part[TARGET];
    small.part[FEED_TRIPLETS] = (struct bytes){small_feed, 72};
}

/* The feed is refused so. */
static void refused(const struct feed_call *call, size_t room, uint64_t number, uint64_t place)
{
    const uint64_t expected[6] = {0, 0, 0, 0, number, place};
    hold_feed(memcmp(feed(call, room), expected, sizeof expected) == 0, "the feed is refused", call);
}

static void is_small(const struct feed_call *call, size_t room)
{
    hold_feed(memcmp(feed(call, room), small_numbers, sizeof small_numbers) == 0, "three triplets", call);
}

/* Each refusal once, and the feed accepted, in slices that are just long enough, longer and too short. */
static void each_refusal(void)
{
    static const uint64_t numbers[4] = {1, 2, 5, 3};
    struct feed_call call;
    int i;
    is_small(&small, 59);
    is_small(&small, 60);
    is_small(&small, 200);
    refused(&small, 58, 15, 0);
    refused(&small, 0, 15, 0);
    for (i = 0; i < 4; i++) {
        call = small;
        call.part[i].len--;
        refused(&call, 59, numbers[i], 0);
    }
    for (i = 0; i < 3; i++) {
        static const size_t lens[3] = {1, 18 + 16, 18 + 36 + 17};
        call = small;
        call.part[FEED_TRIPLETS].len = lens[i];
        refused(&call, 59, 21, (uint64_t)i);
    }
}

/* Every slice empty, of one byte or whole, as digits of base 3. */
static void small_slices(void)
{
    unsigned n;
    for (n = 0; n < 243; n++) {
        struct feed_call call = small;
        unsigned digits = n;
        int i;
        for (i = 0; i < FEED_PARTS; i++, digits /= 3) {
            if (digits % 3 < 2)
                call.part[i].len = digits % 3;
        }
        feed(&call, 0);
        feed(&call, 1);
        feed(&call, 59);
    }
}

/* Slices of every length up to the whole, and two bytes more. */
static void prefixes(enum feed_part part)
{
    uint8_t longer[80] = {0};
    struct feed_call call = small;
    memcpy(longer, small.part[part].at, small.part[part].len);
    call.part[part].at = longer;
    for (call.part[part].len = 0; call.part[part].len <= small.part[part].len + 2; call.part[part].len++) {
        feed(&call, 59);
        feed(&call, 20);
    }
}

/* Output slices of every length to 70 bytes. */
static void rooms(void)
{
    size_t room;
    for (room = 0; room < 70; room++) {
        if (room < 59)
            refused(&small, room, 15, 0);
        else
            is_small(&small, room);
    }
}

/* A triplet of zeros with 1 MiB in all and with one byte more, and 1 MiB of triplets of 17 zeros, of which one is cut off. */
static void most(void)
{
    uint8_t *bytes = memory(MOST + 1);
    struct feed_call call = small;
    const uint64_t whole[6] = {MOST, 0, 0, 1, 0, 0};
    memset(bytes, 0x00, MOST + 1);
    call.part[FEED_TRIPLETS] = (struct bytes){bytes, MOST};
    refused(&call, 100, 21, MOST / 17);
    memcpy(bytes + 16, "\x83\x0F\xFF\xEC", 4);
    hold_feed(memcmp(feed(&call, MOST), whole, sizeof whole) == 0, "1 MiB", &call);
    refused(&call, MOST - 1, 15, 0);
    bytes[19]++;
    call.part[FEED_TRIPLETS].len++;
    refused(&call, MOST + 1, 21, 0);
    free(bytes);
}

/* A pack of 256 empty elements, three times: 17 bytes each, and 4,371 as a universal set. */
static void growing(void)
{
    static uint8_t packs[20 * 256], source[16], triplets[3 * 17];
    const uint64_t grown[6] = {3 * 4371, 3, 0, 0, 0, 0};
    struct feed_call call = small;
    size_t i;
    memcpy(source, small.part[FEED_SOURCE].at, 16);
    source[5] = 0x05;
    for (i = 0; i < 256; i++)
        set_record(packs, i, 0, small.part[FEED_TAGS].at + 4);
    for (i = 0; i < 3; i++)
        memcpy(triplets + 17 * i, source, 16);
    call.part[FEED_PACKS] = (struct bytes){packs, sizeof packs};
    call.part[FEED_SOURCE] = (struct bytes){source, 16};
    call.part[FEED_TARGET] = small.part[FEED_SOURCE];
    call.part[FEED_TRIPLETS] = (struct bytes){triplets, sizeof triplets};
    hold_feed(memcmp(feed(&call, 3 * 4371), grown, sizeof grown) == 0, "256 empty elements", &call);
    refused(&call, 3 * 4371 - 1, 15, 0);
}

/* A sample between the ones before and after it, under its tables, to the n-th target. */
static struct feed_call sample_feed(size_t i, size_t n, uint8_t key[16], uint8_t *bytes)
{
    struct call plain = samples[i];
    struct feed_call call = {{{NULL, 0}}};
    size_t other, len = 0;
    set_target(&plain, n, key);
    for (other = i == 0 ? 0 : i - 1; other <= i + 1 && other < sample_count; other++) {
        memcpy(bytes + len, samples[other].part[GROUP].at, samples[other].part[GROUP].len);
        len += samples[other].part[GROUP].len;
    }
    call.part[FEED_TAGS] = plain.part[TAGS];
    call.part[FEED_PACKS] = plain.part[PACKS];
    call.part[FEED_SOURCE] = (struct bytes){plain.part[GROUP].at, 16};
    call.part[FEED_TARGET] = plain.part[TARGET];
    call.part[FEED_TRIPLETS] = (struct bytes){bytes, len};
    return call;
}

static uint8_t run[3 * 70000];

static void sample_feeds(void)
{
    uint8_t key[16] = {0};
    size_t i, n;
    for (i = 0; i < sample_count; i++) {
        for (n = i % 3; n < TARGETS; n += 3) {
            struct feed_call call = sample_feed(i, n, key, run);
            size_t needed = feed_length(&call);
            feed(&call, needed);
            if (needed > 0)
                feed(&call, needed - 1);
        }
    }
}

static void damaged_feeds(void)
{
    static uint8_t copies[FEED_PARTS][3 * 70000];
    uint8_t key[16] = {0};
    int i, n;
    for (n = 0; n < DAMAGED; n++) {
        struct feed_call call = sample_feed(below(sample_count), below(TARGETS), key, run);
        size_t needed;
        for (i = 0; i < FEED_PARTS; i++)
            call.part[i] = damaged_part(call.part[i], copies[i]);
        needed = feed_length(&call);
        feed(&call, below(3) == 0 ? below(needed + 2) : needed);
    }
}

void feed_calls(const struct call *job)
{
    int part;
    make_small(job);
    each_refusal();
    small_slices();
    for (part = 0; part < FEED_PARTS; part++)
        prefixes((enum feed_part)part);
    rooms();
    most();
    growing();
    sample_feeds();
    damaged_feeds();
}
