/*
 * Calls the C entries over heap blocks: empty slices, slices of one byte, tables and groups of odd lengths, labels and
 * measured elements that are cut off, short output slices, the samples, and damaged calls. Built and run by
 * tests/boundary, with the address sanitizer and under memcheck. The argument is data/groups.tsv.
 */
#include <stdio.h>
#include <string.h>

#include "damage.h"
#include "feed.h"
#include "perlenhuf.h"
#include "samples.h"

#define DAMAGED 3000
#define LARGEST 70000

/* 01's job: its tag table, target and group; its pack table is empty. */
static const uint8_t job_tags[20] = {0x00, 0x00, 0x01, 0x02, 0x06, 0x0E, 0x2B, 0x34, 0x01, 0x01,
                                     0x01, 0x01, 0x0F, 0x02, 0x00, 0x00, 0x00, 0x00, 0x00, 0x00};
static const uint8_t job_target[16] = {0x06, 0x0E, 0x2B, 0x34, 0x02, 0x53, 0x01, 0x01, 0x0F, 0x01};
static const uint8_t job_group[36] = {0x06, 0x0E, 0x2B, 0x34, 0x02, 0x01, 0x01, 0x01, 0x0F, 0x01, 0x00, 0x00,
                                      0x00, 0x00, 0x00, 0x00, 0x13, 0x06, 0x0E, 0x2B, 0x34, 0x01, 0x01, 0x01,
                                      0x01, 0x0F, 0x02, 0x00, 0x00, 0x00, 0x00, 0x00, 0x00, 0x02, 0xAB, 0xCD};

static const struct call job = {{{job_tags, 20}, {job_tags, 20}, {job_target, 16}, {job_group, 36}}};

/* A call whose slices have 0, 1 or 2 as digits of base 3: no byte, one byte, all bytes. */
static struct call cut_parts(unsigned digits)
{
    struct call call = job;
    int i;
    for (i = 0; i < PARTS; i++, digits /= 3) {
        if (digits % 3 < 2)
            call.part[i].len = digits % 3;
    }
    return call;
}

static void small_rooms(const struct call *call)
{
    static const size_t rooms[9] = {0, 1, 15, 16, 17, 21, 22, 23, 24};
    size_t i;
    for (i = 0; i < 9; i++) {
        regroup(call, rooms[i]);
        listing(call, rooms[i], 2);
        listing(call, 16, rooms[i] / 8);
    }
}

/* Every slice empty, of one byte or whole, with output slices of 0 to 24 bytes. */
static void small_slices(void)
{
    unsigned digits;
    for (digits = 0; digits < 81; digits++) {
        struct call call = cut_parts(digits);
        small_rooms(&call);
    }
}

/* Slices of every length up to the whole, and two bytes more. */
static void prefixes(enum part part)
{
    uint8_t longer[40] = {0};
    struct call call = job;
    memcpy(longer, job.part[part].at, job.part[part].len);
    call.part[part].at = longer;
    for (call.part[part].len = 0; call.part[part].len <= job.part[part].len + 2; call.part[part].len++) {
        regroup(&call, 23);
        listing(&call, 16, 2);
    }
}

/* A set of this byte 6, with so many bytes 81, which begin a label that has more. Byte 7 is for global sets. */
static struct bytes set_with_cut_label(uint8_t byte_6, size_t len)
{
    static uint8_t group[17 + 15] = {0x06, 0x0E, 0x2B, 0x34, 0x02, 0x00, 0x05, 0x01, 0x0F, 0x01};
    group[5] = byte_6;
    group[16] = (uint8_t)len;
    memset(group + 17, 0x81, len);
    return (struct bytes){group, 17 + len};
}

/* Labels cut off at every byte, where the lent group ends: keys, global tags, BER words, tags of 2 and 4 bytes. */
static void cut_labels(void)
{
    static const uint8_t bytes_6[5] = {0x01, 0x02, 0x0B, 0x13, 0x1B};
    static const size_t longest[5] = {15, 11, 3, 1, 3};
    struct call call = job;
    size_t i, len;
    uint8_t target[16];
    for (i = 0; i < 5; i++) {
        for (len = 1; len <= longest[i]; len++) {
            call.part[GROUP] = set_with_cut_label(bytes_6[i], len);
            memcpy(target, call.part[GROUP].at, 16);
            call.part[TARGET].at = target;
            hold(PERLENHUF_NUMBER(regroup(&call, 23)) == PERLENHUF_LABEL_CUT_OFF, "a label is cut off", &call);
            hold(PERLENHUF_NUMBER(listing(&call, 16, 2)) == PERLENHUF_LABEL_CUT_OFF, "a label is cut off", &call);
        }
    }
}

/* A group of this byte 6: its length, so many bytes of a head, and so many bytes of a triplet with a longer length form. */
static struct bytes with_triplet(uint8_t byte_6, const uint8_t *head, size_t head_len, size_t len)
{
    static const uint8_t length[8] = {0x84, 0x00, 0x00, 0x00, 0x02, 0xAB, 0xCD, 0xEF};
    static uint8_t group[17 + 17 + 24];
    memcpy(group, job_target, 16);
    group[5] = byte_6;
    group[16] = (uint8_t)(head_len + len);
    memcpy(group + 17, head, head_len);
    memcpy(group + 17 + head_len, job_tags + 4, 16);
    memcpy(group + 17 + head_len + 16, length, 8);
    return (struct bytes){group, 17 + head_len + len};
}

/* An element that measures itself, of 23 bytes: read from a pack that ends at every byte, and written from a set. */
static void measured_elements(void)
{
    uint8_t packs[20], targets[2][16], head[17];
    struct call call = job;
    size_t len;
    memcpy(packs, job_tags, 20);
    memset(packs, 0xFF, 4);
    memcpy(targets[0], job_group, 16);
    memcpy(targets[1], job_group, 16);
    targets[1][5] = 0x05;
    memcpy(head, job_tags + 4, 16);
    call.part[PACKS].at = packs;
    for (len = 0; len <= 24; len++) {
        uint64_t answer;
        call.part[TARGET].at = targets[0];
        call.part[GROUP] = with_triplet(0x05, head, 0, len);
        answer = len < 23 ? 1009000 : len == 23 ? 57 : 1011001;
        hold(regroup(&call, 57) == answer, "an element that measures itself is read", &call);
        hold(listing(&call, 16, 3) == (len == 23 ? 1 : answer), "an element that measures itself is listed", &call);
        call.part[TARGET].at = targets[1];
        head[16] = (uint8_t)len;
        call.part[GROUP] = with_triplet(0x01, head, 17, len);
        hold(regroup(&call, 40) == (len == 23 ? 40 : 1013000), "an element that measures itself is written", &call);
    }
}

/* 257 records of different keys with rising tags. */
static const uint8_t *records(void)
{
    static uint8_t table[20 * 257 + 1];
    uint8_t key[16] = {0x06, 0x0E, 0x2B, 0x34, 0x01, 0x01, 0x01, 0x01, 0x0F, 0x02};
    size_t i;
    for (i = 0; i < 257; i++) {
        key[10] = (uint8_t)(1 + i / 100);
        key[11] = (uint8_t)(1 + i % 100);
        set_record(table, i, (uint32_t)i, key);
    }
    return table;
}

/* Tables of whole records, of one byte less and one more, up to 257 records. */
static void table_lengths(enum part part)
{
    static const size_t counts[6] = {1, 2, 3, 255, 256, 257};
    struct call call = job;
    size_t i;
    call.part[part].at = records();
    for (i = 0; i < 18; i++) {
        call.part[part].len = 20 * counts[i / 3] + i % 3 - 1;
        regroup(&call, 23);
        listing(&call, 16, 2);
    }
}

/* A set with 1-byte tags and 1-byte lengths: so many items of so many bytes. */
static struct bytes set_of(size_t count, size_t len)
{
    static uint8_t group[LARGEST];
    size_t i, contents = count * (2 + len);
    memcpy(group, job_target, 16);
    memset(group + 16, 0x00, sizeof group - 16);
    group[5] = 0x23;
    group[16] = 0x83;
    group[17] = (uint8_t)(contents >> 16);
    group[18] = (uint8_t)(contents >> 8);
    group[19] = (uint8_t)contents;
    for (i = 0; i < count; i++) {
        group[20 + i * (2 + len)] = (uint8_t)i;
        group[21 + i * (2 + len)] = (uint8_t)len;
    }
    return (struct bytes){group, 20 + contents};
}

/* Just room enough, one byte less and one more, for both entries. */
static void rooms_around(const struct call *call, size_t count)
{
    size_t needed = output_length(call);
    int more;
    for (more = -1; more <= 1; more++) {
        if (needed > 0 || more > 0)
            regroup(call, needed + (size_t)more);
        if (count > 0 || more >= 0) {
            listing(call, 16 * count + (size_t)more, 3 * count);
            listing(call, 16 * count, 3 * count + (size_t)more);
        }
    }
}

/* 0 to 257 items, inputs of 65,536 bytes and more, outputs of 65,536 bytes and more; the target has wide tags. */
static void sizes(void)
{
    static const size_t set[9][2] = {{0, 0},     {1, 255},   {255, 3},   {256, 3},  {257, 3},
                                     {256, 253}, {256, 254}, {255, 254}, {254, 255}};
    uint8_t key[16];
    struct call call = job;
    size_t i;
    call.part[TAGS] = (struct bytes){records(), 20 * 256};
    for (i = 0; i < 9 * 4; i++) {
        static const size_t targets[4] = {0, 3, 5, 17};
        call.part[GROUP] = set_of(set[i / 4][0], set[i / 4][1]);
        call.part[PACKS] = (struct bytes){records(), 20 * (set[i / 4][0] < 257 ? set[i / 4][0] : 256)};
        set_target(&call, targets[i % 4], key);
        rooms_around(&call, set[i / 4][0]);
    }
}

static size_t items_of(const struct call *call)
{
    uint64_t count = listing(call, PERLENHUF_KEYS_MAX, PERLENHUF_LISTING_MAX);
    return PERLENHUF_REFUSED(count) ? 1 : (size_t)count;
}

/* A sample to every target. */
static void sample(struct call call)
{
    uint8_t key[16] = {0};
    size_t n, count = items_of(&call);
    for (n = 0; n < TARGETS; n++) {
        set_target(&call, n, key);
        regroup(&call, output_length(&call));
    }
    rooms_around(&call, count);
}

static void all_samples(void)
{
    size_t i;
    for (i = 0; i < sample_count; i++)
        sample(samples[i]);
}

static void damaged_call(void)
{
    static uint8_t copies[PARTS][LARGEST];
    struct call call = samples[below(sample_count)];
    uint8_t key[16] = {0};
    size_t needed;
    int i;
    set_target(&call, below(TARGETS), key);
    for (i = 0; i < PARTS; i++)
        call.part[i] = damaged_part(call.part[i], copies[i]);
    needed = output_length(&call);
    regroup(&call, below(3) == 0 ? below(needed + 2) : needed);
    listing(&call, 16 * below(40), 2 * below(40));
}

static void damaged_calls(void)
{
    int i;
    for (i = 0; i < DAMAGED; i++)
        damaged_call();
}

/* Prints how often an entry was called, and holds that it gave each of its refusals and no other. */
static void report(const char *entry, const struct count *count, const char *never)
{
    int number;
    printf("%s: %lu calls, %lu accepted, refusals", entry, count->calls, count->accepted);
    for (number = 1; number < NUMBERS; number++) {
        bool given = count->refused[number] > 0;
        printf(" %d: %lu", number, count->refused[number]);
        hold(given == (memchr(never, number, strlen(never)) == NULL), "each refusal is given", NULL);
    }
    printf("\n");
}

int main(int argc, char **argv)
{
    load_samples(argc > 1 ? argv[1] : "tests/data/groups.tsv");
    small_slices();
    prefixes(TAGS);
    prefixes(PACKS);
    prefixes(TARGET);
    prefixes(GROUP);
    cut_labels();
    measured_elements();
    table_lengths(TAGS);
    table_lengths(PACKS);
    sizes();
    all_samples();
    damaged_calls();
    feed_calls(&job);
    printf("samples, with their tables and with their own: %zu\n", sample_count);
    report("perlenhuf_regroup", &regroups, "\20\21\22\25");
    report("perlenhuf_listing", &listings, "\3\6\14\15\16\20\21\22\25");
    report("perlenhuf_feed", &feeds, "\4\6\7\10\11\12\13\14\15\16\20\21\22\23\24");
    printf("%lu failed\n", failures);
    return failures == 0 ? 0 : 1;
}
