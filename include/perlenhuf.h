/*
 * perlenhuf.h: the C entries of the KLV group regrouper (ITU-R BT.1563-1).
 *
 * Link with libperlenhuf.a, which `tools/build perlenhuf` writes to target/staticlib/. Its one object file needs memcpy,
 * memmove and memset and nothing else (`nm -u` lists these three). The C library has them, so that no other library is
 * named:
 *
 *     cc -std=c99 -Iinclude host.c target/staticlib/libperlenhuf.a
 *
 * A host without a C library must define the three itself, as the C standard has them.
 *
 * The archive is for x86-64 Linux, and uses no instructions but those that every x86-64 processor has. The entries are
 * plain functions of their arguments: they allocate nothing, keep no state between calls, set no errno, make no system
 * call, and call no code but the archive's own and those three functions, so that any number of threads may call them at
 * once.
 *
 * Slices. Each slice is a pointer and the count of its elements. The pointer must be valid for that many elements, and
 * for a slice of no elements it may be NULL. Input slices are only read, and may overlap one another. An output slice
 * must not overlap any other slice of the call. `numbers` of perlenhuf_listing must be aligned for uint32_t; that of
 * perlenhuf_feed has six elements, must be aligned for uint64_t, and must not overlap any slice.
 *
 * Answers. perlenhuf_regroup and perlenhuf_listing answer one number. Below 1,000,000 it is the length of the output in
 * bytes (perlenhuf_regroup) or the count of items (perlenhuf_listing). Any other number is a refusal: 1,000,000 + 1,000 x
 * number + place. The macros below take it apart. perlenhuf_feed writes six separate numbers, and no macro is needed:
 * its places can be above 1,000. A refusal leaves every output slice as it was; an accepted call leaves what lies past
 * its output as it was.
 *
 * Stack. Allow 16 KiB for a call of perlenhuf_regroup or perlenhuf_listing and 96 KiB for one of perlenhuf_feed, below
 * the caller's arguments. The most that was measured is 10,184 bytes (perlenhuf_regroup), 9,832 bytes
 * (perlenhuf_listing) and 75,880 bytes (perlenhuf_feed, for one triplet and for 1 MiB), with what memcpy, memmove and
 * memset of glibc take. The entries hold an array of 4,096 bytes, one of 1,024 32-bit numbers and one of 512 16-bit
 * numbers; perlenhuf_regroup and perlenhuf_feed for small groups also one of 256 bytes and one of 64 32-bit numbers, and
 * perlenhuf_feed a second one of 512 16-bit numbers and, to measure a group, one of 65,536 bytes. No function calls
 * itself, and no array's size depends on the input. What is left, more than 4,000 bytes, is for the three functions of a
 * host that has its own, and was enough for glibc's dynamic linker to look them up at their first call.
 *
 * Limits. A group has at most 65,536 bytes, in and out, and at most 256 items. A feed has at most 1,048,576 bytes (1
 * MiB), and its output as many as its slice holds; the empty feed is valid. A table has at most 256 records of 20 bytes:
 * a 4-byte number, most significant byte first, then a 16-byte key. An empty table is valid.
 *   Tag table (local sets): tags strictly rising, no key twice.
 *   Pack table (packs): the n-th element of a pack has the n-th record's key; the number is the element's length in a
 *   defined-length pack, and is ignored in a variable-length pack. Keys may repeat. The number FF FF FF FF marks an
 *   element that measures itself: it is one whole triplet, a 16-byte key, a BER length and that many bytes, and its value
 *   is all of these bytes. Every other number is a constant length.
 */
#ifndef PERLENHUF_H
#define PERLENHUF_H

#include <stddef.h>
#include <stdint.h>

#ifdef __cplusplus
extern "C" {
#endif

/* Output and slice sizes that always suffice for one group. */
#define PERLENHUF_OUTPUT_MAX 65536
#define PERLENHUF_ITEMS_MAX 256
#define PERLENHUF_KEYS_MAX (16 * PERLENHUF_ITEMS_MAX)
#define PERLENHUF_LISTING_MAX (3 * PERLENHUF_ITEMS_MAX)

/* The most bytes of a feed, and how many numbers perlenhuf_feed writes. */
#define PERLENHUF_FEED_MAX 1048576
#define PERLENHUF_FEED_NUMBERS 6

/* Whether an answer of perlenhuf_regroup or perlenhuf_listing is a refusal, its number, and its place. */
#define PERLENHUF_REFUSED(answer) ((answer) >= 1000000)
#define PERLENHUF_NUMBER(answer) (((answer) - 1000000) / 1000)
#define PERLENHUF_PLACE(answer) (((answer) - 1000000) % 1000)

/*
 * The refusals. The place is 0 where nothing else is said; items count from 0. With 8 and 19 the bytes of an item's key
 * or tag are wrong: look at the cable, or at what sends them. With 20 the tag is well formed, and the tag table has no
 * such tag: look at the table. Where several apply, the order is 1 to 7; then for each item 10, 8, 19, 20, 9; then 11;
 * then for each item 12, 13; then 14, 15. The order of perlenhuf_feed is 1, 2, 3, 5, 21, 15.
 */
enum perlenhuf_refusal {
    PERLENHUF_TAG_TABLE = 1,         /* tag table: size, count, order, a non-key or a repeated key */
    PERLENHUF_PACK_TABLE = 2,        /* pack table: size, count or a non-key */
    PERLENHUF_TARGET = 3,            /* target: not 16 bytes, no key, or no group kind */
    PERLENHUF_OVERSIZE = 4,          /* group over 65,536 bytes */
    PERLENHUF_GROUP_KEY = 5,         /* group under 16 bytes, or its key is no key or no group kind; source key of a feed
                                        not 16 bytes, no key, or no group kind */
    PERLENHUF_FAMILY = 6,            /* group and target keys of two families */
    PERLENHUF_OUTER_LENGTH = 7,      /* outer length missing, malformed, or not the bytes left */
    PERLENHUF_LABEL_CUT_OFF = 8,     /* an item's key or tag cut off; place: item */
    PERLENHUF_SPAN = 9,              /* an item's length missing or malformed, or its value too long; no whole triplet
                                        where the record has FF FF FF FF; place: item */
    PERLENHUF_COUNT = 10,            /* bytes left in a set after its 256th item; place: 256 */
    PERLENHUF_SURPLUS = 11,          /* bytes after a pack's last element; place: number of elements */
    PERLENHUF_NO_LABEL = 12,         /* on writing: no tag, tag too wide, outside the root, tag empty; pack key not the
                                        record's, or too few or many items; place: item */
    PERLENHUF_NO_SPAN = 13,          /* value too long for the layout, or not the defined length; not one whole triplet
                                        where the record has FF FF FF FF; place: item */
    PERLENHUF_LONG_OUTPUT = 14,      /* output over 65,536 bytes */
    PERLENHUF_SHORT_SLICE = 15,      /* an output slice too short */
    PERLENHUF_LABEL_MALFORMED = 19,  /* an item's key or tag malformed, or a tag that makes no key; place: item */
    PERLENHUF_LABEL_UNLISTED = 20,   /* a local set's tag that the tag table has not; place: item */
    PERLENHUF_FEED = 21              /* feed over 1 MiB, place 0; or its first triplet whose key or length is cut off,
                                        whose length is malformed or whose value is longer than what is left; place: its
                                        index */
};

/* The numbers of perlenhuf_feed. What does not apply is 0: in a refusal the first four, otherwise the last two. */
enum perlenhuf_feed_number {
    PERLENHUF_FEED_LENGTH = 0,     /* length of the output in bytes */
    PERLENHUF_FEED_REGROUPED = 1,  /* triplets with the source key that were regrouped */
    PERLENHUF_FEED_REFUSED = 2,    /* triplets with the source key that cannot be regrouped, unaltered in the output */
    PERLENHUF_FEED_OTHERS = 3,     /* triplets with another key, unaltered in the output */
    PERLENHUF_FEED_REFUSAL = 4,    /* number of the refusal of the whole feed; 0 if it was accepted */
    PERLENHUF_FEED_PLACE = 5       /* place of that refusal */
};

/*
 * Regroups one group: its items as the group with the 16-byte key `target`, written to the front of `output`.
 * Answers the output's length, or refusal 1 to 15, 19 or 20.
 */
uint64_t perlenhuf_regroup(const uint8_t *tag_table, size_t tag_table_len,
                           const uint8_t *pack_table, size_t pack_table_len,
                           const uint8_t *target, size_t target_len,
                           const uint8_t *group, size_t group_len,
                           uint8_t *output, size_t output_len);

/*
 * Lists one group: the 16-byte key of item i at keys[16 * i], the offset of its value from the group's first byte at
 * numbers[3 * i], the value's length at numbers[3 * i + 1], and the depth of the set that the item stands in at
 * numbers[3 * i + 2]. The depth is 1, as this call opens no nested set. `keys_len` counts bytes, `numbers_len` counts
 * 32-bit numbers. Answers the count of items, whatever the forms of their lengths, or refusal 1, 2, 4, 5, 7 to 11, 15,
 * 19 or 20.
 */
uint64_t perlenhuf_listing(const uint8_t *tag_table, size_t tag_table_len,
                           const uint8_t *pack_table, size_t pack_table_len,
                           const uint8_t *group, size_t group_len,
                           uint8_t *keys, size_t keys_len,
                           uint32_t *numbers, size_t numbers_len);

/*
 * Regroups a feed, a run of triplets: any 16 key bytes, a BER length and that many bytes each. A triplet whose key is
 * the 16-byte key `source` is regrouped as the group with the key `target`, also if the two keys are equal. If
 * perlenhuf_regroup would refuse it even with a slice of 65,536 bytes, it goes out with its bytes unaltered, as every
 * other triplet does. The output stands at the front of `output`, all triplets in their order; it may be longer than the
 * feed. Writes all six `numbers`, whatever the answer. Refuses with 1, 2, 3, 5 (for `source`), 21 or 15 (then ask again
 * with a longer slice); every other refusal is that of a triplet, and only counted.
 */
void perlenhuf_feed(const uint8_t *tag_table, size_t tag_table_len,
                    const uint8_t *pack_table, size_t pack_table_len,
                    const uint8_t *source, size_t source_len,
                    const uint8_t *target, size_t target_len,
                    const uint8_t *feed, size_t feed_len,
                    uint8_t *output, size_t output_len,
                    uint64_t numbers[PERLENHUF_FEED_NUMBERS]);

#ifdef __cplusplus
}
#endif

#endif
