/*
 * A small host: regroups the universal set of 01's job as a local set, lists the result, and shows refusals.
 * Built and run by examples/run.
 */
#include <stdio.h>
#include <string.h>

#include "perlenhuf.h"

static const uint8_t tag_table[20] = {0x00, 0x00, 0x01, 0x02, 0x06, 0x0E, 0x2B, 0x34, 0x01, 0x01,
                                      0x01, 0x01, 0x0F, 0x02, 0x00, 0x00, 0x00, 0x00, 0x00, 0x00};

static const uint8_t target[16] = {0x06, 0x0E, 0x2B, 0x34, 0x02, 0x53, 0x01, 0x01,
                                   0x0F, 0x01, 0x00, 0x00, 0x00, 0x00, 0x00, 0x00};

static const uint8_t group[36] = {0x06, 0x0E, 0x2B, 0x34, 0x02, 0x01, 0x01, 0x01, 0x0F, 0x01, 0x00, 0x00,
                                  0x00, 0x00, 0x00, 0x00, 0x13, 0x06, 0x0E, 0x2B, 0x34, 0x01, 0x01, 0x01,
                                  0x01, 0x0F, 0x02, 0x00, 0x00, 0x00, 0x00, 0x00, 0x00, 0x02, 0xAB, 0xCD};

static void print_bytes(const uint8_t *bytes, size_t n)
{
    size_t i;
    for (i = 0; i < n; i++)
        printf("%02X", bytes[i]);
    printf("\n");
}

/* What a fitter looks at for a refusal of an item's label. */
static const char *advice(uint64_t number)
{
    switch (number) {
    case PERLENHUF_LABEL_CUT_OFF:
    case PERLENHUF_LABEL_MALFORMED:
        return ": look at the cable";
    case PERLENHUF_LABEL_UNLISTED:
        return ": look at the tag table";
    default:
        return "";
    }
}

static int refused(const char *call, uint64_t answer)
{
    if (!PERLENHUF_REFUSED(answer))
        return 0;
    printf("%s: refusal %u at place %u%s\n", call, (unsigned)PERLENHUF_NUMBER(answer),
           (unsigned)PERLENHUF_PLACE(answer), advice(PERLENHUF_NUMBER(answer)));
    return 1;
}

int main(void)
{
    static uint8_t output[PERLENHUF_OUTPUT_MAX];
    static uint8_t keys[PERLENHUF_KEYS_MAX];
    static uint32_t numbers[PERLENHUF_LISTING_MAX];
    uint64_t length, count, i;

    length = perlenhuf_regroup(tag_table, sizeof tag_table, NULL, 0, target, sizeof target, group, sizeof group, output,
                               sizeof output);
    if (refused("regroup", length))
        return 1;
    printf("regroup: %u bytes\n", (unsigned)length);
    print_bytes(output, length);

    count = perlenhuf_listing(tag_table, sizeof tag_table, NULL, 0, output, length, keys, sizeof keys, numbers,
                              sizeof numbers / sizeof numbers[0]);
    if (refused("listing", count))
        return 1;
    printf("listing: %u item\n", (unsigned)count);
    for (i = 0; i < count; i++) {
        printf("offset %u, length %u, key ", (unsigned)numbers[3 * i], (unsigned)numbers[3 * i + 1]);
        print_bytes(keys + 16 * i, 16);
    }

    /* Without the tag table the item has no tag. */
    refused("regroup without tags",
            perlenhuf_regroup(NULL, 0, NULL, 0, target, sizeof target, group, sizeof group, output, sizeof output));

    /* Without the tag table the local set's tag has no key. */
    refused("listing without tags", perlenhuf_listing(NULL, 0, NULL, 0, output, length, keys, sizeof keys, numbers,
                                                      sizeof numbers / sizeof numbers[0]));

    /* The set ends inside the item's tag. */
    output[16] = 1;
    refused("listing of a cut set", perlenhuf_listing(tag_table, sizeof tag_table, NULL, 0, output, 18, keys,
                                                      sizeof keys, numbers, sizeof numbers / sizeof numbers[0]));

    /* The first byte of the item's key is another one. */
    memcpy(output, group, sizeof group);
    output[17] = 0x07;
    refused("listing of an altered set", perlenhuf_listing(NULL, 0, NULL, 0, output, sizeof group, keys, sizeof keys,
                                                           numbers, sizeof numbers / sizeof numbers[0]));
    return 0;
}
