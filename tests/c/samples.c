/* Reads data/groups.tsv: name, tag table, pack table, group, maker, remark, with tabs between them. */
#include "samples.h"

#include <stdio.h>
#include <stdlib.h>
#include <string.h>

#include "perlenhuf.h"

struct call samples[SAMPLES_MOST];
size_t sample_count;

static const uint8_t group_bytes[26] = {0x01, 0x03, 0x0B, 0x13, 0x1B, 0x23, 0x2B, 0x33, 0x3B, 0x43, 0x4B, 0x53, 0x5B,
                                        0x63, 0x6B, 0x73, 0x7B, 0x04, 0x24, 0x44, 0x64, 0x05, 0x02, 0x22, 0x42, 0x62};

/* Bytes 7 to 16 of global sets whose roots begin the keys of items. */
static const uint8_t roots[2][10] = {{0x03, 0x01, 0x2B, 0x34},
                                     {0x01, 0x01, 0x06, 0x0E, 0x2B, 0x34, 0x01, 0x01, 0x01, 0x00}};

void set_target(struct call *call, size_t n, uint8_t key[16])
{
    size_t sort = n < 26 ? n : n - 4;
    if (call->part[GROUP].len >= 16)
        memcpy(key, call->part[GROUP].at, 16);
    key[5] = group_bytes[sort];
    if (sort >= 22)
        memcpy(key + 6, roots[n >= 26], 10);
    call->part[TARGET] = (struct bytes){key, 16};
}

void set_record(uint8_t *table, size_t n, uint32_t number, const uint8_t *key)
{
    uint8_t *record = table + 20 * n;
    record[0] = (uint8_t)(number >> 24);
    record[1] = (uint8_t)(number >> 16);
    record[2] = (uint8_t)(number >> 8);
    record[3] = (uint8_t)number;
    memcpy(record + 4, key, 16);
}

static bool listed_before(const uint8_t *table, size_t records, const uint8_t *key)
{
    size_t i = 0;
    while (i < records && memcmp(table + 20 * i + 4, key, 16) != 0)
        i++;
    return i < records;
}

/* Every key once, with the tags 0, 1, 2 and so on. */
static struct bytes own_tags(const uint8_t *keys, size_t count)
{
    uint8_t *table = memory(20 * PERLENHUF_ITEMS_MAX);
    size_t i, records = 0;
    for (i = 0; i < count; i++) {
        if (!listed_before(table, records, keys + 16 * i)) {
            set_record(table, records, (uint32_t)records, keys + 16 * i);
            records++;
        }
    }
    return (struct bytes){table, 20 * records};
}

/* Every item's length and key. */
static struct bytes own_packs(const uint8_t *keys, const uint32_t *numbers, size_t count)
{
    uint8_t *table = memory(20 * PERLENHUF_ITEMS_MAX);
    size_t i;
    for (i = 0; i < count; i++)
        set_record(table, i, numbers[3 * i + 1], keys + 16 * i);
    return (struct bytes){table, 20 * count};
}

/* Adds the sample with tables of its own items in place of those that its group does not use. */
static void add_own(const struct call *call)
{
    static uint8_t keys[PERLENHUF_KEYS_MAX];
    static uint32_t numbers[PERLENHUF_LISTING_MAX];
    const struct bytes *p = call->part;
    uint8_t sort = p[GROUP].at[5] & 0x07;
    uint64_t count = perlenhuf_listing(p[TAGS].at, p[TAGS].len, p[PACKS].at, p[PACKS].len, p[GROUP].at, p[GROUP].len,
                                       keys, PERLENHUF_KEYS_MAX, numbers, PERLENHUF_LISTING_MAX);
    struct call *own = &samples[sample_count];
    if (PERLENHUF_REFUSED(count))
        return;
    *own = *call;
    if (sort != 0x03)
        own->part[TAGS] = own_tags(keys, count);
    if (sort != 0x04 && sort != 0x05)
        own->part[PACKS] = own_packs(keys, numbers, count);
    sample_count++;
}

static uint8_t digit(char c)
{
    return (uint8_t)(c <= '9' ? c - '0' : c - 'A' + 10);
}

/* The bytes of capital digits; a field `-` has none. */
static struct bytes field_bytes(const char *text, size_t len)
{
    uint8_t *bytes;
    size_t i;
    if (len < 2)
        return (struct bytes){NULL, 0};
    bytes = memory(len / 2);
    for (i = 0; i < len / 2; i++)
        bytes[i] = (uint8_t)(digit(text[2 * i]) << 4 | digit(text[2 * i + 1]));
    return (struct bytes){bytes, len / 2};
}

/* The place after the next tab. */
static const char *next_field(const char *text)
{
    return text + strcspn(text, "\t") + 1;
}

static void add(const char *line)
{
    static const enum part parts[3] = {TAGS, PACKS, GROUP};
    struct call call = {{{NULL, 0}}};
    const char *field = line;
    int i;
    for (i = 0; i < 3; i++) {
        field = next_field(field);
        call.part[parts[i]] = field_bytes(field, strcspn(field, "\t"));
    }
    samples[sample_count++] = call;
    add_own(&call);
}

/* The file's text. */
static char *text_of(const char *path)
{
    FILE *file = fopen(path, "rb");
    char *text;
    long len;
    if (file == NULL || fseek(file, 0, SEEK_END) != 0 || (len = ftell(file)) < 0 || fseek(file, 0, SEEK_SET) != 0) {
        printf("boundary: %s cannot be read\n", path);
        exit(2);
    }
    text = memory((size_t)len + 1);
    text[fread(text, 1, (size_t)len, file)] = '\0';
    fclose(file);
    return text;
}

void load_samples(const char *path)
{
    char *text = text_of(path), *line;
    for (line = strtok(text, "\n"); line != NULL && sample_count + 2 <= SAMPLES_MOST; line = strtok(NULL, "\n")) {
        if (line[0] != '#')
            add(line);
    }
    free(text);
    if (sample_count == 0) {
        printf("boundary: %s has no samples\n", path);
        exit(2);
    }
}
