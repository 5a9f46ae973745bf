/*
 * A host for playout feeds: regroups the triplets of a file that have the source key, and writes all triplets to another.
 * Built and run by examples/run.
 *
 *     feed TAGS PACKS SOURCE TARGET FEED OUTPUT
 *
 * TAGS and PACKS are the files of the tag table and the pack table, 20 bytes a record; - is an empty table. SOURCE and
 * TARGET are keys of 16 bytes, in hexadecimal digits, with or without a dot between bytes. FEED is the file of triplets.
 * OUTPUT is written only if the feed is accepted. Prints the six numbers of the answer. The exit status is 0 if the feed
 * was accepted, 1 if it was refused, 2 after wrong arguments, and 3 if input or output failed.
 */
#include <inttypes.h>
#include <stdio.h>
#include <stdlib.h>
#include <string.h>

#include "perlenhuf.h"

#define KEY_BYTES 16
#define TABLE_MAX (256 * 20)

enum status { DONE = 0, REFUSED = 1, USAGE = 2, FAILED = 3 };

/* The arguments, in their order. A file that is too long is read one byte past its limit, and the call refuses it. */
struct job {
    uint8_t tags[TABLE_MAX + 1], packs[TABLE_MAX + 1];
    uint8_t source[KEY_BYTES], target[KEY_BYTES];
    uint8_t feed[PERLENHUF_FEED_MAX + 1];
    size_t tags_len, packs_len, feed_len;
};

static struct job job;

static const char *const words[PERLENHUF_FEED_NUMBERS] = {"output length", "regrouped", "refused",
                                                          "others",        "refusal",   "place"};

static int digit(char c)
{
    static const char digits[] = "0123456789abcdef0123456789ABCDEF";
    const char *at = c == '\0' ? NULL : strchr(digits, c);
    return at == NULL ? -1 : (int)(at - digits) % 16;
}

/* Reads the 16 bytes of a key; whether the text has so many and no more. */
static int read_key(const char *text, uint8_t key[KEY_BYTES])
{
    size_t i;
    for (i = 0; i < KEY_BYTES; i++) {
        if (i > 0 && *text == '.')
            text++;
        if (digit(text[0]) < 0 || digit(text[1]) < 0)
            return 0;
        key[i] = (uint8_t)(16 * digit(text[0]) + digit(text[1]));
        text += 2;
    }
    return *text == '\0';
}

/* Reads the front of a file, at most so many bytes; whether that was done. */
static int read_file(const char *path, uint8_t *bytes, size_t most, size_t *len)
{
    FILE *file = fopen(path, "rb");
    int failed;
    if (file == NULL) {
        perror(path);
        return 0;
    }
    *len = fread(bytes, 1, most, file);
    failed = ferror(file);
    if (failed)
        perror(path);
    fclose(file);
    return !failed;
}

static int read_table(const char *path, uint8_t table[TABLE_MAX + 1], size_t *len)
{
    *len = 0;
    return strcmp(path, "-") == 0 || read_file(path, table, TABLE_MAX + 1, len);
}

static int write_file(const char *path, const uint8_t *bytes, size_t len)
{
    FILE *file = fopen(path, "wb");
    int done = file != NULL && fwrite(bytes, 1, len, file) == len;
    if (file != NULL)
        done = fclose(file) == 0 && done;
    if (!done)
        perror(path);
    return done;
}

static void call(uint8_t *output, size_t room, uint64_t numbers[PERLENHUF_FEED_NUMBERS])
{
    perlenhuf_feed(job.tags, job.tags_len, job.packs, job.packs_len, job.source, KEY_BYTES, job.target, KEY_BYTES,
                   job.feed, job.feed_len, output, room, numbers);
}

/* Calls with a slice as long as the feed, and with twice as many bytes as long as that is too short. */
static uint8_t *regroup(uint64_t numbers[PERLENHUF_FEED_NUMBERS])
{
    size_t room = job.feed_len > 0 ? job.feed_len : 1;
    uint8_t *output = (uint8_t *)malloc(room);
    while (output != NULL) {
        call(output, room, numbers);
        if (numbers[PERLENHUF_FEED_REFUSAL] != PERLENHUF_SHORT_SLICE)
            return output;
        free(output);
        output = room > SIZE_MAX / 2 ? NULL : (uint8_t *)malloc(room *= 2);
    }
    fprintf(stderr, "no memory for the output\n");
    return NULL;
}

/* Prints the answer, and writes the output if there is one. */
static enum status tell(const char *path, const uint8_t *output, const uint64_t numbers[PERLENHUF_FEED_NUMBERS])
{
    int i;
    for (i = 0; i < PERLENHUF_FEED_NUMBERS; i++)
        printf("%s: %" PRIu64 "\n", words[i], numbers[i]);
    if (fflush(stdout) != 0)
        return FAILED;
    if (numbers[PERLENHUF_FEED_REFUSAL] != 0)
        return REFUSED;
    return write_file(path, output, (size_t)numbers[PERLENHUF_FEED_LENGTH]) ? DONE : FAILED;
}

int main(int argc, char **argv)
{
    uint64_t numbers[PERLENHUF_FEED_NUMBERS];
    uint8_t *output;
    enum status status;
    if (argc != 7 || !read_key(argv[3], job.source) || !read_key(argv[4], job.target)) {
        fprintf(stderr, "usage: feed TAGS PACKS SOURCE TARGET FEED OUTPUT\n");
        return USAGE;
    }
    if (!read_table(argv[1], job.tags, &job.tags_len) || !read_table(argv[2], job.packs, &job.packs_len) ||
        !read_file(argv[5], job.feed, sizeof job.feed, &job.feed_len))
        return FAILED;
    output = regroup(numbers);
    if (output == NULL)
        return FAILED;
    status = tell(argv[6], output, numbers);
    free(output);
    return status;
}
