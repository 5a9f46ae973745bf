/* Calls of the feed's C entry. */
#include "feed_call.h"

#include <string.h>

#include "feed.h"

#define LARGEST (1 << 21)

struct count feeds;

/* What a call left: its numbers, and the front of its output as far as they say. */
struct left {
    uint64_t numbers[6];
    uint8_t bytes[LARGEST];
};

static struct left lefts[WAYS];

void hold_feed(bool holds, const char *name, const struct feed_call *call)
{
    hold_parts(holds, name, call->part, FEED_PARTS);
}

/* Either the refusal is 0 and so is its place, or the length and the counts are 0. */
static void note(const struct feed_call *call, const uint64_t numbers[6])
{
    uint64_t counted = numbers[0] | numbers[1] | numbers[2] | numbers[3];
    feeds.calls++;
    if (numbers[4] == 0)
        feeds.accepted++;
    else if (numbers[4] < NUMBERS)
        feeds.refused[numbers[4]]++;
    hold_feed(numbers[4] < NUMBERS, "a refusal has a number of the header", call);
    hold_feed(numbers[4] == 0 ? numbers[5] == 0 : counted == 0, "what does not apply is 0", call);
}

/* Gives the inputs back, which must be as they were. */
static void take_parts(const struct feed_call *call, struct slice parts[FEED_PARTS])
{
    int i;
    for (i = 0; i < FEED_PARTS; i++) {
        hold_feed(holds(&parts[i], call->part[i]), "an input is unaltered", call);
        give_back(&parts[i]);
    }
}

/* Notes the numbers and the front of the output; the rest must be as it was. */
static void take_output(const struct feed_call *call, struct slice *output, struct slice *numbers, struct left *left)
{
    bool fits;
    memcpy(left->numbers, numbers->at, sizeof left->numbers);
    fits = left->numbers[0] <= output->len && left->numbers[0] <= LARGEST;
    hold_feed(fits, "the output lies in the slice", call);
    if (!fits)
        left->numbers[0] = 0;
    hold_feed(painted_from(output, left->numbers[0]), "the rest of the output slice is unaltered", call);
    hold_feed(painted_from(numbers, sizeof left->numbers), "what is beside the numbers is unaltered", call);
    if (left->numbers[0] > 0)
        memcpy(left->bytes, output->at, left->numbers[0]);
    give_back(output);
    give_back(numbers);
}

static void feed_in(enum way way, const struct feed_call *call, size_t room)
{
    struct left *left = &lefts[way];
    struct slice output = lend(way, room), numbers = lend(way, sizeof left->numbers), s[FEED_PARTS];
    int i;
    for (i = 0; i < FEED_PARTS; i++)
        s[i] = lend_copy(way, call->part[i]);
    perlenhuf_feed(s[FEED_TAGS].at, s[FEED_TAGS].len, s[FEED_PACKS].at, s[FEED_PACKS].len, s[FEED_SOURCE].at,
                   s[FEED_SOURCE].len, s[FEED_TARGET].at, s[FEED_TARGET].len, s[FEED_TRIPLETS].at,
                   s[FEED_TRIPLETS].len, output.at, output.len, (uint64_t *)(void *)numbers.at);
    take_output(call, &output, &numbers, left);
    note(call, left->numbers);
    take_parts(call, s);
}

/* Whether some slice is empty, for which a block of no byte and NULL differ. */
static bool has_empty(const struct feed_call *call, size_t room)
{
    int i = 0;
    while (i < FEED_PARTS && call->part[i].len > 0)
        i++;
    return i < FEED_PARTS || room == 0;
}

const uint64_t *feed(const struct feed_call *call, size_t room)
{
    int way, ways = has_empty(call, room) ? WAYS : EXACT;
    for (way = 0; way < ways; way++)
        feed_in((enum way)way, call, room);
    for (way = 1; way < ways; way++) {
        bool same = memcmp(lefts[way].numbers, lefts[0].numbers, sizeof lefts[0].numbers) == 0;
        hold_feed(same && equal_bytes(lefts[way].bytes, lefts[0].bytes, lefts[0].numbers[0]),
                  "every way gives the same", call);
    }
    return lefts[0].numbers;
}

size_t feed_length(const struct feed_call *call)
{
    static uint8_t output[LARGEST];
    const struct bytes *p = call->part;
    uint64_t numbers[6];
    perlenhuf_feed(p[FEED_TAGS].at, p[FEED_TAGS].len, p[FEED_PACKS].at, p[FEED_PACKS].len, p[FEED_SOURCE].at,
                   p[FEED_SOURCE].len, p[FEED_TARGET].at, p[FEED_TARGET].len, p[FEED_TRIPLETS].at,
                   p[FEED_TRIPLETS].len, output, sizeof output, numbers);
    note(call, numbers);
    return (size_t)numbers[0];
}
