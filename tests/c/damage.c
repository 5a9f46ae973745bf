/* Damage to bytes. */
#include "damage.h"

#include <string.h>

/* A xorshift generator (xorshift64*): the same calls in every run. */
static uint64_t state = 15631;

size_t below(size_t limit)
{
    state ^= state >> 12;
    state ^= state << 25;
    state ^= state >> 27;
    return (size_t)((state * 0x2545F4914F6CDD1D) >> 32) % limit;
}

/* Changes some bytes, cuts some off, or adds some that were behind them. */
static size_t damage(uint8_t *bytes, size_t len)
{
    static const uint8_t values[8] = {0x00, 0x01, 0x7F, 0x80, 0x81, 0x88, 0x89, 0xFF};
    size_t changes = below(4);
    if (below(4) == 0)
        len = below(len + 4);
    while (len > 0 && changes-- > 0)
        bytes[below(len)] = below(2) == 0 ? values[below(8)] : (uint8_t)below(256);
    return len;
}

/* A copy of a part, at times damaged. */
struct bytes damaged_part(struct bytes part, uint8_t *copy)
{
    memset(copy, 0x00, part.len + 4);
    if (part.len > 0)
        memcpy(copy, part.at, part.len);
    return (struct bytes){copy, below(3) == 0 ? damage(copy, part.len) : part.len};
}
