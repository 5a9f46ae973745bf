/* Damage to bytes, the same in every run. */
#ifndef DAMAGE_H
#define DAMAGE_H

#include "lend.h"

/* A number below the limit. */
size_t below(size_t limit);

/* A copy of a part, at times damaged; there must be room for four bytes more. */
struct bytes damaged_part(struct bytes part, uint8_t *copy);

#endif
