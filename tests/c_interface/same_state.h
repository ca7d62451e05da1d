/* Whether two states are the same: their fields, without what stands between them. */
#ifndef SAME_STATE_H
#define SAME_STATE_H

#include "fortuna.h"

#include <string.h>

static inline bool same_state(const fortuna_state *a, const fortuna_state *b)
{
    return memcmp(a, b, offsetof(fortuna_state, reseeded)) == 0 && a->reseeded == b->reseeded
        && a->key_requests == b->key_requests;
}

#endif
