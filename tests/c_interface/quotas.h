/* The six calls, and the four of the keyed scheduler, each with a list of quotas (02, x) or without one, for programs
   that make calls as they are told. */
#ifndef QUOTAS_H
#define QUOTAS_H

#include "fortuna.h"
#include "lent.h"

/* A list in a lent buffer. A null pointer to one stands for a call without a list. */
typedef struct {
    fortuna_quota *records;
    size_t count;
} quota_list;

static inline quota_list lend_quotas(size_t count)
{
    return (quota_list){lend(count * sizeof(fortuna_quota)), count};
}

static inline void give_back_quotas(quota_list list)
{
    give_back(list.records, list.count * sizeof *list.records);
}

static inline uint32_t event_with(
    fortuna_state *state, const quota_list *list, uint32_t source, uint32_t pool, const uint8_t *data, size_t length)
{
    return list ? fortuna_metered_event(state, list->records, list->count, source, pool, data, length)
                : fortuna_event(state, source, pool, data, length);
}

static inline fortuna_answer request_with(
    fortuna_state *state, const quota_list *list, uint32_t clock, uint8_t *out, size_t length)
{
    return list ? fortuna_metered_request(state, list->records, list->count, clock, out, length)
                : fortuna_request(state, clock, out, length);
}

static inline fortuna_answer update_with(
    fortuna_state *state, const quota_list *list, uint32_t clock, uint8_t *seed, size_t length)
{
    return list ? fortuna_metered_update(state, list->records, list->count, clock, seed, length)
                : fortuna_update(state, clock, seed, length);
}

static inline fortuna_answer write_with(
    fortuna_state *state, const quota_list *list, uint32_t clock, uint8_t *seed, size_t length)
{
    return list ? fortuna_metered_write(state, list->records, list->count, clock, seed, length)
                : fortuna_write(state, clock, seed, length);
}

static inline fortuna_draw draw_with(
    fortuna_state *state, const quota_list *list, uint32_t clock, uint64_t n, uint32_t tries)
{
    return list ? fortuna_metered_random_below(state, list->records, list->count, clock, n, tries)
                : fortuna_random_below(state, clock, n, tries);
}

static inline fortuna_answer shuffle_with(
    fortuna_state *state, const quota_list *list, uint32_t clock, uint16_t *numbers, size_t length)
{
    return list ? fortuna_metered_shuffle(state, list->records, list->count, clock, numbers, length)
                : fortuna_shuffle(state, clock, numbers, length);
}

static inline fortuna_answer keyed_event_with(
    fortuna_keyed *state, const quota_list *list, uint32_t source, const uint8_t *data, size_t length)
{
    return list ? fortuna_keyed_metered_event(state, list->records, list->count, source, data, length)
                : fortuna_keyed_event(state, source, data, length);
}

static inline fortuna_answer keyed_request_with(
    fortuna_keyed *state, const quota_list *list, uint8_t *out, size_t length)
{
    return list ? fortuna_keyed_metered_request(state, list->records, list->count, out, length)
                : fortuna_keyed_request(state, out, length);
}

static inline fortuna_answer keyed_update_with(
    fortuna_keyed *state, const quota_list *list, uint8_t *seed, size_t length)
{
    return list ? fortuna_keyed_metered_update(state, list->records, list->count, seed, length)
                : fortuna_keyed_update(state, seed, length);
}

static inline fortuna_answer keyed_write_with(
    fortuna_keyed *state, const quota_list *list, uint8_t *seed, size_t length)
{
    return list ? fortuna_keyed_metered_write(state, list->records, list->count, seed, length)
                : fortuna_keyed_write(state, seed, length);
}

#endif
