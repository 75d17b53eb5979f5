/*
 * Buffers for the programs of bad input: each is lent by malloc with exactly the length that is said, so that valgrind sees a step outside. A result is
 * held to the number and the octets that it must be, and what was lent to what it was before.
 */
#ifndef LENT_H
#define LENT_H

#include "busy.h"

enum { FILLER = 0xA5 };

static unsigned long tried, failures;

static const uint8_t empty[] = { 0, 0, 0, 6, 1, 0 };
static const uint8_t address[6] = { 0x11, 0x22, 0x33, 0x44, 0x55, 0x66 };
static const uint8_t read_version[] = { 1, 0, 0xFF, 0xFF, 0, 0 };

/* Numbers of 64 bits, some right in their lowest 8, 16 or 32. */
static const uint64_t numbers[] = {
    0, 1, 2, 3, 4, 5, 0x14, 0x15, 0x7F, 0x80, 0xFF, 0x100, 0x101, 0xFFFF, 0x10000, 0x10001, 0x7FFFFFFF, 0x80000000, 0xFFFFFFFF, 0x100000000,
    0x100000001, 0x100000002, 0x7FFFFFFFFFFFFFFF, 0x8000000000000000, 0x8000000000000001, 0xFFFFFFFFFFFFFFFE, 0xFFFFFFFFFFFFFFFF
};

enum { NUMBERS = sizeof numbers / sizeof numbers[0] };

/* A buffer of the caller: so many octets and no more, and what they were when they were lent. */
struct lent {
    uint8_t *octets, *before;
    size_t length;
};

/* Lends so many octets: those of a pattern as far as it goes, filler behind. */
static struct lent lend(size_t length, const uint8_t *pattern, size_t pattern_length)
{
    static uint8_t no_octets;
    struct lent lent = { malloc(length), malloc(length), length };
    if (length > 0 && (!lent.octets || !lent.before))
        exit(EXIT_FAILURE);
    if (length > 0) {
        memset(lent.octets, FILLER, length);
        if (pattern)
            memcpy(lent.octets, pattern, pattern_length < length ? pattern_length : length);
        memcpy(lent.before, lent.octets, length);
    } else {
        free(lent.octets);
        lent.octets = &no_octets;
    }
    return lent;
}

static void take_back(struct lent lent)
{
    if (lent.length > 0)
        free(lent.octets);
    free(lent.before);
}

/* Whether the octets from a place on are as they were when they were lent. */
static int untouched(const struct lent *lent, size_t from)
{
    return from >= lent->length || memcmp(lent->octets + from, lent->before + from, lent->length - from) == 0;
}

/* Holds a result to the number, the second number and the octets it must be; the rest of the reply and the state must be untouched. */
static void expect_extra(const char *what, size_t with, uint64_t result, unsigned answer, uint32_t extra, const struct lent *state,
                         const struct lent *reply, const uint8_t *octets, size_t count)
{
    int right = hub_answer(result) == answer && hub_count(result) == count && hub_extra(result) == extra;
    right = right && untouched(state, 0) && (!reply || untouched(reply, count));
    right = right && (count == 0 || memcmp(reply->octets, octets, count) == 0);
    tried++;
    if (right)
        return;
    failures++;
    printf("%s (%zu): answer %u and not %u, %zu octets and not %zu, second number %lu and not %lu, or octets that are not as they must be\n", what, with,
           hub_answer(result), answer, hub_count(result), count, (unsigned long)hub_extra(result), (unsigned long)extra);
}

/* The same of a result without a second number. */
static void expect(const char *what, size_t with, uint64_t result, unsigned answer, const struct lent *state, const struct lent *reply,
                   const uint8_t *octets, size_t count)
{
    expect_extra(what, with, result, answer, 0, state, reply, octets, count);
}

/*
 * All calls but load with arguments that are wrong wherever they can be, all answered alike; a text buffer is too short from 255 octets down. A look-up
 * has no buffer to be too short, so it is made only where the state is.
 */
static inline void try_all_wrong(const char *what, size_t with, const struct lent *state, const struct lent *reply, unsigned answer)
{
    uint8_t *s = state->octets, *r = reply->octets;
    const size_t short_text = reply->length < 255 ? reply->length : 255;
    expect(what, with, hub_command(s, state->length, read_version, 5, r, reply->length), answer, state, reply, NULL, 0);
    expect(what, with, hub_stream(s, state->length, read_version, 5, r, reply->length), answer, state, reply, NULL, 0);
    expect(what, with, hub_report(s, state->length, 9, 99, r, reply->length), answer, state, reply, NULL, 0);
    expect(what, with, hub_clock(s, state->length, 999, r, reply->length), answer, state, reply, NULL, 0);
    expect(what, with, hub_plug(s, state->length, 9, address, 5, 9, 15, 0, r, reply->length), answer, state, reply, NULL, 0);
    expect(what, with, hub_unplug(s, state->length, 9, r, reply->length), answer, state, reply, NULL, 0);
    expect(what, with, hub_save(s, state->length, r, reply->length), answer, state, reply, NULL, 0);
    expect(what, with, hub_name(s, state->length, 9, 9, r, reply->length), answer, state, reply, NULL, 0);
    expect(what, with, hub_on_air(s, state->length, 9, r, reply->length), answer, state, reply, NULL, 0);
    expect(what, with, hub_why(s, state->length, read_version, 5, r, short_text), answer, state, reply, NULL, 0);
    if (answer == HUB_BAD_STATE)
        expect(what, with, hub_look_up(s, state->length, 9, 9, address, 5), answer, state, reply, NULL, 0);
}

/* A command that is refused with a status, by Command Status. */
static inline void try_refused(const char *what, size_t with, const uint8_t *hub, const struct packet *packet, unsigned status)
{
    const uint8_t *p = packet->octets, wanted[9] = { 2, 0, p[2], p[3], 3, 0, p[0], p[1], (uint8_t)status };
    struct lent state = lend(HUB_STATE_LEN, hub, HUB_STATE_LEN), reply = lend(HUB_REPLY_MIN, NULL, 0), lent = lend(packet->length, p, packet->length);
    uint64_t result = hub_command(state.octets, state.length, lent.octets, lent.length, reply.octets, reply.length);
    expect(what, with, result, HUB_REFUSED, &state, &reply, wanted, sizeof wanted);
    expect("packet, as it was", with, HUB_DONE, HUB_DONE, &lent, NULL, NULL, 0);
    take_back(lent);
    take_back(reply);
    take_back(state);
}

#endif
