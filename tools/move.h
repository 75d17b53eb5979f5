/*
 * The words upgrade and downgrade: an image is moved from version 1 to 2, or back.
 */
#ifndef MOVE_H
#define MOVE_H

#include <stdint.h>
#include <stdio.h>
#include <stdlib.h>
#include <string.h>

#include "hub.h"
#include "image_fault.h"
#include "messages.h"
#include "new_file.h"
#include "octets.h"

/* A move from a version to the other one. */
typedef uint64_t hub_move(const uint8_t *image, size_t image_len, uint8_t *out, size_t out_len);

/* What a move writes. */
static uint8_t moved[HUB_IMAGE_MAX];

/* Says why octets are no image of the version that is moved from: what the move found at fault. */
static inline int no_image(const char *path, const struct octets *in, uint64_t result, unsigned from)
{
    static uint8_t state[HUB_STATE_LEN];
    struct line line;
    const char *fault = say_fault(&line, result, in->octets, in->length, from);
    if (hub_answer(hub_load(state, sizeof state, in->octets, in->length)) == HUB_DONE)
        return wrong("%s: of version %u already: %s", path, image_version(in->octets, in->length), fault);
    return wrong("%s: no image of version %u that the hub takes: %s", path, from, fault);
}

/* Whether a controller of a hub supports BR/EDR and has it off: bit 7 of the settings that Read Controller Information tells, supported and current. */
static inline int is_off(uint8_t *state, uint8_t index)
{
    const uint8_t read[6] = { 0x04, 0, index };
    uint8_t reply[HUB_REPLY_MIN];
    const uint64_t result = hub_command(state, HUB_STATE_LEN, read, sizeof read, reply, sizeof reply);
    const uint8_t *settings = reply + 6 + 3 + 9;
    return hub_answer(result) == HUB_DONE && (settings[0] & 0x80) != 0 && (settings[4] & 0x80) == 0;
}

/* Says where an image has BR/EDR off, so that it cannot be moved back. */
static inline int not_in_version_1(const char *path, const struct octets *in)
{
    static uint8_t state[HUB_STATE_LEN];
    char indexes[16] = "";
    size_t length = 0;
    (void)hub_load(state, sizeof state, in->octets, in->length);
    for (uint8_t index = 0; index < 4; index++)
        if (is_off(state, index))
            length += (size_t)snprintf(indexes + length, sizeof indexes - length, "%s%u", length ? ", " : "", (unsigned)index);
    note("%s: BR/EDR is off at controller %s, which version 1 cannot say; nothing is written", path, indexes);
    return FOUND;
}

/* Says that a name lost something in version 2, where the way back does not give the same octets. */
static inline void say_lost(const char *path, const struct octets *in, size_t count)
{
    static uint8_t back[HUB_IMAGE_MAX];
    const uint64_t result = hub_downgrade(moved, count, back, sizeof back);
    if (hub_count(result) != in->length || memcmp(back, in->octets, in->length) != 0)
        note("%s: a name has octets behind its first zero; they are left out, as in every image of version 2", path);
}

/* Moves an image to a file, which is written only if the move is done. */
static inline int move_octets(char **paths, const struct octets *in, hub_move *move, unsigned from)
{
    const uint64_t result = move(in->octets, in->length, moved, sizeof moved);
    const char *fault;
    if (hub_bad_image(result))
        return no_image(paths[0], in, result, from);
    if (hub_answer(result) == HUB_NOT_IN_IMAGE)
        return not_in_version_1(paths[0], in);
    if (hub_answer(result) != HUB_DONE)
        return wrong("the library answers %u", hub_answer(result));
    fault = replace_file(paths[1], moved, hub_count(result));
    if (fault)
        return wrong("%s: %s", paths[1], fault);
    if (from == 1)
        say_lost(paths[0], in, hub_count(result));
    return FINE;
}

/* Moves the image of a file to another file, or to the same. */
static inline int move_image(char **paths, hub_move *move, unsigned from)
{
    struct octets in;
    int code;
    if (!*paths[0] || !*paths[1])
        return wrong("%s is empty, and not the name of a file", *paths[0] ? "OUT" : "IN");
    if (strcmp(paths[1], "-") == 0)
        return wrong("OUT is a file, not the standard output; one of that name is ./-");
    code = read_file(paths[0], &in) ? move_octets(paths, &in, move, from) : unreadable(paths[0]);
    free(in.octets);
    return code;
}

/* hub upgrade: version 1 to 2. */
static inline int upgrade(int count, char **arguments)
{
    (void)count;
    return move_image(arguments, hub_upgrade, 1);
}

/* hub downgrade: version 2 to 1. */
static inline int downgrade(int count, char **arguments)
{
    (void)count;
    return move_image(arguments, hub_downgrade, 2);
}

#endif
