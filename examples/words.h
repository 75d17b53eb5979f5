/*
 * What a host prints: an answer, a reply or an event in words, octets in hexadecimal.
 */
#ifndef WORDS_H
#define WORDS_H

#include <stddef.h>
#include <stdint.h>
#include <stdio.h>

#include "hub.h"

/* An answer in words. */
static inline const char *answer_name(unsigned answer)
{
    static const char *const names[] = {
        [HUB_DONE] = "done",
        [HUB_STARTED] = "started",
        [HUB_REFUSED] = "refused",
        [HUB_BAD_PACKET] = "bad packet",
        [HUB_SMALL_BUFFER] = "small buffer",
        [HUB_BAD_STATE] = "bad state",
        [HUB_BAD_ARGUMENT] = "bad argument",
        [HUB_NOT_IN_IMAGE] = "cannot be said",
        [HUB_INCOMPLETE] = "incomplete",
        [HUB_IMAGE_LENGTH] = "bad image, in its length or with octets left over",
        [HUB_IMAGE_VERSION] = "bad image, of a version that is not taken",
        [HUB_IMAGE_INDEX] = "bad image, in the count or an index of its controllers",
        [HUB_IMAGE_FIELD] = "bad image, in a field of a controller",
        [HUB_IMAGE_COUNT] = "bad image, in the count of a table",
        [HUB_IMAGE_RECORD] = "bad image, in a record",
        [HUB_IMAGE_REPEATED] = "bad image, with a record that repeats another",
    };
    return answer < sizeof names / sizeof names[0] && names[answer] ? names[answer] : "?";
}

/* Octets in hexadecimal, the first 32 of them. */
static inline void print_octets(const char *what, const uint8_t *octets, size_t count)
{
    printf("    %s", what);
    for (size_t i = 0; i < count && i < 32; i++)
        printf(" %02X", octets[i]);
    printf(count > 32 ? " .. (%zu octets)\n" : "\n", count);
}

/* The name of a reply or an event. */
static inline const char *frame_name(unsigned code)
{
    static const struct {
        unsigned code;
        const char *name;
    } names[] = {
        { 0x01, "Command Complete" },  { 0x02, "Command Status" },      { 0x04, "Index Added" },  { 0x05, "Index Removed" },
        { 0x06, "New Settings" },      { 0x07, "Class Changed" },       { 0x08, "Name Changed" }, { 0x14, "Device Blocked" },
        { 0x15, "Device Unblocked" },  { 0x16, "Device Unpaired" },     { 0x1A, "Device Added" }, { 0x1B, "Device Removed" },
        { 0x23, "Advertising Added" }, { 0x24, "Advertising Removed" },
    };
    for (size_t i = 0; i < sizeof names / sizeof names[0]; i++)
        if (names[i].code == code)
            return names[i].name;
    return "?";
}

#endif
