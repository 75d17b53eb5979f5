/*
 * The word why: what the hub of a file would answer to a packet.
 */
#ifndef WHY_H
#define WHY_H

#include <ctype.h>
#include <errno.h>
#include <stdint.h>
#include <stdio.h>
#include <stdlib.h>
#include <string.h>

#include "hub.h"
#include "image_fault.h"
#include "messages.h"
#include "octets.h"

enum {
    HEADER = 6,
    PACKET_MAX = HEADER + 65535, /* the longest packet there can be */
    ROOM = PACKET_MAX + 1        /* one octet more, to see that something is longer */
};

/* The hub. */
static uint8_t state[HUB_STATE_LEN];

/* A packet, and what it is called in a message. */
static struct {
    uint8_t octets[ROOM];
    size_t length;
    const char *name;
} packet;

/* Takes the octets of a hub: a state, which is known by its length, or an image, which is loaded; gives the version of an image, and 0 for a state. */
static inline int take_octets(const char *path, const struct octets *hub, unsigned *version)
{
    static uint8_t name[HUB_REPLY_MIN];
    struct line line;
    uint64_t result;
    *version = 0;
    if (hub->length == HUB_STATE_LEN) {
        memcpy(state, hub->octets, hub->length);
        if (hub_answer(hub_name(state, sizeof state, 0, 0, name, sizeof name)) == HUB_BAD_STATE)
            return wrong("%s: %zu octets, as a state has, but not well formed", path, hub->length);
        return FINE;
    }
    result = hub_load(state, sizeof state, hub->octets, hub->length);
    if (hub_bad_image(result))
        return wrong("%s: no state, which has %u octets, and no image that the hub takes: %s", path, HUB_STATE_LEN,
                     say_fault(&line, result, hub->octets, hub->length, 0));
    if (hub_answer(result) != HUB_DONE)
        return wrong("the library answers %u", hub_answer(result));
    *version = image_version(hub->octets, hub->length);
    return FINE;
}

/* Takes the hub of a file. */
static inline int take_hub(const char *path, unsigned *version)
{
    struct octets hub;
    int code;
    if (!*path)
        return wrong("HUB is empty, and not the name of a file");
    code = read_file(path, &hub) ? take_octets(path, &hub, version) : unreadable(path);
    free(hub.octets);
    return code;
}

/* Puts octets in hexadecimal behind those of the packet; 0 where they are something else. Spaces and colons may stand between octets, 0x before them. */
static inline int take_hexadecimal(const char *digits)
{
    int begins = 1;
    while (*digits && packet.length < ROOM) {
        int high, low;
        if (isspace((unsigned char)*digits) || *digits == ':') {
            digits++;
            begins = 1;
            continue;
        }
        if (begins && digits[0] == '0' && tolower((unsigned char)digits[1]) == 'x')
            digits += 2;
        begins = 0;
        high = hex_digit((char)tolower((unsigned char)digits[0]));
        low = high < 0 ? -1 : hex_digit((char)tolower((unsigned char)digits[1]));
        if (low < 0)
            return 0;
        packet.octets[packet.length++] = (uint8_t)(high << 4 | low);
        digits += 2;
    }
    return 1;
}

/* Takes a packet: @FILE has its octets, - is the standard input, anything else is hexadecimal, in one argument or in several. */
static inline int take_packet(int count, char **arguments)
{
    const int in_file = count == 1 && (arguments[0][0] == '@' || strcmp(arguments[0], "-") == 0);
    packet.name = in_file ? arguments[0] + (arguments[0][0] == '@') : "PACKET";
    packet.length = 0;
    if (in_file && packet.name[0] == '\0')
        return wrong("@ stands before the name of a file");
    if (in_file && !read_octets(packet.name, packet.octets, sizeof packet.octets, &packet.length))
        return wrong("%s: %s", packet.name, strerror(errno));
    for (int i = 0; !in_file && i < count; i++)
        if (!take_hexadecimal(arguments[i]))
            return wrong("%.60s: not octets in hexadecimal; a file is one argument, @ and its name", arguments[i]);
    return FINE;
}

/* Says why the octets are no packet. */
static inline int no_packet(void)
{
    if (packet.length > PACKET_MAX)
        return wrong("%s: more than %d octets, so no packet", packet.name, (int)PACKET_MAX);
    if (packet.length < HEADER)
        return wrong("%s: %zu octets, so no packet: a header has %d", packet.name, packet.length, (int)HEADER);
    return wrong("%s: %zu octets, so no packet: its header says %u", packet.name, packet.length,
                 HEADER + (packet.octets[4] | (unsigned)packet.octets[5] << 8));
}

/* Says what the answer is about where the hub is an image. One of version 1 does not say whether BR/EDR is on. */
static inline void say_loaded(const char *path, unsigned version)
{
    if (version == 1)
        note("%s is an image of version 1: the answer is that of a hub just loaded from it, with power off, BR/EDR on\n"
             "where it is supported, no advertising instances and nothing under way", path);
    else
        note("%s is an image: the answer is that of a hub just loaded from it, with power off, no advertising instances\n"
             "and nothing under way", path);
}

/* hub why: one line, the text of hub_why, behind the status where that is a refusal. */
static inline int why(int count, char **arguments)
{
    uint8_t text[HUB_TEXT_MIN];
    uint64_t result;
    unsigned version = 0;
    if (strcmp(arguments[0], "-") == 0 && (strcmp(arguments[1], "-") == 0 || strcmp(arguments[1], "@-") == 0))
        return wrong("the standard input is the hub or the packet, not both");
    if (take_hub(arguments[0], &version) != FINE || take_packet(count - 1, arguments + 1) != FINE)
        return WRONG;
    result = hub_why(state, sizeof state, packet.octets, packet.length, text, sizeof text);
    if (hub_answer(result) == HUB_BAD_PACKET)
        return no_packet();
    if (hub_answer(result) != HUB_DONE)
        return wrong("the library answers %u", hub_answer(result));
    if (version != 0)
        say_loaded(arguments[0], version);
    if (hub_extra(result) != 0)
        printf("would be refused, status 0x%02X: ", (unsigned)hub_extra(result));
    printf("%.*s\n", (int)hub_count(result), (const char *)text);
    return hub_extra(result) != 0 ? FOUND : FINE;
}

#endif
