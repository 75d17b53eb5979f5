/*
 * What comes of a call, for a host with one hub: said in words, noted in the log (call_log.h), and followed by what is on air, as the radio asks for it.
 */
#ifndef OUTCOMES_H
#define OUTCOMES_H

#include <stdint.h>
#include <stdio.h>
#include <string.h>

#include "call_log.h"
#include "hub.h"
#include "words.h"

enum { CONTROLLERS = 4, ON_AIR_MAX = 3 + 31 + 31 };

/* The hub, and room for what any of its calls writes. */
static uint8_t state[HUB_STATE_LEN];
static uint8_t reply[HUB_IMAGE_MAX];

/* What each controller's radio sends: the octets that hub_on_air gave, none where no advertising instance is on air. */
static struct {
    uint8_t octets[ON_AIR_MAX];
    size_t count;
} sending[CONTROLLERS];

/* Says what a controller's radio begins to send, or that it stops, and notes it in the log. */
static inline void say_on_air(unsigned index)
{
    const uint8_t *octets = sending[index].octets;
    char words[128];
    if (sending[index].count == 0)
        snprintf(words, sizeof words, "Controller %u: no instance is on air", index);
    else
        snprintf(words, sizeof words, "Controller %u: instance %u is on air, %u octets of data, %u of scan response", index, octets[0], octets[1],
                 octets[2]);
    printf("    %s\n", words);
    log_line(NULL, "note", words, NULL, 0);
}

/* The radio of each controller asks what is on air, after each call; an index that is absent sends nothing. */
static inline void radio_asks(void)
{
    static uint8_t octets[HUB_REPLY_MIN];
    for (unsigned index = 0; index < CONTROLLERS; index++) {
        size_t count = hub_count(hub_on_air(state, sizeof state, index, octets, sizeof octets));
        if (count == sending[index].count && memcmp(octets, sending[index].octets, count) == 0)
            continue;
        memcpy(sending[index].octets, octets, count);
        sending[index].count = count;
        say_on_air(index);
    }
}

/* Says what came of a call, packet by packet. */
static inline void said(const char *what, uint64_t result)
{
    char head[64];
    struct hub_frame frame;
    size_t place = 0;
    printf("%s: %s\n", what, answer_name(hub_answer(result)));
    while (hub_next_frame(reply, hub_count(result), &place, &frame)) {
        snprintf(head, sizeof head, "index 0x%04X, %s", (unsigned)frame.index, frame_name(frame.code));
        print_octets(head, frame.params, frame.length);
    }
    radio_asks();
}

/* The same of a call that no client made, with a note and what it wrote in the log. */
static inline void told(const char *what, uint64_t result)
{
    log_line(NULL, "note", what, NULL, 0);
    if (hub_count(result) > 0)
        log_line(NULL, "wrote", NULL, reply, hub_count(result));
    said(what, result);
}

/* Says why a packet was refused, and notes it in the log. A refused command leaves the state alone, so this may be asked after it. */
static inline void say_why(const uint8_t *packet, size_t length)
{
    uint8_t text[HUB_TEXT_MIN];
    char words[sizeof text + 16];
    uint64_t result = hub_why(state, sizeof state, packet, length, text, sizeof text);
    snprintf(words, sizeof words, "Refused: %.*s", (int)hub_count(result), (const char *)text);
    printf("    %s\n", words);
    log_line(NULL, "note", words, NULL, 0);
}

/* Says what came of a client's packet, in the log too: the packet, what was written, and why if it was refused. */
static inline void answered(const char *client, const char *does, const uint8_t *packet, size_t length, uint64_t result)
{
    char what[128];
    print_octets("packet", packet, length);
    log_line(client, "sent", NULL, packet, length);
    if (hub_count(result) > 0)
        log_line(client, "wrote", NULL, reply, hub_count(result));
    snprintf(what, sizeof what, "Client %s %s", client, does);
    said(what, result);
    if (hub_answer(result) == HUB_REFUSED)
        say_why(packet, length);
}

#endif
