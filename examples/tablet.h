/*
 * Client B, a tablet on a serial line (serial_line.h): what it posts, and what the host lends the hub of it as it comes off the line.
 */
#ifndef TABLET_H
#define TABLET_H

#include <errno.h>
#include <stddef.h>
#include <stdint.h>
#include <stdio.h>
#include <string.h>

#include "outcomes.h"
#include "serial_line.h"

enum { PACKET_MAX = 6 + 65535, POSTED_MAX = 8, ALL = LINE_QUEUE };

/* The tablet's packets that it has posted and that are not finished, by what they do; and what the host has lent of the one that is coming in. */
static struct {
    const char *does[POSTED_MAX];
    size_t posted;
    uint8_t packet[PACKET_MAX];
    size_t length, lumps;
    int broken;
} tablet;

/* The line is broken, or the hub does not go on with it: nothing more comes off it, and the shift fails. */
static inline void line_breaks(const char *why)
{
    printf("The serial line: %s\n", why);
    tablet.broken = 1;
}

/* The packet that was coming in is finished; so many octets of its last lump are left for the next one. */
static inline void finished(uint64_t result, size_t left)
{
    printf("    off the line in lumps: %zu, octets left of the last: %zu\n", tablet.lumps, left);
    answered("B", tablet.posted > 0 ? tablet.does[0] : "sends what it never posted", tablet.packet, tablet.length, result);
    if (tablet.posted > 0)
        memmove(tablet.does, tablet.does + 1, --tablet.posted * sizeof tablet.does[0]);
    tablet.length = tablet.lumps = 0;
}

/* Lends the hub a lump off the line until all of it is taken. What is taken is kept until its packet is finished: hub_why has to be given the whole of it. */
static inline void lend(const uint8_t *octets, size_t count)
{
    while (count > 0 && !tablet.broken) {
        const uint64_t result = hub_stream(state, sizeof state, octets, count, reply, sizeof reply);
        const size_t taken = hub_taken(result);
        if (taken == 0) {
            line_breaks(answer_name(hub_answer(result)));
            return;
        }
        memcpy(tablet.packet + tablet.length, octets, taken);
        tablet.length += taken;
        tablet.lumps++;
        octets += taken;
        count -= taken;
        if (hub_answer(result) != HUB_INCOMPLETE)
            finished(result, count);
    }
}

/* Lends the hub all that has come off the line by now. */
static inline void serve_line(void)
{
    uint8_t lump[LINE_LUMP];
    ptrdiff_t count;
    while (!tablet.broken && (count = line_read(lump)) != 0) {
        if (count < 0)
            line_breaks(strerror(errno));
        else
            lend(lump, (size_t)count);
    }
}

/* The tablet writes so many octets of what it has posted, or all if there are less, piece by piece. Now and then the host serves the line meanwhile. */
static inline void line_carries(size_t octets)
{
    while (octets > 0 && line.queued > 0 && !tablet.broken) {
        const ptrdiff_t written = line_write(octets);
        if (written < 0)
            line_breaks(strerror(errno));
        else
            octets -= (size_t)written;
        if (written == 0 || line_draw(3) == 1)
            serve_line();
    }
    serve_line();
}

/* The tablet posts a packet. It is answered when the line has carried the last octet of it; on a broken line it is lost. */
static inline void tablet_posts(const char *does, const uint8_t *packet, size_t length)
{
    if (tablet.broken)
        return;
    if (tablet.posted == POSTED_MAX || !line_post(packet, length)) {
        line_breaks("more is posted than there is room for");
        return;
    }
    tablet.does[tablet.posted++] = does;
}

#endif
