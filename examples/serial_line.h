/*
 * A serial line from a client to the host, for a host without one: a socket pair. What the client posts it writes in pieces cut anywhere, and the host reads
 * in lengths of its own, so that an end of a packet, several packets or a few octets of one may come off the line at once. The lengths are drawn at
 * random from a fixed seed: each run is like the last.
 *
 * A file that includes this defines _POSIX_C_SOURCE as 200809L, or _XOPEN_SOURCE as 700, before its first include.
 */
#ifndef SERIAL_LINE_H
#define SERIAL_LINE_H

#include <errno.h>
#include <fcntl.h>
#include <stddef.h>
#include <stdint.h>
#include <string.h>
#include <sys/socket.h>
#include <unistd.h>

enum {
    LINE_QUEUE = 4096, /* the most octets that a client has still to write */
    LINE_PIECE = 16,   /* the most that it writes at once */
    LINE_LUMP = 64     /* the most that the host reads at once */
};

/* The line: its two ends, what the client has still to write, and the number that the next length is drawn from. */
static struct {
    int client, host;
    uint8_t queue[LINE_QUEUE];
    size_t queued;
    uint32_t drawn;
} line = { .client = -1, .host = -1, .drawn = 7 };

/* A length from 1 to the most (xorshift). */
static inline size_t line_draw(size_t most)
{
    line.drawn ^= line.drawn << 13;
    line.drawn ^= line.drawn >> 17;
    line.drawn ^= line.drawn << 5;
    return 1 + line.drawn % most;
}

/* Opens the line; neither end waits for the other. 0 if that fails, with errno as it was left. */
static inline int line_open(void)
{
    int ends[2];
    if (socketpair(AF_UNIX, SOCK_STREAM, 0, ends) != 0)
        return 0;
    line.client = ends[0];
    line.host = ends[1];
    return fcntl(line.client, F_SETFL, O_NONBLOCK) == 0 && fcntl(line.host, F_SETFL, O_NONBLOCK) == 0;
}

/* Closes both ends; 0 if that fails, or something was never written. */
static inline int line_close(void)
{
    int closed = close(line.client) == 0;
    return close(line.host) == 0 && closed && line.queued == 0;
}

/* The client posts octets to be written behind those that it has posted before; 0 where there is no room for them. */
static inline int line_post(const uint8_t *octets, size_t count)
{
    if (count > sizeof line.queue - line.queued) {
        errno = ENOBUFS;
        return 0;
    }
    memcpy(line.queue + line.queued, octets, count);
    line.queued += count;
    return 1;
}

/* The client writes a piece of what it has posted, at most so many octets, and says how many: 0 where the line is full, -1 where it is broken. */
static inline ptrdiff_t line_write(size_t most)
{
    size_t piece = line_draw(LINE_PIECE);
    ssize_t written;
    if (piece > most)
        piece = most;
    if (piece > line.queued)
        piece = line.queued;
    do
        written = write(line.client, line.queue, piece);
    while (written < 0 && errno == EINTR);
    if (written < 0)
        return errno == EAGAIN || errno == EWOULDBLOCK ? 0 : -1;
    line.queued -= (size_t)written;
    memmove(line.queue, line.queue + written, line.queued);
    return written;
}

/* The host reads a lump of what is there, in room for LINE_LUMP octets, and says how many: 0 where none are there now, -1 where the line is broken. */
static inline ptrdiff_t line_read(uint8_t *lump)
{
    const size_t most = line_draw(LINE_LUMP);
    ssize_t count;
    do
        count = read(line.host, lump, most);
    while (count < 0 && errno == EINTR);
    if (count == 0)
        errno = EPIPE; /* the client has closed its end */
    if (count <= 0)
        return count < 0 && (errno == EAGAIN || errno == EWOULDBLOCK) ? 0 : -1;
    return count;
}

#endif
