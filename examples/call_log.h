/*
 * A plain log of what goes between clients and hub, for tools/btsnoop.c. A line is a time in seconds since 1970 with its microseconds, a client's
 * name (at most 15 letters or digits, or - where no client called) and one of these:
 *
 *     1780000000.000001 A open                      the client is there from now on
 *     1780000000.000002 A sent 05000000010001       a packet that it sends, in hexadecimal
 *     1780000000.000003 A wrote 0200000003...       what the call of that packet wrote, right behind it: a reply, then events
 *     1780000000.000004 - wrote 040000000000        what a report, a clock reading, a plug or an unplug wrote
 *     1780000000.000005 - note The clock reads 5    words for the reader
 *     1780000000.000006 A close
 *
 * A command that is started has no line of what it wrote. A packet that comes off a serial line in lumps has its line where its last octet is taken. Key lists
 * are logged as they are sent, keys and all: keep such a log as you keep the image.
 */
#ifndef CALL_LOG_H
#define CALL_LOG_H

#include <stddef.h>
#include <stdint.h>
#include <stdio.h>
#include <time.h>

/* Where the log goes; nothing is logged while it is null. */
static FILE *call_log;

/* Opens the log; 0 if that fails. */
static inline int log_start(const char *path)
{
    call_log = fopen(path, "w");
    return call_log != NULL;
}

/* The time, or that of 1970 where the machine has none. */
static inline struct timespec log_time(void)
{
    struct timespec now = { 0 };
    if (!timespec_get(&now, TIME_UTC))
        now.tv_sec = 0;
    return now;
}

/* One line: the time, the client or -, a word and what follows it. */
static inline void log_line(const char *client, const char *word, const char *words, const uint8_t *octets, size_t count)
{
    struct timespec now;
    if (!call_log)
        return;
    now = log_time();
    fprintf(call_log, "%lld.%06ld %s %s%s%s", (long long)now.tv_sec, now.tv_nsec / 1000, client ? client : "-", word, words || count ? " " : "",
            words ? words : "");
    for (size_t i = 0; i < count; i++)
        fprintf(call_log, "%02x", octets[i]);
    fputc('\n', call_log);
}

/* Closes the log; 0 if something could not be written. */
static inline int log_end(void)
{
    int failed = call_log && ferror(call_log);
    return !(call_log && fclose(call_log) != 0) && !failed;
}

#endif
