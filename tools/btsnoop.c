/*
 * Makes a btsnoop file of a host's call log (examples/call_log.h), so that BlueZ's monitor shows a shift in words:
 *
 *     btsnoop LOG FILE && btmon -r FILE
 *
 * The file is of the kind that Linux writes (datalink type 2001, Linux Monitor) and holds what a Linux laptop's trace of its management sockets would:
 * each client is a control channel with its cookie; a reply goes to the client that sent the command, also where a report or an unplug brings it
 * later; an event goes to every open client, one record for each, but Device Blocked, Unblocked, Unpaired, Added and Removed and Advertising Added not
 * to the client that sent the command, and Advertising Removed not to the client that sent Remove Advertising (001, Device Blocked Event and the
 * other six): Set Powered and Set Low Energy have it told to their own client too. Packets that are no management packets (the hub answers them 3) are
 * left out, as on Linux, and so are events while no client may have them; both are counted.
 */
#include <errno.h>
#include <inttypes.h>
#include <stdio.h>
#include <stdlib.h>
#include <string.h>

#include "octets.h"

/* Opcodes of the Linux monitor. */
enum { SYSTEM_NOTE = 12, CONTROL_OPEN = 14, CONTROL_CLOSE = 15, CONTROL_COMMAND = 16, CONTROL_EVENT = 17 };

enum {
    HEADER = 6,                       /* of a management packet */
    PACKET_MAX = 65541,               /* the longest management packet */
    RECORD_MAX = 1490,                /* the longest record that btmon reads; what is longer is cut there */
    LINE_MAX_OCTETS = 2 * 70000 + 64, /* the longest line of a log */
    NAME_MAX_OCTETS = 15,
    NOTE_MAX = 255,
    CLIENTS_MAX = 64,                 /* channels that btmon keeps */
    NO_INDEX = 0xFFFF,
    CONTROLLERS = 4
};

/* The microseconds from the year 0 to 1970. */
#define EPOCH UINT64_C(0x00dcddb30f2f8000)

/* A client that is there; a free place has cookie 0. */
struct client {
    char name[NAME_MAX_OCTETS + 1];
    uint32_t cookie;
};

/* A command that has no reply yet, and the cookie of its client; none where the cookie is 0. */
struct waiting {
    uint32_t cookie;
    unsigned code, index;
};

static struct client clients[CLIENTS_MAX];
static uint32_t last_cookie;
static struct waiting sent;                 /* the command of the last line; its code stays for what its call wrote */
static struct waiting started[CONTROLLERS]; /* what each controller's radio works on */
static unsigned long line_number, left_out, unread;
static FILE *out;

static void fail(const char *what)
{
    fprintf(stderr, "btsnoop: line %lu: %s\n", line_number, what);
    exit(EXIT_FAILURE);
}

static unsigned le16(const uint8_t *octets)
{
    return octets[0] | (unsigned)octets[1] << 8;
}

/* Puts a number's lowest octets into a buffer, the lowest first. */
static uint8_t *put_le(uint8_t *to, uint32_t number, unsigned octets)
{
    for (unsigned i = 0; i < octets; i++)
        *to++ = (uint8_t)(number >> 8 * i);
    return to;
}

/* Writes a number, the highest octet first. */
static void write_be(uint64_t number, unsigned octets)
{
    while (octets-- > 0)
        fputc((int)(number >> 8 * octets & 0xFF), out);
}

/* One record: both lengths, index and opcode, drops, time, data. btmon goes by the first length, so a record that was cut gives its own there too. */
static void write_record(uint64_t time, unsigned index, unsigned opcode, const uint8_t *data, size_t count)
{
    size_t kept = count < RECORD_MAX ? count : RECORD_MAX;
    write_be(kept, 4);
    write_be(kept, 4);
    write_be((uint64_t)index << 16 | opcode, 4);
    write_be(0, 4);
    write_be(time + EPOCH, 8);
    fwrite(data, 1, kept, out);
}

/* A management packet as the monitor shows it: cookie, code, parameters; the index stands in the record. */
static void write_packet(uint64_t time, unsigned opcode, uint32_t cookie, const uint8_t *packet, size_t count)
{
    static uint8_t data[4 + 2 + PACKET_MAX];
    uint8_t *end = put_le(put_le(data, cookie, 4), le16(packet), 2);
    memcpy(end, packet + HEADER, count - HEADER);
    write_record(time, le16(packet + 2), opcode, data, 6 + count - HEADER);
}

/* The place of an open client, or null. */
static struct client *find(const char *name)
{
    for (int i = 0; i < CLIENTS_MAX; i++)
        if (clients[i].cookie != 0 && strcmp(clients[i].name, name) == 0)
            return &clients[i];
    return NULL;
}

/* The place of a client that must be open. */
static struct client *named(const char *name)
{
    struct client *client = find(name);
    if (!client)
        fail("this client is not open");
    return client;
}

/* Control Open: cookie, format 2 (management), version 1.10, flags 0, the name in 16 octets. */
static void open_client(uint64_t time, const char *name)
{
    uint8_t data[30] = { 0 };
    struct client *free_place = clients;
    if (find(name) || strcmp(name, "-") == 0)
        fail("this client is open already, or has no name");
    while (free_place < clients + CLIENTS_MAX && free_place->cookie != 0)
        free_place++;
    if (free_place == clients + CLIENTS_MAX)
        fail("too many clients");
    strcpy(free_place->name, name);
    free_place->cookie = ++last_cookie;
    uint8_t *end = put_le(put_le(data, last_cookie, 4), 2, 2);
    end = put_le(put_le(put_le(end, 1, 1), 10, 2), 0, 4);
    *end++ = NAME_MAX_OCTETS + 1;
    memcpy(end, free_place->name, strlen(name));
    write_record(time, NO_INDEX, CONTROL_OPEN, data, sizeof data);
}

/* Control Close: the cookie. */
static void close_client(uint64_t time, const char *name)
{
    uint8_t data[4];
    struct client *client = named(name);
    put_le(data, client->cookie, 4);
    write_record(time, NO_INDEX, CONTROL_CLOSE, data, sizeof data);
    client->cookie = 0;
}

/* Words for the reader, and the zero octet behind them. */
static void note(uint64_t time, const char *words)
{
    if (strlen(words) > NOTE_MAX)
        fail("too long a note");
    write_record(time, NO_INDEX, SYSTEM_NOTE, (const uint8_t *)words, strlen(words) + 1);
}

/* A client's packet; what is no management packet is left out. */
static void command(uint64_t time, const char *name, const uint8_t *packet, size_t count)
{
    struct client *client = named(name);
    if (count < HEADER || count - HEADER != le16(packet + 4)) {
        left_out++;
        return;
    }
    write_packet(time, CONTROL_COMMAND, client->cookie, packet, count);
    sent = (struct waiting){ client->cookie, le16(packet), le16(packet + 2) };
}

/* The cookie that a reply goes to: that of the call, or where no client called, that of the command which the reply names. */
static uint32_t reply_cookie(uint32_t caller, const uint8_t *packet)
{
    unsigned index = le16(packet + 2);
    struct waiting *command = index < CONTROLLERS ? &started[index] : NULL;
    uint32_t cookie;
    if (caller != 0)
        return caller;
    if (!command || command->cookie == 0 || le16(packet + 4) < 2 || command->code != le16(packet + HEADER))
        fail("no client waits for this reply");
    cookie = command->cookie;
    command->cookie = 0;
    return cookie;
}

/* Whether document 001 keeps an event from the client that sent a command; Advertising Removed only from that of Remove Advertising. */
static int for_others(unsigned code, unsigned command)
{
    if (code == 0x0024)
        return command == 0x003F;
    return (code >= 0x0014 && code <= 0x0016) || code == 0x001A || code == 0x001B || code == 0x0023;
}

/* An event, to every client that may have it. */
static void event(uint64_t time, uint32_t caller, const uint8_t *packet, size_t count)
{
    int readers = 0;
    for (int i = 0; i < CLIENTS_MAX; i++) {
        uint32_t cookie = clients[i].cookie;
        if (cookie == 0 || (cookie == caller && for_others(le16(packet), sent.code)))
            continue;
        write_packet(time, CONTROL_EVENT, cookie, packet, count);
        readers++;
    }
    if (readers == 0)
        unread++;
}

/* Whether the client of a cookie is still there. */
static int is_open(uint32_t cookie)
{
    for (int i = 0; i < CLIENTS_MAX; i++)
        if (clients[i].cookie == cookie)
            return 1;
    return 0;
}

/* What a call wrote, packet by packet: Command Complete (1) and Command Status (2) are replies, everything else is an event. */
static void written(uint64_t time, const char *name, const uint8_t *octets, size_t count)
{
    uint32_t caller = strcmp(name, "-") == 0 ? 0 : named(name)->cookie;
    while (count > 0) {
        size_t length = count >= HEADER ? HEADER + (size_t)le16(octets + 4) : 0;
        if (length == 0 || length > count)
            fail("octets that are no management packet");
        if (le16(octets) == 1 || le16(octets) == 2) {
            uint32_t cookie = reply_cookie(caller, octets);
            if (is_open(cookie))
                write_packet(time, CONTROL_EVENT, cookie, octets, length);
            else
                unread++;
        } else {
            event(time, caller, octets, length);
        }
        octets += length;
        count -= length;
    }
}

/* A command whose call wrote nothing was started: its client waits for the controller's radio. */
static void settle(const char *name, const char *word)
{
    struct client *client = find(name);
    int answered = strcmp(word, "wrote") == 0 && client && client->cookie == sent.cookie;
    if (sent.cookie != 0 && !answered && sent.index < CONTROLLERS)
        started[sent.index] = sent;
    sent.cookie = 0;
}

/* Turns hexadecimal digits into octets, and counts them. */
static size_t octets_of(const char *digits, uint8_t *octets)
{
    size_t count = 0;
    for (; *digits; digits += 2) {
        int high = hex_digit(digits[0]);
        int low = high < 0 ? -1 : hex_digit(digits[1]);
        if (low < 0)
            fail("not octets in hexadecimal");
        octets[count++] = (uint8_t)(high << 4 | low);
    }
    return count;
}

/* One line of the log, taken apart; rest is what stands behind the word. */
static void convert(uint64_t time, const char *name, const char *word, const char *rest)
{
    static uint8_t octets[LINE_MAX_OCTETS / 2];
    settle(name, word);
    if (strcmp(word, "open") == 0)
        open_client(time, name);
    else if (strcmp(word, "close") == 0)
        close_client(time, name);
    else if (strcmp(word, "note") == 0)
        note(time, rest);
    else if (strcmp(word, "sent") == 0)
        command(time, name, octets, octets_of(rest, octets));
    else if (strcmp(word, "wrote") == 0)
        written(time, name, octets, octets_of(rest, octets));
    else
        fail("a word that is not known");
}

/* Reads the lines: time, client, word, the rest. */
static void convert_all(FILE *log)
{
    static char line[LINE_MAX_OCTETS];
    while (fgets(line, sizeof line, log)) {
        char name[NAME_MAX_OCTETS + 1], word[8];
        uint64_t seconds;
        unsigned microseconds;
        int place = 0;
        char *end = strchr(line, '\n');
        line_number++;
        if (!end)
            fail("too long, or cut short");
        *end = 0;
        if (sscanf(line, "%10" SCNu64 ".%6u %15s %7s%n", &seconds, &microseconds, name, word, &place) != 4)
            fail("not a time, a client and a word");
        if (line[place] == ' ')
            place++;
        else if (line[place])
            fail("a word that is not known");
        convert(seconds * 1000000 + microseconds, name, word, line + place);
    }
}

int main(int argc, char **argv)
{
    FILE *log = argc == 3 ? fopen(argv[1], "r") : NULL;
    if (argc != 3) {
        fprintf(stderr, "usage: btsnoop LOG FILE\n");
        return EXIT_FAILURE;
    }
    out = log ? fopen(argv[2], "wb") : NULL;
    if (!out) {
        fprintf(stderr, "btsnoop: %s: %s\n", log ? argv[2] : argv[1], strerror(errno));
        return EXIT_FAILURE;
    }
    fwrite("btsnoop", 1, 8, out);
    write_be(1, 4);
    write_be(2001, 4);
    convert_all(log);
    if (ferror(log) || ferror(out) || fclose(out) != 0) {
        fprintf(stderr, "btsnoop: %s could not be read or %s not be written\n", argv[1], argv[2]);
        return EXIT_FAILURE;
    }
    fclose(log);
    if (left_out + unread > 0)
        fprintf(stderr, "btsnoop: %lu packets left out, %lu replies and events without a client\n", left_out, unread);
    return EXIT_SUCCESS;
}
