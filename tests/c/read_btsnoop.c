/*
 * Reads a btsnoop file of management packets and lists it, one line for each record: time in seconds since 1970, index, kind, cookie, code, number of
 * parameter octets, and the first of them. Written from the file format alone, apart from tools/btsnoop.c. Anything out of form ends it with status 1.
 */
#include <stdint.h>
#include <stdio.h>
#include <stdlib.h>
#include <string.h>

static uint8_t file[1 << 20];

static void wrong(const char *what, size_t at)
{
    printf("octet %zu: %s\n", at, what);
    exit(EXIT_FAILURE);
}

static uint64_t big(const uint8_t *octets, int count)
{
    uint64_t number = 0;
    for (int i = 0; i < count; i++)
        number = number << 8 | octets[i];
    return number;
}

static uint32_t little(const uint8_t *octets, int count)
{
    uint32_t number = 0;
    for (int i = count - 1; i >= 0; i--)
        number = number << 8 | octets[i];
    return number;
}

/* A command or an event: cookie, code, parameters. */
static void list_packet(const char *kind, const uint8_t *data, size_t length, size_t at)
{
    if (length < 6)
        wrong("too short for a cookie and a code", at);
    printf("%s %u 0x%04x %zu", kind, little(data, 4), little(data + 4, 2), length - 6);
    for (size_t i = 6; i < length && i < 18; i++)
        printf(" %02x", data[i]);
    printf("\n");
}

/* An open channel: cookie, format, version, flags, the name with its zeros. */
static void list_open(const uint8_t *data, size_t length, size_t at)
{
    if (length < 14 || length != 14u + data[13] || data[13] == 0 || data[length - 1] != 0)
        wrong("not the form of Control Open", at);
    printf("open %u format %u version %u.%u flags %u %s\n", little(data, 4), little(data + 4, 2), data[6], little(data + 7, 2), little(data + 9, 4),
           (const char *)data + 14);
}

/* One record, whatever its kind. */
static void list_record(unsigned opcode, const uint8_t *data, size_t length, size_t at)
{
    if (opcode == 12 && length > 0 && data[length - 1] == 0)
        printf("note %s\n", (const char *)data);
    else if (opcode == 14)
        list_open(data, length, at);
    else if (opcode == 15 && length == 4)
        printf("close %u\n", little(data, 4));
    else if (opcode == 16)
        list_packet("command", data, length, at);
    else if (opcode == 17)
        list_packet("event", data, length, at);
    else
        wrong("a record that is not known", at);
}

int main(int argc, char **argv)
{
    FILE *in = argc == 2 ? fopen(argv[1], "rb") : NULL;
    size_t size = in ? fread(file, 1, sizeof file, in) : 0;
    size_t at = 16;
    if (size < 16 || size == sizeof file || memcmp(file, "btsnoop", 8) != 0 || big(file + 8, 4) != 1 || big(file + 12, 4) != 2001)
        wrong("no btsnoop file of the Linux monitor", 0);
    while (at < size) {
        uint64_t length, time;
        if (size - at < 24)
            wrong("cut short", at);
        length = big(file + at + 4, 4);
        time = big(file + at + 16, 8) - UINT64_C(0x00dcddb30f2f8000);
        if (big(file + at, 4) != length || big(file + at + 12, 4) != 0 || length > size - at - 24 || length > 1490)
            wrong("lengths or drops", at);
        printf("%llu.%06u %04x ", (unsigned long long)(time / 1000000), (unsigned)(time % 1000000), (unsigned)big(file + at + 8, 2));
        list_record((unsigned)big(file + at + 10, 2), file + at + 24, length, at);
        at += 24 + length;
    }
    return EXIT_SUCCESS;
}
