/*
 * Writes the files of step 35 to the directory it is run in: fresh.state, a hub with nothing plugged; plough.image, a dual-mode controller at 0 and one with
 * Low Energy alone at 1; idle.state, the same as a state; line.state, where a part of Set Powered for 0 has come in off the serial line; busy.state, where it
 * is under way; off.image, the same hub with BR/EDR of 0 turned off. Then, put together without the library, largest.1.image and largest.2.image: the largest
 * image there can be, in both versions.
 */
#include <stdio.h>
#include <stdlib.h>
#include <string.h>

#include "hub.h"

static uint8_t state[HUB_STATE_LEN], reply[HUB_IMAGE_MAX];

/* Ends the program where a call is answered otherwise; gives the count back. */
static size_t must(uint64_t result, unsigned wanted)
{
    if (hub_answer(result) == wanted)
        return hub_count(result);
    fprintf(stderr, "answered %u, and not %u\n", hub_answer(result), wanted);
    exit(EXIT_FAILURE);
}

static void write_file(const char *path, const uint8_t *octets, size_t count)
{
    FILE *file = fopen(path, "wb");
    if (file && fwrite(octets, 1, count, file) == count && fclose(file) == 0)
        return;
    perror(path);
    exit(EXIT_FAILURE);
}

/* The hub with two controllers, by the library. */
static void play(void)
{
    static const uint8_t empty[] = { 0, 0, 0, 6, 2, 0 }, power_on[] = { 0x05, 0, 0, 0, 1, 0, 1 }, bredr_off[] = { 0x2A, 0, 0, 0, 1, 0, 0 };
    static const uint8_t address[6] = { 0x11, 0x22, 0x33, 0x44, 0x55, 0x66 }, address1[6] = { 0x12, 0x22, 0x33, 0x44, 0x55, 0x66 };
    must(hub_load(state, sizeof state, empty, sizeof empty), HUB_DONE);
    write_file("fresh.state", state, sizeof state);
    must(hub_plug(state, sizeof state, 0, address, 6, 9, 15, 0x0281, reply, sizeof reply), HUB_DONE);
    must(hub_plug(state, sizeof state, 1, address1, 6, 9, 15, 0x0201, reply, sizeof reply), HUB_DONE);
    write_file("plough.image", reply, must(hub_save(state, sizeof state, reply, sizeof reply), HUB_DONE));
    write_file("idle.state", state, sizeof state);
    must(hub_stream(state, sizeof state, power_on, 4, reply, sizeof reply), HUB_INCOMPLETE);
    write_file("line.state", state, sizeof state);
    must(hub_stream(state, sizeof state, power_on + 4, sizeof power_on - 4, reply, sizeof reply), HUB_STARTED);
    write_file("busy.state", state, sizeof state);
    must(hub_report(state, sizeof state, 0, 3, reply, sizeof reply), HUB_DONE);
    must(hub_command(state, sizeof state, bredr_off, sizeof bredr_off, reply, sizeof reply), HUB_DONE);
    write_file("off.image", reply, must(hub_save(state, sizeof state, reply, sizeof reply), HUB_DONE));
}

/* Puts octets into an image, and gives the place behind them. */
static uint8_t *put(uint8_t *to, const void *octets, size_t count)
{
    memcpy(to, octets, count);
    return to + count;
}

/* A name of letters: in version 2 its length comes first, in version 1 a zero behind it. */
static uint8_t *put_name(uint8_t *to, unsigned version, uint8_t length)
{
    if (version == 2)
        *to++ = length;
    memset(to, 'P', length);
    to += length;
    if (version == 1)
        *to++ = 0;
    return to;
}

/* Six tables of 32 records, which differ in their first octet. */
static uint8_t *put_tables(uint8_t *to)
{
    static const uint8_t lengths[6] = { 17, 25, 36, 23, 7, 8 };
    static const uint8_t records[6][36] = { { 1, 2 }, { 1 }, { [6] = 1, [9] = 16 }, { [6] = 1 }, { [5] = 1, 1 }, { [5] = 1, 1, 1 } };
    for (int table = 0; table < 6; table++) {
        *to++ = 32;
        for (uint8_t k = 0; k < 32; k++) {
            to = put(to, records[table], lengths[table]);
            to[-lengths[table]] = (uint8_t)(k + 1);
        }
    }
    return to;
}

/* Four dual-mode controllers, their names as long as can be, their tables full. */
static void largest(const char *path, unsigned version)
{
    static uint8_t image[HUB_IMAGE_MAX];
    static const uint8_t hardware[13] = { 1, 2, 3, 4, 5, 6, 9, 0, 15, 0, 0, 2, 0x81 }, address[6] = { 1, 2, 3, 4, 5, 0xC6 };
    const uint8_t head[6] = { 0, 0, HUB_IMAGE_MAX >> 8, HUB_IMAGE_MAX & 0xFF, (uint8_t)version, 4 };
    const uint8_t flags[4] = { 0, 0, 2, version == 2 ? 0x92 : 0x12 };
    uint8_t *to = put(image, head, sizeof head);
    for (uint8_t index = 0; index < 4; index++) {
        *to++ = index;
        to = put(to, hardware, sizeof hardware);
        to = put(to, flags, sizeof flags);
        to = put(to, address, sizeof address);
        to = put_name(to, version, 248);
        to = put_name(to, version, 10);
        to = put_tables(to);
    }
    write_file(path, image, (size_t)(to - image));
}

int main(void)
{
    play();
    largest("largest.1.image", 1);
    largest("largest.2.image", 2);
    return EXIT_SUCCESS;
}
