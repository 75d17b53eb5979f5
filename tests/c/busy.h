/*
 * A busy hub for the programs beside: four controllers, tables with entries, advertising instances, commands under way, and a packet that is coming in.
 * It is made through the hub's own entries.
 */
#ifndef BUSY_H
#define BUSY_H

#include <stdint.h>
#include <stdio.h>
#include <stdlib.h>
#include <string.h>

#include "hub.h"

/*
 * Places in the state and in a block (docs/STATE-LAYOUT.md): of slot k a long term key at AT + 36 k, an identity resolving key at AT + 23 k; of instance k
 * duration and timeout at AT + 2 k, a length with its data at AT + 32 k.
 */
enum {
    FIRST_BLOCK = 4,
    BLOCK = 4372,
    AT_OPEN = 1,
    AT_SUPPORTED = 9,
    AT_PUBLIC = 13,
    AT_POWERED = 19,
    AT_CONNECTABLE = 20,
    AT_DISCOVERABLE = 21,
    AT_BREDR = 23,
    AT_LOW_ENERGY = 24,
    AT_TIMER = 25,
    AT_STATIC = 27,
    AT_LONG_TERM = 1649,
    AT_IDENTITY = 2805,
    AT_DURATION = 4027,
    AT_TIMEOUT = 4037,
    AT_ON_AIR = 4049,
    AT_LEFT = 4050,
    AT_DATA = 4020,
    AT_SCAN = 4180,
    AT_TAKEN = FIRST_BLOCK + 4 * BLOCK, /* behind the blocks: octets taken of the packet that is coming in, and those that are kept */
    AT_KEPT = AT_TAKEN + 4,
    WHOLE = 1160, /* the longest packet that is kept whole, and how much is kept of a longer one */
    HEAD = 10,
    BUSY_TAKEN = 700
};

/* A command packet; the longest list has 32 long term keys. */
struct packet {
    uint8_t octets[6 + 2 + 32 * 36];
    size_t length;
};

/* Makes a packet with parameters of zeros, and gives the place of the parameters. */
static uint8_t *make_packet(struct packet *packet, unsigned code, unsigned index, size_t length)
{
    const uint8_t header[6] = { (uint8_t)code, (uint8_t)(code >> 8), (uint8_t)index, (uint8_t)(index >> 8), (uint8_t)length, (uint8_t)(length >> 8) };
    memset(packet, 0, sizeof *packet);
    memcpy(packet->octets, header, sizeof header);
    packet->length = 6 + length;
    return packet->octets + 6;
}

/* Ends the program where a call that makes the busy hub is not answered as it must be. */
static void must(const char *what, uint64_t result, unsigned wanted)
{
    if (hub_answer(result) == wanted)
        return;
    printf("the busy hub: %s is answered %u, and not %u\n", what, hub_answer(result), wanted);
    exit(EXIT_FAILURE);
}

/* Sends a packet that must be answered so. */
static void must_send(uint8_t *state, const struct packet *packet, unsigned wanted)
{
    uint8_t reply[HUB_REPLY_MIN];
    char what[32];
    snprintf(what, sizeof what, "command 0x%02x%02x", packet->octets[1], packet->octets[0]);
    must(what, hub_command(state, HUB_STATE_LEN, packet->octets, packet->length, reply, sizeof reply), wanted);
}

/* Sends a setting of up to three octets that must be answered so; a started one is finished where that is asked for. */
static void must_set(uint8_t *state, unsigned code, unsigned index, size_t length, unsigned value, unsigned seconds, unsigned wanted, int finish)
{
    uint8_t reply[HUB_REPLY_MIN];
    struct packet packet;
    uint8_t *params = make_packet(&packet, code, index, length);
    params[0] = (uint8_t)value;
    if (length == 3) {
        params[1] = (uint8_t)seconds;
        params[2] = (uint8_t)(seconds >> 8);
    }
    must_send(state, &packet, wanted);
    if (finish)
        must("a report", hub_report(state, HUB_STATE_LEN, index, 0, reply, sizeof reply), HUB_DONE);
}

/* The address of device k: all six octets are used; an LE Random one is a static random address. */
static void put_address(uint8_t *to, unsigned k, unsigned type)
{
    to[0] = (uint8_t)(k + 1);
    to[1] = 0x21;
    to[2] = 0x32;
    to[3] = 0x43;
    to[4] = 0x54;
    to[5] = type == 2 ? 0xC5 : 0x65;
    to[6] = (uint8_t)type;
}

/* A list of n link keys. */
static void link_keys(struct packet *packet, unsigned index, unsigned n)
{
    uint8_t *params = make_packet(packet, 0x0012, index, 3 + 25 * n);
    params[1] = (uint8_t)n;
    for (unsigned k = 0; k < n; k++) {
        uint8_t *key = params + 3 + 25 * k;
        put_address(key, k, 0);
        key[7] = (uint8_t)(k % 9);
        memset(key + 8, (int)k + 0x40, 16);
        key[24] = (uint8_t)k;
    }
}

/* A list of n long term keys: each device has two, one for each value of Master. */
static void long_term_keys(struct packet *packet, unsigned index, unsigned n)
{
    uint8_t *params = make_packet(packet, 0x0013, index, 2 + 36 * n);
    params[0] = (uint8_t)n;
    for (unsigned k = 0; k < n; k++) {
        uint8_t *key = params + 2 + 36 * k;
        put_address(key, k / 2, 1 + k / 2 % 2);
        key[7] = (uint8_t)(k % 5);
        key[8] = (uint8_t)(k % 2);
        key[9] = (uint8_t)(7 + k % 10);
        memset(key + 10, (int)k + 0x60, 26);
    }
}

/* A list of n identity resolving keys. */
static void identity_keys(struct packet *packet, unsigned index, unsigned n)
{
    uint8_t *params = make_packet(packet, 0x0030, index, 2 + 23 * n);
    params[0] = (uint8_t)n;
    for (unsigned k = 0; k < n; k++) {
        put_address(params + 2 + 23 * k, k, 1 + k % 2);
        memset(params + 2 + 23 * k + 7, (int)k + 0x80, 16);
    }
}

/* UUID k with its hint. */
static void add_uuid(struct packet *packet, unsigned index, unsigned k)
{
    uint8_t *params = make_packet(packet, 0x0010, index, 17);
    memset(params, 0x11, 16);
    params[15] = (uint8_t)(k + 1);
    params[16] = (uint8_t)(1u << k % 8);
}

/* A command that names device k by address and type: 0x001B, 0x0026, 0x0027, 0x0033, 0x0034, with its eighth octet where it has one. */
static void name_device(struct packet *packet, unsigned code, unsigned index, unsigned k, size_t length, unsigned eighth)
{
    uint8_t *params = make_packet(packet, code, index, length);
    put_address(params, k, k % 3);
    if (length == 8)
        params[7] = (uint8_t)eighth;
}

/* The key of entry k in a table as fill_tables fills it, at least 16 octets of room; gives its length. Of long term keys two entries have one key. */
static inline size_t put_key(uint8_t *to, unsigned table, unsigned k)
{
    switch (table) {
    case HUB_UUIDS:
        memset(to, 0x11, 16);
        to[15] = (uint8_t)(k + 1);
        return 16;
    case HUB_LINK_KEYS: put_address(to, k, 0); break;
    case HUB_LONG_TERM_KEYS: put_address(to, k / 2, 1 + k / 2 % 2); break;
    case HUB_IDENTITY_KEYS: put_address(to, k, 1 + k % 2); break;
    default: put_address(to, k, k % 3); break;
    }
    return 7;
}

/* A name and a short name; the octets behind the first zero are used too. */
static void local_name(struct packet *packet, unsigned index, int letter)
{
    uint8_t *params = make_packet(packet, 0x000F, index, 260);
    memset(params, letter, 248);
    memset(params + 249, letter, 10);
    params[100] = 0;
}

/* Add Advertising: instance k with its seconds and so many octets of data and of scan response. */
static void add_instance(struct packet *packet, unsigned index, unsigned k, unsigned duration, unsigned timeout, size_t data, size_t scan)
{
    uint8_t *params = make_packet(packet, 0x003E, index, 11 + data + scan);
    params[0] = (uint8_t)k;
    params[5] = (uint8_t)duration;
    params[6] = (uint8_t)(duration >> 8);
    params[7] = (uint8_t)timeout;
    params[8] = (uint8_t)(timeout >> 8);
    params[9] = (uint8_t)data;
    params[10] = (uint8_t)scan;
    memset(params + 11, (int)(0xA0 + k), data);
    memset(params + 11 + data, (int)(0x50 + k), scan);
}

/* Instances of every kind: at 0 all five, at 1 one whose timeout is shorter than its turn, at 2, which has no power, and 3 some without a timeout. */
static void fill_instances(uint8_t *state)
{
    static const struct {
        unsigned index, k, duration, timeout, data, scan;
    } all[] = {
        { 0, 1, 0, 0, 31, 31 },   { 0, 2, 7, 20, 0, 0 }, { 0, 3, 65535, 65535, 5, 0 }, { 0, 4, 1, 0, 0, 31 }, { 0, 5, 300, 1, 31, 0 },
        { 1, 2, 100, 40, 10, 3 }, { 1, 5, 2, 0, 1, 1 },  { 2, 1, 65535, 0, 31, 0 },    { 2, 4, 2, 0, 0, 30 }, { 3, 5, 0, 0, 31, 31 },
    };
    struct packet packet;
    for (size_t i = 0; i < sizeof all / sizeof all[0]; i++) {
        add_instance(&packet, all[i].index, all[i].k, all[i].duration, all[i].timeout, all[i].data, all[i].scan);
        must_send(state, &packet, HUB_DONE);
    }
}

/* Fills the tables of a controller with n entries each; the link keys are left out where BR/EDR is not supported. */
static void fill_tables(uint8_t *state, unsigned index, unsigned n, int has_bredr)
{
    struct packet packet;
    for (unsigned k = 0; k < n; k++) {
        add_uuid(&packet, index, k);
        must_send(state, &packet, HUB_DONE);
        name_device(&packet, 0x0026, index, k, 7, 0);
        must_send(state, &packet, HUB_DONE);
        name_device(&packet, 0x0033, index, k, 8, 1);
        must_send(state, &packet, HUB_DONE);
    }
    if (has_bredr) {
        link_keys(&packet, index, n);
        must_send(state, &packet, HUB_DONE);
    }
    long_term_keys(&packet, index, n);
    must_send(state, &packet, HUB_DONE);
    identity_keys(&packet, index, n);
    must_send(state, &packet, HUB_DONE);
    local_name(&packet, index, 'a' + (int)index);
    must_send(state, &packet, HUB_DONE);
}

/* Frees some slots of a controller in the middle of its tables. */
static void make_holes(uint8_t *state, unsigned index)
{
    struct packet packet;
    uint8_t *params;
    for (unsigned k = 2; k < 16; k += 5) {
        name_device(&packet, 0x0027, index, k, 7, 0);
        must_send(state, &packet, HUB_DONE);
        name_device(&packet, 0x0034, index, k, 7, 0);
        must_send(state, &packet, HUB_DONE);
        params = make_packet(&packet, 0x0011, index, 16);
        memset(params, 0x11, 16);
        params[15] = (uint8_t)(k + 1);
        must_send(state, &packet, HUB_DONE);
    }
}

/* Three dual-mode controllers and, at 3, one without BR/EDR and without a public address; the clock reads 990. */
static void plug_all(uint8_t *state)
{
    static const uint8_t empty[] = { 0, 0, 0, 6, 1, 0 };
    static const uint8_t none[6] = { 0 };
    static const uint8_t address[6] = { 0x11, 0x22, 0x33, 0x44, 0x55, 0x66 };
    uint8_t reply[HUB_REPLY_MIN];
    must("load", hub_load(state, HUB_STATE_LEN, empty, sizeof empty), HUB_DONE);
    must("clock", hub_clock(state, HUB_STATE_LEN, 990, reply, sizeof reply), HUB_DONE);
    for (uint64_t index = 0; index < 3; index++)
        must("plug", hub_plug(state, HUB_STATE_LEN, index, address, 6, 9, 0x010F, 0x02DB, reply, sizeof reply), HUB_DONE);
    must("plug at 3", hub_plug(state, HUB_STATE_LEN, 3, none, 6, 9, 15, 0x0201, reply, sizeof reply), HUB_DONE);
}

/*
 * The busy hub: at 0 and 1 full tables, a discoverable timer or a command for one; at 2 holes and the power asked for; at 3 a static address. The clock
 * reads 1000, ten seconds after the instances came: on air are instance 3 at 0, instance 2 at 1 with 90 seconds left of its turn and 30 of its timeout,
 * none at 2, instance 5 at 3. Of a list of 32 long term keys for 3, BUSY_TAKEN octets have come in off the serial line.
 */
static inline void make_busy(uint8_t *state)
{
    uint8_t reply[HUB_REPLY_MIN];
    struct packet packet;
    plug_all(state);
    for (unsigned index = 0; index < 2; index++) {
        fill_tables(state, index, 32, 1);
        must_set(state, 0x0009, index, 1, 1, 0, HUB_DONE, 0);
        must_set(state, 0x0007, index, 1, 1, 0, HUB_DONE, 0);
        must_set(state, 0x0005, index, 1, 1, 0, HUB_STARTED, 1);
    }
    fill_instances(state);
    must("clock", hub_clock(state, HUB_STATE_LEN, 1000, reply, sizeof reply), HUB_DONE);
    must_set(state, 0x0006, 0, 3, 1, 300, HUB_STARTED, 1);
    must_set(state, 0x000D, 0, 1, 0, 0, HUB_STARTED, 0);
    must_set(state, 0x0006, 1, 3, 2, 0x1234, HUB_STARTED, 0);
    fill_tables(state, 2, 17, 1);
    make_holes(state, 2);
    must_set(state, 0x0005, 2, 1, 1, 0, HUB_STARTED, 0);
    fill_tables(state, 3, 5, 0);
    put_address(make_packet(&packet, 0x002B, 3, 6), 7, 2);
    packet.length = 12;
    must_send(state, &packet, HUB_DONE);
    must_set(state, 0x0005, 3, 1, 1, 0, HUB_STARTED, 1);
    long_term_keys(&packet, 3, 32);
    must("a lump", hub_stream(state, HUB_STATE_LEN, packet.octets, BUSY_TAKEN, reply, sizeof reply), HUB_INCOMPLETE);
}

#endif
