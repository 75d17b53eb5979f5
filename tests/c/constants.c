/*
 * The header's constants, held to the library: each length is the shortest or the only one that is taken.
 */
#include <stdio.h>
#include <string.h>

#include "hub.h"

static uint8_t state[HUB_STATE_LEN + 1];
static uint8_t reply[HUB_IMAGE_MAX], moved[HUB_IMAGE_MAX];
static const uint8_t empty[] = { 0, 0, 0, 6, 1, 0 };
static const uint8_t version[] = { 1, 0, 0xFF, 0xFF, 0, 0 }, commands[] = { 2, 0, 0xFF, 0xFF, 0, 0 };
static const uint8_t address[6] = { 1, 2, 3, 4, 5, 6 }, unknown[6] = { 0x08 };
static const uint8_t device[8] = { 1, 2, 3, 4, 5, 6, 1, 2 }, uuid[16] = { 1 };
static int failures;

static void expect(const char *what, unsigned got, unsigned wanted)
{
    if (got != wanted) {
        printf("%s: %u, and not %u\n", what, got, wanted);
        failures++;
    }
}

/* The question why: the shortest text buffer, the count and the status. */
static void why(void)
{
    uint64_t result;
    expect("why, text one octet short", hub_answer(hub_why(state, HUB_STATE_LEN, version, 6, reply, 255)), HUB_SMALL_BUFFER);
    result = hub_why(state, HUB_STATE_LEN, commands, 6, reply, 256);
    expect("why", hub_answer(result), HUB_DONE);
    expect("its count", (unsigned)hub_count(result), 14);
    expect("its second number", hub_extra(result), 0);
    result = hub_why(state, HUB_STATE_LEN, address, 6, reply, 256);
    expect("why, of no packet", hub_answer(result), HUB_BAD_PACKET);
    result = hub_why(state, HUB_STATE_LEN, unknown, 6, reply, 256);
    expect("why, of an unknown command", hub_answer(result), HUB_DONE);
    expect("its second number", hub_extra(result), 1);
}

/* The tables by their numbers: of keys of 16 and of 7 octets one is taken. A device is added at 3, and looked for in the table that it is in. */
static void look_up(void)
{
    static const unsigned tables[6] = { HUB_UUIDS, HUB_LINK_KEYS, HUB_LONG_TERM_KEYS, HUB_IDENTITY_KEYS, HUB_BLOCKED_DEVICES, HUB_DEVICES };
    uint8_t packet[14] = { 0x33, 0, 3, 0, 8, 0 };
    uint64_t result;
    memcpy(packet + 6, device, sizeof device);
    expect("add a device", hub_answer(hub_command(state, HUB_STATE_LEN, packet, sizeof packet, reply, HUB_REPLY_MIN)), HUB_DONE);
    for (unsigned k = 0; k < 6; k++) {
        expect("the number of a table", tables[k], k);
        expect("a key of 16 octets", hub_answer(hub_look_up(state, HUB_STATE_LEN, 3, k, uuid, 16)), k == 0 ? HUB_DONE : HUB_BAD_ARGUMENT);
        result = hub_look_up(state, HUB_STATE_LEN, 3, k, device, 7);
        expect("a key of 7 octets", hub_answer(result), k == 0 ? HUB_BAD_ARGUMENT : HUB_DONE);
        expect("its slot", hub_slot(result), k == HUB_DEVICES || k == 0 ? 0 : HUB_SLOTS);
        expect("the slots walked", hub_walked(result), k == HUB_DEVICES);
        expect("its count", (unsigned)hub_count(result), 0);
    }
    expect("a table above the last", hub_answer(hub_look_up(state, HUB_STATE_LEN, 3, HUB_DEVICES + 1, device, 7)), HUB_BAD_ARGUMENT);
    expect("the look-up of an absent index", hub_answer(hub_look_up(state, HUB_STATE_LEN, 2, HUB_DEVICES, device, 7)), HUB_BAD_ARGUMENT);
    expect("the slot in a number", hub_slot((uint64_t)0x201F << 32), 31);
    expect("the slots walked in a number", hub_walked((uint64_t)0x201F << 32), 32);
    expect("both as one", hub_extra((uint64_t)0x201F << 32), 0x201F);
    expect("no slot in a number", hub_slot((uint64_t)0x0120 << 32), HUB_SLOTS);
}

/* The image with BR/EDR off at controller 3, which version 1 has no place for; with it on again it is moved there, in the room of the longest image. */
static void not_in_image(void)
{
    uint8_t packet[7] = { 0x2A, 0, 3, 0, 1, 0, 0 };
    uint64_t result;
    expect("BR/EDR off", hub_answer(hub_command(state, HUB_STATE_LEN, packet, sizeof packet, reply, HUB_REPLY_MIN)), HUB_DONE);
    result = hub_save(state, HUB_STATE_LEN, reply, HUB_IMAGE_MAX);
    expect("save, BR/EDR off", hub_answer(result), HUB_DONE);
    expect("its move to version 1", (unsigned)hub_downgrade(reply, hub_count(result), moved, HUB_IMAGE_MAX), HUB_NOT_IN_IMAGE);
    expect("its number", HUB_NOT_IN_IMAGE, 8);
    packet[6] = 1;
    expect("BR/EDR on", hub_answer(hub_command(state, HUB_STATE_LEN, packet, sizeof packet, reply, HUB_REPLY_MIN)), HUB_DONE);
    result = hub_save(state, HUB_STATE_LEN, reply, HUB_IMAGE_MAX);
    expect("save, BR/EDR on", hub_answer(result), HUB_DONE);
    expect("its version", reply[4], 2);
    expect("its move, one octet short", (unsigned)hub_downgrade(reply, hub_count(result), moved, HUB_IMAGE_MAX - 1), HUB_SMALL_BUFFER);
    expect("its move to version 2", (unsigned)hub_upgrade(reply, hub_count(result), moved, HUB_IMAGE_MAX), HUB_IMAGE_VERSION);
    result = hub_downgrade(reply, hub_count(result), moved, HUB_IMAGE_MAX);
    expect("its move to version 1", hub_answer(result), HUB_DONE);
    expect("its version there", moved[4], 1);
    expect("the second number of a move", hub_extra(result), 0);
    result = hub_upgrade(empty, sizeof empty, moved, HUB_IMAGE_MAX);
    expect("the empty image in version 2", hub_answer(result), HUB_DONE);
    expect("its octets", (unsigned)hub_count(result), 6);
    expect("its version there", moved[4], 2);
    expect("the same, one octet short", (unsigned)hub_upgrade(empty, sizeof empty, moved, HUB_IMAGE_MAX - 1), HUB_SMALL_BUFFER);
}

/* Whether load tells this number and this offset of the image in the buffer. */
static void told(const char *what, size_t length, unsigned answer, size_t offset)
{
    const uint64_t result = hub_load(state, HUB_STATE_LEN, moved, length);
    expect(what, hub_answer(result), answer);
    expect("where it is", (unsigned)hub_offset(result), (unsigned)offset);
    expect("whether it is a bad image", (unsigned)hub_bad_image(result), 1);
    expect("its octets", (unsigned)hub_count(result), 0);
}

/* Each number of a refused image, of a controller at 3 without names or records: 38 octets, its tables from 32 on. */
static void bad_images(void)
{
    static const uint8_t one[38] = { 0, 0, 0, 38, 2, 1, 3, 1, 2, 3, 4, 5, 6, 9, 0, 15, 0, 0, 2, 0x81, 0, 0, 2, 0x80 };
    memcpy(moved, one, sizeof one);
    expect("the image", (unsigned)hub_load(state, HUB_STATE_LEN, moved, sizeof one), HUB_DONE);
    expect("whether it is a bad one", (unsigned)hub_bad_image(HUB_DONE), 0);
    told("cut short", 4, 71, 4);
    told("another length", 37, HUB_IMAGE_LENGTH, 0);
    moved[4] = 7;
    told("another version", sizeof one, HUB_IMAGE_VERSION, 4);
    expect("its number", HUB_IMAGE_VERSION, 72);
    moved[4] = 2;
    moved[5] = 5;
    told("five controllers", sizeof one, HUB_IMAGE_INDEX, 5);
    expect("its number", HUB_IMAGE_INDEX, 73);
    moved[5] = 1;
    moved[20] = 1;
    told("a flag", sizeof one, HUB_IMAGE_FIELD, 20);
    expect("its number", HUB_IMAGE_FIELD, 74);
    moved[20] = 0;
    moved[37] = 33;
    told("a count", sizeof one, HUB_IMAGE_COUNT, 37);
    expect("its number", HUB_IMAGE_COUNT, 75);
    moved[37] = 2;
    moved[3] = 38 + 16;
    memset(moved + 38, 1, 16);
    moved[53] = 3;
    told("a record", 38 + 16, HUB_IMAGE_RECORD, 46);
    expect("its number", HUB_IMAGE_RECORD, 76);
    moved[53] = 2;
    told("a repeated record", 38 + 16, HUB_IMAGE_REPEATED, 46);
    expect("its number", HUB_IMAGE_REPEATED, 77);
    expect("the offset in a number", (unsigned)hub_offset((uint64_t)16014 << 32 | 71), 16014);
    expect("no bad image below 71", (unsigned)hub_bad_image((uint64_t)1 << 32 | 70), 0);
    expect("nor above 77", (unsigned)hub_bad_image(78), 0);
    expect("the number 71", HUB_IMAGE_LENGTH, 71);
}

/* Read Version off the serial line: five octets, no room, the sixth with another behind it. */
static void stream(void)
{
    uint64_t result = hub_stream(state, HUB_STATE_LEN, version, 5, reply, HUB_REPLY_MIN);
    expect("no packet finished", hub_answer(result), HUB_INCOMPLETE);
    expect("its number", HUB_INCOMPLETE, 9);
    expect("its octets taken", (unsigned)hub_taken(result), 5);
    result = hub_stream(state, HUB_STATE_LEN, version + 5, 1, reply, HUB_REPLY_MIN - 1);
    expect("a lump, reply one octet short", hub_answer(result), HUB_SMALL_BUFFER);
    expect("its octets taken", (unsigned)hub_taken(result), 0);
    expect("a command between lumps", hub_answer(hub_command(state, HUB_STATE_LEN, commands, 6, reply, HUB_REPLY_MIN)), HUB_DONE);
    result = hub_stream(state, HUB_STATE_LEN, commands + 5, 1, reply, HUB_REPLY_MIN);
    expect("a packet finished", hub_answer(result), HUB_DONE);
    expect("its octets taken", (unsigned)hub_taken(result), 1);
    expect("its count", (unsigned)hub_count(result), 12);
    expect("the octets taken in a number", (unsigned)hub_taken((uint64_t)0x10005 << 32 | 0xC02), 0x10005);
    expect("no octets", (unsigned)hub_stream(state, HUB_STATE_LEN, NULL, 0, reply, HUB_REPLY_MIN), HUB_INCOMPLETE);
}

/* Loads of states and images, and commands that read, with one octet too few and with enough. */
static void load_and_read(void)
{
    uint8_t changed[sizeof empty];
    uint64_t result;
    expect("state one octet short", hub_answer(hub_load(state, HUB_STATE_LEN - 1, empty, sizeof empty)), HUB_BAD_STATE);
    expect("state one octet long", hub_answer(hub_load(state, HUB_STATE_LEN + 1, empty, sizeof empty)), HUB_BAD_STATE);
    memcpy(changed, empty, sizeof empty);
    changed[4] = 3;
    expect("image of another version", hub_answer(hub_load(state, HUB_STATE_LEN, changed, sizeof changed)), HUB_IMAGE_VERSION);
    changed[4] = 2;
    expect("empty image of version 2", hub_answer(hub_load(state, HUB_STATE_LEN, changed, sizeof changed)), HUB_DONE);
    expect("empty image", hub_answer(hub_load(state, HUB_STATE_LEN, empty, sizeof empty)), HUB_DONE);
    expect("reply one octet short", hub_answer(hub_command(state, HUB_STATE_LEN, version, 6, reply, HUB_REPLY_MIN - 1)), HUB_SMALL_BUFFER);
    result = hub_command(state, HUB_STATE_LEN, version, 6, reply, HUB_REPLY_MIN);
    expect("read version", hub_answer(result), HUB_DONE);
    expect("its count", (unsigned)hub_count(result), 12);
    expect("its second number", hub_extra(result), 0);
    result = hub_command(state, HUB_STATE_LEN, commands, 6, reply, HUB_REPLY_MIN);
    expect("read commands", (unsigned)hub_count(result), 6 + 3 + 4 + 2 * 22 + 2 * 12);
    expect("its commands", reply[9], 22);
    expect("its events", reply[11], 12);
    expect("five octets", hub_answer(hub_command(state, HUB_STATE_LEN, version, 5, reply, HUB_REPLY_MIN)), HUB_BAD_PACKET);
}

/* Save, and calls at an index: absent, and plugged with 3. */
static void save_and_plug(void)
{
    uint64_t result;
    expect("image one octet short", hub_answer(hub_save(state, HUB_STATE_LEN, reply, HUB_IMAGE_MAX - 1)), HUB_SMALL_BUFFER);
    expect("save", hub_answer(hub_save(state, HUB_STATE_LEN, reply, HUB_IMAGE_MAX)), HUB_DONE);
    expect("unplug of an absent index", hub_answer(hub_unplug(state, HUB_STATE_LEN, 0, reply, HUB_REPLY_MIN)), HUB_BAD_ARGUMENT);
    expect("an index of 64 bits", hub_answer(hub_report(state, HUB_STATE_LEN, ~(uint64_t)0, 0, reply, HUB_REPLY_MIN)), HUB_BAD_ARGUMENT);
    expect("on air at an absent index", hub_answer(hub_on_air(state, HUB_STATE_LEN, 3, reply, HUB_REPLY_MIN)), HUB_BAD_ARGUMENT);
    expect("plug", hub_answer(hub_plug(state, HUB_STATE_LEN, 3, address, 6, 9, 15, 0x0281, reply, HUB_REPLY_MIN)), HUB_DONE);
    result = hub_on_air(state, HUB_STATE_LEN, 3, reply, HUB_REPLY_MIN);
    expect("on air", hub_answer(result), HUB_DONE);
    expect("its count", (unsigned)hub_count(result), 0);
    expect("on air, reply one octet short", hub_answer(hub_on_air(state, HUB_STATE_LEN, 3, reply, HUB_REPLY_MIN - 1)), HUB_SMALL_BUFFER);
}

int main(void)
{
    bad_images();
    load_and_read();
    save_and_plug();
    not_in_image();
    why();
    look_up();
    stream();
    state[5] = 1;
    expect("a look-up in such a state", hub_answer(hub_look_up(state, HUB_STATE_LEN, 3, HUB_DEVICES, device, 7)), HUB_BAD_STATE);
    expect("a state with an octet that means nothing", hub_answer(hub_clock(state, HUB_STATE_LEN, 0, reply, HUB_REPLY_MIN)), HUB_BAD_STATE);
    printf("constants: %s\n", failures ? "wrong" : "right");
    return failures != 0;
}
