/*
 * The longest time that a call takes: on a hub with four controllers, all 768 records and all 20 advertising instances, the records of a table alike
 * but for one octet, which is each octet in turn. Clock steps up to the longest, lumps with the longest packet and the longest image of both versions are
 * among the calls. A call's time is the least of many tries, spread over the whole run so that a slow moment of the machine is not the call's; an entry's is
 * the most over its calls and over the hubs.
 *
 *     worst_time [LIMIT]      prints a line 'NAME MICROSECONDS' for each entry; the exit code is 1 if one took more than LIMIT microseconds
 */
#define _POSIX_C_SOURCE 199309L
#include <time.h>

#include "busy.h"

enum { LOAD = 6, WHY = 9, LOOK_UP = 10, STREAM = 11, UPGRADE = 12, DOWNGRADE = 13, ENTRIES = 14 };
enum { ROUNDS = 8, TRIES = 25, OCTETS = 16, COMMANDS = 22, LUMPS = 4, INPUTS = 34 + COMMANDS + 3 + 12 + LUMPS + 3 };

/*
 * A call: an entry by its number, a packet for a command and for the question why, a key with its table for a look-up, a reading for the clock, or an index; a
 * lump by its number; of load the version.
 */
struct input {
    int entry;
    unsigned index;
    struct packet packet;
};

static const char *const names[ENTRIES] = { "hub_command", "hub_report", "hub_clock",  "hub_plug", "hub_unplug",  "hub_save",
                                            "hub_load",    "hub_name",   "hub_on_air", "hub_why",  "hub_look_up", "hub_stream",
                                            "hub_upgrade", "hub_downgrade" };
static const uint8_t address[6] = { 1, 2, 3, 4, 5, 6 };
static uint8_t full[HUB_STATE_LEN], state[HUB_STATE_LEN], reply[HUB_IMAGE_MAX];
static uint8_t image[HUB_IMAGE_MAX], second[HUB_IMAGE_MAX]; /* the longest image, in version 1 and in version 2 */
static uint8_t longest[6 + 0xFFFF]; /* the longest packet: its header, and octets that are not kept */
static struct input inputs[INPUTS];
static unsigned made;

/* Record k of a table of the six: valid, and unlike the others in one octet only. LE devices have static random addresses, whose bits are looked at. */
static void put_record(uint8_t *to, int table, unsigned k, unsigned octet)
{
    static const size_t sizes[6] = { 17, 25, 36, 23, 7, 8 };
    memset(to, 0x42, sizes[table]);
    to[octet % (table == 0 ? 16 : 6)] = (uint8_t)(k + 1);
    if (table == 1)
        to[6] = 0;
    if (table > 1) {
        to[5] |= 0xC0;
        to[6] = 2;
    }
    if (table == 1 || table == 2)
        to[7] = 1;
    if (table == 2) {
        to[8] = 0;
        to[9] = 16;
    }
    if (table == 5)
        to[7] = 1;
}

/* The image of a controller, behind its index: what plug gave, flags, static address, names, and all tables full. */
static uint8_t *put_controller(uint8_t *to, unsigned octet)
{
    static const uint8_t fixed[23] = { 1, 2, 3, 4, 5, 6, 9, 0, 15, 0, 0, 0x02, 0x81, 0, 0, 0x02, 0x12, 1, 2, 3, 4, 5, 0xC6 };
    static const size_t sizes[6] = { 17, 25, 36, 23, 7, 8 };
    memcpy(to, fixed, sizeof fixed);
    memset(to + sizeof fixed, 'n', 260);
    to[sizeof fixed + 248] = to[sizeof fixed + 259] = 0;
    to += sizeof fixed + 260;
    for (int table = 0; table < 6; table++) {
        *to++ = 32;
        for (unsigned k = 0; k < 32; k++, to += sizes[table])
            put_record(to, table, k, octet);
    }
    return to;
}

/* Five advertising instances with full data at an index: their turns, and the timeouts, end at different times. */
static void fill_turns(unsigned index)
{
    static const unsigned durations[5] = { 3, 5, 7, 11, 13 }, timeouts[5] = { 65535, 50000, 40001, 29999, 20000 };
    struct packet packet;
    for (unsigned k = 0; k < 5; k++) {
        add_instance(&packet, index, k + 1, durations[k], timeouts[k], 31, 31);
        must_send(full, &packet, HUB_DONE);
    }
}

/* The longest image, and the hub made of it with power, instances, discoverable timers, and a command under way at each index. */
static void make_full(unsigned octet)
{
    uint8_t *to = image + 6;
    for (unsigned index = 0; index < 4; index++) {
        *to++ = (uint8_t)index;
        to = put_controller(to, octet);
    }
    memcpy(image, "\0\0\0\0\1\4", 6);
    image[2] = HUB_IMAGE_MAX >> 8;
    image[3] = HUB_IMAGE_MAX & 0xFF;
    must("the longest image", hub_load(full, sizeof full, image, sizeof image), HUB_DONE);
    must("its move to version 2", hub_upgrade(image, sizeof image, second, sizeof second), HUB_DONE);
    for (unsigned index = 0; index < 4; index++) {
        must_set(full, 0x0005, index, 1, 1, 0, HUB_STARTED, 1);
        fill_turns(index);
        must_set(full, 0x0006, index, 3, 1, 300, HUB_STARTED, 1);
        must_set(full, 0x0007, index, 1, 0, 0, HUB_STARTED, 0);
    }
}

static struct input *input(int entry, unsigned index)
{
    struct input *next = &inputs[made++];
    if (made > INPUTS)
        exit(EXIT_FAILURE);
    next->entry = entry;
    next->index = index;
    return next;
}

/* A list of 32 records to the last controller. */
static void list(unsigned code, size_t before, size_t size, int table, unsigned octet)
{
    uint8_t *params = make_packet(&input(0, 3)->packet, code, 3, before + 32 * size);
    params[before - 2] = 32;
    for (unsigned k = 0; k < 32; k++)
        put_record(params + before + k * size, table, k, octet);
}

/* A command that names record k of a table, which is there for k below 32. */
static void named(unsigned code, size_t length, int table, unsigned k, unsigned octet)
{
    uint8_t record[36];
    put_record(record, table, k, octet);
    memcpy(make_packet(&input(0, 3)->packet, code, 3, length), record, length);
}

/* The question why of each command, and of the three lists with their last record like the one before it. */
static void make_questions(void)
{
    static const size_t sizes[3] = { 25, 36, 23 };
    for (unsigned k = 0; k < COMMANDS; k++)
        input(WHY, 3)->packet = inputs[k].packet;
    for (unsigned k = 0; k < 3; k++) {
        struct packet *packet = &input(WHY, 3)->packet;
        *packet = inputs[k].packet;
        memcpy(packet->octets + packet->length - sizes[k], packet->octets + packet->length - 2 * sizes[k], sizes[k]);
    }
}

/* Look-ups at the last controller, in each table: of the last record, and of one that is absent. */
static void make_look_ups(unsigned octet)
{
    for (unsigned k = 0; k < 12; k++) {
        const unsigned table = k / 2;
        struct packet *packet = &input(LOOK_UP, table)->packet;
        put_record(packet->octets, (int)table, 31 + k % 2, octet);
        packet->length = table == HUB_UUIDS ? 16 : 7;
    }
}

/* The calls that have most to do. */
static void make_inputs(unsigned octet)
{
    static const unsigned steps[5] = { 1, 300, 99999, 180000, 0x7FFFFFFF };
    made = 0;
    list(0x0012, 3, 25, 1, octet);
    list(0x0013, 2, 36, 2, octet);
    list(0x0030, 2, 23, 3, octet);
    named(0x0010, 17, 0, 31, octet);
    named(0x0010, 17, 0, 32, octet);
    named(0x0011, 16, 0, 31, octet);
    make_packet(&input(0, 3)->packet, 0x0011, 3, 16);
    named(0x001B, 8, 5, 31, octet);
    named(0x0026, 7, 4, 32, octet);
    named(0x0027, 7, 4, 31, octet);
    named(0x0033, 8, 5, 31, octet);
    named(0x0033, 8, 5, 32, octet);
    named(0x0034, 7, 5, 31, octet);
    make_packet(&input(0, 3)->packet, 0x0034, 3, 7);
    local_name(&input(0, 3)->packet, 3, 'w');
    make_packet(&input(0, 3)->packet, 0x0004, 3, 0);
    make_packet(&input(0, 3)->packet, 0x0009, 3, 1);
    *make_packet(&input(0, 3)->packet, 0x002A, 3, 1) = 1;
    make_packet(&input(0, 3)->packet, 0x0002, 0xFFFF, 0);
    add_instance(&input(0, 3)->packet, 3, 1, 9, 9, 31, 31);
    add_instance(&input(0, 3)->packet, 3, 5, 9, 9, 31, 31);
    make_packet(&input(0, 3)->packet, 0x003F, 3, 1);
    input(1, 3);
    for (unsigned k = 0; k < 5; k++)
        input(2, steps[k]);
    for (int entry = 3; entry < WHY; entry++)
        input(entry, entry == LOAD ? 1 : 3);
    input(LOAD, 2);
    input(UPGRADE, 1);
    input(DOWNGRADE, 2);
    make_questions();
    make_look_ups(octet);
    for (unsigned k = 0; k < LUMPS; k++)
        input(STREAM, k)->packet = inputs[1].packet;
}

/* A lump: the last octet of the list of long term keys, all of it but this one, all of it, or the longest packet. */
static uint64_t lump(const struct input *in)
{
    const uint8_t *octets = in->packet.octets;
    switch (in->index) {
    case 0: return hub_stream(state, sizeof state, octets + WHOLE - 1, 1, reply, HUB_REPLY_MIN);
    case 1: return hub_stream(state, sizeof state, octets, WHOLE - 1, reply, HUB_REPLY_MIN);
    case 2: return hub_stream(state, sizeof state, octets, WHOLE, reply, HUB_REPLY_MIN);
    default: return hub_stream(state, sizeof state, longest, sizeof longest, reply, HUB_REPLY_MIN);
    }
}

static uint64_t call(const struct input *in)
{
    switch (in->entry) {
    case 0: return hub_command(state, sizeof state, in->packet.octets, in->packet.length, reply, HUB_REPLY_MIN);
    case 1: return hub_report(state, sizeof state, in->index, 0, reply, HUB_REPLY_MIN);
    case 2: return hub_clock(state, sizeof state, in->index, reply, HUB_REPLY_MIN);
    case 3: return hub_plug(state, sizeof state, in->index, address, 6, 9, 15, 0x0281, reply, HUB_REPLY_MIN);
    case 4: return hub_unplug(state, sizeof state, in->index, reply, HUB_REPLY_MIN);
    case 5: return hub_save(state, sizeof state, reply, HUB_IMAGE_MAX);
    case LOAD: return hub_load(state, sizeof state, in->index == 1 ? image : second, HUB_IMAGE_MAX);
    case 7: return hub_name(state, sizeof state, in->index, 0, reply, HUB_REPLY_MIN);
    case 8: return hub_on_air(state, sizeof state, in->index, reply, HUB_REPLY_MIN);
    case STREAM: return lump(in);
    case UPGRADE: return hub_upgrade(image, sizeof image, reply, sizeof reply);
    case DOWNGRADE: return hub_downgrade(second, sizeof second, reply, sizeof reply);
    case LOOK_UP: return hub_look_up(state, sizeof state, 3, in->index, in->packet.octets, in->packet.length);
    default: return hub_why(state, sizeof state, in->packet.octets, in->packet.length, reply, 256);
    }
}

static double now(void)
{
    struct timespec time;
    clock_gettime(CLOCK_MONOTONIC, &time);
    return (double)time.tv_sec * 1e6 + (double)time.tv_nsec / 1e3;
}

/* The least microseconds of some tries, each from the same state; without a call, what looking at the clock takes. */
static double least(const struct input *in)
{
    double best = 1e9;
    for (int k = 0; k < TRIES; k++) {
        double start, took;
        memcpy(state, full, sizeof state);
        if (in && in->entry == STREAM && in->index == 0)
            must("a lump", hub_stream(state, sizeof state, in->packet.octets, WHOLE - 1, reply, HUB_REPLY_MIN), HUB_INCOMPLETE);
        start = now();
        if (in && hub_answer(call(in)) == HUB_BAD_STATE)
            exit(EXIT_FAILURE);
        took = now() - start;
        best = took < best ? took : best;
    }
    return best;
}

/* One round over all hubs and their calls; keeps the least time of each. */
static void one_round(double best[OCTETS][INPUTS])
{
    for (unsigned octet = 0; octet < OCTETS; octet++) {
        double empty = least(NULL);
        make_full(octet);
        make_inputs(octet);
        for (unsigned k = 0; k < made; k++) {
            double took = least(&inputs[k]) - empty;
            best[octet][k] = took < best[octet][k] ? took : best[octet][k];
        }
    }
}

int main(int argc, char **argv)
{
    static double best[OCTETS][INPUTS];
    double limit = argc > 1 ? strtod(argv[1], NULL) : 1e9, worst[ENTRIES] = { 0 };
    int slow = 0;
    memset(longest, 0xFF, sizeof longest);
    for (unsigned k = 0; k < OCTETS * INPUTS; k++)
        best[k / INPUTS][k % INPUTS] = 1e9;
    for (int k = 0; k < ROUNDS; k++)
        one_round(best);
    for (unsigned octet = 0; octet < OCTETS; octet++)
        for (unsigned k = 0; k < made; k++)
            if (best[octet][k] > worst[inputs[k].entry])
                worst[inputs[k].entry] = best[octet][k];
    for (int entry = 0; entry < ENTRIES; entry++) {
        printf("%s %.1f\n", names[entry], worst[entry]);
        slow += worst[entry] > limit;
    }
    return slow > 0;
}
