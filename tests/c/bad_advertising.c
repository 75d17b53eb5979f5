/*
 * Bad input of advertising from C: Add and Remove Advertising with every value outside its limits and in every length that is wrong, hub_on_air with
 * any index, and states whose advertising part is not well formed. Each call gets exactly the number and the status that documents 01 and 02 give,
 * writes nothing but a refusal's one reply, and leaves the state as it was.
 */
#include "lent.h"

enum { REJECTED = 0x0B, INVALID_PARAMETERS = 0x0D, INVALID_INDEX = 0x11 };

static uint8_t base[HUB_STATE_LEN];    /* the busy hub; commands are under way at 0, 1 and 2 */
static uint8_t fresh[HUB_STATE_LEN];   /* a hub without controllers */
static uint8_t classic[HUB_STATE_LEN]; /* a hub with Low Energy switched off at 0, and without it but powered at 1 */

/* What is on air: 6 for an index that is not there; else the instance with its data, or nothing where none is. */
static void try_on_air(const uint8_t *hub)
{
    static const uint8_t on_air[4][3] = { { 3, 5, 0 }, { 2, 10, 3 }, { 0, 0, 0 }, { 5, 31, 31 } };
    struct lent state = lend(HUB_STATE_LEN, hub, HUB_STATE_LEN), reply;
    for (int i = 0; i < NUMBERS; i++) {
        int there = hub == base && numbers[i] <= 3;
        const uint8_t *row = on_air[numbers[i] & 3];
        uint8_t wanted[3 + 31 + 31];
        uint64_t result;
        memcpy(wanted, row, 3);
        memset(wanted + 3, 0xA0 + row[0], row[1]);
        memset(wanted + 3 + row[1], 0x50 + row[0], row[2]);
        reply = lend(HUB_REPLY_MIN, NULL, 0);
        result = hub_on_air(state.octets, HUB_STATE_LEN, numbers[i], reply.octets, HUB_REPLY_MIN);
        expect("on air", (size_t)i, result, there ? HUB_DONE : HUB_BAD_ARGUMENT, &state, &reply, wanted, there && row[0] ? 3u + row[1] + row[2] : 0);
        take_back(reply);
    }
    take_back(state);
}

/* Add Advertising with values outside their limits, each alone; the length is right. */
static void try_values(void)
{
    struct packet packet;
    for (unsigned k = 0; k < 256; k = k == 0 ? 6 : k + 1) {
        add_instance(&packet, 0, k, 2, 0, 3, 4);
        try_refused("instance", k, base, &packet, INVALID_PARAMETERS);
    }
    for (unsigned bit = 0; bit < 32; bit++) {
        add_instance(&packet, 0, 1, 2, 0, 3, 4);
        packet.octets[7 + bit / 8] = (uint8_t)(1u << bit % 8);
        try_refused("flag", bit, base, &packet, INVALID_PARAMETERS);
    }
    for (size_t length = 32; length < 256; length++)
        for (unsigned mask = 1; mask < 4; mask++) {
            add_instance(&packet, 0, 1, 2, 0, mask & 1 ? length : 31, mask & 2 ? length : 31);
            try_refused("data length", length, base, &packet, INVALID_PARAMETERS);
        }
}

/* Add Advertising in every other length than its two data lengths make, and Remove Advertising in every other than 1. */
static void try_lengths(void)
{
    static const size_t lengths[] = { 0, 1, 31, 255 };
    struct packet packet;
    for (int i = 0; i < 16; i++) {
        const size_t data = lengths[i / 4], scan = lengths[i % 4], right = 11 + data + scan;
        for (size_t length = 0; length < right + 300; length++) {
            add_instance(&packet, 0, 1, 2, 0, data, scan);
            packet.octets[4] = (uint8_t)length;
            packet.octets[5] = (uint8_t)(length >> 8);
            packet.length = 6 + length;
            if (length != right)
                try_refused("length of Add Advertising", length, base, &packet, INVALID_PARAMETERS);
        }
    }
    for (size_t length = 0; length < 300; length++) {
        make_packet(&packet, 0x003F, 0, length);
        if (length != 1)
            try_refused("length of Remove Advertising", length, base, &packet, INVALID_PARAMETERS);
    }
}

/* Both commands to an index that has no controller; their wrong values are not looked at. */
static void try_index(const uint8_t *hub, unsigned index)
{
    struct packet packet;
    add_instance(&packet, index, 6, 2, 0, 3, 4);
    try_refused("index", index, hub, &packet, INVALID_INDEX);
    make_packet(&packet, 0x003F, index, 0);
    try_refused("index", index, hub, &packet, INVALID_INDEX);
}

/* Rejected: a timeout where there is no power, and any instance where Low Energy is off or not supported; but wrong values are told first. */
static void try_rejected(void)
{
    static const unsigned timeouts[] = { 0, 1, 2, 255, 256, 65535 };
    struct packet packet;
    for (unsigned i = 0; i < 6; i++)
        for (unsigned k = 1; k < 7; k++) {
            add_instance(&packet, 2, k, 2, timeouts[i], 3, 4);
            if (timeouts[i] != 0 || k == 6)
                try_refused("timeout without power", timeouts[i], base, &packet, k < 6 ? REJECTED : INVALID_PARAMETERS);
            add_instance(&packet, i % 2, k, 2, timeouts[i], 3, 4);
            try_refused("Low Energy off", i, classic, &packet, k < 6 ? REJECTED : INVALID_PARAMETERS);
        }
    for (unsigned index = 0; index < 0x10000; index = index < 256 ? index + 1 : index * 2 - 1)
        try_index(fresh, index);
    try_index(fresh, 0xFFFF);
    try_index(base, 0xFFFF);
    try_index(classic, 0xFFFF);
}

/* Remove Advertising of an instance that is not there. */
static void try_absent(void)
{
    struct packet packet;
    for (unsigned k = 1; k < 256; k++) {
        *make_packet(&packet, 0x003F, 1, 1) = (uint8_t)k;
        if (k != 2 && k != 5)
            try_refused("Remove Advertising", k, base, &packet, INVALID_PARAMETERS);
        make_packet(&packet, 0x003F, k % 2, 1)[0] = (uint8_t)k;
        try_refused("Remove Advertising of none", k, classic, &packet, INVALID_PARAMETERS);
    }
}

/* The instance on air and the seconds left of its turn, the three octets at AT_ON_AIR as one number. */
#define AIR(instance, left) ((instance) | (uint32_t)(left) << 8)

/* A number written over some octets of a block: the state is not well formed, but for the last rows, where it still is. */
static const struct {
    const uint8_t *hub;
    unsigned index, at, octets;
    uint32_t number;
    unsigned answer;
} changes[] = {
    { base, 1, AT_ON_AIR, 3, AIR(2, 101), HUB_BAD_STATE },        /* a turn longer than its duration */
    { base, 0, AT_ON_AIR, 3, AIR(4, 2), HUB_BAD_STATE },          /* another one's */
    { base, 1, AT_ON_AIR, 3, AIR(2, 0), HUB_BAD_STATE },          /* no second left */
    { base, 1, AT_ON_AIR, 3, AIR(1, 1), HUB_BAD_STATE },          /* an instance that is not there on air */
    { base, 0, AT_ON_AIR, 3, AIR(6, 1), HUB_BAD_STATE },          /* no instance: behind the durations stand the timeouts */
    { base, 0, AT_ON_AIR, 3, AIR(7, 1), HUB_BAD_STATE },
    { base, 0, AT_ON_AIR, 3, AIR(8, 1), HUB_BAD_STATE },
    { base, 0, AT_ON_AIR, 3, AIR(255, 1), HUB_BAD_STATE },
    { base, 0, AT_ON_AIR, 3, AIR(0, 0), HUB_BAD_STATE },          /* none on air, with power */
    { base, 1, AT_ON_AIR, 3, AIR(0, 90), HUB_BAD_STATE },
    { base, 2, AT_ON_AIR, 3, AIR(1, 1), HUB_BAD_STATE },          /* one on air, or a turn, without power */
    { base, 2, AT_ON_AIR, 3, AIR(1, 0), HUB_BAD_STATE },
    { base, 2, AT_ON_AIR, 3, AIR(0, 1), HUB_BAD_STATE },
    { base, 3, AT_POWERED, 1, 0, HUB_BAD_STATE },
    { classic, 0, AT_ON_AIR, 3, AIR(1, 1), HUB_BAD_STATE },       /* with no instance, without power and with it */
    { classic, 1, AT_ON_AIR, 3, AIR(1, 1), HUB_BAD_STATE },
    { classic, 1, AT_ON_AIR, 3, AIR(1, 0), HUB_BAD_STATE },
    { classic, 1, AT_ON_AIR, 3, AIR(0, 1), HUB_BAD_STATE },
    { base, 2, AT_TIMEOUT + 2 * 1, 2, 1, HUB_BAD_STATE },         /* a timeout without power */
    { base, 2, AT_TIMEOUT + 2 * 4, 2, 0x100, HUB_BAD_STATE },
    { base, 1, AT_TIMEOUT + 2 * 3, 2, 5, HUB_BAD_STATE },         /* a timeout of an instance that is not there, its lengths, its data */
    { base, 1, AT_DATA + 32 * 1, 1, 1, HUB_BAD_STATE },
    { base, 1, AT_SCAN + 32 * 4, 1, 31, HUB_BAD_STATE },
    { base, 1, AT_DATA + 32 * 3 + 1, 1, 7, HUB_BAD_STATE },
    { base, 1, AT_SCAN + 32 * 3 + 31, 1, 7, HUB_BAD_STATE },
    { base, 2, AT_DURATION + 2 * 1, 2, 0, HUB_BAD_STATE },        /* data that stay behind */
    { base, 0, AT_DATA + 32 * 1, 1, 32, HUB_BAD_STATE },          /* a length above 31 */
    { base, 3, AT_SCAN + 32 * 5, 1, 255, HUB_BAD_STATE },
    { base, 1, AT_DATA + 32 * 2, 1, 9, HUB_BAD_STATE },           /* data behind their length */
    { base, 1, AT_DATA + 32 * 2 + 11, 1, 1, HUB_BAD_STATE },
    { base, 1, AT_SCAN + 32 * 2 + 31, 1, 0x80, HUB_BAD_STATE },
    { base, 2, AT_LOW_ENERGY, 1, 0, HUB_BAD_STATE },              /* instances with Low Energy off, or at no controller */
    { classic, 0, AT_DURATION + 2 * 1, 2, 2, HUB_BAD_STATE },
    { classic, 1, AT_DURATION + 2 * 5, 2, 0x100, HUB_BAD_STATE },
    { fresh, 0, AT_DURATION + 2 * 1, 2, 2, HUB_BAD_STATE },
    { fresh, 3, BLOCK - 1, 1, 1, HUB_BAD_STATE },
    { base, 1, AT_ON_AIR, 3, AIR(2, 100), HUB_DONE },             /* the limits of what is taken */
    { base, 1, AT_ON_AIR, 3, AIR(2, 1), HUB_DONE },
    { base, 1, AT_ON_AIR, 3, AIR(5, 2), HUB_DONE },
    { base, 1, AT_TIMEOUT + 2 * 2, 2, 1, HUB_DONE },
    { base, 1, AT_TIMEOUT + 2 * 5, 2, 0xFFFF, HUB_DONE },
    { base, 2, AT_DURATION + 2 * 3, 2, 0xFFFF, HUB_DONE },
    { base, 1, AT_DATA + 32 * 2, 1, 31, HUB_DONE },
};

/* Each of these states is lent to every call. */
static void try_states(void)
{
    for (size_t i = 0; i < sizeof changes / sizeof changes[0]; i++) {
        struct lent state = lend(HUB_STATE_LEN, changes[i].hub, HUB_STATE_LEN), reply = lend(HUB_IMAGE_MAX, NULL, 0);
        uint64_t result;
        for (unsigned k = 0; k < changes[i].octets; k++) {
            size_t at = FIRST_BLOCK + BLOCK * changes[i].index + changes[i].at + k;
            state.octets[at] = state.before[at] = (uint8_t)(changes[i].number >> 8 * k);
        }
        result = hub_on_air(state.octets, HUB_STATE_LEN, changes[i].index, reply.octets, HUB_IMAGE_MAX);
        if (changes[i].answer == HUB_BAD_STATE) {
            expect("advertising state", i, result, HUB_BAD_STATE, &state, &reply, NULL, 0);
            try_all_wrong("advertising state", i, &state, &reply, HUB_BAD_STATE);
        } else {
            expect("advertising state", i, hub_answer(result), changes[i].answer, &state, NULL, NULL, 0);
        }
        take_back(reply);
        take_back(state);
    }
}

/* A dual-mode controller at 0 with Low Energy off, and one without it at 1, powered. */
static void make_classic(void)
{
    uint8_t reply[HUB_REPLY_MIN];
    must("load", hub_load(classic, HUB_STATE_LEN, empty, sizeof empty), HUB_DONE);
    must("plug", hub_plug(classic, HUB_STATE_LEN, 0, address, 6, 9, 15, 0x0281, reply, sizeof reply), HUB_DONE);
    must("plug", hub_plug(classic, HUB_STATE_LEN, 1, address, 6, 9, 15, 0x0081, reply, sizeof reply), HUB_DONE);
    must_set(classic, 0x000D, 0, 1, 0, 0, HUB_DONE, 0);
    must_set(classic, 0x0005, 1, 1, 1, 0, HUB_STARTED, 1);
}

int main(void)
{
    make_busy(base);
    must("load", hub_load(fresh, HUB_STATE_LEN, empty, sizeof empty), HUB_DONE);
    make_classic();
    try_on_air(base);
    try_on_air(fresh);
    try_values();
    try_lengths();
    try_rejected();
    try_absent();
    try_states();
    printf("bad advertising: %lu checks, %lu failures\n", tried, failures);
    return failures != 0;
}
