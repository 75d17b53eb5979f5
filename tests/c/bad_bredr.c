/*
 * Set BR/EDR from C: its values and lengths, where it is not supported, Busy and rejected, and what is refused for it; states whose BR/EDR octet has every
 * value at every controller, or does not fit the octets around it or the command under way; images of both versions with every flag; saves with BR/EDR off.
 * Each call gets exactly the number and the status that documents 01 and 02 give, writes nothing but a refusal's one reply, and leaves what was lent as it
 * was. What is taken changes the octets that it has to, and no other.
 */
#include "lent.h"

enum { DUAL = 0, OFF = 1, CLASSIC = 2, LE = 3, ABSENT = 4, SET_BREDR = 0x002A, FLAGS = 6 + 14 };
enum { BUSY = 0x0A, REJECTED = 0x0B, NOT_SUPPORTED = 0x0C, INVALID_PARAMETERS = 0x0D, INVALID_INDEX = 0x11 };

static uint8_t on[HUB_STATE_LEN];      /* dual-mode controllers at 0 and 1, at 2 one without LE, at 3 one without BR/EDR, as plug leaves them */
static uint8_t base[HUB_STATE_LEN];    /* the same with BR/EDR off at 1 */
static uint8_t powered[HUB_STATE_LEN]; /* that with power */
static uint8_t waiting[HUB_STATE_LEN]; /* that with Set Connectable under way at each */
static uint8_t slow[HUB_STATE_LEN];    /* or with Set BR/EDR under way at 0 and 1 */
static uint8_t images[2][HUB_IMAGE_MAX]; /* the image of the first, in version 1 and in version 2 */
static size_t lengths[2];

static const size_t in_image[2] = { 290, 32 }; /* the octets of each controller there */

/* The octet of a state at a place in a controller's block. */
static uint8_t *octet(uint8_t *state, unsigned index, unsigned at)
{
    return state + FIRST_BLOCK + BLOCK * (size_t)index + at;
}

/* Set BR/EDR, or another command of one octet. */
static const struct packet *set(unsigned code, unsigned index, unsigned value)
{
    static struct packet packet;
    *make_packet(&packet, code, index, 1) = (uint8_t)value;
    return &packet;
}

/* Set Discoverable. */
static const struct packet *discoverable(unsigned index, unsigned value, unsigned seconds)
{
    static struct packet packet;
    uint8_t *params = make_packet(&packet, 0x0006, index, 3);
    params[0] = (uint8_t)value;
    params[1] = (uint8_t)seconds;
    return &packet;
}

/* Values above 1 and lengths other than 1, at every controller of every hub: Invalid Parameters before all else but the index. */
static void try_values(void)
{
    static const uint8_t *const hubs[] = { on, base, powered, waiting, slow };
    for (unsigned i = 0; i < 5; i++)
        for (unsigned index = 0; index < 4; index++) {
            struct packet packet;
            for (unsigned value = 2; value < 256; value++)
                try_refused("value", value, hubs[i], set(SET_BREDR, index, value), INVALID_PARAMETERS);
            for (size_t length = 0; length < 300; length++) {
                *make_packet(&packet, SET_BREDR, index, length) = 1;
                if (length != 1)
                    try_refused("length", length, hubs[i], &packet, INVALID_PARAMETERS);
            }
        }
    for (unsigned index = ABSENT; index < 0x10000; index = index < 256 ? index + 1 : index * 2 - 1)
        try_refused("index", index, base, set(SET_BREDR, index, 9), INVALID_INDEX);
    try_refused("index", 0xFFFF, base, set(SET_BREDR, 0xFFFF, 0), INVALID_INDEX);
}

/* Not Supported at the controllers that have one transport; Busy at the others while a command is under way, Set BR/EDR itself too. */
static void try_busy(void)
{
    static const uint8_t *const hubs[] = { on, base, powered, waiting };
    struct packet address;
    for (unsigned value = 0; value < 2; value++) {
        for (unsigned i = 0; i < 4; i++)
            for (unsigned index = CLASSIC; index <= LE; index++)
                try_refused("support", i, hubs[i], set(SET_BREDR, index, value), NOT_SUPPORTED);
        for (unsigned index = DUAL; index <= OFF; index++) {
            try_refused("busy", index, waiting, set(SET_BREDR, index, value), BUSY);
            try_refused("busy", index, slow, set(SET_BREDR, index, value), BUSY);
            try_refused("busy", index, slow, set(0x0005, index, value), BUSY);
            try_refused("busy", index, slow, set(0x0007, index, value), BUSY);
            try_refused("busy", index, slow, set(0x000D, index, value), BUSY);
            try_refused("busy", index, slow, discoverable(index, value, 0), BUSY);
            make_packet(&address, 0x002B, index, 6);
            try_refused("busy", index, slow, &address, BUSY);
        }
    }
}

/* Rejected: off with power, on with a static address, both with LE off; discoverable and LE off where BR/EDR is off. */
static void try_rejected(void)
{
    static uint8_t changed[HUB_STATE_LEN];
    for (unsigned index = DUAL; index <= OFF; index++) {
        try_refused("power", index, powered, set(SET_BREDR, index, 0), REJECTED);
        for (unsigned i = 0; i < 2; i++) {
            memcpy(changed, i ? powered : base, HUB_STATE_LEN);
            memcpy(octet(changed, index, AT_STATIC), "\1\2\3\4\5\306", 6);
            try_refused("static address", index, changed, set(SET_BREDR, index, 1), REJECTED);
        }
    }
    for (unsigned i = 0; i < 2; i++) {
        memcpy(changed, i ? powered : base, HUB_STATE_LEN);
        *octet(changed, DUAL, AT_LOW_ENERGY) = 0;
        try_refused("LE off", i, changed, set(SET_BREDR, DUAL, 0), REJECTED);
        try_refused("LE off", i, changed, set(SET_BREDR, DUAL, 1), REJECTED);
        memcpy(changed, i ? powered : base, HUB_STATE_LEN);
        try_refused("LE to be off", i, changed, set(0x000D, OFF, 0), REJECTED);
        for (unsigned connectable = 0; connectable < 2; connectable++) {
            *octet(changed, OFF, AT_CONNECTABLE) = (uint8_t)connectable;
            try_refused("discoverable", connectable, changed, discoverable(OFF, 1, 0), REJECTED);
            if (i == 1)
                try_refused("discoverable", connectable, changed, discoverable(OFF, 2, 9), REJECTED);
        }
    }
}

/* A command that is done or started: the reply shows the settings, New Settings follows on a change; the state that is wanted is given. */
static void try_taken(const uint8_t *hub, const uint8_t *wanted, const struct packet *packet, unsigned answer, unsigned settings, int changes)
{
    const uint8_t *p = packet->octets, low = (uint8_t)settings, high = (uint8_t)(settings >> 8);
    const uint8_t octets[23] = { 1, 0, p[2], 0, 7, 0, p[0], 0, 0, low, high, 0, 0, 6, 0, p[2], 0, 4, 0, low, high, 0, 0 };
    struct lent state = lend(HUB_STATE_LEN, hub, HUB_STATE_LEN), reply = lend(HUB_REPLY_MIN, NULL, 0);
    uint64_t result = hub_command(state.octets, state.length, p, packet->length, reply.octets, reply.length);
    memcpy(state.before, wanted, HUB_STATE_LEN);
    expect("taken", settings, result, answer, &state, &reply, octets, answer == HUB_STARTED ? 0 : changes ? 23 : 13);
    take_back(reply);
    take_back(state);
}

/* On and off at once without power, with discoverable and without; on started with power, kept as it has to be. */
static void try_right(void)
{
    static uint8_t hub[HUB_STATE_LEN], wanted[HUB_STATE_LEN];
    try_taken(base, base, set(SET_BREDR, DUAL, 1), HUB_DONE, 0x0280, 0);
    try_taken(base, base, set(SET_BREDR, OFF, 0), HUB_DONE, 0x0200, 0);
    try_taken(base, on, set(SET_BREDR, OFF, 1), HUB_DONE, 0x0280, 1);
    try_taken(on, base, set(SET_BREDR, OFF, 0), HUB_DONE, 0x0200, 1);
    for (unsigned connectable = 0; connectable < 2; connectable++) {
        memcpy(hub, on, HUB_STATE_LEN);
        memcpy(wanted, base, HUB_STATE_LEN);
        *octet(hub, OFF, AT_CONNECTABLE) = *octet(wanted, OFF, AT_CONNECTABLE) = (uint8_t)connectable;
        *octet(hub, OFF, AT_DISCOVERABLE) = (uint8_t)connectable;
        try_taken(hub, wanted, set(SET_BREDR, OFF, 0), HUB_DONE, 0x0200 + 2 * connectable, 1);
        try_taken(wanted, wanted, discoverable(OFF, 0, 0), HUB_DONE, 0x0200 + 2 * connectable, 0);
    }
    for (unsigned index = DUAL; index <= OFF; index++) {
        memcpy(wanted, powered, HUB_STATE_LEN);
        memcpy(octet(wanted, index, AT_OPEN), "\x2A\0\1", 3);
        try_taken(powered, wanted, set(SET_BREDR, index, 1), HUB_STARTED, 0, 0);
    }
}

/* A state is lent: every call answers 5, or none does. */
static void try_state(const char *what, size_t with, const uint8_t *hub, int well_formed)
{
    struct lent state = lend(HUB_STATE_LEN, hub, HUB_STATE_LEN), reply = lend(HUB_IMAGE_MAX, NULL, 0);
    if (well_formed) {
        const uint64_t result = hub_on_air(state.octets, state.length, OFF, reply.octets, reply.length);
        expect(what, with, result, HUB_DONE, &state, &reply, NULL, 0);
    } else {
        try_all_wrong(what, with, &state, &reply, HUB_BAD_STATE);
    }
    take_back(reply);
    take_back(state);
}

/* The BR/EDR octet with every value at each controller, and where there is none. */
static void try_octets(void)
{
    static uint8_t changed[HUB_STATE_LEN];
    for (unsigned index = 0; index < 4; index++)
        for (unsigned value = 0; value < 256; value++) {
            const int right = index == LE ? value == 0 : index == CLASSIC ? value == 1 : value < 2;
            memcpy(changed, base, HUB_STATE_LEN);
            *octet(changed, index, AT_BREDR) = (uint8_t)value;
            try_state("octet", value, changed, right);
            memset(octet(changed, index, 0), 0, BLOCK);
            *octet(changed, index, AT_BREDR) = (uint8_t)value;
            if (index != OFF && value != 0)
                try_state("octet of no controller", value, changed, 0);
        }
}

/* Octets written over those of a block: up to three, by place and value; no place is 0. */
static const struct {
    const uint8_t *hub;
    unsigned index, octets[3][2];
    int well_formed;
} changes[] = {
    { base, OFF, { { AT_LOW_ENERGY, 0 } }, 0 },                                                /* neither transport on */
    { base, CLASSIC, { { AT_BREDR, 0 } }, 0 },
    { base, OFF, { { AT_CONNECTABLE, 1 }, { AT_DISCOVERABLE, 1 } }, 0 },                       /* discoverable without BR/EDR */
    { base, LE, { { AT_CONNECTABLE, 1 }, { AT_DISCOVERABLE, 1 } }, 0 },
    { powered, OFF, { { AT_CONNECTABLE, 1 }, { AT_DISCOVERABLE, 1 }, { AT_TIMER, 9 } }, 0 },
    { powered, OFF, { { AT_TIMER, 9 } }, 0 },
    { base, LE, { { AT_BREDR, 1 } }, 0 },                                                      /* on without support */
    { base, OFF, { { AT_SUPPORTED, 0x01 }, { AT_BREDR, 1 } }, 0 },
    { base, CLASSIC, { { AT_LOW_ENERGY, 1 } }, 0 },
    { base, DUAL, { { AT_OPEN, 0x2A }, { AT_OPEN + 2, 1 } }, 0 },                              /* under way without power */
    { base, OFF, { { AT_OPEN, 0x2A }, { AT_OPEN + 2, 1 } }, 0 },
    { powered, DUAL, { { AT_OPEN, 0x2A } }, 0 },                                               /* off under way */
    { powered, OFF, { { AT_OPEN, 0x2A } }, 0 },
    { powered, OFF, { { AT_OPEN, 0x2A }, { AT_OPEN + 2, 2 } }, 0 },
    { powered, DUAL, { { AT_OPEN, 0x2A }, { AT_OPEN + 2, 1 }, { AT_OPEN + 3, 1 } }, 0 },       /* with an octet more */
    { powered, DUAL, { { AT_OPEN, 0x2A }, { AT_OPEN + 1, 1 }, { AT_OPEN + 2, 1 } }, 0 },
    { powered, DUAL, { { AT_OPEN, 0x2A }, { AT_OPEN + 2, 1 }, { AT_LOW_ENERGY, 0 } }, 0 },     /* with LE off, without support */
    { powered, CLASSIC, { { AT_OPEN, 0x2A }, { AT_OPEN + 2, 1 } }, 0 },
    { powered, LE, { { AT_OPEN, 0x2A }, { AT_OPEN + 2, 1 } }, 0 },
    { powered, OFF, { { AT_OPEN, 0x0D } }, 0 },                                                /* LE off under way, discoverable under way */
    { powered, OFF, { { AT_OPEN, 0x06 }, { AT_OPEN + 2, 1 }, { AT_CONNECTABLE, 1 } }, 0 },
    { base, DUAL, { { AT_BREDR, 0 } }, 1 },                                                    /* the limits of what is taken */
    { base, DUAL, { { AT_LOW_ENERGY, 0 } }, 1 },
    { base, OFF, { { AT_BREDR, 1 }, { AT_CONNECTABLE, 1 }, { AT_DISCOVERABLE, 1 } }, 1 },
    { powered, DUAL, { { AT_OPEN, 0x2A }, { AT_OPEN + 2, 1 } }, 1 },
    { powered, OFF, { { AT_OPEN, 0x2A }, { AT_OPEN + 2, 1 } }, 1 },
    { powered, OFF, { { AT_OPEN, 0x0D }, { AT_OPEN + 2, 1 } }, 1 },
    { powered, OFF, { { AT_OPEN, 0x06 } }, 1 },
};

/* Each of these states is lent; then a static address beside BR/EDR on, and beside Set BR/EDR under way. */
static void try_states(void)
{
    static uint8_t changed[HUB_STATE_LEN];
    for (size_t i = 0; i < sizeof changes / sizeof changes[0]; i++) {
        memcpy(changed, changes[i].hub, HUB_STATE_LEN);
        for (int k = 0; k < 3; k++)
            if (changes[i].octets[k][0] != 0)
                *octet(changed, changes[i].index, changes[i].octets[k][0]) = (uint8_t)changes[i].octets[k][1];
        try_state("state", i, changed, changes[i].well_formed);
    }
    for (unsigned index = DUAL; index <= OFF; index++)
        for (unsigned i = 0; i < 3; i++) {
            memcpy(changed, i == 0 ? base : i == 1 ? powered : slow, HUB_STATE_LEN);
            memcpy(octet(changed, index, AT_STATIC), "\1\2\3\4\5\306", 6);
            try_state("static address", i, changed, i < 2);
        }
}

/* Saves into buffers of seven lengths, with BR/EDR on or off at each of the two, which the image says; moved back, one that has it off is answered 8. */
static void try_saves(void)
{
    static const size_t rooms[] = { 0, 1, HUB_REPLY_MIN, HUB_IMAGE_MAX - 1, HUB_IMAGE_MAX, HUB_IMAGE_MAX + 1, 20000 };
    for (unsigned off = 0; off < 4; off++)
        for (unsigned i = 0; i < 7; i++) {
            struct lent state = lend(HUB_STATE_LEN, on, HUB_STATE_LEN), reply = lend(rooms[i], NULL, 0), saved = lend(lengths[1], images[1], lengths[1]);
            const unsigned answer = rooms[i] < HUB_IMAGE_MAX ? HUB_SMALL_BUFFER : HUB_DONE, back = answer == HUB_DONE && off ? HUB_NOT_IN_IMAGE : answer;
            for (unsigned index = DUAL; index <= OFF; index++) {
                const size_t at = FLAGS + in_image[1] * (size_t)index + 3;
                *octet(state.octets, index, AT_BREDR) = *octet(state.before, index, AT_BREDR) = !(off >> index & 1);
                saved.octets[at] = saved.before[at] = (uint8_t)(images[1][at] ^ (off >> index & 1) << 7);
            }
            expect("save", rooms[i], hub_save(state.octets, state.length, reply.octets, reply.length), answer, &state, &reply, saved.octets,
                   answer == HUB_DONE ? saved.length : 0);
            memset(reply.octets, FILLER, reply.length);
            expect("moved back", rooms[i], hub_downgrade(saved.octets, saved.length, reply.octets, reply.length), back, &saved, &reply, images[0],
                   back == HUB_DONE ? lengths[0] : 0);
            *octet(state.octets, LE, AT_BREDR) = *octet(state.before, LE, AT_BREDR) = 1;
            memset(reply.octets, FILLER, reply.length);
            expect("save", rooms[i], hub_save(state.octets, state.length, reply.octets, reply.length), HUB_BAD_STATE, &state, &reply, NULL, 0);
            take_back(saved);
            take_back(reply);
            take_back(state);
        }
}

/* The place in a block of the setting with this bit. */
static unsigned place_of(unsigned bit)
{
    return bit == 1 ? AT_CONNECTABLE : bit == 4 ? AT_DISCOVERABLE + 1 : bit == 7 ? AT_BREDR : AT_LOW_ENERGY;
}

/* Images of both versions with each flag bit turned over at each controller: all but 1, 4, 9 and, in version 2, 7 are answered 74. */
static void try_images(unsigned version)
{
    for (unsigned index = 0; index < 4; index++)
        for (unsigned bit = 0; bit < 32; bit++) {
            struct lent state = lend(HUB_STATE_LEN, NULL, 0), lent = lend(lengths[version - 1], images[version - 1], lengths[version - 1]);
            const int right = bit == 1 || bit == 4 || (index <= OFF && (bit == 9 || (bit == 7 && version == 2)));
            const size_t flags = FLAGS + in_image[version - 1] * (size_t)index, at = flags + 3 - bit / 8;
            uint64_t result;
            lent.octets[at] = lent.before[at] = (uint8_t)(lent.octets[at] ^ 1u << bit % 8);
            memcpy(state.before, right ? on : state.octets, HUB_STATE_LEN);
            if (right)
                *octet(state.before, index, place_of(bit)) ^= 1;
            result = hub_load(state.octets, state.length, lent.octets, lent.length);
            expect_extra("image", bit, result, right ? HUB_DONE : HUB_IMAGE_FIELD, right ? 0 : (uint32_t)flags, &state, NULL, NULL, 0);
            expect("image, as it was", bit, HUB_DONE, HUB_DONE, &lent, NULL, NULL, 0);
            take_back(lent);
            take_back(state);
        }
}

/* The hubs, made by the hub's own entries. */
static void make_hubs(void)
{
    static const unsigned supported[4] = { 0x0281, 0x0281, 0x0081, 0x0201 };
    uint8_t reply[HUB_REPLY_MIN];
    uint64_t result;
    must("load", hub_load(on, HUB_STATE_LEN, empty, sizeof empty), HUB_DONE);
    for (unsigned index = 0; index < 4; index++)
        must("plug", hub_plug(on, HUB_STATE_LEN, index, address, 6, 9, 15, supported[index], reply, sizeof reply), HUB_DONE);
    result = hub_save(on, HUB_STATE_LEN, images[1], sizeof images[1]);
    must("save", result, HUB_DONE);
    lengths[1] = hub_count(result);
    result = hub_downgrade(images[1], lengths[1], images[0], sizeof images[0]);
    must("the move to version 1", result, HUB_DONE);
    lengths[0] = hub_count(result);
    memcpy(base, on, HUB_STATE_LEN);
    must_send(base, set(SET_BREDR, OFF, 0), HUB_DONE);
    memcpy(powered, base, HUB_STATE_LEN);
    for (unsigned index = 0; index < 4; index++)
        must_set(powered, 0x0005, index, 1, 1, 0, HUB_STARTED, 1);
    memcpy(waiting, powered, HUB_STATE_LEN);
    memcpy(slow, powered, HUB_STATE_LEN);
    for (unsigned index = 0; index < 4; index++)
        must_send(waiting, set(0x0007, index, 0), HUB_STARTED);
    for (unsigned index = DUAL; index <= OFF; index++)
        must_send(slow, set(SET_BREDR, index, 1), HUB_STARTED);
}

int main(void)
{
    make_hubs();
    try_values();
    try_busy();
    try_rejected();
    try_right();
    try_octets();
    try_states();
    try_saves();
    try_images(1);
    try_images(2);
    printf("bad BR/EDR: %lu checks, %lu failures\n", tried, failures);
    return failures != 0;
}
