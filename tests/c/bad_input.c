/*
 * Bad input from C: each call gets exactly the number that document 01 gives, in its order (5, then 4, then 3, 6 or 7), writes nothing but a refusal's
 * one reply, and leaves the state as it was. Names are asked for right and wrong. bad_advertising.c has what is bad input of advertising, bad_images.c what is
 * no image.
 *
 *     bad_input [STRIDE]      lengths away from the limits only every STRIDE-th time; every one if nothing is said
 */
#include "lent.h"

enum { LONGEST = 70000, UNKNOWN_COMMAND = 0x01, NO_RESOURCES = 0x07, INVALID_PARAMETERS = 0x0D };

static uint8_t base[HUB_STATE_LEN];  /* the busy hub; commands are under way at 0, 1 and 2 */
static uint8_t fresh[HUB_STATE_LEN]; /* a hub without controllers */
static uint8_t image[HUB_IMAGE_MAX]; /* what the busy hub saves, and that in version 1 */
static uint8_t old_image[HUB_IMAGE_MAX];
static size_t image_length, old_length;

static const uint8_t version[] = { 1, 0, 0xFF, 0xFF, 6, 0, 1, 0, 0, 1, 10, 0 };

/* Command Status of index 0. */
static void status_reply(uint8_t *to, unsigned code, unsigned status)
{
    const uint8_t octets[9] = { 2, 0, 0, 0, 3, 0, (uint8_t)code, (uint8_t)(code >> 8), (uint8_t)status };
    memcpy(to, octets, sizeof octets);
}

/* A packet to index 0 of a length, with this code, length field and list count; a status of 0 stands for answer 3. */
static void try_packet(size_t length, unsigned code, size_t field, unsigned count, unsigned status)
{
    const unsigned at = code == 0x0012 ? 7 : 6;
    uint8_t head[9] = { (uint8_t)code, (uint8_t)(code >> 8), 0, 0, (uint8_t)field, (uint8_t)(field >> 8), 0, 0, 0 };
    uint8_t wanted[9];
    struct lent state = lend(HUB_STATE_LEN, base, HUB_STATE_LEN), reply = lend(HUB_REPLY_MIN, NULL, 0), packet;
    uint64_t result;
    head[at] = (uint8_t)count;
    head[at + 1] = (uint8_t)(count >> 8);
    packet = lend(length, head, sizeof head);
    status_reply(wanted, code, status);
    result = hub_command(state.octets, state.length, packet.octets, packet.length, reply.octets, reply.length);
    expect("packet length", length, result, status ? HUB_REFUSED : HUB_BAD_PACKET, &state, &reply, wanted, status ? sizeof wanted : 0);
    expect("packet, as it was", length, HUB_DONE, HUB_DONE, &packet, NULL, NULL, 0);
    take_back(packet);
    take_back(reply);
    take_back(state);
}

/* The number of records with which a list's length is right in sixteen bits; the record length is odd, or four times an odd number. */
static unsigned wrapped_count(unsigned record, size_t octets)
{
    unsigned odd = record % 2 ? record : record / 4, inverse = odd;
    for (int i = 0; i < 4; i++)
        inverse *= 2 - odd * inverse;
    return (unsigned)(record % 2 ? octets : octets / 4) * inverse & (record % 2 ? 0xFFFFu : 0x3FFFu);
}

/* A list whose count fits its length in sixteen bits: only where it fits as a number too is the count looked at, and 33 or more are too many. */
static void try_list(size_t length, unsigned code, unsigned fixed, unsigned record)
{
    unsigned count;
    if (length < 6 + fixed || (record % 2 == 0 && (length - 6 - fixed) % 4 != 0))
        return;
    count = wrapped_count(record, length - 6 - fixed);
    if (count == 0)
        return;
    try_packet(length, code, length - 6, count, fixed + (size_t)record * count == length - 6 && count > 32 ? NO_RESOURCES : INVALID_PARAMETERS);
}

/* Packets of so many octets: a right length field, six that are wrong unless they happen to be right, and lists. */
static void try_packet_length(size_t length)
{
    const size_t rest = length - 6, limit = 6 + 0xFFFF;
    const size_t fields[6] = { rest + 1, rest - 1, rest ^ 0x8000, (rest << 8 & 0xFF00) | (rest >> 8 & 0xFF), 0, 0xFFFF };
    try_packet(length, 0x0008, rest, 0, length >= 6 && length <= limit ? UNKNOWN_COMMAND : 0);
    for (int i = 0; i < 6; i++)
        if ((fields[i] & 0xFFFF) != rest)
            try_packet(length, 0x0008, fields[i], 0, 0);
    if (length <= limit) {
        try_list(length, 0x0012, 3, 25);
        try_list(length, 0x0013, 2, 36);
        try_list(length, 0x0030, 2, 23);
    }
}

/* A state buffer of a wrong length, and one of the right length that is not well formed: 5, whatever else is wrong. */
static void try_states(void)
{
    static const size_t lengths[] = { 0, 1, HUB_STATE_LEN - 1, HUB_STATE_LEN + 1, 100000, HUB_STATE_LEN };
    static const size_t rooms[] = { 0, HUB_REPLY_MIN, HUB_IMAGE_MAX };
    for (int i = 0; i < 6; i++) {
        struct lent state = lend(lengths[i], base, HUB_STATE_LEN);
        if (lengths[i] == HUB_STATE_LEN)
            state.octets[4] = state.before[4] = 2;
        for (int k = 0; k < 3; k++) {
            struct lent reply = lend(rooms[k], NULL, 0);
            uint64_t result = hub_command(state.octets, state.length, read_version, sizeof read_version, reply.octets, reply.length);
            try_all_wrong("state", lengths[i], &state, &reply, HUB_BAD_STATE);
            expect("state", lengths[i], result, HUB_BAD_STATE, &state, &reply, NULL, 0);
            take_back(reply);
        }
        if (lengths[i] != HUB_STATE_LEN) {
            expect("state, load", lengths[i], hub_load(state.octets, state.length, empty, sizeof empty), HUB_BAD_STATE, &state, NULL, NULL, 0);
            expect("state, load", lengths[i], hub_load(state.octets, state.length, empty, 5), HUB_BAD_STATE, &state, NULL, NULL, 0);
        }
        take_back(state);
    }
}

/* A reply buffer of a length: 4 where it is too short, whatever else is wrong; else the call's own number. */
static void try_reply_length(size_t length)
{
    struct lent state = lend(HUB_STATE_LEN, base, HUB_STATE_LEN), reply = lend(length, NULL, 0);
    uint8_t *s = state.octets, *r = reply.octets;
    int fits = length >= HUB_REPLY_MIN, saves = length >= HUB_IMAGE_MAX;
    unsigned small = fits ? HUB_BAD_ARGUMENT : HUB_SMALL_BUFFER;
    if (!fits)
        try_all_wrong("reply length", length, &state, &reply, HUB_SMALL_BUFFER);
    expect("report", length, hub_report(s, HUB_STATE_LEN, 3, 0, r, length), small, &state, &reply, NULL, 0);
    expect("clock", length, hub_clock(s, HUB_STATE_LEN, 999, r, length), small, &state, &reply, NULL, 0);
    expect("same clock", length, hub_clock(s, HUB_STATE_LEN, 1000, r, length), fits ? HUB_DONE : HUB_SMALL_BUFFER, &state, &reply, NULL, 0);
    expect("plug", length, hub_plug(s, HUB_STATE_LEN, 0, address, 6, 9, 15, 0x0281, r, length), small, &state, &reply, NULL, 0);
    expect("unplug", length, hub_unplug(s, HUB_STATE_LEN, 4, r, length), small, &state, &reply, NULL, 0);
    expect("five octets", length, hub_command(s, HUB_STATE_LEN, read_version, 5, r, length), fits ? HUB_BAD_PACKET : HUB_SMALL_BUFFER, &state, &reply,
           NULL, 0);
    expect("read version", length, hub_command(s, HUB_STATE_LEN, read_version, sizeof read_version, r, length), fits ? HUB_DONE : HUB_SMALL_BUFFER,
           &state, &reply, version, fits ? sizeof version : 0);
    if (length > 0)
        memset(reply.octets, FILLER, length);
    expect("name", length, hub_name(s, HUB_STATE_LEN, 0, 2, r, length), small, &state, &reply, NULL, 0);
    expect("on air", length, hub_on_air(s, HUB_STATE_LEN, 4, r, length), small, &state, &reply, NULL, 0);
    expect("none on air", length, hub_on_air(s, HUB_STATE_LEN, 2, r, length), fits ? HUB_DONE : HUB_SMALL_BUFFER, &state, &reply, NULL, 0);
    expect("save", length, hub_save(s, HUB_STATE_LEN, r, length), saves ? HUB_DONE : HUB_SMALL_BUFFER, &state, &reply, image, saves ? image_length : 0);
    if (length > 0)
        memset(reply.octets, FILLER, length);
    expect("downgrade", length, hub_downgrade(image, image_length, r, length), saves ? HUB_DONE : HUB_SMALL_BUFFER, &state, &reply, old_image,
           saves ? old_length : 0);
    if (length > 0)
        memset(reply.octets, FILLER, length);
    expect("upgrade", length, hub_upgrade(old_image, old_length, r, length), saves ? HUB_DONE : HUB_SMALL_BUFFER, &state, &reply, image,
           saves ? image_length : 0);
    take_back(reply);
    take_back(state);
}

/* A name: 6 for an index that is not there and for a number above 1; else the letters before the first zero, however many stand behind it. */
static void try_names(const uint8_t *hub)
{
    struct lent state = lend(HUB_STATE_LEN, hub, HUB_STATE_LEN), reply;
    uint8_t letters[248];
    for (int i = 0; i < NUMBERS; i++)
        for (int k = 0; k < NUMBERS; k++) {
            int there = hub == base && numbers[i] <= 3 && numbers[k] <= 1;
            size_t count = there ? (numbers[k] == 0 ? 100 : 10) : 0;
            reply = lend(HUB_REPLY_MIN, NULL, 0);
            memset(letters, 'a' + (int)(numbers[i] & 3), sizeof letters);
            expect("name", (size_t)i, hub_name(state.octets, HUB_STATE_LEN, numbers[i], numbers[k], reply.octets, HUB_REPLY_MIN),
                   there ? HUB_DONE : HUB_BAD_ARGUMENT, &state, &reply, letters, count);
            take_back(reply);
        }
    take_back(state);
}

/* Index and status: 6 for all but a controller that is there and, for a report, waits and gets a status up to 0x14. */
static void try_numbers(void)
{
    struct lent state = lend(HUB_STATE_LEN, base, HUB_STATE_LEN), reply = lend(HUB_REPLY_MIN, NULL, 0);
    uint8_t *s = state.octets, *r = reply.octets;
    for (int i = 0; i < NUMBERS; i++) {
        for (int k = 0; k < NUMBERS; k++)
            if (numbers[i] > 2 || numbers[k] > 0x14)
                expect("report", (size_t)i, hub_report(s, HUB_STATE_LEN, numbers[i], numbers[k], r, HUB_REPLY_MIN), HUB_BAD_ARGUMENT, &state, &reply,
                       NULL, 0);
        if (numbers[i] > 3)
            expect("unplug", (size_t)i, hub_unplug(s, HUB_STATE_LEN, numbers[i], r, HUB_REPLY_MIN), HUB_BAD_ARGUMENT, &state, &reply, NULL, 0);
        expect("plug", (size_t)i, hub_plug(s, HUB_STATE_LEN, numbers[i], address, 6, 9, 15, 0x0281, r, HUB_REPLY_MIN), HUB_BAD_ARGUMENT, &state, &reply,
               NULL, 0);
    }
    for (uint32_t k = 0; k < 32; k++) {
        uint32_t step = 0x80000000u + (k < 31 ? (1u << k) - 1 : 0x7FFFFFFFu);
        expect("clock step", k, hub_clock(s, HUB_STATE_LEN, 1000 + step, r, HUB_REPLY_MIN), HUB_BAD_ARGUMENT, &state, &reply, NULL, 0);
    }
    take_back(reply);
    take_back(state);
}

/* Plug at a free index: 6 for an address of another length, and for supported settings that cannot be. */
static void try_plugs(void)
{
    static const uint8_t none[6] = { 0 };
    struct lent state = lend(HUB_STATE_LEN, fresh, HUB_STATE_LEN), reply = lend(HUB_REPLY_MIN, NULL, 0);
    uint8_t *s = state.octets, *r = reply.octets;
    for (size_t length = 0; length < 300; length++) {
        struct lent lent = lend(length, address, 6);
        if (length != 6)
            expect("address length", length, hub_plug(s, HUB_STATE_LEN, 0, lent.octets, length, 9, 15, 0x0281, r, HUB_REPLY_MIN), HUB_BAD_ARGUMENT,
                   &state, &reply, NULL, 0);
        take_back(lent);
    }
    for (uint32_t k = 16; k < 32; k++)
        expect("supported bit", k, hub_plug(s, HUB_STATE_LEN, 0, address, 6, 9, 15, 0x0281 | 1u << k, r, HUB_REPLY_MIN), HUB_BAD_ARGUMENT, &state,
               &reply, NULL, 0);
    expect("neither", 0, hub_plug(s, HUB_STATE_LEN, 0, address, 6, 9, 15, 0xFFFF & ~0x0280u, r, HUB_REPLY_MIN), HUB_BAD_ARGUMENT, &state, &reply, NULL,
           0);
    expect("no address", 0, hub_plug(s, HUB_STATE_LEN, 0, none, 6, 9, 15, 0x0281, r, HUB_REPLY_MIN), HUB_BAD_ARGUMENT, &state, &reply, NULL, 0);
    take_back(reply);
    take_back(state);
}

/*
 * The first octets of an image of either version, or the image with some behind it, from load into a buffer that holds anything, and from a move: 71, at the
 * end of fewer than five octets, else at the length field.
 */
static void try_image_length(size_t length)
{
    struct lent state = lend(HUB_STATE_LEN, NULL, 0), reply = lend(HUB_IMAGE_MAX, NULL, 0);
    struct lent cut = lend(length, image, image_length), old = lend(length, old_image, old_length);
    const uint32_t at = length < 5 ? (uint32_t)length : 0;
    if (length != image_length) {
        expect_extra("image length", length, hub_load(state.octets, state.length, cut.octets, length), HUB_IMAGE_LENGTH, at, &state, NULL, NULL, 0);
        expect_extra("image length", length, hub_downgrade(cut.octets, length, reply.octets, reply.length), HUB_IMAGE_LENGTH, at, &cut, &reply, NULL, 0);
    }
    if (length != old_length) {
        expect_extra("image length", length, hub_load(state.octets, state.length, old.octets, length), HUB_IMAGE_LENGTH, at, &state, NULL, NULL, 0);
        expect_extra("image length", length, hub_upgrade(old.octets, length, reply.octets, reply.length), HUB_IMAGE_LENGTH, at, &old, &reply, NULL, 0);
    }
    take_back(old);
    take_back(cut);
    take_back(reply);
    take_back(state);
}

/* Each length from one to another, so many apart. */
static void try_lengths(void (*try_one)(size_t), size_t from, size_t to, size_t apart)
{
    for (size_t length = from; length <= to; length += apart)
        try_one(length);
}

int main(int argc, char **argv)
{
    size_t stride = argc > 1 ? strtoul(argv[1], NULL, 10) : 1;
    uint64_t result;
    if (stride == 0)
        return EXIT_FAILURE;
    make_busy(base);
    result = hub_save(base, HUB_STATE_LEN, image, sizeof image);
    must("save", result, HUB_DONE);
    image_length = hub_count(result);
    result = hub_downgrade(image, image_length, old_image, sizeof old_image);
    must("the move to version 1", result, HUB_DONE);
    old_length = hub_count(result);
    must("load", hub_load(fresh, HUB_STATE_LEN, empty, sizeof empty), HUB_DONE);
    try_lengths(try_packet_length, 0, 40, 1);
    try_lengths(try_packet_length, 41, 65499, stride);
    try_lengths(try_packet_length, 65500, 65600, 1);
    try_lengths(try_packet_length, 65601, LONGEST, stride);
    try_states();
    try_lengths(try_reply_length, 0, 999, stride);
    try_lengths(try_reply_length, 1000, 1100, 1);
    try_lengths(try_reply_length, HUB_IMAGE_MAX - 50, HUB_IMAGE_MAX + 50, 1);
    try_numbers();
    try_names(base);
    try_names(fresh);
    try_plugs();
    try_lengths(try_image_length, 0, old_length + 300, stride);
    printf("bad input: %lu checks, %lu failures\n", tried, failures);
    return failures != 0;
}
