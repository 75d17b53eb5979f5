/*
 * Static random addresses from C: the two that have both top bits set and a random part, the 46 bits below, of all 0 or all 1, and all neighbours of these
 * in one bit. Each is a static address and the address of a long term and of an identity resolving key, the first or the last one, in a command, in an
 * image of either version, loaded and moved, and in a lent state. Of these 98 the two and their neighbours in the top bits are refused, with Invalid
 * Parameters, 74 or 76 where it stands, and 5, and nothing lent is touched; the others are taken, and so is every one of an LE Public key. Three more lack a
 * top bit, with bits of both kinds below it, and are refused too. What is taken stands in the state where it has to, and all else there is as it was.
 */
#include "lent.h"

enum { INDEX = 1, KEYS = 3, INVALID_PARAMETERS = 0x0D, LE_PUBLIC = 1, LE_RANDOM = 2, NAME_LENGTH = 100, SHORT_LENGTH = 10, NAMES = 30 };

static uint8_t base[HUB_STATE_LEN];  /* a hub with one controller, three entries in each of its tables, as load makes it */
static uint8_t image[HUB_IMAGE_MAX]; /* its image, and the same in version 1 */
static uint8_t old_image[HUB_IMAGE_MAX];
static size_t image_length, old_length;

static const uint8_t alike[2][6] = { { 0, 0, 0, 0, 0, 0xC0 }, { 0xFF, 0xFF, 0xFF, 0xFF, 0xFF, 0xFF } };

/* Where the tables begin in the image of each version. */
enum { TABLES = NAMES + 1 + NAME_LENGTH + 1 + SHORT_LENGTH, OLD_TABLES = NAMES + 260 };

/* Where an address goes: by which command, and from where on in its packet, in the image and in a block, in records of so many octets. */
static const struct place {
    const char *what;
    unsigned code;
    size_t in_packet, in_image, in_block, record;
} places[] = {
    { "static address", 0x002B, 6, 24, AT_STATIC, 0 },
    { "long term key", 0x0013, 8, TABLES + 1 + 17 * KEYS + 1 + 25 * KEYS + 1, AT_LONG_TERM, 36 },
    { "identity resolving key", 0x0030, 8, TABLES + 1 + 17 * KEYS + 1 + 25 * KEYS + 1 + 36 * KEYS + 1, AT_IDENTITY, 23 },
};

/* One address that is tried: its place, which key it is there and of which type, and whether it is taken. */
struct trial {
    const struct place *place;
    unsigned key, type;
    uint8_t address[6];
    int taken;
    uint8_t state[HUB_STATE_LEN]; /* the base with the address in its place */
};

/* Writes the address over the one of the trial's key that stands from a place on; of a key the type too. */
static void put(const struct trial *trial, uint8_t *first)
{
    uint8_t *at = first + trial->place->record * trial->key;
    memcpy(at, trial->address, 6);
    if (trial->place->record != 0)
        at[6] = (uint8_t)trial->type;
}

/* The command: all keys of the base again, one of them with the address. */
static void make_command(const struct trial *trial, struct packet *packet)
{
    if (trial->place->code == 0x002B)
        make_packet(packet, 0x002B, INDEX, 6);
    else if (trial->place->code == 0x0013)
        long_term_keys(packet, INDEX, KEYS);
    else
        identity_keys(packet, INDEX, KEYS);
    put(trial, packet->octets + trial->place->in_packet);
}

/* The command is done, and the state has the address; or it is refused by Command Status. */
static void try_command(const struct trial *trial, size_t number)
{
    const uint8_t code = (uint8_t)trial->place->code, settings = code == 0x2B ? 4 : 0;
    const uint8_t done[13] = { 1, 0, INDEX, 0, (uint8_t)(3 + settings), 0, code, 0, 0, 0x80, 0x02, 0, 0 };
    const uint8_t refusal[9] = { 2, 0, INDEX, 0, 3, 0, code, 0, INVALID_PARAMETERS };
    struct lent state = lend(HUB_STATE_LEN, base, HUB_STATE_LEN), reply = lend(HUB_REPLY_MIN, NULL, 0), lent;
    struct packet packet;
    uint64_t result;
    make_command(trial, &packet);
    lent = lend(packet.length, packet.octets, packet.length);
    result = hub_command(state.octets, state.length, lent.octets, lent.length, reply.octets, reply.length);
    if (trial->taken) {
        memcpy(state.before, trial->state, HUB_STATE_LEN);
        expect(trial->place->what, number, result, HUB_DONE, &state, &reply, done, 9u + settings);
    } else {
        expect(trial->place->what, number, result, HUB_REFUSED, &state, &reply, refusal, sizeof refusal);
    }
    expect("packet, as it was", number, HUB_DONE, HUB_DONE, &lent, NULL, NULL, 0);
    take_back(lent);
    take_back(reply);
    take_back(state);
}

/* The image of version 1 or 2 with the address in its place. */
static struct lent lend_image(const struct trial *trial, int old)
{
    struct lent lent = old ? lend(old_length, old_image, old_length) : lend(image_length, image, image_length);
    put(trial, lent.octets + trial->place->in_image + (old && trial->place->in_image > TABLES ? OLD_TABLES - TABLES : 0));
    memcpy(lent.before, lent.octets, lent.length);
    return lent;
}

/* The image loads to the state that has the address, and is moved to the other version; or both say that the field or the record is wrong. */
static void try_image(const struct trial *trial, size_t number, int old)
{
    struct lent state = lend(HUB_STATE_LEN, NULL, 0), reply = lend(HUB_IMAGE_MAX, NULL, 0);
    struct lent lent = lend_image(trial, old), other = lend_image(trial, !old);
    const size_t moved = old && trial->place->in_image > TABLES ? OLD_TABLES - TABLES : 0;
    const size_t at = trial->place->in_image + moved + trial->place->record * trial->key;
    const unsigned answer = trial->taken ? HUB_DONE : trial->place->record == 0 ? HUB_IMAGE_FIELD : HUB_IMAGE_RECORD;
    const uint32_t extra = trial->taken ? 0 : (uint32_t)at;
    uint64_t result = hub_load(state.octets, state.length, lent.octets, lent.length);
    if (trial->taken)
        memcpy(state.before, trial->state, HUB_STATE_LEN);
    expect_extra(trial->place->what, number, result, answer, extra, &state, NULL, NULL, 0);
    result = (old ? hub_upgrade : hub_downgrade)(lent.octets, lent.length, reply.octets, reply.length);
    expect_extra("image, moved", number, result, answer, extra, &lent, &reply, other.octets, trial->taken ? other.length : 0);
    take_back(other);
    take_back(lent);
    take_back(reply);
    take_back(state);
}

/* The state that has the address is lent: it is named, saved and given a clock reading; or every call answers 5. */
static void try_state(const struct trial *trial, size_t number)
{
    struct lent state = lend(HUB_STATE_LEN, trial->state, HUB_STATE_LEN), reply = lend(HUB_IMAGE_MAX, NULL, 0);
    uint8_t name[NAME_LENGTH], saved[HUB_IMAGE_MAX];
    uint64_t result;
    memset(name, 'a' + INDEX, sizeof name);
    memcpy(saved, image, image_length);
    put(trial, saved + trial->place->in_image);
    if (trial->taken) {
        result = hub_name(state.octets, state.length, INDEX, 0, reply.octets, reply.length);
        expect(trial->place->what, number, result, HUB_DONE, &state, &reply, name, sizeof name);
        memset(reply.octets, FILLER, reply.length);
        result = hub_save(state.octets, state.length, reply.octets, reply.length);
        expect(trial->place->what, number, result, HUB_DONE, &state, &reply, saved, image_length);
        memset(reply.octets, FILLER, reply.length);
        result = hub_clock(state.octets, state.length, 7, reply.octets, reply.length);
        state.before[0] = 7;
        expect(trial->place->what, number, result, HUB_DONE, &state, &reply, NULL, 0);
    } else {
        try_all_wrong(trial->place->what, number, &state, &reply, HUB_BAD_STATE);
    }
    take_back(reply);
    take_back(state);
}

/* An address in every place, as the first and as the last key, of both types of LE. */
static void try_address(const uint8_t *address, size_t number, int taken)
{
    static struct trial trial;
    memcpy(trial.address, address, 6);
    for (int i = 0; i < 3; i++)
        for (trial.key = 0; trial.key < KEYS; trial.key += KEYS - 1)
            for (trial.type = LE_PUBLIC; trial.type <= LE_RANDOM; trial.type++) {
                trial.place = &places[i];
                if (places[i].record == 0 && (trial.key != 0 || trial.type != LE_RANDOM))
                    continue;
                trial.taken = taken || trial.type == LE_PUBLIC;
                memcpy(trial.state, base, HUB_STATE_LEN);
                put(&trial, trial.state + FIRST_BLOCK + BLOCK * INDEX + trial.place->in_block);
                try_command(&trial, number);
                try_image(&trial, number, 0);
                try_image(&trial, number, 1);
                try_state(&trial, number);
            }
}

/* The hub with one dual-mode controller, made by the hub's own entries, saved and loaded again. */
static void make_base(void)
{
    uint8_t reply[HUB_REPLY_MIN];
    struct packet packet;
    uint64_t result;
    must("load", hub_load(base, HUB_STATE_LEN, empty, sizeof empty), HUB_DONE);
    must("plug", hub_plug(base, HUB_STATE_LEN, INDEX, address, 6, 9, 15, 0x0281, reply, sizeof reply), HUB_DONE);
    fill_tables(base, INDEX, KEYS, 1);
    memcpy(make_packet(&packet, 0x002B, INDEX, 6), "\x09\x08\x07\x06\x05\xC4", 6);
    must_send(base, &packet, HUB_DONE);
    result = hub_save(base, HUB_STATE_LEN, image, sizeof image);
    must("save", result, HUB_DONE);
    image_length = hub_count(result);
    result = hub_downgrade(image, image_length, old_image, sizeof old_image);
    must("the move to version 1", result, HUB_DONE);
    old_length = hub_count(result);
    must("load", hub_load(base, HUB_STATE_LEN, image, image_length), HUB_DONE);
}

/* Both addresses, numbered 0 and 50, and behind each its neighbours, by the bit changed: those in the lower 46 bits are taken. Then top bits 00, 01, 10. */
int main(void)
{
    make_base();
    for (size_t i = 0; i < 2; i++) {
        try_address(alike[i], 50 * i, 0);
        for (size_t bit = 0; bit < 48; bit++) {
            uint8_t neighbour[6];
            memcpy(neighbour, alike[i], 6);
            neighbour[bit / 8] ^= (uint8_t)(1u << bit % 8);
            try_address(neighbour, 50 * i + 1 + bit, bit < 46);
        }
    }
    for (unsigned top = 0; top < 3; top++) {
        const uint8_t low[6] = { 0x11, 0x22, 0x33, 0x44, 0x55, (uint8_t)(top << 6 | 0x06) };
        try_address(low, 100 + top, 0);
    }
    printf("bad addresses: %lu checks, %lu failures\n", tried, failures);
    return failures != 0;
}
