/*
 * Images that are refused, from C: what is told of them and where, by hub_load, hub_upgrade and hub_downgrade, held to the walk in diagnosis.h. Full images of
 * both versions cut at every octet, with the length field right and as it was; each octet of a small image with two records in each table at every value;
 * every count; indexes; public address, supported settings, flags, static address and keys in every mixture; each record of a full table naming what an earlier
 * one names; and two faults at once, from a list of octets that are wrong. Then what else they answer, which has no offset.
 *
 *     bad_diagnosis [STRIDE]      every STRIDE-th of these; every one if nothing is said
 */
#include "images.h"

enum { TABLE = 6, FULL = 32, KINDS = 8 };

static unsigned long found[3][KINDS]; /* by call and number: taken, or 71 to 77 */
static size_t stride = 1, turn;
static uint8_t *state, *out; /* buffers that no call of this program reads */

/* Counts a number of a call, 0 or 71 to 77. */
static void count(unsigned call, unsigned answer)
{
    found[call][answer < HUB_IMAGE_LENGTH ? 0 : answer - HUB_IMAGE_LENGTH + 1]++;
}

/* One number of a call, and where it is. */
static void hold(const char *what, size_t with, unsigned call, uint64_t result, struct fault fault)
{
    int right = hub_answer(result) == fault.answer && hub_extra(result) == fault.offset && hub_bad_image(result) == (fault.answer != HUB_DONE);
    if (fault.answer == HUB_DONE)
        right = hub_extra(result) == 0 && (hub_answer(result) == HUB_DONE || (call == 2 && hub_answer(result) == HUB_NOT_IN_IMAGE));
    else
        right = right && hub_count(result) == 0;
    tried++;
    count(call, fault.answer);
    if (right)
        return;
    failures++;
    printf("%s (%zu), call %u: answer %u at %lu, and not %u at %zu\n", what, with, call, hub_answer(result), (unsigned long)hub_extra(result), fault.answer,
           fault.offset);
}

/* Loads an image and moves it both ways; every stride-th one. */
static void try_image(const char *what, size_t with, const struct image *image)
{
    struct lent lent;
    if (turn++ % stride != 0)
        return;
    lent = lend(image->length, image->octets, image->length);
    hold(what, with, 0, hub_load(state, HUB_STATE_LEN, lent.octets, lent.length), diagnose(image->octets, image->length, BOTH));
    hold(what, with, 1, hub_upgrade(lent.octets, lent.length, out, HUB_IMAGE_MAX), diagnose(image->octets, image->length, FIRST));
    hold(what, with, 2, hub_downgrade(lent.octets, lent.length, out, HUB_IMAGE_MAX), diagnose(image->octets, image->length, SECOND));
    expect("image, as it was", with, HUB_DONE, HUB_DONE, &lent, NULL, NULL, 0);
    take_back(lent);
}

/* So many controllers, with names of these lengths and so many records in each table. */
static void make(struct image *image, unsigned version, unsigned controllers, size_t name, size_t short_name, unsigned records)
{
    begin(image, version, controllers);
    for (unsigned index = 0; index < controllers; index++)
        append_controller(image, index, name, short_name, records);
    close_up(image);
}

/* Where the count of a table stands in a controller of so many records in each, from its index on. */
static size_t table_at(unsigned version, size_t name, size_t short_name, unsigned table, unsigned count)
{
    size_t at = FIXED + (version == 1 ? NAME + SHORT_NAME : 2 + name + short_name);
    for (unsigned k = 0; k < table; k++)
        at += 1 + records[k] * count;
    return at;
}

/* A full image cut at every octet. */
static void try_cuts(unsigned version)
{
    static struct image whole, cut;
    make(&whole, version, 4, NAME - 1, SHORT_NAME - 1, FULL);
    if (whole.length != HUB_IMAGE_MAX)
        failures++;
    for (size_t length = 0; length <= whole.length; length++) {
        cut = whole;
        cut.length = length;
        try_image("cut", length, &cut);
        close_up(&cut);
        try_image("cut, length right", length, &cut);
    }
}

/* Each octet of a small image at every value. */
static void try_octets(unsigned version)
{
    static struct image image;
    make(&image, version, 1, 2, 1, 2);
    for (size_t at = 0; at < image.length; at++)
        for (unsigned value = 0; value < 256; value++) {
            const uint8_t old = image.octets[at];
            image.octets[at] = (uint8_t)value;
            try_image("octet", at, &image);
            image.octets[at] = old;
        }
}

/* Every controller count and every count of each table, at the first controller and at the last. */
static void try_counts(unsigned version)
{
    static struct image image;
    for (unsigned number = 0; number <= 4; number++)
        for (unsigned value = 0; value < 256; value++) {
            make(&image, version, number, 3, 2, 1);
            image.octets[5] = (uint8_t)value;
            try_image("controllers", value, &image);
        }
    for (unsigned table = 0; table < TABLE; table++)
        for (unsigned value = 0; value < 512; value++) {
            const size_t each = table_at(version, 3, 2, TABLE, 2);
            make(&image, version, 2, 3, 2, 2);
            image.octets[6 + value / 256 * each + table_at(version, 3, 2, table, 2)] = (uint8_t)value;
            try_image("count", table, &image);
        }
}

/* Every four indexes of 0 to 4. */
static void try_indexes(unsigned version)
{
    static struct image image;
    for (unsigned number = 0; number < 625; number++) {
        begin(&image, version, 4);
        for (unsigned k = 0, by = 125; k < 4; k++, by /= 5)
            append_controller(&image, number / by % 5, 1, 0, 0);
        close_up(&image);
        try_image("indexes", number, &image);
    }
}

/* Public address, supported settings, flags, static address and keys in every mixture. */
static void try_mixtures(unsigned version)
{
    static const uint8_t supports[5][4] = { { 0, 0, 0, 1 }, { 0, 0, 0, 0x81 }, { 0, 0, 2, 1 }, { 0, 0, 2, 0x81 }, { 0, 1, 2, 0x81 } };
    static const uint8_t addresses[3][6] = { { 0 }, { 1, 2, 3, 4, 5, 0xC6 }, { 1, 2, 3, 4, 5, 0x86 } };
    static struct image image;
    for (unsigned number = 0; number < 5 * 16 * 3 * 2 * 8; number++) {
        const unsigned keys = number / (5 * 16 * 3 * 2);
        begin(&image, version, 1);
        append_fixed(&image, 2, DUAL, 0);
        memcpy(image.octets + SUPPORTED, supports[number % 5], 4);
        image.octets[FLAGS + 2] = (uint8_t)(number / 5 % 2 << 1);
        image.octets[FLAGS + 3] = (uint8_t)((number / 10 % 2) << 7 | (number / 20 % 2) << 4 | (number / 40 % 2) << 1);
        memcpy(image.octets + FLAGS + 4, addresses[number / 80 % 3], 6);
        if (number / 240 % 2)
            memset(image.octets + 7, 0, 6);
        append_name(&image, NAME, 2);
        append_name(&image, SHORT_NAME, 0);
        for (unsigned table = 0; table < TABLE; table++) {
            const uint8_t one = table >= 1 && table <= 3 ? keys >> (table - 1) & 1 : 0;
            append(&image, &one, 1);
            if (one)
                append_record(&image, table, 0);
        }
        close_up(&image);
        try_image("mixture", number, &image);
    }
}

/* In a full table each record is what an earlier one is; then that one or this one breaks a rule of its own too. */
static void try_repeats(unsigned version)
{
    static struct image image;
    for (unsigned table = 0; table < TABLE; table++)
        for (unsigned later = 0; later < FULL; later++)
            for (unsigned earlier = 0; earlier <= later; earlier++) {
                const size_t length = records[table], first = 6 + table_at(version, 3, 2, table, FULL) + 1, fault = table == 2 ? 9 : table == 0 ? 0 : 6;
                make(&image, version, 1, 3, 2, FULL);
                memmove(image.octets + first + later * length, image.octets + first + earlier * length, length);
                try_image("repeat", later, &image);
                memset(image.octets + first + later * length + fault, table == 0 ? 0 : 0x30, table == 0 ? 16 : 1);
                try_image("repeat, and wrong", later, &image);
                memset(image.octets + first + earlier * length + fault, table == 0 ? 0 : 0x30, table == 0 ? 16 : 1);
                try_image("repeat of a wrong one", later, &image);
            }
}

/* Every two octets of a list that are wrong, and cut at each of them. */
static void try_pairs(unsigned version)
{
    static struct image whole, image;
    size_t places[64], number = 0;
    make(&whole, version, 2, 3, 2, 2);
    for (size_t k = 3; k < 7; k++)
        places[number++] = k;
    for (unsigned controller = 0; controller < 2; controller++) {
        const size_t start = 6 + controller * table_at(version, 3, 2, TABLE, 2);
        static const size_t fields[] = { 0, 10, 14, 23 };
        for (unsigned k = 0; k < 4; k++)
            places[number++] = start + fields[k];
        places[number++] = start + FIXED + (version == 1 ? NAME - 1 : 0);
        places[number++] = start + FIXED + (version == 1 ? NAME + SHORT_NAME - 1 : 4);
        for (unsigned table = 0; table < TABLE; table++) {
            places[number++] = start + table_at(version, 3, 2, table, 2);
            places[number++] = start + table_at(version, 3, 2, table, 2) + 1 + records[table]; /* made as the record before */
            places[number++] = start + table_at(version, 3, 2, table, 2) + 1 + (table == 0 ? 0 : 6);
        }
    }
    for (size_t one = 0; one < number; one++)
        for (size_t other = 0; other < number; other++)
            for (unsigned value = 0; value < 4; value++) {
                image = whole;
                image.octets[places[one]] = value % 2 ? 0xFF : 1;
                image.octets[places[other]] = value / 2 ? 0xF1 : 1;
                try_image("two", one, &image);
                image.length = places[one] > places[other] ? places[one] : places[other];
                close_up(&image);
                try_image("two, cut at the later", one, &image);
            }
}

/* Octets left over, and inputs that are no images. */
static void try_ends(unsigned version)
{
    static struct image image;
    for (size_t more = 0; more < 300; more++) {
        make(&image, version, (unsigned)(more % 5), 3, 2, 1);
        memset(image.octets + image.length, (int)more, more);
        image.length += more;
        close_up(&image);
        try_image("left over", more, &image);
        begin(&image, version, 0);
        image.length = more % 8;
        if (more >= 8)
            memset(image.octets, (int)(more >> 3), image.length);
        try_image("short", more, &image);
    }
}

/* Where the room or the state buffer is too short there is no offset, whatever the image is. */
static void try_others(unsigned version)
{
    static struct image image;
    const size_t rooms[3] = { 0, HUB_REPLY_MIN, HUB_IMAGE_MAX - 1 }, lengths[3] = { 0, HUB_STATE_LEN - 1, HUB_STATE_LEN + 1 };
    make(&image, version, 4, 3, 2, 1);
    image.octets[6] = 9;
    for (unsigned k = 0; k < 3; k++) {
        struct lent lent = lend(image.length, image.octets, image.length), room = lend(rooms[k], NULL, 0), into = lend(lengths[k], NULL, 0);
        expect("upgrade without room", rooms[k], hub_upgrade(lent.octets, lent.length, room.octets, room.length), HUB_SMALL_BUFFER, &lent, &room, NULL, 0);
        expect("downgrade without room", rooms[k], hub_downgrade(lent.octets, lent.length, room.octets, room.length), HUB_SMALL_BUFFER, &lent, &room, NULL, 0);
        expect("load to no state", lengths[k], hub_load(into.octets, into.length, lent.octets, lent.length), HUB_BAD_STATE, &into, NULL, NULL, 0);
        take_back(into);
        take_back(room);
        take_back(lent);
    }
}

int main(int argc, char **argv)
{
    static const char *calls[3] = { "load", "upgrade", "downgrade" };
    int missing = 0;
    stride = argc > 1 ? strtoul(argv[1], NULL, 10) : 1;
    state = (uint8_t *)malloc(HUB_STATE_LEN);
    out = (uint8_t *)malloc(HUB_IMAGE_MAX);
    if (stride == 0 || !state || !out)
        return EXIT_FAILURE;
    for (unsigned version = 1; version <= 2; version++) {
        try_cuts(version);
        try_octets(version);
        try_counts(version);
        try_indexes(version);
        try_mixtures(version);
        try_repeats(version);
        try_pairs(version);
        try_ends(version);
        try_others(version);
    }
    for (unsigned call = 0; call < 3; call++) {
        printf("%s: %lu taken", calls[call], found[call][0]);
        for (unsigned k = 1; k < KINDS; k++)
            printf(", %lu with %u", found[call][k], HUB_IMAGE_LENGTH + k - 1);
        printf("\n");
        for (unsigned k = 0; k < KINDS; k++)
            missing |= found[call][k] == 0;
    }
    free(out);
    free(state);
    printf("bad diagnosis: %lu checks, %lu failures\n", tried, failures);
    return failures != 0 || missing;
}
