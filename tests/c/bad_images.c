/*
 * Images of both versions from C, loaded and moved: each octet of small ones with every value, names of every length and with a zero at every place, every
 * flag for each support, images cut short and with octets behind them, inputs of up to 20,000 octets and of a million, noise, buffers of other lengths.
 * An image that loads is moved from its own version, to the octets that this program makes of it itself. One that does not is answered by all three with the
 * number and the offset that the walk in diagnosis.h finds. What a call refuses leaves all that was lent as it was.
 *
 *     bad_images [STRIDE]      every STRIDE-th value, length and piece of noise away from the limits; every one if nothing is said
 */
#include "images.h"

enum { LONGEST = 20000, MILLION = 1000000 };

static unsigned long taken, refused;
static size_t stride = 1;

/* A name of an image, in the other version; gives the octets that it had. */
static size_t move_name(struct image *to, const uint8_t *from, size_t all)
{
    uint8_t name[NAME] = { 0 };
    size_t used = 0;
    if (to->octets[4] == 1) {
        memcpy(name, from + 1, from[0]);
        append(to, name, all);
        return 1u + from[0];
    }
    while (from[used] != 0)
        used++;
    name[0] = (uint8_t)used;
    append(to, name, 1);
    append(to, from, used);
    return all;
}

/* What an image that loads is in the other version; 0 if that has no place for it. */
static int move(struct image *to, const uint8_t *from)
{
    const uint8_t *at = from + 6;
    begin(to, 3u - from[4], from[5]);
    for (unsigned k = 0; k < from[5]; k++) {
        uint8_t *fixed = to->octets + to->length;
        append(to, at, FIXED);
        if (from[4] == 2 && (at[13] & BREDR) && !(at[17] & BREDR))
            return 0;
        fixed[17] = (uint8_t)((at[17] & ~BREDR) | (from[4] == 1 ? at[13] & BREDR : 0));
        at += FIXED;
        at += move_name(to, at, NAME);
        at += move_name(to, at, SHORT_NAME);
        for (unsigned table = 0; table < 6; table++) {
            const size_t length = 1 + *at * records[table];
            append(to, at, length);
            at += length;
        }
    }
    close_up(to);
    return 1;
}

/* One move of an image with this room: the number and offset, the octets, and all else as it was. */
static void try_move(const char *what, size_t with, const struct lent *image, int upgrade, size_t room, struct fault fault, const struct image *wanted)
{
    struct lent out = lend(room, NULL, 0);
    uint64_t result = (upgrade ? hub_upgrade : hub_downgrade)(image->octets, image->length, out.octets, out.length);
    expect_fault(what, with, result, fault, image, &out, wanted->octets, wanted->length);
    take_back(out);
}

/* The state that an image was loaded to is saved: in version 2, the octets that this program knows. */
static void try_save(const char *what, size_t with, struct lent *state, const uint8_t *octets, size_t length)
{
    struct lent out = lend(HUB_IMAGE_MAX, NULL, 0);
    uint64_t result;
    memcpy(state->before, state->octets, HUB_STATE_LEN);
    result = hub_save(state->octets, state->length, out.octets, out.length);
    expect(what, with, result, HUB_DONE, state, &out, octets, length);
    take_back(out);
}

/*
 * Loads an image and moves it both ways. It must load, or must not, where that is known: 1, 0 or -1. What loads is saved, and moved from its own version; what
 * does not is refused by all.
 */
static void try_image(const char *what, size_t with, const uint8_t *octets, size_t length, int right)
{
    static struct image moved;
    struct lent image = lend(length, octets, length), state = lend(HUB_STATE_LEN, NULL, 0);
    const uint64_t result = hub_load(state.octets, state.length, image.octets, image.length);
    const struct fault fault = diagnose(octets, length, BOTH);
    struct fault up = diagnose(octets, length, FIRST), down = diagnose(octets, length, SECOND);
    const int loads = fault.answer == HUB_DONE;
    if (right >= 0 && right != loads)
        expect("what is known of it", with, HUB_DONE, fault.answer, &image, NULL, NULL, 0);
    if (loads)
        memcpy(state.before, state.octets, HUB_STATE_LEN);
    expect_fault(what, with, result, fault, &state, NULL, NULL, 0);
    expect("image, as it was", with, HUB_DONE, HUB_DONE, &image, NULL, NULL, 0);
    if (loads) {
        if (!move(&moved, octets))
            down.answer = HUB_NOT_IN_IMAGE;
        try_save(what, with, &state, octets[4] == 1 ? moved.octets : octets, octets[4] == 1 ? moved.length : length);
    }
    try_move(what, with, &image, 1, HUB_IMAGE_MAX, up, &moved);
    try_move(what, with, &image, 0, HUB_IMAGE_MAX, down, &moved);
    taken += loads;
    refused += !loads;
    take_back(state);
    take_back(image);
}

/* Each octet of a small image with every value; with the length field as it is. */
static void try_octets(const struct image *image)
{
    static struct image changed;
    size_t k = 0;
    changed = *image;
    for (size_t at = 0; at < image->length; at++)
        for (unsigned value = 0; value < 256; value++, k++)
            if (k % stride == 0) {
                changed.octets[at] = (uint8_t)value;
                try_image("octet", at, changed.octets, changed.length, value == image->octets[at] ? 1 : -1);
                changed.octets[at] = image->octets[at];
            }
}

/* Names of version 2 of every length: 248 and 10 are the most; a zero in one is refused wherever it stands. */
static void try_names(void)
{
    static struct image image;
    for (size_t length = 0; length < 256; length++) {
        make_one(&image, 2, length, 2, 1);
        try_image("name length", length, image.octets, image.length, length < NAME);
        for (size_t k = 0; k < length; k += length == NAME - 1 || length < 12 ? 1 : 37 * stride) {
            image.octets[NAMES + 1 + k] = 0;
            try_image("zero in a name", k, image.octets, image.length, 0);
            image.octets[NAMES + 1 + k] = 'n';
        }
        make_one(&image, 2, 3, length, 1);
        try_image("short name length", length, image.octets, image.length, length < SHORT_NAME);
        for (size_t k = 0; k < length && length < SHORT_NAME; k++) {
            image.octets[NAMES + 5 + k] = 0;
            try_image("zero in a short name", k, image.octets, image.length, 0);
            image.octets[NAMES + 5 + k] = 'n';
        }
    }
}

/* Names of version 1: any octets behind a zero are taken, and lost on the way to version 2; the last octet of each is a zero. */
static void try_tails(void)
{
    static struct image image;
    for (size_t at = 0; at < NAME + SHORT_NAME; at++) {
        make_one(&image, 1, 3, 2, 1);
        image.octets[NAMES + at] = 0x80;
        try_image("name octet", at, image.octets, image.length, at != NAME - 1 && at != NAME + SHORT_NAME - 1);
        memset(image.octets + NAMES, at < NAME ? 0xFF : 0, NAME - 1);
        memset(image.octets + NAMES + NAME, 0xFF, SHORT_NAME - 1);
        image.octets[NAMES + NAME - 1] = image.octets[NAMES + NAME + SHORT_NAME - 1] = 0;
        image.octets[NAMES + at] = 0;
        try_image("name end", at, image.octets, image.length, 1);
    }
}

/* Every set of the flags 1, 4, 7 and 9, with and without each other bit, for each support. */
static void try_flags(unsigned version)
{
    static const unsigned supports[3] = { CLASSIC, LE, DUAL }, bits[4] = { 1u << 1, 1u << 4, BREDR, 1u << 9 };
    static struct image image;
    for (unsigned i = 0; i < 3; i++)
        for (unsigned set = 0; set < 16; set++)
            for (unsigned other = 0; other < 33; other++) {
                const unsigned bredr = version == 2 ? set >> 2 & 1 : supports[i] >> 7 & 1, le = set >> 3;
                const int fits = (supports[i] >> 7 & 1) >= bredr && (supports[i] >> 9 & 1) >= le && (bredr || le) && (version == 2 || !(set & 4));
                uint32_t flags = 0;
                for (unsigned k = 0; k < 4; k++)
                    flags |= set >> k & 1 ? bits[k] : 0;
                if (other < 32 && (flags >> other & 1 || (0x0292u >> other & 1)))
                    continue;
                flags |= other < 32 ? (uint32_t)1 << other : 0;
                make_one(&image, version, 3, 2, 0);
                image.octets[SUPPORTED + 2] = (uint8_t)(supports[i] >> 8);
                image.octets[SUPPORTED + 3] = (uint8_t)supports[i];
                for (unsigned k = 0; k < 4; k++)
                    image.octets[FLAGS + k] = (uint8_t)(flags >> (24 - 8 * k));
                try_image("flags", flags, image.octets, image.length, fits && other == 32);
            }
}

/* An image cut to every length, with the length field right and as it was, and with octets behind it. */
static void try_cuts(const struct image *image)
{
    static struct image cut;
    for (size_t length = 0; length < image->length + 300; length += length < 400 ? 1 : stride) {
        if (length == image->length)
            continue;
        cut = *image;
        memset(cut.octets + image->length, 0, 300);
        cut.length = length;
        try_image("cut", length, cut.octets, cut.length, 0);
        close_up(&cut);
        if (length >= 4)
            try_image("cut, length right", length, cut.octets, cut.length, 0);
    }
}

/* The length behind another: each up to 400, then some up to 20,000, then a million. */
static size_t next_length(size_t length)
{
    if (length < LONGEST)
        return length + (length < 400 ? 1 : stride);
    return length < MILLION ? MILLION : MILLION + 1;
}

/* So many octets, zeros or others, behind a header of each version with the right length. */
static void try_inputs(void)
{
    static uint8_t octets[MILLION];
    for (unsigned fill = 0; fill < 4; fill++) {
        memset(octets, fill % 2 ? 0xFF : 0, sizeof octets);
        for (size_t length = 0; length <= MILLION; length = next_length(length)) {
            const uint8_t head[6] = { (uint8_t)(length >> 24), (uint8_t)(length >> 16), (uint8_t)(length >> 8), (uint8_t)length, (uint8_t)(1 + fill / 2),
                                      (uint8_t)(length % 5) };
            memcpy(octets, head, sizeof head);
            try_image("input", length, octets, length, length == 6 && head[5] == 0);
        }
    }
}

/* Noise: octets from anywhere, every other time with a header that is right and a fixed part of a controller. */
static void try_noise(unsigned count)
{
    static struct image image;
    uint32_t dice = 12345;
    for (unsigned k = 0; k < count; k++) {
        begin(&image, 1 + k % 2, 1);
        append_fixed(&image, 2, DUAL, 0x0200);
        image.length = k % 4 < 2 ? 0 : image.length;
        for (size_t rest = 7 + k % 700; rest > 0; rest--) {
            const uint8_t octet = (uint8_t)((dice = dice * 1664525 + 1013904223) >> 24);
            append(&image, k % 3 && octet > 40 ? "" : (const char *)&octet, 1);
        }
        if (k % 4 >= 2)
            close_up(&image);
        try_image("noise", k, image.octets, image.length, -1);
    }
}

/* Moves into buffers of seven lengths: 4 where it is too short, whatever the image is; then 71 to 77, then 8. */
static void try_rooms(void)
{
    static const size_t rooms[7] = { 0, 1, HUB_REPLY_MIN, HUB_IMAGE_MAX - 1, HUB_IMAGE_MAX, HUB_IMAGE_MAX + 1, 20000 };
    static struct image images[4], moved;
    for (unsigned k = 0; k < 4; k++)
        make_one(&images[k], 1 + (k > 0), 3, 2, 1);
    images[2].octets[FLAGS + 3] &= (uint8_t)~BREDR; /* off */
    images[3].octets[FLAGS + 3] &= (uint8_t)~BREDR; /* off, and an octet behind */
    images[3].length++;
    for (unsigned k = 0; k < 4; k++)
        for (unsigned i = 0; i < 7; i++) {
            static const struct fault room = { HUB_SMALL_BUFFER, 0 }, other = { HUB_IMAGE_VERSION, 4 }, more = { HUB_IMAGE_LENGTH, 0 };
            static const struct fault done = { HUB_DONE, 0 }, off = { HUB_NOT_IN_IMAGE, 0 };
            const struct fault faults[4][2] = { { other, done }, { done, other }, { off, other }, { more, other } };
            struct lent lent = lend(images[k].length, images[k].octets, images[k].length);
            (void)move(&moved, images[k].octets);
            for (int upgrade = 0; upgrade < 2; upgrade++)
                try_move("room", rooms[i], &lent, upgrade, rooms[i], rooms[i] < HUB_IMAGE_MAX ? room : faults[k][upgrade], &moved);
            take_back(lent);
        }
}

/* Four controllers with everything full; then with an octet that is changed here and there, and with one more. */
static void try_largest(unsigned version)
{
    static struct image image;
    begin(&image, version, 4);
    for (unsigned index = 0; index < 4; index++)
        append_controller(&image, index, NAME - 1, SHORT_NAME - 1, 32);
    close_up(&image);
    try_image("largest", image.length, image.octets, image.length, image.length == HUB_IMAGE_MAX);
    for (size_t at = 0; at < image.length; at += 97 * stride) {
        image.octets[at] ^= 0x40;
        try_image("largest, octet", at, image.octets, image.length, -1);
        image.octets[at] ^= 0x40;
    }
    try_cuts(&image);
}

/* BR/EDR off at each set of four controllers. */
static void try_off(void)
{
    static struct image image;
    for (unsigned off = 0; off < 16; off++) {
        begin(&image, 2, 4);
        for (unsigned index = 0; index < 4; index++) {
            append_controller(&image, index, index, 0, 1);
            if (off >> index & 1)
                image.octets[image.length - (FIXED - 17) - (2 + index) - 6 - 116] &= (uint8_t)~BREDR;
        }
        close_up(&image);
        try_image("off", off, image.octets, image.length, 1);
    }
}

int main(int argc, char **argv)
{
    static struct image image;
    stride = argc > 1 ? strtoul(argv[1], NULL, 10) : 1;
    if (stride == 0)
        return EXIT_FAILURE;
    for (unsigned version = 1; version <= 2; version++) {
        make_one(&image, version, 5, 2, 1);
        try_octets(&image);
        try_cuts(&image);
        try_flags(version);
        try_largest(version);
    }
    try_names();
    try_tails();
    try_off();
    try_rooms();
    try_inputs();
    try_noise(stride == 1 ? 20000 : 400);
    printf("bad images: %lu checks, %lu images that load, %lu that do not, %lu failures\n", tried, taken, refused, failures);
    return failures != 0 || taken == 0 || refused == 0;
}
