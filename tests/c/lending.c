/*
 * What the header says of the buffers that are lent: a pointer may be null where its length is 0, no octet outside a buffer is looked at, and no buffer
 * needs an alignment. Buffers lie in pages of their own with nothing before and behind, so that a look outside ends the program; the calls of
 * memcpy and memset in the library come by here first (--wrap), and must have no null pointer even for no octets.
 */
#define _GNU_SOURCE
#include <sys/mman.h>

#include "busy.h"

enum { PAGE = 4096, ROOM = 8 * PAGE, BUFFERS = 4, UPGRADE = 12, DOWNGRADE = 13, ENTRIES = 14, TEXT = 256 };

static uint8_t *pages[BUFFERS]; /* of each the first and the last page may not be touched */
static uint8_t base[HUB_STATE_LEN], image[HUB_IMAGE_MAX], old_image[HUB_IMAGE_MAX]; /* the busy hub and its image, in version 2 and in version 1 */
static size_t image_length, old_length;
static unsigned long tried, failures, copies;

void *__real_memcpy(void *to, const void *from, size_t count);
void *__real_memset(void *to, int octet, size_t count);
void *__wrap_memcpy(void *to, const void *from, size_t count);
void *__wrap_memset(void *to, int octet, size_t count);

static void expect(const char *what, size_t with, int right)
{
    tried++;
    if (right)
        return;
    failures++;
    printf("lending: %s (%zu)\n", what, with);
}

void *__wrap_memcpy(void *to, const void *from, size_t count)
{
    copies++;
    if (!to || !from)
        expect("memcpy of a null pointer", count, 0);
    return count > 0 ? __real_memcpy(to, from, count) : to;
}

void *__wrap_memset(void *to, int octet, size_t count)
{
    copies++;
    if (!to)
        expect("memset of a null pointer", count, 0);
    return count > 0 ? __real_memset(to, octet, count) : to;
}

/* So many octets of a buffer's pages: right before the page behind, or right behind the page before. */
static uint8_t *place(int buffer, size_t length, int at_end)
{
    return at_end ? pages[buffer] + ROOM - PAGE - length : pages[buffer] + PAGE;
}

/* One of fourteen calls. The octets are those of a packet, an address, an image, a key or a lump. The last two are lent no state. */
static uint64_t call(int which, uint8_t *state, size_t state_len, const uint8_t *octets, size_t octets_len, uint8_t *reply, size_t reply_len)
{
    switch (which) {
    case 0: return hub_command(state, state_len, octets, octets_len, reply, reply_len);
    case 1: return hub_report(state, state_len, 2, 0, reply, reply_len);
    case 2: return hub_clock(state, state_len, 1300, reply, reply_len);
    case 3: return hub_unplug(state, state_len, 1, reply, reply_len);
    case 4: return hub_plug(state, state_len, 1, octets, octets_len, 9, 15, 0x0281, reply, reply_len);
    case 5: return hub_save(state, state_len, reply, reply_len);
    case 7: return hub_name(state, state_len, 2, 0, reply, reply_len);
    case 8: return hub_on_air(state, state_len, 3, reply, reply_len);
    case 9: return hub_why(state, state_len, octets, octets_len, reply, reply_len);
    case 11: return hub_stream(state, state_len, octets, octets_len, reply, reply_len);
    case UPGRADE: return hub_upgrade(octets, octets_len, reply, reply_len);
    case DOWNGRADE: return hub_downgrade(octets, octets_len, reply, reply_len);
    case 10: return hub_look_up(state, state_len, 0, octets_len == 16 ? HUB_UUIDS : HUB_DEVICES, octets, octets_len);
    default: return hub_load(state, state_len, octets, octets_len);
    }
}

/* What a call answers where some of its buffers have no octets: first of all the state, then the reply, then the rest. A lump goes to the list that waits. */
static unsigned wanted(int which, int no_state, int no_octets, int no_reply)
{
    static const unsigned refusals[ENTRIES] = { HUB_BAD_PACKET, HUB_DONE, HUB_DONE, HUB_DONE, HUB_BAD_ARGUMENT,
                                                HUB_DONE, HUB_IMAGE_LENGTH, HUB_DONE, HUB_DONE, HUB_BAD_PACKET, HUB_BAD_ARGUMENT, HUB_INCOMPLETE,
                                                HUB_IMAGE_LENGTH, HUB_IMAGE_LENGTH };
    if (no_state && which < UPGRADE)
        return HUB_BAD_STATE;
    if (no_reply && which != 6 && which != 10)
        return HUB_SMALL_BUFFER;
    return no_octets || which == 11 ? refusals[which] : HUB_DONE;
}

/* Every call with every choice of buffers that have no octets; their pointers are null, or the first octet that may not be touched. */
static void no_octets(int null)
{
    static const uint8_t version[] = { 1, 0, 0xFF, 0xFF, 0, 0 }, address[] = { 1, 2, 3, 4, 5, 6, 1 };
    static uint8_t state[HUB_STATE_LEN], reply[HUB_IMAGE_MAX];
    uint8_t *none = null ? NULL : place(0, 0, 1);
    for (int which = 0; which < ENTRIES; which++)
        for (int mask = 0; mask < 8; mask++) {
            const uint8_t *octets = which == 0 || which == 9 || which == 11 ? version : which == 4 || which == 10 ? address : image;
            size_t length = which == 6 || which == DOWNGRADE ? image_length : which == UPGRADE ? old_length : which == 10 ? 7 : 6;
            uint64_t result;
            octets = which == UPGRADE ? old_image : octets;
            memcpy(state, base, sizeof state);
            if (which == 4)
                must("unplug", hub_unplug(state, sizeof state, 1, reply, sizeof reply), HUB_DONE);
            result = call(which, mask & 1 ? none : state, mask & 1 ? 0 : sizeof state, mask & 2 ? none : octets, mask & 2 ? 0 : length,
                          mask & 4 ? none : reply, mask & 4 ? 0 : sizeof reply);
            expect(null ? "null" : "no octets", (size_t)(10 * which + mask), hub_answer(result) == wanted(which, mask & 1, mask >> 1 & 1, mask >> 2 & 1));
        }
}

/* Packets of many kinds: lists, names, settings, instances, and two that remove every device and every instance. */
static void packet_of(struct packet *packet, unsigned k)
{
    switch (k) {
    case 0: long_term_keys(packet, 3, 32); break;
    case 1: link_keys(packet, 0, 31); break;
    case 2: identity_keys(packet, 1, 32); break;
    case 3: local_name(packet, 2, 'n'); break;
    case 4: make_packet(packet, 0x0034, 0, 7); break;
    case 5: add_uuid(packet, 2, 30); break;
    case 6: make_packet(packet, 0x0004, 1, 0); break;
    case 7: name_device(packet, 0x001B, 3, 1, 8, 1); break;
    case 8: make_packet(packet, 0x0009, 3, 1); break;
    case 9: make_packet(packet, 0x0005, 3, 1); break;
    case 10: add_instance(packet, 3, 5, 7, 9, 31, 31); break;
    case 11: add_instance(packet, 2, 2, 0, 0, 0, 0); break;
    case 12: make_packet(packet, 0x003F, 0, 1); break;
    default: make_packet(packet, 0x0002, 0xFFFF, 0); break;
    }
}

enum { PACKETS = 14, KEYS = 8, LUMPS = 4, MOVES = 2, BEFORE = 2 * PACKETS + KEYS + LUMPS, OTHERS = BEFORE + MOVES, CALLS = OTHERS + 8 };

/* The reply or text buffer that call k of a shift has; load has none. */
static size_t room_of(unsigned k)
{
    return k == CALLS - 2 || (k >= BEFORE && k < OTHERS) ? HUB_IMAGE_MAX : k < PACKETS ? TEXT : HUB_REPLY_MIN;
}

/* Looks for key k: the first, the last and one that is absent, of devices and of UUIDs; then with an octet less and more, which is no key. */
static uint64_t look(unsigned k, uint8_t *state, uint8_t *octets)
{
    static const unsigned entries[KEYS] = { 0, 31, 40, 0, 31, 40, 1, 1 };
    uint8_t key[17] = { 0 };
    size_t length = put_key(key, k < 3 || k > 5 ? HUB_DEVICES : HUB_UUIDS, entries[k]);
    length = k == 6 ? length - 1 : k == 7 ? length + 1 : length;
    memcpy(octets - length, key, length);
    return call(10, state, HUB_STATE_LEN, octets - length, length, NULL, 0);
}

/* Lump k: two parts of the list that waits, its rest with Read Version behind it, and Read Version. */
static uint64_t lump(unsigned k, uint8_t *state, uint8_t *octets, uint8_t *room)
{
    static const size_t from[LUMPS] = { BUSY_TAKEN, 800, 1100, WHOLE }, lengths[LUMPS] = { 100, 300, WHOLE - 1100 + 6, 6 };
    struct packet list;
    uint8_t line[WHOLE + 6] = { 0 };
    long_term_keys(&list, 3, 32);
    memcpy(line, list.octets, WHOLE);
    memcpy(line + WHOLE, "\1\0\377\377\0\0", 6);
    memcpy(octets - lengths[k], line + from[k], lengths[k]);
    return call(11, state, HUB_STATE_LEN, octets - lengths[k], lengths[k], room, HUB_REPLY_MIN);
}

/* Moves the image of version 1 or that of version 2, which ends at a place. */
static uint64_t move(int upgrade, uint8_t *octets, uint8_t *room)
{
    const size_t length = upgrade ? old_length : image_length;
    memcpy(octets - length, upgrade ? old_image : image, length);
    return call(upgrade ? UPGRADE : DOWNGRADE, NULL, 0, octets - length, length, room, HUB_IMAGE_MAX);
}

/* Call k of a shift, each packet first asked about and then given, then keys, lumps and moves; what is lent ends at the places that are given for it. */
static uint64_t one(unsigned k, uint8_t *state, uint8_t *octets, uint8_t *reply)
{
    struct packet packet;
    uint8_t *room = reply - room_of(k);
    if (k < 2 * PACKETS) {
        packet_of(&packet, k % PACKETS);
        memcpy(octets - packet.length, packet.octets, packet.length);
        return call(k < PACKETS ? 9 : 0, state, HUB_STATE_LEN, octets - packet.length, packet.length, room, room_of(k));
    }
    if (k < 2 * PACKETS + KEYS)
        return look(k - 2 * PACKETS, state, octets);
    if (k < BEFORE)
        return lump(k - 2 * PACKETS - KEYS, state, octets, room);
    if (k < OTHERS)
        return move(k == BEFORE, octets, room);
    if (k == CALLS - 1) {
        memcpy(octets - image_length, image, image_length);
        return call(6, state, HUB_STATE_LEN, octets - image_length, image_length, NULL, 0);
    }
    if (k == CALLS - 2)
        return call(5, state, HUB_STATE_LEN, NULL, 0, room, HUB_IMAGE_MAX);
    if (k >= CALLS - 4)
        return call(k == CALLS - 3 ? 7 : 8, state, HUB_STATE_LEN, NULL, 0, room, HUB_REPLY_MIN);
    memcpy(octets - 6, "\1\2\3\4\5\6", 6);
    return call((int)(k - OTHERS) + 1, state, HUB_STATE_LEN, octets - 6, 6, room, HUB_REPLY_MIN);
}

/* A shift with its buffers so many octets before the end of their pages: a sum over all that is answered and written. */
static uint64_t shift(size_t a, size_t b, size_t c)
{
    uint8_t *state = place(0, HUB_STATE_LEN + a, 1), *octets = place(1, b, 1), *reply = place(2, c, 1);
    uint64_t sum = 0;
    memcpy(state, base, HUB_STATE_LEN);
    for (unsigned k = 0; k < CALLS; k++) {
        uint64_t result = one(k, state, octets, reply);
        const uint8_t *room = reply - room_of(k);
        sum = sum * 31 + result;
        for (size_t i = 0; i < hub_count(result); i++)
            sum = sum * 31 + room[i];
        for (size_t i = 0; i < HUB_STATE_LEN; i++)
            sum = sum * 31 + state[i];
    }
    return sum;
}

/* The same comes of it at every alignment of the three. */
static void alignments(void)
{
    uint64_t first = shift(0, 0, 0);
    for (size_t k = 1; k < 16; k++) {
        expect("state moved", k, shift(k, 0, 0) == first);
        expect("packet moved", k, shift(0, k, 0) == first);
        expect("reply moved", k, shift(0, 0, k) == first);
        expect("all moved", k, shift(k, 16 - k, k * 7 % 16) == first);
    }
}

/* Keys right before and right behind a page that may not be touched: the first and the last device and UUID of the busy hub, and absent ones. */
static void keys(int at_end)
{
    static const unsigned entries[3] = { 0, 31, 40 };
    uint8_t *state = place(3, HUB_STATE_LEN, at_end);
    for (unsigned table = 0; table < 6; table++)
        for (unsigned k = 0; k < 3; k++) {
            uint8_t key[16];
            size_t length = put_key(key, table, entries[k]);
            unsigned slot = k == 2 ? HUB_SLOTS : table == HUB_LONG_TERM_KEYS ? entries[k] / 2 * 2 : entries[k];
            uint8_t *octets = place(1, length, at_end);
            uint64_t result;
            memcpy(state, base, HUB_STATE_LEN);
            memcpy(octets, key, length);
            result = hub_look_up(state, HUB_STATE_LEN, 1, table, octets, length);
            expect("a key", table, hub_answer(result) == HUB_DONE && hub_slot(result) == slot && hub_walked(result) == (k == 2 ? 32 : slot + 1));
            expect("a state looked up in", table, memcmp(state, base, HUB_STATE_LEN) == 0 && memcmp(octets, key, length) == 0);
        }
}

/* Buffers right behind a page that may not be touched. */
static void at_start(void)
{
    uint8_t *state = place(3, HUB_STATE_LEN, 0), *reply = place(2, 0, 0), *octets = place(1, 0, 0);
    struct packet packet;
    for (unsigned k = 0; k < PACKETS; k++) {
        packet_of(&packet, k);
        memcpy(state, base, HUB_STATE_LEN);
        memcpy(octets, packet.octets, packet.length);
        expect("why at the start", k, hub_answer(call(9, state, HUB_STATE_LEN, octets, packet.length, reply, TEXT)) == HUB_DONE);
        expect("at the start", k, hub_answer(call(0, state, HUB_STATE_LEN, octets, packet.length, reply, HUB_REPLY_MIN)) <= HUB_REFUSED);
        memcpy(state, base, HUB_STATE_LEN);
        memset(state + AT_TAKEN, 0, HUB_STATE_LEN - AT_TAKEN);
        expect("a lump at the start", k, hub_answer(call(11, state, HUB_STATE_LEN, octets, packet.length, reply, HUB_REPLY_MIN)) <= HUB_REFUSED);
        expect("a part at the start", k, hub_answer(call(11, state, HUB_STATE_LEN, octets, packet.length - 1, reply, HUB_REPLY_MIN)) == HUB_INCOMPLETE);
    }
    memcpy(octets, image, image_length);
    expect("load at the start", 0, hub_answer(call(6, state, HUB_STATE_LEN, octets, image_length, NULL, 0)) == HUB_DONE);
    expect("downgrade at the start", 0, call(DOWNGRADE, NULL, 0, octets, image_length, reply, HUB_IMAGE_MAX) == HUB_DONE + 256 * (uint64_t)old_length);
    memcpy(octets, old_image, old_length);
    expect("upgrade at the start", 0, call(UPGRADE, NULL, 0, octets, old_length, reply, HUB_IMAGE_MAX) == HUB_DONE + 256 * (uint64_t)image_length);
    memcpy(state, base, HUB_STATE_LEN);
    expect("on air at the start", 0, hub_answer(call(8, state, HUB_STATE_LEN, NULL, 0, reply, HUB_REPLY_MIN)) == HUB_DONE);
    expect("save at the start", 0, hub_answer(call(5, state, HUB_STATE_LEN, NULL, 0, reply, HUB_IMAGE_MAX)) == HUB_DONE);
}

/*
 * The first octets of an image, right before a page that may not be touched: no call looks behind them. With the length field right, and of fewer than five
 * octets, the end is at fault, else the length field; the move from the other version tells that.
 */
static void cuts(const uint8_t *whole, size_t length)
{
    uint8_t *state = place(3, HUB_STATE_LEN, 1), *reply = place(2, HUB_IMAGE_MAX, 1);
    for (size_t k = 0; k < length; k += k < 400 ? 1 : 37)
        for (int right = 0; right < 2; right++) {
            const uint64_t cut = HUB_IMAGE_LENGTH + ((uint64_t)(right || k < 5 ? k : 0) << 32), other = k < 5 ? cut : HUB_IMAGE_VERSION + ((uint64_t)4 << 32);
            uint8_t *octets = place(1, k, 1);
            memcpy(octets, whole, k);
            if (right && k >= 4) {
                octets[2] = (uint8_t)(k >> 8);
                octets[3] = (uint8_t)k;
            }
            expect("load of a cut image", k, call(6, state, HUB_STATE_LEN, octets, k, NULL, 0) == cut);
            expect("upgrade of a cut image", k, call(UPGRADE, NULL, 0, octets, k, reply, HUB_IMAGE_MAX) == (whole[4] == 1 ? cut : other));
            expect("downgrade of a cut image", k, call(DOWNGRADE, NULL, 0, octets, k, reply, HUB_IMAGE_MAX) == (whole[4] == 2 ? cut : other));
        }
}

int main(void)
{
    for (int i = 0; i < BUFFERS; i++) {
        pages[i] = (uint8_t *)mmap(NULL, ROOM, PROT_READ | PROT_WRITE, MAP_PRIVATE | MAP_ANONYMOUS, -1, 0);
        if (pages[i] == MAP_FAILED || mprotect(pages[i], PAGE, PROT_NONE) != 0 || mprotect(pages[i] + ROOM - PAGE, PAGE, PROT_NONE) != 0)
            return EXIT_FAILURE;
    }
    make_busy(base);
    image_length = hub_count(hub_save(base, sizeof base, image, sizeof image));
    old_length = hub_count(hub_downgrade(image, image_length, old_image, sizeof old_image));
    cuts(image, image_length);
    cuts(old_image, old_length);
    no_octets(1);
    no_octets(0);
    alignments();
    at_start();
    keys(0);
    keys(1);
    printf("lending: %lu checks, %lu calls of memcpy and memset, %lu failures\n", tried, copies, failures);
    return failures != 0 || copies == 0;
}
