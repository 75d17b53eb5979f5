/*
 * hub_next_frame: over every reply of several packets that the busy hub can be made to give, and over octets that are no packets. Each row of octets
 * is lent by malloc with exactly its length, so that valgrind and the sanitizers see a look past the count.
 */
#include "busy.h"

static unsigned long walks, packets, failures;

static void expect(const char *what, int right)
{
    if (right)
        return;
    printf("frames: %s\n", what);
    failures++;
}

/* Walks over a copy of some octets; gives the number of packets, and where the walk stopped. Each packet begins where the last one ended. */
static unsigned walk(const uint8_t *octets, size_t count, size_t *stopped)
{
    uint8_t *copy = (uint8_t *)malloc(count);
    struct hub_frame frame;
    unsigned found = 0;
    size_t place = 0, before = 0;
    if (count > 0 && !copy)
        exit(EXIT_FAILURE);
    if (count > 0)
        memcpy(copy, octets, count);
    while (hub_next_frame(copy, count, &place, &frame)) {
        expect("the parameters stand behind their header", frame.params == copy + before + 6);
        expect("the place is moved behind the packet", place == before + 6 + frame.length && place <= count);
        expect("code and index", frame.code == (copy[before] | copy[before + 1] << 8) && frame.index == (copy[before + 2] | copy[before + 3] << 8));
        before = place;
        found++;
    }
    expect("the place stays where there is no packet", place == before);
    walks++;
    packets += found;
    *stopped = place;
    free(copy);
    return found;
}

/* A reply: so many packets, all of it read; and no more than the whole ones of each of its beginnings. */
static void reply_of(const char *what, const uint8_t *octets, size_t count, unsigned wanted)
{
    size_t stopped;
    expect(what, walk(octets, count, &stopped) == wanted && stopped == count);
    for (size_t shorter = 0; shorter < count; shorter++)
        expect(what, walk(octets, shorter, &stopped) < wanted && stopped <= shorter);
}

/* Replies with Advertising Added and Advertising Removed: of 0, which has all five instances, three have a timeout. */
static void advertising(uint8_t *state, uint8_t *reply)
{
    struct packet packet;
    uint64_t result;
    result = hub_clock(state, HUB_STATE_LEN, 1301 + 0x7FFFFFFFu, reply, HUB_REPLY_MIN);
    reply_of("the longest clock step", reply, hub_count(result), 3);
    add_instance(&packet, 0, 2, 3, 9, 31, 31);
    result = hub_command(state, HUB_STATE_LEN, packet.octets, packet.length, reply, HUB_REPLY_MIN);
    reply_of("Add Advertising", reply, hub_count(result), 2);
    result = hub_command(state, HUB_STATE_LEN, packet.octets, packet.length, reply, HUB_REPLY_MIN);
    reply_of("Add Advertising of one that is there", reply, hub_count(result), 1);
    result = hub_report(state, HUB_STATE_LEN, 0, 0, reply, HUB_REPLY_MIN);
    reply_of("Low Energy is off: reply, New Settings, three instances", reply, hub_count(result), 5);
    make_packet(&packet, 0x003F, 2, 1);
    result = hub_command(state, HUB_STATE_LEN, packet.octets, packet.length, reply, HUB_REPLY_MIN);
    reply_of("Remove Advertising of both", reply, hub_count(result), 3);
}

/* The busy hub's replies of one packet and of more. */
static void replies(void)
{
    static uint8_t state[HUB_STATE_LEN], reply[HUB_REPLY_MIN];
    struct packet packet;
    uint64_t result;
    make_busy(state);
    make_packet(&packet, 0x0001, 0xFFFF, 0);
    result = hub_command(state, sizeof state, packet.octets, packet.length, reply, sizeof reply);
    reply_of("Read Version", reply, hub_count(result), 1);
    make_packet(&packet, 0x0034, 0, 7);
    result = hub_command(state, sizeof state, packet.octets, packet.length, reply, sizeof reply);
    reply_of("Remove Device of all 32", reply, hub_count(result), 33);
    local_name(&packet, 1, 'z');
    result = hub_command(state, sizeof state, packet.octets, packet.length, reply, sizeof reply);
    reply_of("Set Local Name", reply, hub_count(result), 2);
    result = hub_report(state, sizeof state, 2, 0, reply, sizeof reply);
    reply_of("a report", reply, hub_count(result), 2);
    result = hub_clock(state, sizeof state, 1300, reply, sizeof reply);
    reply_of("a timer that ends at 0, and an instance's timeout at 1", reply, hub_count(result), 2);
    result = hub_unplug(state, sizeof state, 1, reply, sizeof reply);
    reply_of("unplug of a controller whose radio works", reply, hub_count(result), 2);
    result = hub_clock(state, sizeof state, 1301, reply, sizeof reply);
    reply_of("a clock that ends nothing", reply, hub_count(result), 0);
    advertising(state, reply);
}

/* Octets that are no packets: the walk ends where they begin. */
static void bad_octets(void)
{
    static const uint8_t long_field[] = { 4, 0, 0, 0, 0, 0, 6, 0, 1, 0, 5, 0, 1, 2, 3, 4 };
    static const uint8_t longest[] = { 4, 0, 0, 0, 0xFF, 0xFF, 0, 0 };
    uint8_t noise[64];
    uint32_t seed = 1;
    size_t stopped, place;
    struct hub_frame frame;
    expect("no octets, and no pointer", (place = 0, hub_next_frame(NULL, 0, &place, &frame) == 0 && place == 0));
    expect("a place past the count", (place = 7, hub_next_frame(longest, 6, &place, &frame) == 0 && place == 7));
    expect("the last place there is", (place = SIZE_MAX, hub_next_frame(longest, 8, &place, &frame) == 0 && place == SIZE_MAX));
    expect("a length field past the end", walk(long_field, sizeof long_field, &stopped) == 1 && stopped == 6);
    expect("the longest length field", walk(longest, sizeof longest, &stopped) == 0 && stopped == 0);
    for (int turn = 0; turn < 20000; turn++) {
        for (size_t i = 0; i < sizeof noise; i++) {
            seed = seed * 1664525u + 1013904223u;
            noise[i] = (uint8_t)(i % 6 == 5 ? 0 : i % 6 == 4 ? seed >> 24 & 15 : seed >> 24);
        }
        walk(noise, (size_t)turn % (sizeof noise + 1), &stopped);
    }
}

int main(void)
{
    replies();
    bad_octets();
    printf("frames: %lu walks over %lu packets, %lu failures\n", walks, packets, failures);
    return failures != 0;
}
