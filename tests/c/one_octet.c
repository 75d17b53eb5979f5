/*
 * Every change of one octet of a busy state, to eight values with one bit flipped, 0 and 0xFF: the changed state is lent to command, report, clock,
 * unplug, save, on air, why, look-up and stream. Each either answers 5 and writes nothing, or gives another answer of its own inside its buffers. All nine
 * answer 5, or none does. What is saved loads, and is moved to version 1 and back, or answered 8 there.
 *
 *     one_octet [STRIDE [FIRST]]      only every STRIDE-th octet, from FIRST on; every one if nothing is said
 */
#include "busy.h"

enum { COMMAND, REPORT, CLOCK, UNPLUG, SAVE, ON_AIR, WHY, LOOK_UP, STREAM, CALLS };
enum { COMMANDS = 25, FILLER = 0xA5 };

static const char *const call_names[CALLS] = { "command", "report", "clock", "unplug", "save", "on air", "why", "look-up", "stream" };
static uint8_t *base, *changed;       /* the busy state, and that with one octet changed */
static uint8_t *state, *reply, *room; /* what is lent, each as long as it must be and no longer: state, reply, save's reply */
static uint8_t *filler;               /* what a reply buffer holds before a call */
static uint8_t *other, *again;        /* a saved image in version 1, and moved to version 2 again */
static struct packet packets[4][COMMANDS];
static uint8_t line[WHOLE];           /* what comes in off the serial line: the rest of the list that is coming in, and of it again from the start */
static unsigned long changes, not_well_formed, taken, failures;

/* A command of each kind for each controller. */
static void make_packets(unsigned index)
{
    struct packet *p = packets[index];
    make_packet(p++, 0x0003, 0xFFFF, 0);
    make_packet(p++, 0x0004, index, 0);
    make_packet(p++, 0x0005, index, 1);
    memcpy(make_packet(p++, 0x0006, index, 3), "\1\74\0", 3);
    make_packet(p++, 0x0007, index, 1);
    make_packet(p++, 0x0009, index, 1);
    make_packet(p++, 0x000D, index, 1);
    make_packet(p++, 0x002A, index, 1);
    *make_packet(p++, 0x002A, index, 1) = 1;
    make_packet(p++, 0x002B, index, 6);
    local_name(p++, index, 'z');
    add_uuid(p++, index, 40);
    make_packet(p++, 0x0011, index, 16);
    link_keys(p++, index, 32);
    long_term_keys(p++, index, 31);
    identity_keys(p++, index, 0);
    name_device(p++, 0x001B, index, 3, 8, 1);
    name_device(p++, 0x0026, index, 60, 7, 0);
    name_device(p++, 0x0027, index, 4, 7, 0);
    name_device(p++, 0x0033, index, 4, 8, 1);
    make_packet(p++, 0x0034, index, 7);
    add_instance(p++, index, 2, 3, 0, 31, 31);
    add_instance(p++, index, 5, 0, 60, 7, 0);
    *make_packet(p++, 0x003F, index, 1) = 3;
    make_packet(p++, 0x003F, index, 1);
}

/* A look-up at an index, in each table in turn, of each of 40 keys in turn. */
static uint64_t look_up(unsigned index)
{
    uint8_t key[16];
    unsigned table = (unsigned)(changes % 6);
    size_t length = put_key(key, table, (unsigned)(changes / 6 % 40));
    return hub_look_up(state, HUB_STATE_LEN, index, table, key, length);
}

/* How many octets of a lump there are for a change: none, one, the rest of the packet that is coming in, or more. */
static size_t lump_length(void)
{
    static const size_t lengths[4] = { 0, 1, WHOLE - BUSY_TAKEN, WHOLE };
    return lengths[changes % 4];
}

/* One call on the lent state, at the controller that the changed octet belongs to; the command and the status change from one to the next. */
static uint64_t run(int call, size_t at)
{
    unsigned index = at < FIRST_BLOCK || at >= AT_TAKEN ? 0 : (unsigned)((at - FIRST_BLOCK) / BLOCK);
    const struct packet *packet = &packets[index][changes % COMMANDS];
    switch (call) {
    case COMMAND:
        return hub_command(state, HUB_STATE_LEN, packet->octets, packet->length, reply, HUB_REPLY_MIN);
    case REPORT:
        return hub_report(state, HUB_STATE_LEN, index, changes % 4 == 0 ? 3 : 0, reply, HUB_REPLY_MIN);
    case CLOCK:
        return hub_clock(state, HUB_STATE_LEN, changes % 2 ? 1010 : 2000, reply, HUB_REPLY_MIN);
    case UNPLUG:
        return hub_unplug(state, HUB_STATE_LEN, index, reply, HUB_REPLY_MIN);
    case ON_AIR:
        return hub_on_air(state, HUB_STATE_LEN, index, reply, HUB_REPLY_MIN);
    case WHY:
        return hub_why(state, HUB_STATE_LEN, packet->octets, packet->length, reply, HUB_REPLY_MIN);
    case LOOK_UP:
        return look_up(index);
    case STREAM:
        return hub_stream(state, HUB_STATE_LEN, line, lump_length(), reply, HUB_REPLY_MIN);
    default:
        return hub_save(state, HUB_STATE_LEN, room, HUB_IMAGE_MAX);
    }
}

/* Whether a call may answer so, the packet and the room being as they must be. */
static int may_answer(int call, unsigned answer)
{
    switch (answer) {
    case HUB_DONE:
    case HUB_BAD_STATE:
        return 1;
    case HUB_STARTED:
    case HUB_REFUSED:
        return call == COMMAND || call == STREAM;
    case HUB_INCOMPLETE:
        return call == STREAM;
    case HUB_BAD_ARGUMENT:
        return call == REPORT || call == CLOCK || call == UNPLUG || call == ON_AIR || call == LOOK_UP;
    default:
        return 0;
    }
}

/*
 * Whether a call may give this second number: a status of why, of a look-up a slot with the slots walked, of a lump the octets taken, which are all of them
 * where no packet is finished and at least one where one is; else 0.
 */
static int may_give(int call, uint64_t result)
{
    if (call == STREAM && hub_answer(result) != HUB_BAD_STATE)
        return hub_answer(result) == HUB_INCOMPLETE ? hub_taken(result) == lump_length() : hub_taken(result) > 0 && hub_taken(result) <= lump_length();
    if (hub_answer(result) != HUB_DONE || (call != WHY && call != LOOK_UP))
        return hub_extra(result) == 0;
    if (call == WHY)
        return hub_extra(result) <= 0x14;
    return hub_walked(result) <= HUB_SLOTS && (hub_slot(result) == HUB_SLOTS || hub_slot(result) + 1 == hub_walked(result));
}

/* Whether the state is one that save takes. */
static int saved(void)
{
    return hub_answer(hub_save(state, HUB_STATE_LEN, room, HUB_IMAGE_MAX)) == HUB_DONE;
}

/* Whether a saved image of so many octets loads, and is moved to version 1 and back to the same octets, or answered 8 there. */
static int is_image(size_t length)
{
    uint64_t result = hub_downgrade(room, length, other, HUB_IMAGE_MAX);
    if (hub_answer(hub_load(state, HUB_STATE_LEN, room, length)) != HUB_DONE)
        return 0;
    if (hub_answer(result) == HUB_NOT_IN_IMAGE)
        return 1;
    if (hub_answer(result) != HUB_DONE)
        return 0;
    result = hub_upgrade(other, hub_count(result), again, HUB_IMAGE_MAX);
    return result == HUB_DONE + 256 * (uint64_t)length && memcmp(again, room, length) == 0;
}

/* What is wrong with a call's result and with what it left, or null. */
static const char *fault(int call, uint64_t result)
{
    unsigned answer = hub_answer(result);
    size_t count = hub_count(result), lent = call == SAVE ? HUB_IMAGE_MAX : HUB_REPLY_MIN;
    const int waits = call == STREAM && (answer == HUB_REFUSED || answer == HUB_INCOMPLETE);
    int same = memcmp(state, changed, waits ? AT_TAKEN : HUB_STATE_LEN) == 0;
    if (!may_answer(call, answer) || !may_give(call, result))
        return "an answer that it does not have";
    if (count > lent || (count != 0 && (call == LOOK_UP || (answer != HUB_DONE && answer != HUB_REFUSED))))
        return "a count that cannot be";
    if (memcmp((call == SAVE ? room : reply) + count, filler, lent - count) != 0)
        return "octets written past the count";
    if (!same && (call == SAVE || call == ON_AIR || call == WHY || call == LOOK_UP || answer > HUB_STARTED))
        return "a state changed by a call that is refused";
    if (call != STREAM && memcmp(state + AT_TAKEN, changed + AT_TAKEN, HUB_STATE_LEN - AT_TAKEN) != 0)
        return "what waits changed by a call that is no lump";
    if ((!same || waits) && !saved())
        return "a state left that the next call does not take";
    if (answer == HUB_DONE && call == SAVE && !is_image(count))
        return "an image that cannot be loaded, or not moved";
    return NULL;
}

/* Lends the changed state to the nine calls. */
static void try_change(size_t at)
{
    unsigned refusing = 0;
    changes++;
    for (int call = 0; call < CALLS; call++) {
        const char *what;
        uint64_t result;
        memcpy(state, changed, HUB_STATE_LEN);
        memset(call == SAVE ? room : reply, FILLER, call == SAVE ? HUB_IMAGE_MAX : HUB_REPLY_MIN);
        result = run(call, at);
        refusing += hub_answer(result) == HUB_BAD_STATE;
        what = fault(call, result);
        if (what) {
            printf("octet %zu = 0x%02x, %s: answer %u, %zu octets: %s\n", at, changed[at], call_names[call], hub_answer(result), hub_count(result), what);
            failures++;
        }
    }
    if (refusing != 0 && refusing != CALLS) {
        printf("octet %zu = 0x%02x: %u of %u calls answer 5\n", at, changed[at], refusing, (unsigned)CALLS);
        failures++;
    }
    not_well_formed += refusing == CALLS;
    taken += refusing == 0;
}

/* Gives an octet its ten values, but for the one that it has. */
static void try_octet(size_t at)
{
    for (unsigned k = 0; k < 10; k++) {
        changed[at] = k < 8 ? (uint8_t)(base[at] ^ 1u << k) : k == 8 ? 0 : 0xFF;
        if (changed[at] != base[at])
            try_change(at);
    }
    changed[at] = base[at];
}

int main(int argc, char **argv)
{
    size_t stride = argc > 1 ? strtoul(argv[1], NULL, 10) : 1, first = argc > 2 ? strtoul(argv[2], NULL, 10) : 0;
    struct packet list;
    base = malloc(HUB_STATE_LEN);
    changed = malloc(HUB_STATE_LEN);
    state = malloc(HUB_STATE_LEN);
    reply = malloc(HUB_REPLY_MIN);
    room = malloc(HUB_IMAGE_MAX);
    filler = malloc(HUB_IMAGE_MAX);
    other = malloc(HUB_IMAGE_MAX);
    again = malloc(HUB_IMAGE_MAX);
    if (!base || !changed || !state || !reply || !room || !filler || !other || !again || stride == 0)
        return EXIT_FAILURE;
    memset(filler, FILLER, HUB_IMAGE_MAX);
    for (unsigned index = 0; index < 4; index++)
        make_packets(index);
    make_busy(base);
    long_term_keys(&list, 3, 32);
    memcpy(line, list.octets + BUSY_TAKEN, WHOLE - BUSY_TAKEN);
    memcpy(line + WHOLE - BUSY_TAKEN, list.octets, BUSY_TAKEN);
    memcpy(changed, base, HUB_STATE_LEN);
    for (size_t at = first; at < HUB_STATE_LEN; at += stride)
        try_octet(at);
    printf("one octet: %lu changes, %lu answered 5, %lu taken, %lu failures\n", changes, not_well_formed, taken, failures);
    free(base);
    free(changed);
    free(state);
    free(reply);
    free(room);
    free(filler);
    free(other);
    free(again);
    return failures != 0 || not_well_formed == 0 || taken == 0;
}
