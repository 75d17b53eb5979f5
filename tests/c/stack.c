/*
 * The stack that calls really take: each is made on a stack of its own that was filled with a pattern, and the deepest octet that changed is looked for.
 * Prints a line 'NAME OCTETS' for each entry, the return address included: never more than stack.awk finds in the machine code.
 */
#include "busy.h"

enum { DEEP = 1 << 16, PATTERN = 0xA5, ON_STACK = 4 };

typedef void (*entry)(void); /* any of them */

static _Alignas(16) uint8_t stack[DEEP + 8 * ON_STACK];
static uint8_t base[HUB_STATE_LEN], state[HUB_STATE_LEN], reply[HUB_IMAGE_MAX], image[HUB_IMAGE_MAX], old[HUB_IMAGE_MAX];

/* A pointer or a number as an argument. */
#define ARG(x) ((uint64_t)(uintptr_t)(x))

/* Calls with six arguments in registers and four on the other stack. */
static uint64_t call_there(entry function, const uint64_t *args)
{
    uint64_t *top = (uint64_t *)(void *)(stack + DEEP);
    uint64_t first = args[0], second = args[1], third = args[2], fourth = args[3], result = ARG(function);
    register uint64_t fifth __asm__("r8") = args[4];
    register uint64_t sixth __asm__("r9") = args[5];
    memcpy(top, args + 6, 8 * ON_STACK);
    __asm__ volatile("movq %%rsp, %%rbx\n\tmovq %[top], %%rsp\n\tcall *%%rax\n\tmovq %%rbx, %%rsp"
                     : "+a"(result), "+D"(first), "+S"(second), "+d"(third), "+c"(fourth), "+r"(fifth), "+r"(sixth)
                     : [top] "r"(top)
                     : "rbx", "r10", "r11", "memory", "cc", "xmm0", "xmm1", "xmm2", "xmm3", "xmm4", "xmm5", "xmm6", "xmm7", "xmm8", "xmm9", "xmm10",
                       "xmm11", "xmm12", "xmm13", "xmm14", "xmm15");
    return result;
}

/* The octets that a call takes on the busy hub; it must be answered so. The first time does not count: memcpy is looked up then. */
static unsigned takes(entry function, uint64_t *args, unsigned wanted)
{
    unsigned deepest = 0;
    memset(stack, PATTERN, DEEP);
    memcpy(state, base, HUB_STATE_LEN);
    must("a call on the other stack", call_there(function, args), wanted);
    memset(stack, PATTERN, DEEP);
    memcpy(state, base, HUB_STATE_LEN);
    (void)call_there(function, args);
    while (stack[deepest] == PATTERN)
        deepest++;
    return DEEP - deepest;
}

static unsigned most(unsigned a, unsigned b)
{
    return a > b ? a : b;
}

/* One command on the busy hub. */
static unsigned command_takes(const struct packet *packet, unsigned wanted)
{
    uint64_t args[10] = { ARG(state), HUB_STATE_LEN, ARG(packet->octets), packet->length, ARG(reply), HUB_REPLY_MIN };
    return takes((entry)hub_command, args, wanted);
}

/* Add Advertising of one on air, of one that is new and of one that is refused, and Remove Advertising of all and of one. */
static unsigned advertising(void)
{
    struct packet packet;
    unsigned worst;
    add_instance(&packet, 0, 3, 9, 9, 31, 31);
    worst = command_takes(&packet, HUB_DONE);
    add_instance(&packet, 2, 3, 9, 0, 31, 31);
    worst = most(worst, command_takes(&packet, HUB_DONE));
    add_instance(&packet, 2, 3, 9, 9, 31, 31);
    worst = most(worst, command_takes(&packet, HUB_REFUSED));
    make_packet(&packet, 0x003F, 0, 1);
    worst = most(worst, command_takes(&packet, HUB_DONE));
    *make_packet(&packet, 0x003F, 1, 1) = 2;
    return most(worst, command_takes(&packet, HUB_DONE));
}

/* The commands that go deepest: lists, removals, names, settings at once and started. */
static unsigned commands(void)
{
    struct packet packet;
    unsigned worst;
    long_term_keys(&packet, 3, 32);
    worst = command_takes(&packet, HUB_DONE);
    link_keys(&packet, 0, 32);
    worst = most(worst, command_takes(&packet, HUB_DONE));
    make_packet(&packet, 0x0034, 0, 7);
    worst = most(worst, command_takes(&packet, HUB_DONE));
    make_packet(&packet, 0x0011, 0, 16);
    worst = most(worst, command_takes(&packet, HUB_DONE));
    name_device(&packet, 0x001B, 0, 0, 8, 1);
    worst = most(worst, command_takes(&packet, HUB_DONE));
    local_name(&packet, 2, 'q');
    worst = most(worst, command_takes(&packet, HUB_DONE));
    make_packet(&packet, 0x0004, 0, 0);
    worst = most(worst, command_takes(&packet, HUB_DONE));
    make_packet(&packet, 0x0005, 3, 1);
    worst = most(worst, command_takes(&packet, HUB_STARTED));
    worst = most(worst, advertising());
    make_packet(&packet, 0x0009, 0, 1);
    worst = most(worst, command_takes(&packet, HUB_DONE));
    *make_packet(&packet, 0x0007, 2, 1) = 1;
    worst = most(worst, command_takes(&packet, HUB_REFUSED));
    must("a report", hub_report(base, sizeof base, 2, 3, reply, sizeof reply), HUB_DONE); /* nothing is under way at 2, which has no power */
    worst = most(worst, command_takes(&packet, HUB_DONE));
    make_packet(&packet, 0x002A, 2, 1);
    return most(worst, command_takes(&packet, HUB_DONE));
}

/* The question why: of lists with no fault and with one found late, of names in full tables, of settings, and of a packet that is refused at once. */
static unsigned whys(void)
{
    struct packet packets[8];
    unsigned worst = 0;
    long_term_keys(&packets[0], 3, 32);
    link_keys(&packets[1], 0, 32);
    identity_keys(&packets[2], 1, 32);
    memcpy(packets[2].octets + 8 + 31 * 23, packets[2].octets + 8 + 30 * 23, 23);
    name_device(&packets[3], 0x001B, 0, 40, 8, 1);
    make_packet(&packets[4], 0x0007, 2, 1);
    add_instance(&packets[5], 2, 3, 9, 9, 31, 31);
    make_packet(&packets[6], 0xFFFF, 9, 0);
    make_packet(&packets[7], 0x002A, 3, 1);
    for (int i = 0; i < 8; i++) {
        uint64_t args[10] = { ARG(state), HUB_STATE_LEN, ARG(packets[i].octets), packets[i].length, ARG(reply), 256 };
        worst = most(worst, takes((entry)hub_why, args, HUB_DONE));
    }
    return worst;
}

/* Look-ups in each table at 0: of the first key, of the last, of one that is absent, and of one that is no key. */
static unsigned look_ups(void)
{
    static const unsigned entries[3] = { 0, 31, 40 };
    unsigned worst = 0;
    for (unsigned table = 0; table < 6; table++)
        for (unsigned k = 0; k < 3; k++) {
            uint8_t key[16];
            uint64_t args[10] = { ARG(state), HUB_STATE_LEN, 0, table, ARG(key), put_key(key, table, entries[k]) };
            worst = most(worst, takes((entry)hub_look_up, args, HUB_DONE));
            args[5]--;
            worst = most(worst, takes((entry)hub_look_up, args, HUB_BAD_ARGUMENT));
        }
    return worst;
}

/* Lumps: no octets, a part and the rest of the list that waits; then, with nothing waiting, whole packets and the longest one in two parts. */
static unsigned lumps(void)
{
    static uint8_t longest[6 + 0xFFFF];
    struct packet packet;
    uint64_t args[10] = { ARG(state), HUB_STATE_LEN, ARG(packet.octets + BUSY_TAKEN), 0, ARG(reply), HUB_REPLY_MIN };
    unsigned worst;
    long_term_keys(&packet, 3, 32);
    worst = takes((entry)hub_stream, args, HUB_INCOMPLETE);
    args[3] = 100;
    worst = most(worst, takes((entry)hub_stream, args, HUB_INCOMPLETE));
    args[3] = WHOLE - BUSY_TAKEN;
    worst = most(worst, takes((entry)hub_stream, args, HUB_DONE));
    must("the rest", hub_stream(base, sizeof base, packet.octets + BUSY_TAKEN, WHOLE - BUSY_TAKEN, reply, sizeof reply), HUB_DONE);
    args[2] = ARG(packet.octets);
    args[3] = WHOLE;
    worst = most(worst, takes((entry)hub_stream, args, HUB_DONE));
    make_packet(&packet, 0x0034, 0, 7);
    args[3] = packet.length;
    worst = most(worst, takes((entry)hub_stream, args, HUB_DONE));
    memset(longest, 0xFF, sizeof longest);
    args[2] = ARG(longest);
    args[3] = sizeof longest - 1;
    worst = most(worst, takes((entry)hub_stream, args, HUB_INCOMPLETE));
    args[3]++;
    return most(worst, takes((entry)hub_stream, args, HUB_REFUSED));
}

/* Both moves of the busy hub's image, and of one that is refused at its last octet; the load of both versions. */
static void moves(size_t length)
{
    const uint64_t moved = hub_downgrade(image, length, old, sizeof old);
    uint64_t upgrade[10] = { ARG(old), hub_count(moved), ARG(reply), HUB_IMAGE_MAX }, downgrade[10] = { ARG(image), length, ARG(reply), HUB_IMAGE_MAX };
    uint64_t load[10] = { ARG(state), HUB_STATE_LEN, ARG(image), length }, first[10] = { ARG(state), HUB_STATE_LEN, ARG(old), hub_count(moved) };
    unsigned up = takes((entry)hub_upgrade, upgrade, HUB_DONE), down = takes((entry)hub_downgrade, downgrade, HUB_DONE);
    printf("hub_load %u\n", most(takes((entry)hub_load, load, HUB_DONE), takes((entry)hub_load, first, HUB_DONE)));
    old[hub_count(moved) - 1] = image[length - 1] = 0xFF;
    printf("hub_upgrade %u\n", most(up, takes((entry)hub_upgrade, upgrade, HUB_IMAGE_RECORD)));
    printf("hub_downgrade %u\n", most(down, takes((entry)hub_downgrade, downgrade, HUB_IMAGE_RECORD)));
}

/* Everything else. */
static void others(void)
{
    static const uint8_t address[6] = { 1, 2, 3, 4, 5, 6 };
    uint64_t report[10] = { ARG(state), HUB_STATE_LEN, 0, 0, ARG(reply), HUB_REPLY_MIN }, worst = 0;
    uint64_t clock[10] = { ARG(state), HUB_STATE_LEN, 1300, ARG(reply), HUB_REPLY_MIN };
    uint64_t longest[10] = { ARG(state), HUB_STATE_LEN, 1000 + 0x7FFFFFFFu, ARG(reply), HUB_REPLY_MIN };
    uint64_t unplug[10] = { ARG(state), HUB_STATE_LEN, 0, ARG(reply), HUB_REPLY_MIN };
    uint64_t plug[10] = { ARG(state), HUB_STATE_LEN, 1, ARG(address), 6, 9, 15, 0x0281, ARG(reply), HUB_REPLY_MIN };
    uint64_t save[10] = { ARG(state), HUB_STATE_LEN, ARG(reply), HUB_IMAGE_MAX };
    uint64_t name[10] = { ARG(state), HUB_STATE_LEN, 0, 0, ARG(reply), HUB_REPLY_MIN };
    uint64_t on_air[10] = { ARG(state), HUB_STATE_LEN, 3, ARG(reply), HUB_REPLY_MIN };
    for (report[2] = 0; report[2] < 3; report[2]++)
        worst = most((unsigned)worst, takes((entry)hub_report, report, HUB_DONE));
    printf("hub_report %u\n", (unsigned)worst);
    printf("hub_clock %u\n", most(takes((entry)hub_clock, clock, HUB_DONE), takes((entry)hub_clock, longest, HUB_DONE)));
    printf("hub_unplug %u\n", takes((entry)hub_unplug, unplug, HUB_DONE));
    printf("hub_save %u\n", takes((entry)hub_save, save, HUB_DONE));
    printf("hub_name %u\n", takes((entry)hub_name, name, HUB_DONE));
    printf("hub_on_air %u\n", takes((entry)hub_on_air, on_air, HUB_DONE));
    printf("hub_why %u\n", whys());
    printf("hub_look_up %u\n", look_ups());
    moves(hub_count(hub_save(base, sizeof base, image, sizeof image)));
    must("unplug", hub_unplug(base, sizeof base, 1, reply, sizeof reply), HUB_DONE);
    printf("hub_plug %u\n", takes((entry)hub_plug, plug, HUB_DONE));
}

int main(void)
{
    make_busy(base);
    others();
    make_busy(base);
    printf("hub_command %u\n", commands());
    make_busy(base);
    printf("hub_stream %u\n", lumps());
    return 0;
}
