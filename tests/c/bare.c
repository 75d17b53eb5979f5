/*
 * The library with nothing but itself: no C library, no start files, two functions supplied here. A fresh hub is loaded, tells its version, as a packet and
 * in two lumps off the serial line, that it would take that command, that nothing is on air and that a device is in no slot, and refuses an image; one that
 * it saves is moved to version 1 and back. The program ends by a system call with the number of octets of the version's reply, 12, or with what went wrong.
 *
 *     gcc -ffreestanding -nostdlib -static bare.c libhub.a
 */
#include "hub.h"

void *memcpy(void *restrict to, const void *restrict from, size_t count);
void *memset(void *to, int octet, size_t count);
void start(void);

void *memcpy(void *restrict to, const void *restrict from, size_t count)
{
    volatile uint8_t *out = (volatile uint8_t *)to;
    const uint8_t *in = (const uint8_t *)from;
    while (count-- > 0)
        *out++ = *in++;
    return to;
}

void *memset(void *to, int octet, size_t count)
{
    volatile uint8_t *out = (volatile uint8_t *)to;
    while (count-- > 0)
        *out++ = (uint8_t)octet;
    return to;
}

static uint8_t state[HUB_STATE_LEN], reply[HUB_IMAGE_MAX], other[HUB_IMAGE_MAX];

static unsigned run(void)
{
    static const uint8_t fresh[] = { 0, 0, 0, 6, 1, 0 }, later[] = { 0, 0, 0, 6, 3, 0 }, version[] = { 1, 0, 0xFF, 0xFF, 0, 0 };
    static const uint8_t address[7] = { 1, 2, 3, 4, 5, 6, 1 };
    uint64_t result;
    if (hub_answer(hub_load(state, sizeof state, fresh, sizeof fresh)) != HUB_DONE)
        return 100;
    result = hub_load(state, sizeof state, later, sizeof later);
    if (hub_answer(result) != HUB_IMAGE_VERSION || hub_offset(result) != 4)
        return 101;
    if (hub_answer(hub_plug(state, sizeof state, 3, address, 6, 9, 15, 0x0281, reply, sizeof reply)) != HUB_DONE)
        return 102;
    if (hub_on_air(state, sizeof state, 3, reply, HUB_REPLY_MIN) != HUB_DONE)
        return 105;
    if (hub_why(state, sizeof state, version, sizeof version, reply, 256) != HUB_DONE + 256u * 14)
        return 106;
    result = hub_look_up(state, sizeof state, 3, HUB_DEVICES, address, 7);
    if (hub_answer(result) != HUB_DONE || hub_slot(result) != HUB_SLOTS || hub_walked(result) != 0)
        return 107;
    result = hub_save(state, sizeof state, reply, sizeof reply);
    if (hub_answer(result) != HUB_DONE || hub_answer(hub_load(state, sizeof state, reply, hub_count(result))) != HUB_DONE)
        return 103;
    if (hub_downgrade(reply, hub_count(result), other, sizeof other) != HUB_DONE + 256u * 296)
        return 110;
    if (hub_upgrade(other, 296, reply, sizeof reply) != result)
        return 111;
    if (hub_answer(hub_stream(state, sizeof state, version, 4, reply, HUB_REPLY_MIN)) != HUB_INCOMPLETE)
        return 108;
    result = hub_stream(state, sizeof state, version + 4, 2, reply, HUB_REPLY_MIN);
    if (hub_answer(result) != HUB_DONE || hub_taken(result) != 2 || hub_count(result) != 12)
        return 109;
    result = hub_command(state, sizeof state, version, sizeof version, reply, HUB_REPLY_MIN);
    return hub_answer(result) == HUB_DONE ? (unsigned)hub_count(result) : 104;
}

/* Ends with what was found, by Linux's system call exit. */
void start(void)
{
    __asm__ volatile("syscall" : : "a"(60), "D"(run()) : "rcx", "r11", "memory");
    __builtin_unreachable();
}

/* The kernel jumps here with a stack that a call has to be made on. */
__asm__(".globl _start\n_start:\n    xorl %ebp, %ebp\n    andq $-16, %rsp\n    call start\n");
