/*
 * Images of both versions, made octet by octet, for the programs that spoil them.
 */
#ifndef IMAGES_H
#define IMAGES_H

#include "diagnosis.h"
#include "lent.h"

enum { FIXED = 24, NAME = 249, SHORT_NAME = 11, SUPPORTED = 16, FLAGS = 20, NAMES = 30 };
enum { BREDR = 0x80, CLASSIC = 0x0081, LE = 0x0201, DUAL = 0x0281 };

/* An image that is made here, with room for what is behind the longest. */
struct image {
    uint8_t octets[HUB_IMAGE_MAX + 600];
    size_t length;
};

static const size_t records[6] = { 17, 25, 36, 23, 7, 8 };

static inline void append(struct image *image, const void *octets, size_t count)
{
    memcpy(image->octets + image->length, octets, count);
    image->length += count;
}

/* Sets the length field. */
static inline void close_up(struct image *image)
{
    image->octets[0] = 0;
    image->octets[1] = (uint8_t)(image->length >> 16);
    image->octets[2] = (uint8_t)(image->length >> 8);
    image->octets[3] = (uint8_t)image->length;
}

static inline void begin(struct image *image, unsigned version, unsigned count)
{
    const uint8_t head[6] = { 0, 0, 0, 0, (uint8_t)version, (uint8_t)count };
    image->length = 0;
    append(image, head, sizeof head);
}

/* The fixed part of a controller up to its names; the flags are those of version 1, in version 2 BR/EDR is on as supported. */
static inline void append_fixed(struct image *image, unsigned index, unsigned supported, unsigned flags)
{
    const unsigned all = image->octets[4] == 1 ? flags : flags | (supported & BREDR);
    const uint8_t fixed[FIXED] = { (uint8_t)index, 0x11, 0x22, 0x33, 0x44, 0x55, 0x66, 9, 1, 15, 0, 0, (uint8_t)(supported >> 8), (uint8_t)supported, 0, 0,
                                   (uint8_t)(all >> 8), (uint8_t)all };
    append(image, fixed, sizeof fixed);
}

/* A name of so many letters as a version has it. */
static inline void append_name(struct image *image, size_t all, size_t length)
{
    uint8_t name[256] = { 0 };
    const int second = image->octets[4] == 2;
    name[0] = (uint8_t)length;
    memset(name + second, 'n', length);
    append(image, name, second ? 1 + length : all);
}

/* Record k of a table: valid, and unlike the others. */
static inline void append_record(struct image *image, unsigned table, unsigned k)
{
    uint8_t record[36];
    memset(record, 0x42, sizeof record);
    record[0] = (uint8_t)(k + 1);
    record[5] = 0xC4;
    record[6] = table == 1 ? 0 : 2;
    record[7] = 1;
    record[8] = 0;
    record[9] = 16;
    append(image, record, records[table]);
}

/* Six tables of so many records each. */
static inline void append_tables(struct image *image, unsigned count)
{
    const uint8_t octet = (uint8_t)count;
    for (unsigned table = 0; table < 6; table++) {
        append(image, &octet, 1);
        for (unsigned k = 0; k < count; k++)
            append_record(image, table, k);
    }
}

/* A dual-mode controller with names of these lengths and so many records in each table. */
static inline void append_controller(struct image *image, unsigned index, size_t name, size_t short_name, unsigned count)
{
    append_fixed(image, index, DUAL, 0x0212);
    append_name(image, NAME, name);
    append_name(image, SHORT_NAME, short_name);
    append_tables(image, count);
}

/* One such controller, at 1. */
static inline void make_one(struct image *image, unsigned version, size_t name, size_t short_name, unsigned count)
{
    begin(image, version, 1);
    append_controller(image, 1, name, short_name, count);
    close_up(image);
}

/* The number and the offset of a refused image, or a done call that writes so many octets; the rest of the buffer and what was lent must be untouched. */
static inline void expect_fault(const char *what, size_t with, uint64_t result, struct fault fault, const struct lent *lent, const struct lent *out,
                                const uint8_t *octets, size_t count)
{
    expect_extra(what, with, result, fault.answer, (uint32_t)fault.offset, lent, out, octets, fault.answer == HUB_DONE ? count : 0);
}

#endif
