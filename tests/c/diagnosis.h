/*
 * What is wrong with an image, and where, by a plain walk over its octets: the number and the offset that hub_load, hub_upgrade and hub_downgrade have to
 * tell. First the version and the length field; then each field, count and record in the order of the file, whole before right.
 */
#ifndef DIAGNOSIS_H
#define DIAGNOSIS_H

#include <string.h>

#include "hub.h"

/* The versions that are taken: by load, by the move to version 2 and by the move back. */
enum { BOTH = 3, FIRST = 1, SECOND = 2 };

/* A fault: its number, 0 where nothing is wrong, and where it begins. */
struct fault {
    unsigned answer;
    size_t offset;
};

/* A walk over an image: what is read next, and the first fault. */
struct walk {
    const uint8_t *octets;
    size_t length, at;
    unsigned version;
    uint32_t supported;
    struct fault fault;
};

/* Notes a fault; 0, so that a walk can end with it. */
static inline int fault_at(struct walk *walk, unsigned answer, size_t offset)
{
    walk->fault.answer = answer;
    walk->fault.offset = offset;
    return 0;
}

/* Moves behind so many octets, if they are all there. */
static inline int whole(struct walk *walk, size_t count)
{
    if (walk->length - walk->at < count)
        return fault_at(walk, HUB_IMAGE_LENGTH, walk->length);
    walk->at += count;
    return 1;
}

static inline uint32_t word_at(const uint8_t *octets)
{
    return (uint32_t)octets[0] << 24 | (uint32_t)octets[1] << 16 | (uint32_t)octets[2] << 8 | octets[3];
}

static inline int all_are(const uint8_t *octets, size_t count, uint8_t octet)
{
    for (size_t k = 0; k < count; k++)
        if (octets[k] != octet)
            return 0;
    return 1;
}

/* Whether an address is a static random one: both top bits, and below them neither 0 alone nor 1 alone. */
static inline int is_static_random(const uint8_t *address)
{
    return address[5] >= 0xC0 && !(address[5] == 0xC0 && all_are(address, 5, 0)) && !(address[5] == 0xFF && all_are(address, 5, 0xFF));
}

/* Whether a record of a table keeps its own rules at a controller with these supported settings. */
static inline int record_right(unsigned table, const uint8_t *record, uint32_t supported)
{
    const int identity = record[6] == 1 || (record[6] == 2 && is_static_random(record)), named = !all_are(record, 6, 0) && record[6] <= 2;
    switch (table) {
    case 0: return !all_are(record, 16, 0);
    case 1: return record[6] == 0 && record[7] <= 8 && (supported & 0x80);
    case 2: return identity && record[7] <= 4 && record[8] <= 1 && record[9] >= 7 && record[9] <= 16 && (supported & 0x200);
    case 3: return identity && (supported & 0x200);
    case 4: return named;
    default: return named && record[7] <= 2 && (record[6] != 0 || record[7] == 1);
    }
}

/* Whether two records of a table name one thing. */
static inline int same_thing(unsigned table, const uint8_t *one, const uint8_t *other)
{
    return memcmp(one, other, table == 0 ? 16 : 7) == 0 && (table != 2 || one[8] == other[8]);
}

/* Walks over a table. */
static inline int walk_table(struct walk *walk, unsigned table)
{
    static const size_t lengths[6] = { 17, 25, 36, 23, 7, 8 };
    const size_t count_at = walk->at;
    if (!whole(walk, 1))
        return 0;
    if (walk->octets[count_at] > 32)
        return fault_at(walk, HUB_IMAGE_COUNT, count_at);
    for (unsigned k = 0; k < walk->octets[count_at]; k++) {
        const size_t start = walk->at;
        const uint8_t *record = walk->octets + start;
        if (!whole(walk, lengths[table]))
            return 0;
        if (!record_right(table, record, walk->supported))
            return fault_at(walk, HUB_IMAGE_RECORD, start);
        for (unsigned earlier = 1; earlier <= k; earlier++)
            if (same_thing(table, record, record - earlier * lengths[table]))
                return fault_at(walk, HUB_IMAGE_REPEATED, start);
    }
    return 1;
}

/* Walks over a name that has so many octets in version 1. */
static inline int walk_name(struct walk *walk, size_t all)
{
    const size_t start = walk->at;
    const uint8_t *name = walk->octets + start;
    if (walk->version == 1)
        return whole(walk, all) && (name[all - 1] == 0 || fault_at(walk, HUB_IMAGE_FIELD, start));
    if (!whole(walk, 1) || !whole(walk, name[0]))
        return 0;
    for (size_t k = 1; k <= name[0]; k++)
        if (name[k] == 0)
            return fault_at(walk, HUB_IMAGE_FIELD, start);
    return name[0] < all || fault_at(walk, HUB_IMAGE_FIELD, start);
}

/* Whether the flags fit the supported settings in a version. */
static inline int flags_right(unsigned version, uint32_t supported, uint32_t flags)
{
    const uint32_t transports = version == 1 ? (flags & 0x200) | (supported & 0x80) : flags & 0x280;
    return !(flags & ~(version == 1 ? 0x212u : 0x292u)) && !(transports & ~supported) && transports != 0;
}

/* Walks over the fields of a controller before its names. */
static inline int walk_fields(struct walk *walk)
{
    const size_t start = walk->at;
    const uint8_t *fields = walk->octets + start;
    uint32_t bits;
    if (!whole(walk, 13))
        return 0;
    bits = walk->supported = word_at(fields + 9);
    if (bits > 0xFFFF || !(bits & 0x280) || ((bits & 0x80) && all_are(fields, 6, 0)))
        return fault_at(walk, HUB_IMAGE_FIELD, start + 9);
    if (!whole(walk, 4))
        return 0;
    if (!flags_right(walk->version, bits, word_at(fields + 13)))
        return fault_at(walk, HUB_IMAGE_FIELD, start + 13);
    if (!whole(walk, 6))
        return 0;
    if (!all_are(fields + 17, 6, 0) && !(is_static_random(fields + 17) && (bits & 0x200)))
        return fault_at(walk, HUB_IMAGE_FIELD, start + 17);
    return 1;
}

/* Walks over so many controllers. */
static inline int walk_controllers(struct walk *walk, unsigned count)
{
    int before = -1;
    while (count-- > 0) {
        const size_t start = walk->at;
        if (!whole(walk, 1))
            return 0;
        if (walk->octets[start] > 3 || walk->octets[start] <= before)
            return fault_at(walk, HUB_IMAGE_INDEX, start);
        before = walk->octets[start];
        if (!walk_fields(walk) || !walk_name(walk, 249) || !walk_name(walk, 11))
            return 0;
        for (unsigned table = 0; table < 6; table++)
            if (!walk_table(walk, table))
                return 0;
    }
    return walk->at == walk->length || fault_at(walk, HUB_IMAGE_LENGTH, walk->at);
}

/* What is wrong with an image where these versions are taken. */
static inline struct fault diagnose(const uint8_t *octets, size_t length, unsigned versions)
{
    struct walk walk = { octets, length, 5, 0, 0, { HUB_DONE, 0 } };
    if (length < 5) {
        fault_at(&walk, HUB_IMAGE_LENGTH, length);
        return walk.fault;
    }
    walk.version = octets[4];
    if (walk.version < 1 || walk.version > 2 || !(versions & walk.version))
        fault_at(&walk, HUB_IMAGE_VERSION, 4);
    else if (word_at(octets) != length)
        fault_at(&walk, HUB_IMAGE_LENGTH, 0);
    else if (whole(&walk, 1)) {
        if (octets[5] > 4)
            fault_at(&walk, HUB_IMAGE_INDEX, 5);
        else
            (void)walk_controllers(&walk, octets[5]);
    }
    return walk.fault;
}

#endif
