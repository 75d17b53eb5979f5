/*
 * The parts of an image, one behind the other: its fields, counts and records (docs/IMAGE.md). Where they begin is told by the counts and name lengths in
 * the image alone, and nothing is judged; no octet behind the image is looked at, whatever stands in it.
 */
#ifndef IMAGE_PARTS_H
#define IMAGE_PARTS_H

#include <stddef.h>
#include <stdint.h>

#include "octets.h"

/* What a part is: of the head, of a controller's fixed part, or of a table, where it is the count or a record. */
enum kind {
    LENGTH_FIELD, IMAGE_VERSION, CONTROLLERS,
    INDEX, PUBLIC_ADDRESS, CONTROLLER_VERSION, MANUFACTURER, SUPPORTED, FLAGS, STATIC_ADDRESS, NAME, SHORT_NAME,
    UUID, LINK_KEY, LONG_TERM_KEY, IDENTITY_KEY, BLOCKED_DEVICE, DEVICE
};

/* The name of a kind and its octets; of a table, those of a record; of a name, those of version 1. */
static const struct {
    const char *name;
    uint8_t octets;
} kinds[] = {
    [LENGTH_FIELD] = { "length field", 4 },
    [IMAGE_VERSION] = { "version", 1 },
    [CONTROLLERS] = { "count of controllers", 1 },
    [INDEX] = { "index", 1 },
    [PUBLIC_ADDRESS] = { "public address", 6 },
    [CONTROLLER_VERSION] = { "version", 1 },
    [MANUFACTURER] = { "manufacturer", 2 },
    [SUPPORTED] = { "supported settings", 4 },
    [FLAGS] = { "flags", 4 },
    [STATIC_ADDRESS] = { "static address", 6 },
    [NAME] = { "name", 249 },
    [SHORT_NAME] = { "short name", 11 },
    [UUID] = { "UUID", 17 },
    [LINK_KEY] = { "link key", 25 },
    [LONG_TERM_KEY] = { "long term key", 36 },
    [IDENTITY_KEY] = { "identity resolving key", 23 },
    [BLOCKED_DEVICE] = { "blocked device", 7 },
    [DEVICE] = { "device", 8 },
};

/* How far the supported settings stand behind the index of a controller. */
enum { TO_SUPPORTED = 10 };

/* A part, and what is known of the image up to it. Things are counted from 0. */
struct part {
    const uint8_t *image;
    size_t image_length;
    enum kind kind;
    int is_count;                     /* of a table: the count, and no record */
    size_t at, octets;                /* where it begins, and how many octets it has, be they there or not */
    unsigned controllers, controller; /* how many there are by their count, and which this is of */
    size_t controller_at;             /* where that begins */
    unsigned index;                   /* its index; of an index, the one of the controller before */
    unsigned records, record;         /* of a table: how many by its count, and which this is */
    size_t records_at;                /* where they begin */
};

/* An octet of the image, 0 where it has none. */
static inline uint8_t octet_at(const struct part *part, size_t at)
{
    return at < part->image_length ? part->image[at] : 0;
}

/* Four octets as a number, the high one first. */
static inline unsigned number_at(const struct part *part, size_t at)
{
    unsigned number = 0;
    for (size_t i = 0; i < 4; i++)
        number = number << 8 | octet_at(part, at + i);
    return number;
}

/* The first part. */
static inline struct part first_part(const uint8_t *image, size_t length)
{
    return (struct part){ .image = image, .image_length = length, .kind = LENGTH_FIELD, .octets = kinds[LENGTH_FIELD].octets };
}

/* Whether a part is a name with a length octet, as in version 2. */
static inline int has_length_octet(const struct part *part)
{
    return (part->kind == NAME || part->kind == SHORT_NAME) && image_version(part->image, part->image_length) == 2;
}

/* How many octets a part has. */
static inline size_t octets_of(const struct part *part)
{
    if (has_length_octet(part))
        return 1u + octet_at(part, part->at);
    return part->is_count ? 1 : kinds[part->kind].octets;
}

/* Goes on in a table, from the count to the records or from record to record; 0 behind the last. */
static inline int next_record(struct part *part, unsigned value)
{
    if (part->is_count) {
        part->records = value;
        part->record = 0;
        part->records_at = part->at;
        part->is_count = 0;
    } else {
        part->record++;
    }
    return part->record < part->records;
}

/* Goes on to the next part; 0 behind the last, where the place is that of the first octet left over. */
static inline int next_part(struct part *part)
{
    const unsigned value = octet_at(part, part->at);
    part->at += part->octets;
    if (part->kind < UUID || !next_record(part, value)) {
        if (part->kind == CONTROLLERS)
            part->controllers = value;
        if (part->kind == INDEX)
            part->index = value;
        if (part->kind == DEVICE)
            part->controller++;
        if ((part->kind == CONTROLLERS || part->kind == DEVICE) && part->controller >= part->controllers)
            return 0;
        part->kind = part->kind == DEVICE ? INDEX : part->kind + 1;
        part->is_count = part->kind >= UUID;
        if (part->kind == INDEX)
            part->controller_at = part->at;
    }
    part->octets = octets_of(part);
    return 1;
}

/* The part that an offset is in, or the first one that the image ends in or before; 0 where the offset is behind the last part. */
static inline int part_at(struct part *part, size_t offset)
{
    while (part->octets <= offset - part->at)
        if (!next_part(part))
            return 0;
    return 1;
}

#endif
