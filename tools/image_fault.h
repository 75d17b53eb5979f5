/*
 * What is wrong with an image, in one line. Number and offset are the library's. What stands there is named by the counts and lengths before it
 * (image_parts.h), which break no rule, since the fault is the first one. The words on the rule are found here, for a reader alone: an octet that is out of its
 * range is named, and where none is, what is left of the rule of that part.
 *
 * The Value of a key in a key record is shown as **. But where a count, a length or the version is spoilt, what lies at the offset is read as something else,
 * and a piece of a key can be among the octets shown: such a line is to be treated as the image itself.
 */
#ifndef IMAGE_FAULT_H
#define IMAGE_FAULT_H

#include <stdarg.h>
#include <stddef.h>
#include <stdint.h>
#include <stdio.h>
#include <string.h>

#include "hub.h"
#include "image_parts.h"
#include "octets.h"

/* How many octets of a part are shown at most. */
enum { SHOWN = 64 };

/* A line that is being put together; it is long enough for every fault. */
struct line {
    char text[1024];
    size_t length;
};

/* Adds words to a line. */
static inline void add(struct line *line, const char *format, ...)
{
    const size_t room = sizeof line->text - line->length;
    va_list values;
    int length;
    va_start(values, format);
    length = vsnprintf(line->text + line->length, room, format, values);
    va_end(values);
    if (length > 0)
        line->length += (size_t)length < room ? (size_t)length : room - 1;
}

static inline void add_octets(struct line *line, size_t count)
{
    add(line, "%zu octet%s", count, count == 1 ? "" : "s");
}

/* Adds the name of a part: what it is, which, and of which controller. */
static inline void add_name(struct line *line, const struct part *part)
{
    const char *name = kinds[part->kind].name;
    if (part->is_count)
        add(line, "count of %ss", name);
    else if (part->kind >= UUID)
        add(line, "%s %u", name, part->record);
    else
        add(line, "%s", name);
    if (part->kind >= INDEX)
        add(line, " of controller %u", part->controller);
    if (part->kind > INDEX)
        add(line, " (index %u)", part->index);
}

/* Whether an octet of a part belongs to the value of a key. */
static inline int is_secret(const struct part *part, size_t octet)
{
    static const uint8_t values[] = { [LINK_KEY] = 8, [LONG_TERM_KEY] = 20, [IDENTITY_KEY] = 7 };
    if (part->is_count || part->kind < LINK_KEY || part->kind > IDENTITY_KEY)
        return 0;
    return octet >= values[part->kind] && octet < values[part->kind] + 16u;
}

/*
 * How many octets of a part are shown. Of a name with a length octet, those up to and with the first zero, and where it is too long the length octet alone: if
 * that is spoilt, the tables stand behind it. If nothing else is, a zero stands before every Value there: the count of no link keys, or the first one's address
 * type.
 */
static inline size_t shown_octets(const struct part *part)
{
    const size_t most = part->octets < SHOWN ? part->octets : SHOWN;
    size_t shown = 1;
    if (!has_length_octet(part))
        return most;
    if (part->octets > kinds[part->kind].octets)
        return shown;
    while (shown < most && octet_at(part, part->at + shown - 1) != 0)
        shown++;
    return shown;
}

/* Adds the octets of a part in hexadecimal. */
static inline void add_hexadecimal(struct line *line, const struct part *part)
{
    const size_t shown = shown_octets(part);
    add(line, "; ");
    add_octets(line, part->octets);
    add(line, ":");
    for (size_t i = 0; i < shown; i++)
        if (is_secret(part, i))
            add(line, " **");
        else
            add(line, " %02X", octet_at(part, part->at + i));
    if (shown < part->octets)
        add(line, " ...");
}

/* The bits of the settings that say BR/EDR and LE. */
enum { BREDR = 1u << 7, LE = 1u << 9 };

/* The supported settings of the controller that a part is of. */
static inline unsigned supported_settings(const struct part *part)
{
    return number_at(part, part->controller_at + TO_SUPPORTED);
}

/* An octet of a part that is outside its range, in words; null where there is none. */
static inline const char *out_of_range(const struct part *part)
{
    static const struct {
        enum kind kind;
        uint8_t octet, least, most;
        const char *words;
    } ranges[] = {
        { CONTROLLERS, 0, 0, 4, "above 4" },
        { INDEX, 0, 0, 3, "above 3" },
        { SUPPORTED, 0, 0, 0, "a bit above 15 is set" },
        { SUPPORTED, 1, 0, 0, "a bit above 15 is set" },
        { LINK_KEY, 6, 0, 0, "the address type is not 0" },
        { LINK_KEY, 7, 0, 8, "the key type is above 8" },
        { LONG_TERM_KEY, 6, 1, 2, "the address type is not 1 or 2" },
        { LONG_TERM_KEY, 7, 0, 4, "the key type is above 4" },
        { LONG_TERM_KEY, 8, 0, 1, "Master is above 1" },
        { LONG_TERM_KEY, 9, 7, 16, "the encryption key size is not 7 to 16" },
        { IDENTITY_KEY, 6, 1, 2, "the address type is not 1 or 2" },
        { BLOCKED_DEVICE, 6, 0, 2, "the address type is above 2" },
        { DEVICE, 6, 0, 2, "the address type is above 2" },
        { DEVICE, 7, 0, 2, "the action is above 2" },
    };
    for (size_t i = 0; i < sizeof ranges / sizeof ranges[0]; i++) {
        const uint8_t octet = octet_at(part, part->at + ranges[i].octet);
        if (ranges[i].kind == part->kind && (octet < ranges[i].least || octet > ranges[i].most))
            return ranges[i].words;
    }
    return NULL;
}

/* What is wrong with flags: a bit that the version does not have, or else what they say of BR/EDR and LE. */
static inline const char *flags_rule(const struct part *part)
{
    const int second = image_version(part->image, part->image_length) == 2;
    const unsigned flags = number_at(part, part->at);
    if (flags & ~(BREDR | LE | 0x0012u))
        return second ? "a bit other than 1, 4, 7 and 9 is set" : "a bit other than 1, 4 and 9 is set";
    if ((flags & BREDR) && !second)
        return "bit 7 is set, which version 1 does not have";
    if ((flags & BREDR) && !(supported_settings(part) & BREDR))
        return "bit 7 (BR/EDR) is set, and BR/EDR is not supported";
    if (flags & LE)
        return "bit 9 (LE) is set, and LE is not supported";
    return second ? "neither bit 7 (BR/EDR) nor bit 9 (LE) is set" : "bit 9 (LE) is clear, and BR/EDR is not supported";
}

/* What is wrong with a name. */
static inline const char *name_rule(const struct part *part)
{
    if (!has_length_octet(part))
        return "its last octet is not zero";
    if (octet_at(part, part->at) < kinds[part->kind].octets)
        return "a zero among its octets";
    return part->kind == NAME ? "longer than 248 octets" : "longer than 10 octets";
}

/* What is wrong with a part whose octets are in their ranges. */
static inline const char *rest_of_rule(const struct part *part)
{
    const int le = (supported_settings(part) & LE) != 0;
    switch (part->kind) {
    case INDEX:
        return "not above that of the controller before";
    case SUPPORTED:
        return supported_settings(part) & BREDR ? "BR/EDR (bit 7) with a public address of zero" : "neither BR/EDR (bit 7) nor LE (bit 9)";
    case FLAGS:
        return flags_rule(part);
    case STATIC_ADDRESS:
        return le ? "neither zero nor a static random address" : "not zero, and LE is not supported";
    case NAME:
    case SHORT_NAME:
        return name_rule(part);
    case UUID:
        return "the UUID is zero";
    case LINK_KEY:
        return "the controller does not support BR/EDR";
    case LONG_TERM_KEY:
    case IDENTITY_KEY:
        return le ? "the address is not a static random one" : "the controller does not support LE";
    case DEVICE:
        return octet_at(part, part->at + 6) == 0 && octet_at(part, part->at + 7) != 1 ? "the action of a BR/EDR device is not 1" : "the address is zero";
    default:
        return "the address is zero";
    }
}

/* Adds which rule a field or a record breaks. */
static inline void add_rule(struct line *line, const struct part *part)
{
    const char *words = out_of_range(part);
    add(line, ": %s", words ? words : rest_of_rule(part));
    if (!words && part->kind == INDEX)
        add(line, ", %u", part->index);
}

/* Adds which record before this one names the same. */
static inline void add_first_record(struct line *line, const struct part *part)
{
    const char *same = part->kind == UUID ? "UUID" : part->kind == LONG_TERM_KEY ? "address, type and Master" : "address and type";
    const size_t named = part->kind == UUID ? 16 : 7;
    for (unsigned record = 0; record < part->record; record++) {
        const size_t at = part->records_at + record * part->octets;
        size_t alike = 0;
        while (alike < named && octet_at(part, at + alike) == octet_at(part, part->at + alike))
            alike++;
        if (alike == named && (part->kind != LONG_TERM_KEY || octet_at(part, at + 8) == octet_at(part, part->at + 8))) {
            add(line, ": record %u has the same %s", record, same);
            return;
        }
    }
}

/* Adds what is wrong with the length: the image is cut, has octets left over, or has a length field that says another length. */
static inline void add_length_fault(struct line *line, const struct part *part, int found, size_t offset)
{
    const size_t length = part->image_length;
    if (!found) {
        add(line, "left over at the end, ");
        add_octets(line, length - offset);
    } else if (offset < length) {
        add(line, "the length field says %u, the file has ", number_at(part, 0));
        add_octets(line, length);
        add_hexadecimal(line, part);
    } else {
        add(line, "not whole: ");
        add_name(line, part);
        add(line, ", ");
        add_octets(line, part->octets);
        add(line, "%s from octet %zu on, %zu there", has_length_octet(part) && part->at == length ? " or more" : "", part->at, length - part->at);
    }
}

/* Puts into words what the library found at fault in an image, for hub_load (from is 0) or a move from a version. */
static inline const char *say_fault(struct line *line, uint64_t result, const uint8_t *image, size_t length, unsigned from)
{
    static const char *const names[] = { "length", "version", "controllers", "field", "table", "record", "repeated record" };
    const unsigned number = hub_answer(result);
    const size_t offset = hub_offset(result);
    struct part part = first_part(image, length);
    const int found = part_at(&part, offset);
    line->length = 0;
    add(line, "%u at octet %zu: %s: ", number, offset, names[number - HUB_IMAGE_LENGTH]);
    if (number == HUB_IMAGE_LENGTH) {
        add_length_fault(line, &part, found, offset);
        return line->text;
    }
    if (number == HUB_IMAGE_VERSION) {
        add(line, from == 0 ? "%u, not 1 or 2" : "%u, not %u", image_version(image, length), from);
    } else {
        add_name(line, &part);
        if (number == HUB_IMAGE_REPEATED)
            add_first_record(line, &part);
        else if (number == HUB_IMAGE_COUNT)
            add(line, ": above %u", HUB_SLOTS);
        else
            add_rule(line, &part);
    }
    add_hexadecimal(line, &part);
    return line->text;
}

#endif
