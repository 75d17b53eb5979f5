/*
 * What the tools share: octets of a file, of hexadecimal digits, and of an image.
 */
#ifndef OCTETS_H
#define OCTETS_H

#include <errno.h>
#include <stddef.h>
#include <stdint.h>
#include <stdio.h>
#include <stdlib.h>
#include <string.h>

/* The value of a lower-case hexadecimal digit, or -1. */
static inline int hex_digit(char c)
{
    if (c >= '0' && c <= '9')
        return c - '0';
    if (c >= 'a' && c <= 'f')
        return c - 'a' + 10;
    return -1;
}

/*
 * Reads the octets of a file, or of the standard input where the name is -, as far as there is room, and counts them. A caller that wants to know
 * whether there are more lends one octet of room beyond what it takes. 0 with errno set where the file cannot be read.
 */
static inline int read_octets(const char *path, uint8_t *octets, size_t room, size_t *count)
{
    const int from_input = strcmp(path, "-") == 0;
    FILE *file = from_input ? stdin : fopen(path, "rb");
    int error = 0;
    if (!file)
        return 0;
    *count = fread(octets, 1, room, file);
    if (ferror(file))
        error = errno;
    if (!from_input)
        fclose(file);
    errno = error;
    return error == 0;
}

/* The longest file that is read whole: far more than an image has. */
enum { MEBIBYTES = 64, FILE_MAX = MEBIBYTES * 1024 * 1024 };

/* The octets of a whole file, in a buffer of their own. */
struct octets {
    uint8_t *octets;
    size_t length;
};

/* Doubles the room for the octets of a file, up to one octet more than is read; 0 where there is none to be had. */
static inline int more_room(struct octets *whole, size_t *room)
{
    const size_t wanted = *room == 0 ? 4096 : *room < FILE_MAX / 2 ? 2 * *room : FILE_MAX + 1;
    uint8_t *octets = realloc(whole->octets, wanted);
    if (!octets)
        return 0;
    whole->octets = octets;
    *room = wanted;
    return 1;
}

/* Reads a whole file, or the standard input where the name is -; 0 with errno set where that fails, EFBIG where it is too long. The caller frees the octets. */
static inline int read_file(const char *path, struct octets *whole)
{
    const int from_input = strcmp(path, "-") == 0;
    FILE *file = from_input ? stdin : fopen(path, "rb");
    size_t room = 0;
    int error = 0;
    *whole = (struct octets){ NULL, 0 };
    if (!file)
        return 0;
    while (error == 0 && whole->length == room) {
        if (room > FILE_MAX)
            error = EFBIG;
        else if (!more_room(whole, &room))
            error = ENOMEM;
        else
            whole->length += fread(whole->octets + whole->length, 1, room - whole->length, file);
        if (error == 0 && ferror(file))
            error = errno;
    }
    if (!from_input)
        fclose(file);
    errno = error;
    return error == 0;
}

/* The version of an image: its fifth octet, or 0 where it has none. */
static inline unsigned image_version(const uint8_t *image, size_t length)
{
    return length > 4 ? image[4] : 0;
}

#endif
