/*
 * The image of the hub in a file: loaded at the start, in either version, and replaced as a whole at each save. Beside it each save leaves a copy, the same
 * image in version 1, for a hub that takes no other, or no copy where version 1 cannot say it: that of a save before would be another image, perhaps with keys
 * that are removed since. Where a save fails, or is cut off between the two files, the copy may be that of the save before; a save that fails says so.
 *
 * A file that includes this defines _XOPEN_SOURCE as 700 before its first include.
 */
#ifndef IMAGE_FILE_H
#define IMAGE_FILE_H

#include <errno.h>
#include <stdint.h>
#include <stdio.h>
#include <string.h>
#include <unistd.h>

#include "../tools/new_file.h"
#include "hub.h"
#include "outcomes.h"

/* Loads an image; 0 where the hub does not take it, and then says what is wrong with it, and where. Its fifth octet is its version. */
static inline int load_image(const uint8_t *image, size_t length)
{
    const unsigned version = length > 4 ? image[4] : 0;
    const uint64_t result = hub_load(state, sizeof state, image, length);
    printf("Image of version %u, %zu octets: %s\n", version, length, answer_name(hub_answer(result)));
    if (hub_bad_image(result))
        printf("    Answer %u at octet %zu. Nothing is loaded; 'hub check' names what stands there\n", hub_answer(result), hub_offset(result));
    if (hub_answer(result) == HUB_DONE && version == 1)
        printf("    The next save makes it version 2\n");
    radio_asks();
    return hub_answer(result) == HUB_DONE;
}

/*
 * Starts from the image in a file, or fresh where there is none. Where one is there that cannot be read, or that the hub does not take, a fresh start would end
 * with a save over it.
 */
static inline int load_file(const char *path)
{
    static const uint8_t empty[] = { 0, 0, 0, 6, 2, 0 };
    static uint8_t image[HUB_IMAGE_MAX + 1];
    FILE *file = path ? fopen(path, "rb") : NULL;
    size_t length;
    int failed;
    if (!file && path && errno != ENOENT) {
        printf("%s: %s\n", path, strerror(errno));
        return 0;
    }
    if (!file) {
        printf("A fresh hub\n");
        return load_image(empty, sizeof empty);
    }
    length = fread(image, 1, sizeof image, file);
    failed = ferror(file);
    fclose(file);
    if (failed)
        printf("%s: cannot be read\n", path);
    else if (length > HUB_IMAGE_MAX)
        printf("%s: more than %u octets, so no image\n", path, HUB_IMAGE_MAX);
    return !failed && length <= HUB_IMAGE_MAX && load_image(image, length);
}

/* Writes an image to a file; 0 where that fails. */
static inline int write_image(const char *path, const uint8_t *image, size_t length)
{
    const char *fault = replace_file(path, image, length);
    if (fault)
        printf("%s: %s\n", path, fault);
    else
        printf("    %zu octets of version %u are in %s\n", length, (unsigned)image[4], path);
    return !fault;
}

/* Removes the copy of a save before, where there is one (of a link, the link); 0 where that fails. */
static inline int remove_copy(const char *copy)
{
    if (unlink(copy) == 0) {
        printf("    %s, of a save before, is removed\n", copy);
        return 1;
    }
    if (errno == ENOENT)
        return 1;
    printf("%s: %s\n", copy, strerror(errno));
    return 0;
}

/* Makes version 1 of an image, in a file beside that of a path. Where there is none, since BR/EDR is off somewhere, that file is removed. */
static inline int write_version_1(const char *path, const uint8_t *image, size_t length)
{
    static uint8_t out[HUB_IMAGE_MAX];
    const uint64_t result = hub_downgrade(image, length, out, sizeof out);
    const unsigned answer = hub_answer(result);
    char copy[4096];
    printf("The same in version 1: %s\n", answer_name(answer));
    if (answer != HUB_DONE && answer != HUB_NOT_IN_IMAGE)
        return 0;
    if (!path)
        return 1;
    if (snprintf(copy, sizeof copy, "%s.1", path) >= (int)sizeof copy) {
        printf("%s.1: %s\n", path, strerror(ENAMETOOLONG));
        return 0;
    }
    return answer == HUB_DONE ? write_image(copy, out, hub_count(result)) : remove_copy(copy);
}

/* Saves the hub to a file, if there is a path to one, and beside it in version 1 where that can be had. */
static inline int save_file(const char *path)
{
    const uint64_t result = hub_save(state, sizeof state, reply, sizeof reply);
    printf("Save: %s\n", answer_name(hub_answer(result)));
    print_octets("image", reply, hub_count(result));
    if (hub_answer(result) != HUB_DONE || (path && !write_image(path, reply, hub_count(result))))
        return 0;
    return write_version_1(path, reply, hub_count(result));
}

#endif
