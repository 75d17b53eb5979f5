/*
 * The word check: whether the hub takes an image, and if not, what is wrong with it, and where.
 */
#ifndef CHECK_H
#define CHECK_H

#include <stdint.h>
#include <stdio.h>
#include <stdlib.h>

#include "hub.h"
#include "image_fault.h"
#include "messages.h"
#include "octets.h"

/* Says what hub_load says of an image. */
static inline int check_image(const char *path, const struct octets *image)
{
    static uint8_t scratch[HUB_STATE_LEN];
    const uint64_t result = hub_load(scratch, sizeof scratch, image->octets, image->length);
    struct line line;
    if (hub_bad_image(result)) {
        printf("%s\n", say_fault(&line, result, image->octets, image->length, 0));
        if (image->length == HUB_STATE_LEN)
            note("%s: as long as a state, which is no image; hub_save makes an image of a state", path);
        return FOUND;
    }
    if (hub_answer(result) != HUB_DONE)
        return wrong("the library answers %u", hub_answer(result));
    printf("acceptable: version %u, %u controller%s, %zu octets\n", (unsigned)image->octets[4], (unsigned)image->octets[5], image->octets[5] == 1 ? "" : "s",
           image->length);
    return FINE;
}

/* hub check: one line. */
static inline int check(int count, char **arguments)
{
    struct octets image;
    int code;
    (void)count;
    if (!*arguments[0])
        return wrong("IMAGE is empty, and not the name of a file");
    code = read_file(arguments[0], &image) ? check_image(arguments[0], &image) : unreadable(arguments[0]);
    free(image.octets);
    return code;
}

#endif
