/*
 * Images with octets spoilt at random, cut or lengthened, in buffers of their own length: what the tool says of them goes with what the library answers, so
 * that a part of the image begins at each offset. Then lines of any number and offset about any octets, which have to come to an end in the octets and in the
 * line. The files named are the images to begin with; the program is run with undefined behaviour and the heap's bounds looked at.
 */
#include <stdio.h>
#include <stdlib.h>
#include <string.h>

#include "hub.h"
#include "image_fault.h"

enum { ROUNDS = 20000 };

static unsigned long seen[HUB_IMAGE_REPEATED + 1];

static unsigned draw(unsigned below)
{
    static uint64_t seed = 20240229;
    seed = seed * 6364136223846793005u + 1442695040888963407u;
    return (unsigned)((seed >> 33) % below);
}

/* Ends the program with the image in words. */
static void fails(const char *why, const char *text)
{
    fprintf(stderr, "faults: %s: %s\n", why, text);
    exit(EXIT_FAILURE);
}

/* Writes the length of an image into its length field, if it has one. */
static void set_length(uint8_t *image, size_t length)
{
    for (size_t i = 0; length >= 4 && i < 4; i++)
        image[i] = (uint8_t)(length >> (24 - 8 * i));
}

/* Makes another image of one, in a buffer of its length: cut or lengthened, the length field set right or not, octets spoilt. */
static uint8_t *spoil(const uint8_t *image, size_t length, size_t *spoilt_length)
{
    static const uint8_t values[] = { 0, 1, 2, 3, 5, 32, 33, 0x80, 0xC0, 0xFF };
    const size_t kept = draw(3) ? length : draw((unsigned)length + 1), added = draw(8) ? 0 : draw(40);
    uint8_t *spoilt = calloc(kept + added + (kept + added == 0), 1);
    if (!spoilt)
        fails("memory", "none");
    memcpy(spoilt, image, kept);
    *spoilt_length = kept + added;
    if (draw(10))
        set_length(spoilt, *spoilt_length);
    for (unsigned times = draw(3); times > 0 && *spoilt_length > 0; times--) {
        const size_t limit = draw(2) && *spoilt_length > 80 ? 80 : *spoilt_length;
        spoilt[draw((unsigned)limit)] = draw(2) ? values[draw(sizeof values)] : (uint8_t)draw(256);
    }
    return spoilt;
}

/* The line is whole, and begins with number and offset. */
static void must_be_whole(const struct line *line, uint64_t result)
{
    char head[64];
    snprintf(head, sizeof head, "%u at octet %zu: ", hub_answer(result), hub_offset(result));
    if (strncmp(line->text, head, strlen(head)) != 0 || line->length + 1 >= sizeof line->text || line->text[line->length] != '\0')
        fails("no whole line", line->text);
}

/* A part begins where the library says; one that the image ends in is not whole; what is left over is behind the last part. */
static void must_agree(const uint8_t *image, size_t length, uint64_t result, const char *text)
{
    struct part part = first_part(image, length);
    const size_t offset = hub_offset(result);
    const int found = part_at(&part, offset);
    const int cut = hub_answer(result) == HUB_IMAGE_LENGTH && offset == length;
    if (cut ? !found || part.octets <= length - part.at : part.at != offset)
        fails("no part begins there", text);
    if (!found && (hub_answer(result) != HUB_IMAGE_LENGTH || offset >= length))
        fails("behind the last part", text);
    seen[hub_answer(result)]++;
}

/* What the tool says of an image, and of the same octets with any number and offset. */
static void say(const uint8_t *image, size_t length)
{
    static uint8_t state[HUB_STATE_LEN];
    const uint64_t result = hub_load(state, sizeof state, image, length);
    const uint64_t any = (HUB_IMAGE_LENGTH + draw(7)) | (uint64_t)draw((unsigned)length + 1) << 32;
    struct line line;
    if (hub_bad_image(result)) {
        must_agree(image, length, result, say_fault(&line, result, image, length, 0));
        must_be_whole(&line, result);
    }
    (void)say_fault(&line, any, image, length, draw(3));
    must_be_whole(&line, any);
}

int main(int argc, char **argv)
{
    unsigned long sum = 0;
    for (int i = 1; i < argc; i++) {
        struct octets base;
        if (!read_file(argv[i], &base))
            fails("not read", argv[i]);
        for (int round = 0; round < ROUNDS; round++) {
            size_t length;
            uint8_t *image = spoil(base.octets, base.length, &length);
            say(image, length);
            free(image);
        }
        free(base.octets);
    }
    for (unsigned number = HUB_IMAGE_LENGTH; number <= HUB_IMAGE_REPEATED; number++) {
        if (seen[number] == 0)
            fails("a number that never came", "none");
        sum += seen[number];
    }
    printf("faults: %lu images, each named where the library says\n", sum);
    return EXIT_SUCCESS;
}
