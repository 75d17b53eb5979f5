/*
 * The tools of the bench, each a word of this one program, over the library: `hub help` tells them all.
 *
 * Every word ends with 0 where all is fine, 1 where it found something, and 2 where it was used wrongly, a file cannot be read or written, or holds what the
 * word does not take; a line on the standard error then says what.
 */
#define _XOPEN_SOURCE 700
#include <errno.h>
#include <limits.h>
#include <stdio.h>
#include <string.h>

#include "check.h"
#include "hub.h"
#include "messages.h"
#include "move.h"
#include "why.h"

/* The words: name, arguments, how many of them there are at least and at most, what it does, and its function, which is given the arguments. */
static const struct word {
    const char *name, *arguments;
    int least, most;
    const char *help;
    int (*run)(int count, char **arguments);
} words[] = {
    { "why", "HUB PACKET", 2, INT_MAX,
      "why says whether the hub would take a command packet, and if not, why, in one line:\n"
      "    would be taken\n"
      "    would be refused, status 0x0D: Invalid Parameters: the key type is above 4, record 1, octet 51\n"
      "Octets and records are counted from 0; docs/WHY.md has every wording.\n",
      why },
    { "check", "IMAGE", 1, 1,
      "check says whether the hub takes an image, of either version, and if not, what is wrong with it first, in one line:\n"
      "    acceptable: version 2, 3 controllers, 812 octets\n"
      "    76 at octet 37: record: blocked device 0 of controller 0 (index 0): the address is zero; 7 octets: 00 00 00 00 00 00 00\n"
      "Octets, controllers and records are counted from 0. More may be wrong behind that. The Value of a key in a key\n"
      "record is shown as **. But where a count, a length or the version is spoilt, what lies at the offset is read as\n"
      "something else, and a piece of a key can be among the octets shown: treat the line as the image itself.\n"
      "docs/IMAGE.md has the layout of an image, its rules and the numbers, 71 to 77.\n",
      check },
    { "upgrade", "IN OUT", 2, 2,
      "upgrade makes an image of version 2 of the one of version 1 in the file IN. Octets of a name behind its first\n"
      "zero are left out, which is said.\n",
      upgrade },
    { "downgrade", "IN OUT", 2, 2,
      "downgrade makes an image of version 1 of the one of version 2 in the file IN, for a hub that takes no other. One\n"
      "with BR/EDR off at a controller that supports it is not moved: version 1 cannot say so.\n",
      downgrade },
};

enum { WORDS = sizeof words / sizeof words[0] };

/* Tells all words, and what their arguments are. */
static void usage(FILE *to)
{
    for (int i = 0; i < WORDS; i++)
        fprintf(to, "%s hub %s %s\n", i == 0 ? "usage:" : "      ", words[i].name, words[i].arguments);
    fputs("       hub help\n\n", to);
    for (int i = 0; i < WORDS; i++)
        fprintf(to, "%s\n", words[i].help);
    fprintf(to,
            "HUB is a file. One of %u octets is a state, as a call left it. Any other is an image and is loaded:\n"
            "power is off then, and there are no timers, no advertising instances and no commands under way; an image of\n"
            "version 1 has BR/EDR on where it is supported.\n"
            "PACKET is octets in hexadecimal, in their order in the packet, where a number has its low octet first (code 0x0005\n"
            "is 05 00), as in 05000000010001 or 05:00:00:00:01:00:01 or, in one argument or in\n"
            "several, 0x05 0x00 0x00 0x00 0x01 0x00 0x01; or it is @FILE, the octets of a file. HUB, PACKET, IMAGE or IN may\n"
            "be -, the standard input.\n"
            "OUT is made, or replaced as a whole when all is done, and may be the file IN; else it is left as it was. A new OUT\n"
            "is for its owner alone to read and write (mode 0600), since an image holds keys; one that is replaced keeps owner,\n"
            "group and mode.\n"
            "\n"
            "The exit code is 0 if all is fine (the packet would be taken, the image is acceptable or moved), 1 if something was\n"
            "found (the packet would be refused, check finds a fault, the image to be moved has BR/EDR off), 2 if the use was\n"
            "wrong, or a file cannot be read or written or is not what it should be.\n",
            HUB_STATE_LEN);
}

/* Says how the program was used wrongly, and how it is used. */
static int misused(const char *what)
{
    wrong("%s", what);
    usage(stderr);
    return WRONG;
}

static int asks_for_help(const char *argument)
{
    return strcmp(argument, "--help") == 0 || strcmp(argument, "-h") == 0;
}

/* Runs the word that is called, or tells all of them. */
static int run(int argc, char **argv)
{
    const char *name = argc > 1 ? argv[1] : "", *first = argc > 2 ? argv[2] : "";
    const struct word *word = words;
    while (word < words + WORDS && strcmp(name, word->name) != 0)
        word++;
    if (strcmp(name, "help") == 0 || asks_for_help(name) || (word < words + WORDS && asks_for_help(first))) {
        usage(stdout);
        return FINE;
    }
    if (word == words + WORDS)
        return misused(argc > 1 ? "no such word" : "no word");
    if (argc - 2 < word->least)
        return misused("too few arguments");
    if (argc - 2 > word->most)
        return misused("too many arguments");
    return word->run(argc - 2, argv + 2);
}

int main(int argc, char **argv)
{
    int code = run(argc, argv);
    if (fflush(stdout) != 0 || ferror(stdout))
        return wrong("the standard output: %s", strerror(errno));
    return code;
}
