/*
 * A small host that plays a shift: it starts from an image or fresh, plugs two controllers, powers them with a slow radio while two clients
 * interleave, loads keys, shows on a display where the devices stand that come and go, names a controller, runs another on Low Energy alone, advertises in
 * turns while the clock runs, saves, loads again (image_file.h) and shows what was kept. Client A hands over whole packets; client B is the tablet, whose
 * octets come off a serial line cut anywhere (tablet.h). Every packet and call is printed in words with its octets, and after it what is on air where that
 * has changed; behind a refused command stands why the hub refuses it, in the log too (outcomes.h).
 *
 *     host [IMAGE [LOG]]      IMAGE is read if it is there, in either version, and written on the way and at the end; one that the hub does not take ends the
 *                             host, which says what is wrong with it; IMAGE.1 is the same in version 1, and is removed where version 1 cannot say it, as at
 *                             the end; LOG gets every packet (call_log.h)
 */
#define _XOPEN_SOURCE 700
#include <errno.h>
#include <stdio.h>
#include <stdlib.h>
#include <string.h>

#include "call_log.h"
#include "hub.h"
#include "image_file.h"
#include "outcomes.h"
#include "serial_line.h"
#include "tablet.h"

/* A client sends a command packet: code, index, parameters. The tablet, B, posts it; another client's is answered at once. */
static void sends(const char *client, const char *does, uint16_t code, uint16_t index, const uint8_t *params, size_t length)
{
    uint8_t packet[2048];
    packet[0] = (uint8_t)code;
    packet[1] = (uint8_t)(code >> 8);
    packet[2] = (uint8_t)index;
    packet[3] = (uint8_t)(index >> 8);
    packet[4] = (uint8_t)length;
    packet[5] = (uint8_t)(length >> 8);
    memcpy(packet + 6, params, length);
    if (strcmp(client, "B") == 0)
        tablet_posts(does, packet, 6 + length);
    else
        answered(client, does, packet, 6 + length, hub_command(state, sizeof state, packet, 6 + length, reply, sizeof reply));
}

static void sends_octet(const char *client, const char *does, uint16_t code, uint16_t index, uint8_t value)
{
    sends(client, does, code, index, &value, 1);
}

/* The radio has done what a started command asked for. */
static void radio_reports(const char *what, uint64_t index, uint64_t status)
{
    told(what, hub_report(state, sizeof state, index, status, reply, sizeof reply));
}

static void clock_reads(uint32_t seconds)
{
    char what[64];
    snprintf(what, sizeof what, "The clock reads %u", (unsigned)seconds);
    told(what, hub_clock(state, sizeof state, seconds, reply, sizeof reply));
}

/* Starts from an image or fresh. Nothing waits of a packet off the line then, so nothing is kept of one. */
static int start(const char *path)
{
    tablet.length = tablet.lumps = 0;
    return load_file(path);
}

/* Unplugs what an image brought, so that each shift begins alike. */
static void unplug_all(void)
{
    for (uint64_t index = 0; index < CONTROLLERS; index++)
        (void)hub_unplug(state, sizeof state, index, reply, sizeof reply);
}

/* Two clients and a slow radio. The radio's first reports come while a packet of the tablet is on the line: four octets of it wait in the hub. */
static void interleave(void)
{
    static const uint8_t timed[3] = { 1, 30, 0 };
    sends_octet("A", "sets controller 0 powered", 0x0005, 0, 1);
    sends_octet("B", "sets controller 0 connectable while the radio works: Busy", 0x0007, 0, 1);
    sends_octet("B", "sets controller 1 powered meanwhile", 0x0005, 1, 1);
    sends_octet("B", "sets controller 0 bondable: never Busy", 0x0009, 0, 1);
    line_carries(ALL);
    sends_octet("B", "sets controller 0 connectable", 0x0007, 0, 1);
    line_carries(4);
    radio_reports("The radio of controller 1 fails with status 0x03", 1, 0x03);
    radio_reports("The radio of controller 0 is done", 0, 0);
    radio_reports("A report where nothing is under way", 0, 0);
    line_carries(ALL);
    radio_reports("The radio of controller 0 is done", 0, 0);
    sends("A", "sets controller 0 discoverable for 30 seconds", 0x0006, 0, timed, sizeof timed);
    radio_reports("The radio of controller 0 is done", 0, 0);
}

/* The cab's display asks where a device stands in controller 0's list of devices; its address and type are the key. */
static void display_asks(const char *name, const uint8_t *device)
{
    const uint64_t result = hub_look_up(state, sizeof state, 0, HUB_DEVICES, device, 7);
    if (hub_answer(result) != HUB_DONE)
        printf("    Display: %s: %s\n", name, answer_name(hub_answer(result)));
    else if (hub_slot(result) == HUB_SLOTS)
        printf("    Display: %s is in no slot, slots walked: %u\n", name, hub_walked(result));
    else
        printf("    Display: %s is in slot %u, slots walked: %u\n", name, hub_slot(result), hub_walked(result));
}

/* The cab's display shows which radios of a controller are on: bits 7, 9 and 15 of what Read Controller Information tells as its current settings. */
static void display_shows(uint8_t index)
{
    const uint8_t read[6] = { 0x04, 0, index };
    const uint64_t result = hub_command(state, sizeof state, read, sizeof read, reply, sizeof reply);
    const uint8_t *settings = reply + 6 + 3 + 13;
    if (hub_answer(result) != HUB_DONE)
        printf("    Display: controller %u: %s\n", (unsigned)index, answer_name(hub_answer(result)));
    else
        printf("    Display: controller %u: BR/EDR %s, Low Energy %s, %s address\n", (unsigned)index, settings[0] & 0x80 ? "on" : "off",
               settings[1] & 0x02 ? "on" : "off", settings[1] & 0x80 ? "static" : "public");
}

/* Two devices as a client adds them: address, type, action. */
static const uint8_t spreader[8] = { 9, 8, 7, 6, 5, 0xC4, 2, 2 };
static const uint8_t headset[8] = { 0x31, 0x41, 0x59, 0x26, 0x53, 0xD8, 2, 1 };

/* Devices come and go, and the display follows them. One that is removed leaves a gap: those behind it keep their slots until an image is loaded. */
static void follow_devices(void)
{
    sends("A", "adds a device, the spreader", 0x0033, 0, spreader, sizeof spreader);
    display_asks("the spreader", spreader);
    display_asks("the headset", headset);
    sends("B", "adds another device, the headset", 0x0033, 0, headset, sizeof headset);
    line_carries(ALL);
    display_asks("the headset", headset);
    sends("A", "removes the spreader", 0x0034, 0, spreader, 7);
    display_asks("the headset", headset);
    display_asks("the spreader", spreader);
}

/* Keys, devices and a service. */
static void load_keys(void)
{
    uint8_t list[2 + 2 * 36] = { 2, 0 };
    static const uint8_t uuid[17] = { 0xFB, 0x34, 0x9B, 0x5F, 0x80, 0, 0, 0x80, 0, 0x10, 0, 0, 0x0D, 0x18, 0, 0, 0x20 };
    for (unsigned k = 0; k < 2; k++) {
        uint8_t *key = list + 2 + 36 * k;
        key[0] = (uint8_t)(k + 1);
        key[5] = 0xC0;
        key[6] = 2;
        key[9] = 16;
    }
    sends("A", "loads two long term keys", 0x0013, 0, list, sizeof list);
    list[2 + 36 + 9] = 20;
    sends("B", "loads a list whose second key has 20 octets: refused, the keys stay", 0x0013, 0, list, sizeof list);
    memcpy(list + 2 + 36, list + 2, 36);
    sends("B", "loads a list that names one device twice: refused, the keys stay", 0x0013, 0, list, sizeof list);
    line_carries(ALL);
    follow_devices();
    sends("A", "adds the UUID of Heart Rate, 0x180D, with hint 0x20", 0x0010, 0, uuid, sizeof uuid);
}

/* The tyre hub at 1, a controller with both transports, comes. */
static void plug_tyre_hub(const char *what)
{
    static const uint8_t address[6] = { 0x12, 0x22, 0x33, 0x44, 0x55, 0x66 };
    told(what, hub_plug(state, sizeof state, 1, address, 6, 9, 15, 0x0281, reply, sizeof reply));
}

/* The tyre hub loses its power while its radio works, and comes back. */
static void restart_tyre_hub(void)
{
    sends_octet("A", "sets controller 1 powered", 0x0005, 1, 1);
    told("Controller 1 is unplugged while its radio works", hub_unplug(state, sizeof state, 1, reply, sizeof reply));
    plug_tyre_hub("Controller 1 is back");
}

/* A static random address for controller 1, which is off. Of its 46 random bits one at least has to be 0 and one 1, so a host that draws them tests them. */
static void set_static_address(void)
{
    static const uint8_t bare[6] = { 0, 0, 0, 0, 0, 0xC0 };
    static const uint8_t drawn[6] = { 0x2F, 0x81, 0x5A, 0x03, 0xE7, 0xD4 };
    sends("B", "sets the static address C0:00:00:00:00:00 at controller 1, which no radio takes", 0x002B, 1, bare, sizeof bare);
    sends("B", "sets the static address D4:E7:03:5A:81:2F at controller 1", 0x002B, 1, drawn, sizeof drawn);
}

/* The tyre hub is to run on Low Energy alone. An image keeps that, but one of version 1 cannot. */
static void low_energy_alone(void)
{
    static const uint8_t for_good[3] = { 1, 0, 0 };
    sends_octet("A", "turns BR/EDR of controller 0 off, which is powered: refused", 0x002A, 0, 0);
    sends_octet("B", "turns BR/EDR of controller 1 off", 0x002A, 1, 0);
    sends_octet("B", "sets controller 1 connectable", 0x0007, 1, 1);
    sends("B", "sets controller 1 discoverable: refused without BR/EDR", 0x0006, 1, for_good, sizeof for_good);
    set_static_address();
    line_carries(ALL);
    sends_octet("A", "turns BR/EDR of controller 1 on beside its static address: refused", 0x002A, 1, 1);
    display_shows(1);
}

/* A client names controller 0. */
static void set_name(const char *client, const char *name, const char *short_name)
{
    uint8_t names[260] = { 0 };
    snprintf((char *)names, 249, "%s", name);
    snprintf((char *)names + 249, 11, "%s", short_name);
    sends(client, "names controller 0", 0x000F, 0, names, sizeof names);
}

/* An advertising instance as a client gives it; its data have no zero octets here. */
struct instance {
    uint8_t instance;
    uint16_t duration, timeout;
    const char *data, *scan;
};

/* A client adds an instance to controller 0, or changes it. */
static void add_advertising(const char *client, const char *does, struct instance in)
{
    const size_t data = strlen(in.data), scan = strlen(in.scan);
    uint8_t params[11 + 31 + 31] = { in.instance };
    params[5] = (uint8_t)in.duration;
    params[6] = (uint8_t)(in.duration >> 8);
    params[7] = (uint8_t)in.timeout;
    params[8] = (uint8_t)(in.timeout >> 8);
    params[9] = (uint8_t)data;
    params[10] = (uint8_t)scan;
    memcpy(params + 11, in.data, data);
    memcpy(params + 11 + data, in.scan, scan);
    sends(client, does, 0x003E, 0, params, 11 + data + scan);
}

/* What the plough sends in turns: its name; a service, for 5 seconds on air in all; how much salt is left, which changes. */
static const struct instance plough = { 1, 0, 0, "\x02\x01\x06\x09\x09" "Plough 7", "" };
static const struct instance service = { 2, 3, 5, "\x03\x03\x0D\x18", "" };
static const struct instance salt = { 3, 4, 0, "\x0B\xFF\x0F\x01" "Salt: 80", "\x08\x09" "Line 07" };
static const struct instance less_salt = { 3, 4, 0, "\x0B\xFF\x0F\x01" "Salt: 20", "\x08\x09" "Line 07" };

/* Three instances take turns, and one is gone when its 5 seconds on air are over; the clock is read at the seconds at which a turn ends. */
static void advertise(void)
{
    static const uint32_t readings[] = { 1002, 1005, 1009, 1011, 1013 };
    struct instance sixth = salt;
    sixth.instance = 6;
    add_advertising("A", "adds instance 1 for turns of 2 seconds, the default", plough);
    add_advertising("B", "adds instance 2 for turns of 3 seconds, 5 seconds on air in all", service);
    add_advertising("B", "adds instance 3 for turns of 4 seconds", salt);
    add_advertising("B", "adds instance 6: refused, there are 5", sixth);
    line_carries(ALL);
    for (size_t i = 0; i < sizeof readings / sizeof readings[0]; i++)
        clock_reads(readings[i]);
}

/* Shows the used part of a controller's name, and of its short name. */
static void show_names(uint64_t index)
{
    for (uint64_t which = 0; which < 2; which++) {
        uint64_t result = hub_name(state, sizeof state, index, which, reply, sizeof reply);
        printf("The %s of controller %u: %s, \"%.*s\"\n", which ? "short name" : "name", (unsigned)index, answer_name(hub_answer(result)),
               (int)hub_count(result), (const char *)reply);
    }
}

/* The clients come before the first controller and stay to the end. */
static void clients(const char *word)
{
    log_line("A", word, NULL, NULL, 0);
    log_line("B", word, NULL, NULL, 0);
}

/* What was kept: the hub is loaded from the file that it was saved to, and shown. */
static int show_kept(const char *path)
{
    static const uint8_t none[1] = { 0 };
    if (!save_file(path) || (path && !start(path)))
        return 0;
    sends("B", path ? "reads controller 0: unpowered, its keys kept, its instances gone" : "reads controller 0 once more", 0x0004, 0, none, 0);
    line_carries(ALL);
    display_asks("the headset", headset);
    show_names(0);
    display_shows(1);
    return 1;
}

/* The shift: two controllers, two clients, a slow radio; images are written and read on the way. */
static int shift(const char *path)
{
    static const uint8_t address[6] = { 0x11, 0x22, 0x33, 0x44, 0x55, 0x66 };
    told("Plug a dual-mode controller at 0", hub_plug(state, sizeof state, 0, address, 6, 9, 15, 0x0281, reply, sizeof reply));
    plug_tyre_hub("Plug another at 1, a tyre hub");
    clock_reads(1000);
    interleave();
    load_keys();
    set_name("A", "The plough on line 7", "Plough 7");
    restart_tyre_hub();
    if (!save_file(path))
        return 0;
    low_energy_alone();
    advertise();
    clock_reads(1029);
    clock_reads(1031);
    add_advertising("B", "changes instance 3, which is on air: the turn passes on", less_salt);
    line_carries(ALL);
    sends_octet("A", "removes instance 1, which is on air", 0x003F, 0, 1);
    sends("B", "reads the controllers", 0x0003, 0xFFFF, address, 0);
    line_carries(ALL);
    return show_kept(path);
}

int main(int argc, char **argv)
{
    const char *path = argc > 1 ? argv[1] : NULL;
    int done;
    if (!start(path))
        return EXIT_FAILURE;
    unplug_all();
    if (argc > 2 && !log_start(argv[2])) {
        printf("%s: %s\n", argv[2], strerror(errno));
        return EXIT_FAILURE;
    }
    if (!line_open()) {
        line_breaks(strerror(errno));
        return EXIT_FAILURE;
    }
    clients("open");
    done = shift(path) && !tablet.broken;
    clients("close");
    done = line_close() && done;
    return log_end() && done ? EXIT_SUCCESS : EXIT_FAILURE;
}
