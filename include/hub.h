/*
 * The hub: steers up to four Bluetooth controllers, index 0 to 3, by the BlueZ management commands.
 *
 * The caller lends every buffer: the state, the packet or image, the reply, text or room for an image. Each call returns one number that holds the answer
 * and the count of octets written to the last of these, of hub_why a status too, of hub_look_up a slot and the slots walked, of hub_stream the octets
 * taken, and where an image is refused the offset of its fault; take it apart with hub_answer, hub_count, hub_extra, hub_slot, hub_walked, hub_taken and
 * hub_offset. The buffer behind the octets written is left alone.
 *
 * What the caller owes:
 *   - each length is the true length of its buffer;
 *   - a pointer is null only where its length is 0; it is then never used;
 *   - the buffers lent to one call do not overlap;
 *   - the state buffer is written by these functions alone: each call is lent what the call before it left; start it with hub_load;
 *   - one call at a time on a state: none from a second thread or from an interrupt while another call on the same state runs.
 * Whatever else is passed is answered by a number, never by undefined behaviour: any octets in any buffer, buffers of any length, any index and
 * status. No buffer needs an alignment. The library keeps nothing between calls, so calls on different states may run at the same time.
 *
 * After HUB_BAD_STATE the state buffer is not what a call left: something else wrote it, an older library did, nothing was ever loaded, or its length is
 * not HUB_STATE_LEN, which no call mends. The call has done nothing, and every call but hub_load will answer the same. Load the last image that was saved,
 * or the empty one. What an image does not hold is lost: power, discoverable, timers, the clock, advertising instances, commands under way, what waits of a
 * packet off the serial line, and what stands in a name behind its first zero. Reports for those commands are answered 6, so the host tells their clients
 * itself.
 *
 * After HUB_STARTED the command waits, without a limit of time, for hub_report or hub_unplug of its index; until then Set Powered, Set Discoverable,
 * Set Connectable, Set Low Energy, Set BR/EDR and Set Static Address to that index are refused Busy. A host whose radio driver gives up has to report a
 * failure, any status from 0x01 to 0x14; 0x03 is Failed, 0x08 Timeout.
 *
 * Clients add advertising instances 1 to 5 (0x003E) and remove them (0x003F). While a controller is powered and has any, one of them is on air, in
 * turns that hub_clock counts; the radio driver asks hub_on_air and sends what that gives. An instance whose whole turn lies between two clock readings
 * is never seen by the driver, yet its seconds count: read the clock each second. Power off removes the instances that have a timeout, Set Low Energy
 * off all of them, each told by Advertising Removed behind New Settings, also in what hub_report writes. No image holds instances, so a loaded state
 * has none; an unplug drops them with no event of theirs. After hub_load the first clock reading is a step of the whole reading: give one before the
 * first instance is added.
 *
 * A static random address has the two top bits of its sixth octet set, and its random part, the 46 bits below them, is neither all 0 nor all 1:
 * C0:00:00:00:00:00 and FF:FF:FF:FF:FF:FF are not static random addresses. Set Static Address takes one, or zero for none; in the lists of long term and
 * identity resolving keys an LE Random address has to be one. Any other is refused with Invalid Parameters there. The address of a device that is blocked,
 * added or unpaired need not be one. A host that draws a static address at random tests it first, or draws again when it is refused. An image with any
 * other address in these places is refused, with HUB_IMAGE_FIELD or HUB_IMAGE_RECORD and where it stands, and a state with HUB_BAD_STATE, as those of an
 * older library may be. Nothing in them is mended: keep the file, and start from the empty image.
 *
 * Set BR/EDR (0x002A) turns the BR/EDR of a controller that has both transports off and on; plug turns it on, and an image keeps it. Off is taken while
 * power is off, and turns discoverable off; on is taken with no static address; both want Low Energy on. With BR/EDR off or not supported, discoverable is
 * not turned on and Low Energy not off, and a static address is in use in place of a public one (bit 15 of Current_Settings). Link keys go by what is
 * supported, also then.
 *
 * An image is what a file keeps of a state. Its fifth octet is its version. In version 2 a name is a length octet and as many octets, none of them zero, and
 * a flag says whether BR/EDR is on. In version 1 a name has all of its room, 249 or 11 octets, and BR/EDR counts as on wherever it is supported. In all
 * else they are alike. hub_load takes both, and hub_save writes version 2: a file of version 1 is loaded as it is, but the next save makes it version 2, which
 * an older library, one that knows version 1 alone, refuses. hub_downgrade makes version 1 of an image of version 2, unless it has BR/EDR off at a controller
 * that supports it, and hub_upgrade makes version 2 of one of version 1. They work on images alone, without a state. Version 2 has no octets of a name
 * behind its first zero: hub_upgrade drops them, as hub_save does, and they come back as zeros. Nothing else is lost either way.
 *
 * An image that keeps every rule is taken; any other is refused by hub_load and the moves with one of seven numbers, HUB_IMAGE_LENGTH to HUB_IMAGE_REPEATED,
 * and hub_offset says at which octet, counted from 0, the first thing at fault begins. First the head is looked at: five octets (else 71 at the end), then
 * the version, then the length field, which says how long the file is; so a file that was merely cut, to five octets or more, is 71 at 0, since its length
 * field still says the old length. Then all else in the order of the file: each field, count and record is first whole (else 71 at the end), then right; a
 * name of version 2 is one field with its length octet. Of two fields that do not fit together the later one is at fault, and so is the later of two records
 * that name one thing; a record that breaks a rule of its own is not told as repeated. What is told is the first fault and not all there is: more may be
 * wrong behind it. docs/IMAGE.md has the layout of an image and an example of each number.
 *
 * Octets off a serial line go to hub_stream as they come, in lumps of any length; it finds the packets. What has come of the next packet waits in the
 * state, and no other call touches it or looks at it: hub_command, the radio, the clock and hub_save go on beside it. No image holds it, and after hub_load
 * nothing waits. A state has one such line. Packets of a second one the host finds itself, by their lengths, and gives to hub_command.
 *
 * Nothing on the line marks where a packet begins: any six octets are a header, and the next packet begins where this one's length says, up to 65,541
 * octets on. So a line that loses octets or adds some is out of step from there on, which no call sees, and what then looks like a packet is answered, and
 * done, as one. See to it that the line loses nothing, or check what comes off it before it is lent. No call drops what waits. A host that knows where a
 * packet begins again (the line was silent, the client has come back) has two ways to get there with nothing waiting: to save and load, which loses what no
 * image holds; or to lend octets of its own until the packet coming in is finished. That packet is answered, and done, as any other: choose them, as far as
 * there is a choice, such that it is refused, which hub_why tells beforehand of the octets taken since the last packet with these behind them.
 *
 * A refusal tells a status and no more. hub_why says in words which check fails first and where in the packet: lend it the same packet and the state as it
 * was before the command, or right after it, since a refused command leaves the state alone. docs/WHY.md has every wording. To ask after a refusal of
 * hub_stream, keep the octets of the packet coming in as they are taken.
 *
 * Each controller has six tables of 32 slots. A record keeps its slot until it goes, and a new one takes the lowest free slot. hub_look_up says in which slot
 * of a table a key stands, and how far the look-up had to walk: it is the look-up of every command that looks for a record.
 *
 * Opcodes, event codes and status codes are those of BlueZ's mgmt.h; this header defines none of its names.
 */
#ifndef HUB_H
#define HUB_H

#include <stddef.h>
#include <stdint.h>

#ifdef __cplusplus
extern "C" {
#endif

/* The length of the state buffer; any other length is answered HUB_BAD_STATE. */
#define HUB_STATE_LEN 18656u
/* The shortest reply buffer that every call but hub_save takes. */
#define HUB_REPLY_MIN 1024u
/* The shortest buffer for an image that hub_save, hub_upgrade and hub_downgrade take, and the length of the longest image, in both versions. */
#define HUB_IMAGE_MAX 16014u
/* The shortest text buffer that hub_why takes; no text is longer. */
#define HUB_TEXT_MIN 256u

/* What a call answers. */
#define HUB_DONE 0u         /* done: the reply and the events behind it are written, the state is the new one */
#define HUB_STARTED 1u      /* started: the radio owes a report; the command is kept, nothing is written */
#define HUB_REFUSED 2u      /* refused: one reply, which tells the status; state as it was, here and below (hub_stream: but for what waits) */
#define HUB_BAD_PACKET 3u   /* the packet has no whole header, or another length than its header says */
#define HUB_SMALL_BUFFER 4u /* the reply buffer is shorter than HUB_REPLY_MIN (an image's: HUB_IMAGE_MAX; the text's of hub_why: HUB_TEXT_MIN) */
#define HUB_BAD_STATE 5u    /* the lent state is not well formed */
#define HUB_BAD_ARGUMENT 6u /* a wrong argument, of hub_plug, hub_unplug, hub_report, hub_clock, hub_name, hub_on_air or hub_look_up */
#define HUB_NOT_IN_IMAGE 8u /* hub_downgrade: a controller that supports BR/EDR has it off, which version 1 cannot say */
#define HUB_INCOMPLETE 9u   /* hub_stream: no packet is finished yet; all octets were taken, and only what waits has changed; nothing is written */

/* What is wrong with an image, of hub_load, hub_upgrade and hub_downgrade; hub_offset says where that begins. */
#define HUB_IMAGE_LENGTH 71u   /* its length field says another length (offset 0), it ends before a field or record is whole, or octets are left over */
#define HUB_IMAGE_VERSION 72u  /* a version that is not taken: hub_load takes 1 and 2, hub_upgrade 1, hub_downgrade 2 */
#define HUB_IMAGE_INDEX 73u    /* more than four controllers, an index above 3, or indexes that do not ascend */
#define HUB_IMAGE_FIELD 74u    /* another field of a controller: its supported settings, flags, static address, name or short name */
#define HUB_IMAGE_COUNT 75u    /* a table of more than 32 records */
#define HUB_IMAGE_RECORD 76u   /* a record that breaks a rule of its own, or that its controller cannot have */
#define HUB_IMAGE_REPEATED 77u /* a record that names what a record before it in its table names */

/* The tables of a controller, as hub_look_up numbers them. */
#define HUB_UUIDS 0u
#define HUB_LINK_KEYS 1u
#define HUB_LONG_TERM_KEYS 2u
#define HUB_IDENTITY_KEYS 3u
#define HUB_BLOCKED_DEVICES 4u
#define HUB_DEVICES 5u
/* The slots of a table are 0 to 31; hub_slot gives this number where no record has the key. */
#define HUB_SLOTS 32u

/* The answer, one of the numbers above. */
static inline unsigned hub_answer(uint64_t result)
{
    return (unsigned)(result & 0xFFu);
}

/* The count of octets written to the reply buffer, to the text buffer of hub_why, or to the out buffer of hub_upgrade and hub_downgrade. */
static inline size_t hub_count(uint64_t result)
{
    return (size_t)((result >> 8) & 0xFFFFFFu);
}

/*
 * A second number: of hub_why the status that hub_command would answer with, 0 if the packet would be taken; of hub_look_up the slot + 256 x the slots
 * walked; of hub_stream the octets taken; of hub_load, hub_upgrade and hub_downgrade, with 71 to 77, the offset of the fault. Else it is 0.
 */
static inline uint32_t hub_extra(uint64_t result)
{
    return (uint32_t)(result >> 32);
}

/* The slot that hub_look_up found, with answer 0: 0 to 31, or HUB_SLOTS where no record has the key. (With any other answer it is 0, and says nothing.) */
static inline unsigned hub_slot(uint64_t result)
{
    return (unsigned)(hub_extra(result) & 0xFFu);
}

/* How many slots hub_look_up walked, with answer 0. */
static inline unsigned hub_walked(uint64_t result)
{
    return (unsigned)(hub_extra(result) >> 8);
}

/* How many of the lent octets hub_stream took; with answers 4 and 5 none. */
static inline size_t hub_taken(uint64_t result)
{
    return (size_t)hub_extra(result);
}

/* Whether an image was refused for what it is: one of the answers 71 to 77. */
static inline int hub_bad_image(uint64_t result)
{
    return hub_answer(result) >= HUB_IMAGE_LENGTH && hub_answer(result) <= HUB_IMAGE_REPEATED;
}

/* With 71 to 77: where the first thing at fault begins, counted from 0; the length of the image where it ends too early. (Else 0, which says nothing.) */
static inline size_t hub_offset(uint64_t result)
{
    return (size_t)hub_extra(result);
}

/* One packet of a reply: Command Complete (code 1), Command Status (code 2), or an event. */
struct hub_frame {
    uint16_t code;
    uint16_t index;        /* the controller, or 0xFFFF */
    const uint8_t *params; /* its parameters, where they stand in the reply */
    size_t length;         /* how many octets they have */
};

/*
 * Tells the packets of a reply apart: the one that begins at *position, which is moved behind it. Start at 0 and go on while it returns 1; it returns
 * 0 at the end and where the octets up to count are no whole packet, with *position as it was, so that *position == count says that all was read.
 * No octet past the count is looked at. (What hub_save, hub_upgrade, hub_downgrade, hub_name, hub_on_air and hub_why write is an image, a name, an
 * instance and a text, not packets.)
 */
static inline int hub_next_frame(const uint8_t *reply, size_t count, size_t *position, struct hub_frame *frame)
{
    const size_t at = *position, header = 6;
    size_t length;
    if (at > count || count - at < header)
        return 0;
    length = (size_t)reply[at + 4] | (size_t)reply[at + 5] << 8;
    if (count - at - header < length)
        return 0;
    frame->code = (uint16_t)(reply[at] | reply[at + 1] << 8);
    frame->index = (uint16_t)(reply[at + 2] | reply[at + 3] << 8);
    frame->params = reply + at + header;
    frame->length = length;
    *position = at + header + length;
    return 1;
}

/*
 * A command packet: code, index, length (2 octets each, little-endian), parameters.
 * Answers 0 with the reply and its events, 1 if the radio now has to act (call hub_report when it has), 2 with the refusal, 3, 4 or 5.
 */
uint64_t hub_command(uint8_t *state, size_t state_len, const uint8_t *packet, size_t packet_len, uint8_t *reply, size_t reply_len);

/*
 * Octets off the serial line, as many as there are, also none. Takes them up to the end of the packet that is coming in, and no further: with answers
 * 0, 1 and 2 that packet is finished, nothing waits, and answer, reply and state are those of hub_command with the whole packet. With answer 9 it is not: all
 * octets were taken, and nothing is written. hub_taken says how many were taken; lend the rest again, from there on, until all are. With answers 4 and 5 none
 * was taken. After 4 lend the same again, with a longer reply buffer; any that is too short is answered 4, also where no packet would be finished. After 5 load first:
 * what waited is lost with the state, so that the next octets lent have to begin a packet. A packet of more than 1,160
 * octets, which hub_command never takes, is not kept, and is refused at its last octet as hub_command refuses it. Answers 0, 1, 2, 4, 5 or 9, never 3.
 */
uint64_t hub_stream(uint8_t *state, size_t state_len, const uint8_t *octets, size_t octets_len, uint8_t *reply, size_t reply_len);

/*
 * The radio reports on the command under way at an index: status 0 lets it act and writes its reply and events, 0x01 to 0x14 ends it and writes
 * a Command Status that tells the status. Answers 0, or 6 if no command is under way there or the status is above 0x14, 4 or 5.
 */
uint64_t hub_report(uint8_t *state, size_t state_len, uint64_t index, uint64_t status, uint8_t *reply, size_t reply_len);

/*
 * The clock reads so many seconds; it wraps at 2^32. Discoverable timers that end turn discoverable off and write New Settings. The turns of
 * advertising instances go on; an instance whose timeout ends is gone, and Advertising Removed is written behind that index's New Settings, lowest
 * instance first. Indexes ascend. The step is counted from the reading before, which is 0 after hub_load; a step of n counts as n single seconds.
 * Answers 0, or 6 for a step of 2^31 seconds or more (a reading from the past), 4 or 5.
 */
uint64_t hub_clock(uint8_t *state, size_t state_len, uint32_t reading, uint8_t *reply, size_t reply_len);

/*
 * A controller is plugged in at an index; the address has 6 octets, lowest first, all zero where it has no public address. Writes Index Added.
 * Answers 0, or 6 if the index is taken or above 3, the address has not 6 octets, a supported bit above 15 is set, neither BR/EDR (bit 7) nor LE (bit 9)
 * is supported, or BR/EDR is and the address is zero, 4 or 5.
 */
uint64_t hub_plug(uint8_t *state, size_t state_len, uint64_t index, const uint8_t *address, size_t address_len, uint8_t version,
                  uint16_t manufacturer, uint32_t supported, uint8_t *reply, size_t reply_len);

/*
 * The controller at an index is gone, its advertising instances with it. A command under way there is told Invalid Index by Command Status; behind that
 * comes Index Removed.
 * Answers 0, or 6 for an absent index, 4 or 5.
 */
uint64_t hub_unplug(uint8_t *state, size_t state_len, uint64_t index, uint8_t *reply, size_t reply_len);

/*
 * Writes the image of the state to the reply buffer, in version 2. Answers 0, 4 or 5. Write it to a new file and rename that over the old one.
 */
uint64_t hub_save(const uint8_t *state, size_t state_len, uint8_t *reply, size_t reply_len);

/*
 * Makes the state that an image of version 1 or 2 describes; the six octets 00 00 00 06 02 00 make a fresh one, and so do 00 00 00 06 01 00. What the state
 * buffer held does not matter; it is written only if the whole image is acceptable. Nothing waits of a packet off the serial line then: the next octets lent
 * to hub_stream begin one. Answers 0, 5 for a state buffer of another length, or 71 to 77 with the offset of the fault.
 */
uint64_t hub_load(uint8_t *state, size_t state_len, const uint8_t *image, size_t image_len);

/*
 * Makes version 2 of an image of version 1, in the out buffer: what hub_save writes once the image is loaded. Octets of a name behind its first zero are
 * dropped. Answers 0, 4 for an out buffer under HUB_IMAGE_MAX, or 71 to 77 with the offset of the fault for what is no acceptable image of version 1.
 */
uint64_t hub_upgrade(const uint8_t *image, size_t image_len, uint8_t *out, size_t out_len);

/*
 * Makes version 1 of an image of version 2, in the out buffer; zeros fill each name up. hub_upgrade makes the same image of version 2 of it again. Answers 0,
 * 4 for an out buffer under HUB_IMAGE_MAX, 71 to 77 with the offset of the fault for what is no acceptable image of version 2, or 8 if the image has BR/EDR
 * off at a controller that supports it.
 */
uint64_t hub_downgrade(const uint8_t *image, size_t image_len, uint8_t *out, size_t out_len);

/*
 * Reads the name (0) or the short name (1) of the controller at an index: writes its octets up to the first zero, without it, at most 248 of them, none
 * where no name was set. Answers 0, or 6 for an absent index or another number than 0 and 1, 4 or 5.
 */
uint64_t hub_name(const uint8_t *state, size_t state_len, uint64_t index, uint64_t which, uint8_t *reply, size_t reply_len);

/*
 * Reads the advertising instance that is on air at an index: writes Instance (1 octet), Adv_Data_Len (1), Scan_Rsp_Len (1), Adv_Data, Scan_Rsp, at most
 * 65 octets, none where no instance is on air. Ask after each call that could change it: hub_command, hub_stream or hub_report with answer 0, hub_clock;
 * after hub_load and hub_unplug none is. Answers 0, or 6 for an absent index, 4 or 5.
 */
uint64_t hub_on_air(const uint8_t *state, size_t state_len, uint64_t index, uint8_t *reply, size_t reply_len);

/*
 * Says what hub_command with room for its reply would answer to a packet, and why: writes one line of ASCII with no newline and no zero behind it, which is
 * "would be taken", or the name of the status, the check that fails first and, where that check is of a part of the packet, its place, as in
 * "Invalid Parameters: the key type is above 4, record 1, octet 51". Octets are counted from the packet's first, in a record too, and
 * records from the list's first, both from 0. With answer 0 hub_extra gives the status, which is 0 exactly if hub_command would answer 0 or 1. The state is
 * only read. docs/WHY.md lists every line it can write. Answers 0, 3, 4 or 5.
 */
uint64_t hub_why(const uint8_t *state, size_t state_len, const uint8_t *packet, size_t packet_len, uint8_t *text, size_t text_len);

/*
 * Looks for a record in a table of the controller at an index. The key is the UUID (16 octets) in table HUB_UUIDS, and address and address type (7 octets) in
 * all others, as they stand in a packet. With answer 0 hub_slot gives the slot of the first record with that key, or HUB_SLOTS, and hub_walked how many
 * slots were walked for it: up to the one found, or up to the last slot in use where there is none, which is 0 in an empty table. (Two long term keys may
 * have one address and type; the first is found.) Nothing is written. Answers 0, or 6 for an absent index, a table above 5 or a key of another length, or 5.
 */
uint64_t hub_look_up(const uint8_t *state, size_t state_len, uint64_t index, uint64_t table, const uint8_t *key, size_t key_len);

#ifdef __cplusplus
}
#endif

#endif
