/*
 * hub_why from C: packets of 0 to 70,000 octets with right and wrong length fields, every code with 0 to 3 parameters, lists of 0, 1, 32, 33 and 65,535
 * records, text buffers of every length around the shortest, state buffers of other lengths and with octets that are not well formed. Answers 5, 4 and 3
 * come in this order and write nothing. Else the text is held to words where header and length alone decide them, and always to what hub_command answers on
 * a copy of the state: the status is the one of its refusal, and "would be taken" is told exactly if it answers 0 or 1. All buffers are of exactly the
 * length that is said; state, packet and the octets behind the text stay as they were.
 *
 *     bad_why [STRIDE]      only every STRIDE-th length and code; every one if nothing is said
 */
#include "lent.h"

enum { TEXT = 256, LONGEST = 70000, CODES = 0x10000, LAST_FIELD = 6 + 0xFFFF };

#define LENGTH "Invalid Parameters: the length does not fit the command or the count in it, octet "

static uint8_t base[HUB_STATE_LEN]; /* the busy hub; commands are under way at 0, 1 and 2 */
static const char taken[] = "would be taken";
static const char unknown[] = "Unknown Command: the hub has no command of this code, octet 0";
static const char not_the_hub[] = "Invalid Index: the command is to the hub itself, and the index is not 65535, octet 2";

/* The names of the statuses that refuse a command. */
static const char *name_of(unsigned status)
{
    switch (status) {
    case 0x01: return "Unknown Command: ";
    case 0x03: return "Failed: ";
    case 0x06: return "Not Paired: ";
    case 0x07: return "No Resources: ";
    case 0x0A: return "Busy: ";
    case 0x0B: return "Rejected: ";
    case 0x0C: return "Not Supported: ";
    case 0x0D: return "Invalid Parameters: ";
    case 0x0F: return "Not Powered: ";
    case 0x11: return "Invalid Index: ";
    default: return "no such status";
    }
}

static void note(const char *what, size_t with, int right, const uint8_t *text, size_t count)
{
    tried++;
    if (right)
        return;
    failures++;
    printf("%s (%zu): %.*s\n", what, with, (int)count, (const char *)text);
}

/* Whether the text is one line of ASCII that begins with the name of the status, or tells that the command would be taken. */
static int well_told(const uint8_t *text, size_t count, unsigned status)
{
    const char *name = name_of(status);
    for (size_t i = 0; i < count; i++)
        if (text[i] < 0x20 || text[i] > 0x7E)
            return 0;
    if (status == 0)
        return count == sizeof taken - 1 && memcmp(text, taken, count) == 0;
    return count < TEXT && count > strlen(name) && memcmp(text, name, strlen(name)) == 0;
}

/* The status that hub_command answers a packet with on a copy of the state: 0 if it is done or started, 0x100 for answer 3. */
static unsigned status_of(const struct lent *packet)
{
    static uint8_t copy[HUB_STATE_LEN], reply[HUB_REPLY_MIN];
    uint64_t result;
    memcpy(copy, base, sizeof copy);
    result = hub_command(copy, sizeof copy, packet->octets, packet->length, reply, sizeof reply);
    switch (hub_answer(result)) {
    case HUB_DONE:
    case HUB_STARTED: return 0;
    case HUB_REFUSED: return reply[8];
    default: return 0x100;
    }
}

/* Asks why a packet of so many octets would be refused; its first ones are given, the others zeros. The words are given where they are known. */
static void ask(const char *what, size_t length, const uint8_t *head, size_t head_length, const char *words)
{
    struct lent state = lend(HUB_STATE_LEN, base, HUB_STATE_LEN), text = lend(TEXT, NULL, 0), packet = lend(length, NULL, 0);
    unsigned status;
    uint64_t result;
    size_t count;
    int right;
    if (length > 0) {
        memset(packet.octets, 0, length);
        memcpy(packet.octets, head, head_length < length ? head_length : length);
        memcpy(packet.before, packet.octets, length);
    }
    status = status_of(&packet);
    result = hub_why(state.octets, state.length, packet.octets, packet.length, text.octets, text.length);
    count = hub_count(result);
    if (status == 0x100)
        right = result == HUB_BAD_PACKET;
    else
        right = hub_answer(result) == HUB_DONE && hub_extra(result) == status && count <= TEXT && well_told(text.octets, count, status);
    if (words)
        right = right && count == strlen(words) && memcmp(text.octets, words, count) == 0;
    right = right && untouched(&state, 0) && untouched(&packet, 0) && untouched(&text, count);
    note(what, length, right, text.octets, count <= TEXT ? count : 0);
    take_back(packet);
    take_back(text);
    take_back(state);
}

/* A header with these fields to index 0, and behind it the count of a list, zero for other commands. */
static void put_head(uint8_t *head, unsigned code, size_t field, unsigned count)
{
    const unsigned at = code == 0x0012 ? 7 : 6;
    const uint8_t header[6] = { (uint8_t)code, (uint8_t)(code >> 8), 0, 0, (uint8_t)field, (uint8_t)(field >> 8) };
    memset(head, 0, 9);
    memcpy(head, header, sizeof header);
    head[at] = (uint8_t)count;
    head[at + 1] = (uint8_t)(count >> 8);
}

/* The words for a wrong length at an octet. */
static const char *wrong_length(unsigned octet)
{
    static char words[sizeof LENGTH + 3];
    snprintf(words, sizeof words, LENGTH "%u", octet % 100);
    return words;
}

/* The three lists, by code: the octets before their records, and those of a record. */
static const struct list {
    unsigned code, before;
    size_t record;
} lists[3] = { { 0x0012, 3, 25 }, { 0x0013, 2, 36 }, { 0x0030, 2, 23 } };

/* A list of a count and a length: too many records, another length, or, of no records or of some, whatever hub_command says. */
static void try_list(const struct list *list, unsigned count, size_t length)
{
    const unsigned at = 6 + list->before - 2;
    const char *words = NULL;
    char many[80];
    uint8_t head[9];
    snprintf(many, sizeof many, "No Resources: the list has more than 32 records, octet %u", at);
    put_head(head, list->code, length - 6, count);
    if (length < 6 + list->before)
        words = wrong_length(4);
    else if (length - 6 != list->before + count * list->record)
        words = wrong_length(at);
    else if (count > 32)
        words = many;
    ask("list", length, head, sizeof head, words);
}

/* Lists of five counts, in the length that is right, in lengths around it, and in one that is right in sixteen bits. */
static void try_lists(void)
{
    static const unsigned counts[] = { 0, 1, 32, 33, 65535 };
    for (int i = 0; i < 3; i++)
        for (int k = 0; k < 5; k++) {
            const size_t right = 6 + lists[i].before + counts[k] * lists[i].record, wrapped = 6 + (right - 6) % 0x10000;
            for (size_t length = 6; length < 12; length++)
                try_list(&lists[i], counts[k], length);
            try_list(&lists[i], counts[k], wrapped);
            if (right > LAST_FIELD)
                continue;
            try_list(&lists[i], counts[k], right - 1);
            try_list(&lists[i], counts[k], right);
            try_list(&lists[i], counts[k], right + 1);
            try_list(&lists[i], counts[k], right + lists[i].record);
        }
}

/* A packet as it is made, and its words. */
static void ask_packet(const char *what, const struct packet *packet, const char *words)
{
    ask(what, packet->length, packet->octets, packet->length, words);
}

/* Lists of 32 right records, then with the last one wrong, and with the last one like the one before it. */
static void try_records(void)
{
    struct packet packet;
    link_keys(&packet, 0, 32);
    ask_packet("link keys", &packet, taken);
    packet.octets[9 + 31 * 25 + 7] = 9;
    ask_packet("link keys", &packet, "Invalid Parameters: the key type is above 8, record 31, octet 791");
    link_keys(&packet, 0, 32);
    memcpy(packet.octets + 9 + 31 * 25, packet.octets + 9 + 30 * 25, 25);
    ask_packet("link keys", &packet, "Invalid Parameters: two keys are for one device (long term keys: and the same Master), records 30 and 31");
    long_term_keys(&packet, 3, 32);
    ask_packet("long term keys", &packet, taken);
    packet.octets[8 + 31 * 36 + 9] = 17;
    ask_packet("long term keys", &packet, "Invalid Parameters: the encryption key size is not 7 to 16, record 31, octet 1133");
    long_term_keys(&packet, 3, 32);
    packet.octets[8 + 1 * 36 + 8] = 0;
    ask_packet("long term keys", &packet, "Invalid Parameters: two keys are for one device (long term keys: and the same Master), records 0 and 1");
    identity_keys(&packet, 1, 32);
    ask_packet("identity resolving keys", &packet, taken);
    memset(packet.octets + 8 + 31 * 23, 0xFF, 6);
    ask_packet("identity resolving keys", &packet, "Invalid Parameters: the address is not a static random one, record 31, octet 727");
    identity_keys(&packet, 1, 32);
    memcpy(packet.octets + 8 + 31 * 23, packet.octets + 8, 23);
    ask_packet("identity resolving keys", &packet, "Invalid Parameters: two keys are for one device (long term keys: and the same Master), records 0 and 31");
}

/* Packets of so many octets: a right length field, three that are wrong, and lists of 0 and of 65,535 records. */
static void try_length(size_t length)
{
    const size_t rest = length - 6, fields[3] = { rest + 1, rest ^ 0x8000, rest >> 16 ? rest : rest - 1 };
    uint8_t head[9];
    put_head(head, 0x0008, rest, 0);
    ask("length", length, head, sizeof head, length >= 6 && length <= LAST_FIELD ? unknown : NULL);
    for (int i = 0; i < 3; i++) {
        put_head(head, 0x0008, fields[i], 0);
        if (length > LAST_FIELD || (fields[i] & 0xFFFF) != rest)
            ask("length field", length, head, sizeof head, "");
    }
    for (int i = 0; i < 3 && length >= 12 && length <= LAST_FIELD; i++) {
        try_list(&lists[i], 65535, length);
        try_list(&lists[i], (unsigned)(rest / lists[i].record), length);
    }
}

/* The parameter octets of the commands to a controller that have one length and take at most three octets, by code; the others count as many. */
static size_t few_octets(unsigned code)
{
    switch (code) {
    case 0x0001: case 0x0002: case 0x0003: case 0x0004: return 0;
    case 0x0005: case 0x0007: case 0x0009: case 0x000D: case 0x002A: case 0x003F: return 1;
    case 0x0006: return 3;
    case 0x0013: case 0x0030: return 2;
    case 0x0012: return 3;
    default: return 1000;
    }
}

static int is_known(unsigned code)
{
    static const uint8_t codes[24] = { 0x01, 0x02, 0x03, 0x04, 0x05, 0x06, 0x07, 0x09, 0x0D, 0x0F, 0x10, 0x11,
                                       0x12, 0x13, 0x1B, 0x26, 0x27, 0x2A, 0x2B, 0x30, 0x33, 0x34, 0x3E, 0x3F };
    return code < 0x40 && memchr(codes, (int)code, sizeof codes) != NULL;
}

/* A code with 0 to 3 parameters of zeros, to index 0 and to index 0xFFFF. */
static void try_code(unsigned code)
{
    for (size_t length = 0; length <= 3; length++) {
        const int list = code == 0x0013 || code == 0x0030;
        const char *words = NULL;
        uint8_t head[9];
        if (!is_known(code))
            words = unknown;
        else if (code < 4)
            words = not_the_hub;
        else if (length != few_octets(code))
            words = wrong_length(list && length > 2 ? 6 : 4);
        put_head(head, code, length, 0);
        ask("code", 6 + length, head, sizeof head, words);
        head[2] = head[3] = 0xFF;
        if (code < 4 && is_known(code))
            words = length == 0 ? taken : wrong_length(4);
        else if (is_known(code))
            words = "Invalid Index: no controller has this index, octet 2";
        ask("code", 6 + length, head, sizeof head, words);
    }
}

/* What is lent for one question that is answered by a number alone: of a length 0 the pointer may be null. */
static void ask_bare(const char *what, const struct lent *state, const uint8_t *packet, size_t length, size_t room, unsigned answer)
{
    struct lent text = lend(room, NULL, 0), lent = lend(length, packet, length);
    const int null = length == 0 && room % 2 == 0;
    uint64_t result = hub_why(state->length ? state->octets : NULL, state->length, null ? NULL : lent.octets, length, text.octets, room);
    note(what, room, result == answer && untouched(state, 0) && untouched(&lent, 0) && untouched(&text, 0), NULL, 0);
    if (room == 0) {
        result = hub_why(state->length ? state->octets : NULL, state->length, null ? NULL : lent.octets, length, NULL, 0);
        note(what, room, result == answer, NULL, 0);
    }
    take_back(lent);
    take_back(text);
}

/* Text buffers of six lengths, with packets that are none and one that is right: as the state is, 5 for all, or 4 and then 3. */
static void try_rooms(const struct lent *state, int is_state)
{
    static const size_t rooms[] = { 0, 1, 255, 256, 257, 1024 };
    static const uint8_t long_field[] = { 1, 0, 0xFF, 0xFF, 1, 0 };
    for (int i = 0; i < 6; i++) {
        const unsigned small = is_state ? HUB_SMALL_BUFFER : HUB_BAD_STATE, none = is_state ? HUB_BAD_PACKET : HUB_BAD_STATE;
        const int fits = rooms[i] >= TEXT;
        ask_bare("no packet", state, read_version, 0, rooms[i], fits ? none : small);
        ask_bare("five octets", state, read_version, 5, rooms[i], fits ? none : small);
        ask_bare("length field", state, long_field, 6, rooms[i], fits ? none : small);
        if (!fits || !is_state)
            ask_bare("a right packet", state, read_version, 6, rooms[i], small);
    }
}

/* State buffers of other lengths, and one whose first block is not well formed: 5 first of all. */
static void try_states(void)
{
    static const size_t lengths[] = { 0, 1, HUB_STATE_LEN - 1, HUB_STATE_LEN + 1, 100000, HUB_STATE_LEN, HUB_STATE_LEN };
    for (int i = 0; i < 7; i++) {
        struct lent state = lend(lengths[i], base, HUB_STATE_LEN);
        if (i == 5)
            state.octets[FIRST_BLOCK] = state.before[FIRST_BLOCK] = 2;
        try_rooms(&state, i == 6);
        take_back(state);
    }
}

/* A right packet and a text buffer of any length: from 256 octets on the text, and the octets behind it as they were. */
static void try_room(size_t room)
{
    struct lent state = lend(HUB_STATE_LEN, base, HUB_STATE_LEN), text = lend(room, NULL, 0);
    uint64_t result = hub_why(state.octets, state.length, read_version, sizeof read_version, text.octets, room);
    if (room < TEXT)
        note("room", room, result == HUB_SMALL_BUFFER && untouched(&text, 0) && untouched(&state, 0), NULL, 0);
    else
        note("room", room, result == HUB_DONE + 256u * (sizeof taken - 1) && memcmp(text.octets, taken, sizeof taken - 1) == 0 &&
             untouched(&text, sizeof taken - 1) && untouched(&state, 0), text.octets, 14);
    take_back(text);
    take_back(state);
}

int main(int argc, char **argv)
{
    const size_t stride = argc > 1 ? strtoul(argv[1], NULL, 10) : 1;
    make_busy(base);
    try_states();
    for (size_t room = 0; room <= 1100; room++)
        try_room(room);
    try_lists();
    try_records();
    for (unsigned code = 0; code < 0x50; code++)
        try_code(code);
    for (size_t code = 0x50; code < CODES; code += stride)
        try_code((unsigned)code);
    for (size_t length = 0; length <= LONGEST; length += length < 300 ? 1 : stride)
        try_length(length);
    printf("bad why: %lu checks, %lu failures\n", tried, failures);
    return failures != 0;
}
