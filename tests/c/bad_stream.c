/*
 * hub_stream from C: packets in every cut, several in a lump, noise, packets of up to 65,541 octets announced and cut at every place, lumps of no octets,
 * reply and state buffers of other lengths, other calls beside what waits, states with octets waiting that make a whole packet or are not as they must be. Each
 * result is held to hub_command on a copy of the state, with the whole packet: its number, its octets and the state behind it. Octets are taken up to the
 * packet's end and no further; a lump that finishes no packet answers 9, is taken whole and changes the waiting part alone, to what docs/STATE-LAYOUT.md says.
 * All buffers are of exactly the length that is said.
 *
 *     bad_stream [STRIDE]      only every STRIDE-th place of a long packet; every one if nothing is said
 */
#include "lent.h"

enum { HEADER = 6, LONGEST = HEADER + 0xFFFF, REST = 9, LONG_ONES = 8, SHORT_ONES = 12 };

static uint8_t base[HUB_STATE_LEN]; /* the busy hub with nothing waiting */
static uint8_t line[LONGEST + REST];
static uint32_t dice = 1;

/* A random octet; the same ones in every run. */
static uint8_t roll(void)
{
    dice = dice * 1664525u + 1013904223u;
    return (uint8_t)(dice >> 24);
}

static void note(const char *what, size_t with, size_t also, int right)
{
    tried++;
    if (right)
        return;
    failures++;
    printf("%s (%zu, %zu)\n", what, with, also);
}

/* How many octets the packet that begins here has, by its header; so many of them are there. */
static size_t length_of(const uint8_t *octets, size_t there)
{
    return HEADER + (there > 4 ? octets[4] : 0u) + (there > 5 ? octets[5] * 256u : 0u);
}

/* The waiting part when so many octets of a packet are taken. */
static void put_waiting(uint8_t *state, const uint8_t *packet, size_t taken)
{
    const size_t most = length_of(packet, taken) > WHOLE ? HEAD : WHOLE;
    memset(state + AT_TAKEN, 0, HUB_STATE_LEN - AT_TAKEN);
    for (unsigned k = 0; k < 4; k++)
        state[AT_TAKEN + k] = (uint8_t)(taken >> 8 * k);
    memcpy(state + AT_KEPT, packet, taken < most ? taken : most);
}

/* What hub_command gives for a whole packet on the busy hub: the number, the reply and the state behind it. */
struct given {
    uint64_t result;
    uint8_t reply[HUB_REPLY_MIN], state[HUB_STATE_LEN];
};

static void command(struct given *given, const uint8_t *hub, const uint8_t *packet, size_t length)
{
    memcpy(given->state, hub, HUB_STATE_LEN);
    memset(given->reply, FILLER, HUB_REPLY_MIN);
    given->result = hub_command(given->state, HUB_STATE_LEN, packet, length, given->reply, HUB_REPLY_MIN);
    note("a whole packet is done, started or refused", length, 0, hub_answer(given->result) <= HUB_REFUSED && hub_extra(given->result) == 0);
}

/*
 * Lends a state where the first octets of a packet wait, and a lump of the next ones and more: what is given is what the command gives, so many octets are
 * taken as the packet lacks; or 9, all of them, and the waiting part alone is another. The state behind is given back.
 */
static void feed(const char *what, uint8_t *hub, const uint8_t *packet, size_t from, size_t count, const struct given *given)
{
    struct lent state = lend(HUB_STATE_LEN, hub, HUB_STATE_LEN), reply = lend(HUB_REPLY_MIN, NULL, 0), lump = lend(count, packet + from, count);
    const size_t length = length_of(packet, from + count);
    const int ends = from + count >= HEADER && from + count >= length;
    const uint64_t result = hub_stream(state.octets, state.length, lump.octets, lump.length, reply.octets, reply.length);
    if (ends) {
        const size_t written = hub_count(given->result);
        note(what, from, count, result == given->result + ((uint64_t)(length - from) << 32));
        note("reply and state of the command", from, count,
             memcmp(reply.octets, given->reply, written) == 0 && untouched(&reply, written) && memcmp(state.octets, given->state, HUB_STATE_LEN) == 0);
    } else {
        note(what, from, count, result == HUB_INCOMPLETE + ((uint64_t)count << 32) && untouched(&reply, 0));
        put_waiting(state.before, packet, from + count);
        note("what waits, and nothing else", from, count, untouched(&state, 0));
    }
    note("the lump, as it was", from, count, untouched(&lump, 0));
    memcpy(hub, state.octets, HUB_STATE_LEN);
    take_back(lump);
    take_back(reply);
    take_back(state);
}

/* A packet in two lumps, cut at a place, octets of another behind it. */
static void cut(const uint8_t *packet, size_t length, size_t place, const struct given *given)
{
    static uint8_t hub[HUB_STATE_LEN];
    memcpy(hub, base, HUB_STATE_LEN);
    feed("first part", hub, packet, 0, place, given);
    if (place < length)
        feed("second part", hub, packet, place, length - place + place % REST, given);
}

/* A packet in lumps of one length; behind each come direct commands answered 3 and 4, a lump with too little room and one of no octets. */
static void in_lumps(const uint8_t *packet, size_t length, size_t size, const struct given *given)
{
    static uint8_t hub[HUB_STATE_LEN];
    memcpy(hub, base, HUB_STATE_LEN);
    for (size_t from = 0; from < length; from += size) {
        struct lent state, reply = lend(HUB_REPLY_MIN - 1, NULL, 0);
        const size_t count = length - from < size ? length - from : size;
        feed("lumps of one length", hub, packet, from, count, given);
        if (from + count == length) {
            take_back(reply);
            break;
        }
        state = lend(HUB_STATE_LEN, hub, HUB_STATE_LEN);
        expect("lump without room", size, hub_stream(state.octets, state.length, packet, count, reply.octets, reply.length), HUB_SMALL_BUFFER, &state, &reply,
               NULL, 0);
        expect("command without a header", size, hub_command(state.octets, state.length, packet, 5, reply.octets, 0), HUB_SMALL_BUFFER, &state, &reply, NULL,
               0);
        take_back(reply);
        reply = lend(HUB_REPLY_MIN, NULL, 0);
        expect("no octets", size, hub_stream(state.octets, state.length, NULL, 0, reply.octets, reply.length), HUB_INCOMPLETE, &state, &reply, NULL, 0);
        expect("command without a header", size, hub_command(state.octets, state.length, packet, 5, reply.octets, reply.length), HUB_BAD_PACKET, &state, &reply,
               NULL, 0);
        take_back(reply);
        take_back(state);
    }
}

/* Short packets: done, started, Busy, and refused by both forms; the last two have 1,160 octets. */
static size_t short_one(unsigned k)
{
    struct packet packet;
    switch (k) {
    case 0: make_packet(&packet, 0x0001, 0xFFFF, 0); break;
    case 1: make_packet(&packet, 0x0003, 0xFFFF, 0); break;
    case 2: make_packet(&packet, 0x0009, 1, 1); break;
    case 3: make_packet(&packet, 0x0005, 3, 1); break;
    case 4: make_packet(&packet, 0x0005, 2, 1); break;
    case 5: name_device(&packet, 0x0026, 0, 3, 7, 0); break;
    case 6: make_packet(&packet, 0x0008, 0x1234, 40); break;
    case 7: make_packet(&packet, 0x0004, 0xFFFF, 0); break;
    case 8: local_name(&packet, 2, 'q'); break;
    case 9: make_packet(&packet, 0x000F, 2, 256); break;
    case 10: long_term_keys(&packet, 3, 32); break;
    default: make_packet(&packet, 0x0013, 3, WHOLE - HEADER); break;
    }
    memcpy(line, packet.octets, packet.length);
    return packet.length;
}

/* Short packets at every place, and in lumps of 1, 7 and 64. */
static void try_short(unsigned k)
{
    static const size_t sizes[] = { 1, 7, 64 };
    static struct given given;
    const size_t length = short_one(k);
    for (size_t i = 0; i < REST; i++)
        line[length + i] = (uint8_t)(0xE0 + i);
    command(&given, base, line, length);
    for (size_t place = 0; place <= length; place++)
        cut(line, length, place, &given);
    for (unsigned i = 0; i < 3; i++)
        in_lumps(line, length, sizes[i], &given);
}

/* Long packets: lists whose count fits and does not, an unknown code, a wrong index; their octets are noise. Gives the length. */
static size_t long_one(unsigned k)
{
    static const struct {
        unsigned code, index, count;
        size_t length;
    } all[LONG_ONES] = {
        { 0x0013, 3, 32, WHOLE + 1 },
        { 0x0013, 3, 33, HEADER + 2 + 36 * 33 },
        { 0x0012, 0, 2621, HEADER + 3 + 25 * 2621 },
        { 0x0030, 1, 2849, HEADER + 2 + 23 * 2849 },
        { 0x0012, 9, 47, HEADER + 3 + 25 * 47 },
        { 0x0005, 2, 1, 3000 },
        { 0xABCD, 0, 7, LONGEST },
        { 0x0012, 0, 2621, LONGEST },
    };
    const size_t field = all[k].length - HEADER;
    const size_t at = all[k].code == 0x0012 ? HEADER + 1 : HEADER;
    const uint8_t header[HEADER] = { (uint8_t)all[k].code, (uint8_t)(all[k].code >> 8), (uint8_t)all[k].index, 0, (uint8_t)field, (uint8_t)(field >> 8) };
    for (size_t i = 0; i < sizeof line; i++)
        line[i] = roll();
    memcpy(line, header, sizeof header);
    line[HEADER] = 0;
    line[at] = (uint8_t)all[k].count;
    line[at + 1] = (uint8_t)(all[k].count >> 8);
    return all[k].length;
}

/* Long packets, cut at some places, the last of them at every one; always at the ends, and where a packet is too long to be kept. */
static void try_long(unsigned k, size_t stride)
{
    static struct given given;
    const size_t length = long_one(k);
    command(&given, base, line, length);
    note("a long packet is refused", k, length, hub_answer(given.result) == HUB_REFUSED && memcmp(given.state, base, HUB_STATE_LEN) == 0);
    for (size_t place = 0; place <= length; place++)
        if (place < 20 || place + 20 > length || (place > WHOLE - 8 && place < WHOLE + 8) || place % (k == LONG_ONES - 1 ? stride : 997) == 0)
            cut(line, length, place, &given);
    in_lumps(line, length, 1000, &given);
}

/* Noise in lumps of any length, on and on: each packet is as long as its header says, and is given what hub_command gives on a copy. */
static void try_noise(unsigned count)
{
    static uint8_t hub[HUB_STATE_LEN], plain[HUB_STATE_LEN];
    static struct given given;
    memcpy(hub, base, HUB_STATE_LEN);
    memcpy(plain, base, HUB_STATE_LEN);
    for (unsigned k = 0; k < count; k++) {
        size_t length, from = 0;
        for (size_t i = 0; i < sizeof line; i++)
            line[i] = roll();
        if (k % 4 != 0)
            line[5] = k % 4 == 1 ? 0 : line[5] % 6;
        if (k % 3 == 0) {
            line[0] %= 0x40;
            line[1] = line[3] = 0;
            line[2] %= 4;
        }
        length = length_of(line, HEADER);
        command(&given, plain, line, length);
        while (from < length) {
            size_t lump = roll() % 4 == 0 ? roll() * 256u : roll() % 16;
            lump = lump < sizeof line - from ? lump : sizeof line - from;
            feed("noise", hub, line, from, lump, &given);
            from += lump;
        }
        memcpy(plain, given.state, HUB_STATE_LEN);
        note("the states, packet by packet", k, length, memcmp(hub, plain, HUB_STATE_LEN) == 0);
    }
}

/* A state with these octets waiting: every call answers 5, or a lump without octets takes it. */
static void try_state(const char *what, size_t with, const uint8_t *part, int well_formed)
{
    struct lent state = lend(HUB_STATE_LEN, base, HUB_STATE_LEN), reply = lend(HUB_IMAGE_MAX, NULL, 0), small = lend(HUB_REPLY_MIN - 1, NULL, 0);
    memcpy(state.octets + AT_TAKEN, part, HUB_STATE_LEN - AT_TAKEN);
    memcpy(state.before + AT_TAKEN, part, HUB_STATE_LEN - AT_TAKEN);
    if (well_formed) {
        expect(what, with, hub_stream(state.octets, state.length, NULL, 0, reply.octets, reply.length), HUB_INCOMPLETE, &state, &reply, NULL, 0);
        expect(what, with, hub_stream(state.octets, state.length, line, 9, small.octets, small.length), HUB_SMALL_BUFFER, &state, &small, NULL, 0);
        expect(what, with, hub_on_air(state.octets, state.length, 2, reply.octets, reply.length), HUB_DONE, &state, &reply, NULL, 0);
    } else {
        try_all_wrong(what, with, &state, &reply, HUB_BAD_STATE);
        expect(what, with, hub_stream(state.octets, state.length, line, 9, small.octets, small.length), HUB_BAD_STATE, &state, &small, NULL, 0);
        expect(what, with, hub_stream(state.octets, state.length, NULL, 0, NULL, 0), HUB_BAD_STATE, &state, NULL, NULL, 0);
    }
    take_back(small);
    take_back(reply);
    take_back(state);
}

/* So many octets taken of a packet of 0x11 with a length field: the part as it must be, with another number, and with an octet more at some places. */
static void try_taken(size_t field, size_t taken, int well_formed)
{
    static const size_t places[] = { 0, 4, 5, 6, 9, 10, 11, 700, WHOLE - 1 };
    static uint8_t hub[HUB_STATE_LEN], packet[LONGEST];
    uint8_t *part = hub + AT_TAKEN;
    memset(packet, 0x11, sizeof packet);
    packet[4] = (uint8_t)field;
    packet[5] = (uint8_t)(field >> 8);
    put_waiting(hub, packet, taken < HEADER + field ? taken : HEADER + field - 1);
    for (unsigned k = 0; k < 4; k++)
        part[k] = (uint8_t)(taken >> 8 * k);
    try_state("octets taken", taken, part, well_formed);
    for (size_t i = 0; i < sizeof places / sizeof places[0]; i++)
        if (part[4 + places[i]] == 0 && places[i] >= taken) {
            part[4 + places[i]] = 0x40;
            try_state("an octet behind", places[i], part, 0);
            part[4 + places[i]] = 0;
        }
    if (taken > HEAD && HEADER + field > WHOLE && well_formed) {
        part[4 + HEAD] = 0x11;
        try_state("an octet that is not kept", taken, part, 0);
    }
}

/* States whose waiting part is short of a packet, is one or is more: 5 from the whole packet on. */
static void try_states(void)
{
    static const size_t fields[] = { 0, 1, 255, 256, WHOLE - HEADER - 1, WHOLE - HEADER, WHOLE - HEADER + 1, 0xFFFF };
    for (size_t i = 0; i < sizeof fields / sizeof fields[0]; i++) {
        const size_t whole = HEADER + fields[i];
        for (size_t taken = 0; taken < 16; taken++)
            try_taken(fields[i], taken, taken < whole);
        try_taken(fields[i], whole - 1, 1);
        for (size_t more = 0; more < 3; more++)
            try_taken(fields[i], whole + more, 0);
        try_taken(fields[i], LONGEST, 0);
        try_taken(fields[i], 0x10000, fields[i] == 0xFFFF);
        try_taken(fields[i], 0x01000000 + whole - 1, 0);
        try_taken(fields[i], 0x80000000, 0);
        try_taken(fields[i], 0xFFFFFFFF, 0);
    }
}

/* State buffers of other lengths, and reply buffers of every length around the shortest: 5, then 4, and nothing taken. */
static void try_rooms(void)
{
    static const size_t lengths[] = { 0, 1, AT_TAKEN, HUB_STATE_LEN - 1, HUB_STATE_LEN + 1, 100000, HUB_STATE_LEN };
    for (int i = 0; i < 7; i++)
        for (size_t room = 0; room < 1100; room += room < 1000 ? 125 : 1) {
            struct lent state = lend(lengths[i], base, HUB_STATE_LEN), reply = lend(room, NULL, 0);
            uint8_t *lent = lengths[i] ? state.octets : NULL, *to = room ? reply.octets : NULL;
            const unsigned small = lengths[i] == HUB_STATE_LEN ? HUB_SMALL_BUFFER : HUB_BAD_STATE;
            const int fits = room >= HUB_REPLY_MIN && lengths[i] == HUB_STATE_LEN;
            expect("no octets", room, hub_stream(lent, state.length, NULL, 0, to, room), fits ? HUB_INCOMPLETE : small, &state, &reply, NULL, 0);
            if (!fits) {
                expect("a packet", room, hub_stream(lent, state.length, read_version, sizeof read_version, to, room), small, &state, &reply, NULL, 0);
                expect("a part", room, hub_stream(lent, state.length, read_version, 3, to, room), small, &state, &reply, NULL, 0);
                expect("many octets", room, hub_stream(lent, state.length, line, sizeof line, to, room), small, &state, &reply, NULL, 0);
            }
            take_back(reply);
            take_back(state);
        }
}

/* One of eight calls that are no lumps, each done or started on the busy hub. */
static uint64_t other(int call, uint8_t *state, uint8_t *reply)
{
    struct packet packet;
    make_packet(&packet, call == 0 ? 0x0009 : 0x0005, call == 0 ? 1 : 3, 1);
    switch (call) {
    case 0:
    case 1: return hub_command(state, HUB_STATE_LEN, packet.octets, packet.length, reply, HUB_REPLY_MIN);
    case 2: return hub_report(state, HUB_STATE_LEN, 0, 0, reply, HUB_REPLY_MIN);
    case 3: return hub_clock(state, HUB_STATE_LEN, 1300, reply, HUB_REPLY_MIN);
    case 4: return hub_unplug(state, HUB_STATE_LEN, 1, reply, HUB_REPLY_MIN);
    case 5: return hub_save(state, HUB_STATE_LEN, reply, HUB_IMAGE_MAX);
    case 6: return hub_name(state, HUB_STATE_LEN, 2, 0, reply, HUB_REPLY_MIN);
    default: return hub_why(state, HUB_STATE_LEN, packet.octets, packet.length, reply, HUB_REPLY_MIN);
    }
}

/* Calls beside what waits: number, octets and state are those of a hub where nothing waits, but for what waits. */
static void try_beside(size_t taken)
{
    static uint8_t alone[HUB_STATE_LEN], replies[2][HUB_IMAGE_MAX];
    for (int call = 0; call < 8; call++) {
        struct lent state = lend(HUB_STATE_LEN, base, HUB_STATE_LEN);
        uint64_t result;
        put_waiting(state.octets, line, taken);
        memcpy(alone, base, HUB_STATE_LEN);
        memset(replies, FILLER, sizeof replies);
        result = other(call, state.octets, replies[0]);
        note("done beside what waits", (size_t)call, taken, hub_answer(result) <= HUB_STARTED && result == other(call, alone, replies[1]));
        put_waiting(alone, line, taken);
        note("what waits, as it was", (size_t)call, taken,
             memcmp(state.octets, alone, HUB_STATE_LEN) == 0 && memcmp(replies[0], replies[1], sizeof replies[0]) == 0);
        take_back(state);
    }
}

/* Parts of a packet that is kept and of one that is too long wait beside these calls. */
static void try_others(void)
{
    static const size_t kept[] = { 0, 1, 5, 6, 7, 700, WHOLE - 1 }, longer[] = { 6, HEAD, HEAD + 1, WHOLE };
    (void)short_one(10);
    for (size_t i = 0; i < sizeof kept / sizeof kept[0]; i++)
        try_beside(kept[i]);
    (void)long_one(0);
    for (size_t i = 0; i < sizeof longer / sizeof longer[0]; i++)
        try_beside(longer[i]);
}

/* An image is loaded over what waits: nothing waits then. One that is refused leaves it. */
static void try_loads(void)
{
    struct lent state = lend(HUB_STATE_LEN, base, HUB_STATE_LEN);
    long_one(0);
    put_waiting(state.octets, line, WHOLE);
    memcpy(state.before, state.octets, HUB_STATE_LEN);
    expect("load of no image", 0, hub_load(state.octets, state.length, empty, 5), HUB_IMAGE_LENGTH, &state, NULL, NULL, 0);
    memset(state.before, 0, HUB_STATE_LEN);
    expect("load of the empty image", 0, hub_load(state.octets, state.length, empty, sizeof empty), HUB_DONE, &state, NULL, NULL, 0);
    take_back(state);
}

int main(int argc, char **argv)
{
    const size_t stride = argc > 1 ? strtoul(argv[1], NULL, 10) : 1;
    make_busy(base);
    memset(base + AT_TAKEN, 0, HUB_STATE_LEN - AT_TAKEN);
    try_rooms();
    try_states();
    try_others();
    try_loads();
    for (unsigned k = 0; k < SHORT_ONES; k++)
        try_short(k);
    for (unsigned k = 0; k < LONG_ONES; k++)
        try_long(k, stride);
    try_noise(stride == 1 ? 400 : 40);
    printf("bad stream: %lu checks, %lu failures\n", tried, failures);
    return failures != 0;
}
