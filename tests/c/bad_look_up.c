/*
 * hub_look_up from C: keys of 0 to 70,000 octets in every table, indexes and tables up to 2^64 - 1, state buffers of other lengths and with octets that are
 * not well formed, null where the length is 0. Answers 5 and 6 come in this order. Else slot and slots walked are held to numbers that this program keeps
 * itself: of every slot of every table of a full hub, of hubs whose slots are freed by the commands for it one after the other, with gaps everywhere, and
 * of a record that stands alone in any slot; of keys that are there, that were, that are off by one bit, and of zeros. All buffers are of exactly the
 * length that is said; state and key stay as they were.
 */
#include "lent.h"

enum { TABLES = 6, SLOTS = 32, NONE = -1, LONGEST = 70000, FULL = 0, ABSENT = 1, EMPTY = 2, SOME = 3 };

static const unsigned words[TABLES] = { 293, 841, 1645, 2801, 3541, 3769 }; /* where each table's word stands in a block; slot 0 is 4 octets behind */
static const unsigned records[TABLES] = { 17, 25, 36, 23, 7, 8 };

/* A hub with full tables at FULL, free ones at EMPTY and five entries in each at SOME, where link keys are not supported; and the entry of each slot. */
static uint8_t base[HUB_STATE_LEN];
static int held[4][TABLES][SLOTS];

/* Two entries have the same key. */
static int same_key(unsigned table, unsigned a, unsigned b)
{
    uint8_t one[16], other[16];
    size_t length = put_key(one, table, a);
    (void)put_key(other, table, b);
    return memcmp(one, other, length) == 0;
}

/* What a look-up of entry k must give by what the slots have. */
static uint64_t wanted(unsigned index, unsigned table, unsigned k)
{
    unsigned walked = 0;
    for (unsigned slot = 0; slot < SLOTS; slot++) {
        const int entry = held[index][table][slot];
        if (entry == NONE)
            continue;
        walked = slot + 1;
        if (same_key(table, (unsigned)entry, k))
            return (uint64_t)(slot + 256 * walked) << 32;
    }
    return (uint64_t)(HUB_SLOTS + 256 * walked) << 32;
}

/* Looks for a key that is lent in as many octets as are said, filler behind those given; holds the number to the one wanted. */
static void look(const char *what, size_t with, const struct lent *state, uint64_t index, uint64_t table, const uint8_t *key, size_t given, size_t length,
                 uint64_t number)
{
    struct lent lent = lend(length, key, given);
    const uint64_t result = hub_look_up(state->octets, state->length, index, table, lent.octets, lent.length);
    tried++;
    if (result != number || !untouched(state, 0) || !untouched(&lent, 0)) {
        failures++;
        printf("%s (%zu): 0x%llx and not 0x%llx, or octets that are not as they were\n", what, with, (unsigned long long)result, (unsigned long long)number);
    }
    take_back(lent);
}

/* Looks for entry k, by its own key. */
static void look_for(const char *what, const struct lent *state, unsigned index, unsigned table, unsigned k)
{
    uint8_t key[16];
    const size_t length = put_key(key, table, k);
    look(what, 100 * table + k, state, index, table, key, length, length, wanted(index, table, k));
}

/* Looks for all that the slots can have, for more that they never have, and for zeros. */
static void look_for_all(const char *what, unsigned index, unsigned table)
{
    static const uint8_t zeros[16];
    struct lent state = lend(HUB_STATE_LEN, base, HUB_STATE_LEN);
    const size_t length = table == HUB_UUIDS ? 16 : 7;
    for (unsigned k = 0; k < SLOTS + 3; k++)
        look_for(what, &state, index, table, k);
    look(what, table, &state, index, table, zeros, length, length, wanted(index, table, 254)); /* no entry has this number */
    take_back(state);
}

/* Every key of a full table with each of its bits flipped: such a key is absent, or is another entry's. */
static void try_bits(unsigned table)
{
    struct lent state = lend(HUB_STATE_LEN, base, HUB_STATE_LEN);
    for (unsigned k = 0; k < SLOTS; k++) {
        uint8_t key[16], other[16];
        const size_t length = put_key(key, table, k);
        for (unsigned bit = 0; bit < 8 * length; bit++) {
            unsigned found = 254;
            key[bit / 8] ^= (uint8_t)(1u << bit % 8);
            for (unsigned entry = 0; entry < SLOTS; entry++)
                if (put_key(other, table, entry) == length && memcmp(key, other, length) == 0)
                    found = entry;
            look("one bit off", 1000 * k + bit, &state, FULL, table, key, length, length, wanted(FULL, table, found));
            key[bit / 8] ^= (uint8_t)(1u << bit % 8);
        }
    }
    take_back(state);
}

/* Keys of every length up to 300 and of some up to 70,000: a key that stands in the table, cut or with filler behind it. */
static void try_lengths(unsigned table)
{
    struct lent state = lend(HUB_STATE_LEN, base, HUB_STATE_LEN);
    uint8_t key[16];
    const size_t right = put_key(key, table, 5);
    for (size_t length = 0; length <= LONGEST; length += length < 300 ? 1 : length < 66000 && length > 65000 ? 97 : 1301)
        look("length", length, &state, FULL, table, key, right, length, length == right ? wanted(FULL, table, 5) : HUB_BAD_ARGUMENT);
    for (unsigned bit = 8; bit < 17; bit++)
        look("length", (size_t)1 << bit, &state, FULL, table, key, right, right + ((size_t)1 << bit), HUB_BAD_ARGUMENT);
    tried++;
    failures += hub_look_up(state.octets, state.length, FULL, table, NULL, 0) != HUB_BAD_ARGUMENT || !untouched(&state, 0);
    take_back(state);
}

/* An index and a table of 64 bits, with keys of both lengths; all else is right. */
static void try_number(const struct lent *state, uint64_t index, uint64_t table)
{
    uint8_t key[16];
    const int there = index == FULL || index == EMPTY || index == SOME;
    for (int uuid = 0; uuid < 2; uuid++) {
        const size_t length = put_key(key, uuid ? HUB_UUIDS : HUB_DEVICES, 3);
        const int right = there && table < TABLES && uuid == (table == HUB_UUIDS);
        uint64_t number = HUB_BAD_ARGUMENT;
        if (right && (table == HUB_UUIDS || table >= HUB_BLOCKED_DEVICES))
            number = wanted((unsigned)index, (unsigned)table, 3);
        else if (right) /* entry 3 has type 0 there, which is a link key's alone */
            number = table == HUB_LINK_KEYS ? wanted((unsigned)index, HUB_LINK_KEYS, 3) : wanted((unsigned)index, (unsigned)table, 254);
        look("number", (size_t)(index ^ table), state, index, table, key, length, length, number);
    }
}

/* Indexes and tables: each single bit, alone and above a right number, and the numbers at all edges. */
static void try_numbers(void)
{
    struct lent state = lend(HUB_STATE_LEN, base, HUB_STATE_LEN);
    for (uint64_t right = 0; right < TABLES; right++) {
        for (unsigned bit = 0; bit < 64; bit++) {
            try_number(&state, (uint64_t)1 << bit, right);
            try_number(&state, right | (uint64_t)1 << bit, HUB_DEVICES);
            try_number(&state, FULL, right | (uint64_t)1 << bit);
            try_number(&state, ~((uint64_t)1 << bit), right);
            try_number(&state, SOME, ~((uint64_t)1 << bit));
        }
        for (int i = 0; i < NUMBERS; i++) {
            try_number(&state, numbers[i], right);
            try_number(&state, right, numbers[i]);
        }
    }
    take_back(state);
}

/* Asks everything of a state that is none: 5, however wrong the rest is. */
static void try_no_state(const char *what, size_t with, const struct lent *state)
{
    uint8_t key[16];
    for (unsigned table = 0; table < TABLES + 1; table++)
        for (unsigned index = 0; index < 5; index++) {
            const size_t length = put_key(key, table, index);
            look(what, with, state, index, table, key, length, length, HUB_BAD_STATE);
            look(what, with, state, index, table, key, length, length - 1, HUB_BAD_STATE);
        }
    tried++;
    failures += hub_look_up(state->length ? state->octets : NULL, state->length, 0, 0, NULL, 0) != HUB_BAD_STATE || !untouched(state, 0);
}

/* State buffers of other lengths. */
static void try_state_lengths(void)
{
    static const size_t lengths[] = { 0, 1, 4, 4375, HUB_STATE_LEN - 1, HUB_STATE_LEN + 1, 100000 };
    for (int i = 0; i < 7; i++) {
        struct lent state = lend(lengths[i], base, HUB_STATE_LEN);
        try_no_state("state length", lengths[i], &state);
        take_back(state);
    }
}

/* A state with one octet other than it was; a value of 0x100 leaves it. */
static struct lent lend_changed(unsigned index, size_t at, unsigned value)
{
    struct lent state = lend(HUB_STATE_LEN, base, HUB_STATE_LEN);
    const size_t place = FIRST_BLOCK + BLOCK * (size_t)index + at;
    if (value < 0x100)
        state.octets[place] = state.before[place] = (uint8_t)value;
    return state;
}

/* A slot of a table that is broken: one in use is told to be free, a free one has an octet. Looked for is what it has, and another key: 5. */
static void try_broken_slot(unsigned index, unsigned table, unsigned slot)
{
    const size_t word = words[table] + slot / 8, at = words[table] + 4 + (size_t)records[table] * slot;
    const unsigned now = base[FIRST_BLOCK + BLOCK * (size_t)index + word];
    const int used = held[index][table][slot] != NONE;
    struct lent state = used ? lend_changed(index, word, now ^ 1u << slot % 8) : lend_changed(index, at + slot % records[table], 1);
    uint8_t key[16];
    const size_t length = put_key(key, table, used ? (unsigned)held[index][table][slot] : slot);
    look("broken slot", 100 * table + slot, &state, index, table, key, length, length, HUB_BAD_STATE);
    put_key(key, table, 40);
    look("broken slot", 100 * table + slot, &state, index, table, key, length, length, HUB_BAD_STATE);
    take_back(state);
}

/* A free slot of zeros that is told to be in use. A link key may have a zero address, and is found by it; no other record may be of zeros. */
static void try_zero_record(unsigned index, unsigned table, unsigned slot)
{
    static const uint8_t zeros[16];
    const size_t word = words[table] + slot / 8, length = table == HUB_UUIDS ? 16 : 7;
    struct lent state = lend_changed(index, word, base[FIRST_BLOCK + BLOCK * (size_t)index + word] | 1u << slot % 8);
    const uint64_t number = table == HUB_LINK_KEYS ? (uint64_t)(slot + 256 * (slot + 1)) << 32 : HUB_BAD_STATE;
    look("zero record", 100 * table + slot, &state, index, table, zeros, length, length, number);
    take_back(state);
}

/* Broken states: flags that are none, and every slot of every table, at FULL and where there are gaps. */
static void try_broken(unsigned index)
{
    static const size_t flags[] = { 0, 19, 20, 21, 22, 23, 24 };
    for (int i = 0; i < 7; i++) {
        struct lent state = lend_changed(index, flags[i], 2);
        try_no_state("flag", flags[i], &state);
        take_back(state);
    }
    for (unsigned table = 0; table < TABLES; table++)
        for (unsigned slot = 0; slot < SLOTS; slot++) {
            try_broken_slot(index, table, slot);
            if (index == FULL && held[index][table][slot] == NONE)
                try_zero_record(index, table, slot);
        }
}

/* A record alone in a slot of a table, moved there in the state: it is found there, and any other key walks as far. */
static void try_alone(unsigned table)
{
    for (unsigned slot = 0; slot < SLOTS; slot++) {
        struct lent state = lend(HUB_STATE_LEN, base, HUB_STATE_LEN);
        uint8_t *to = state.octets + FIRST_BLOCK + BLOCK * (size_t)FULL + words[table], key[16];
        const size_t record = records[table], length = put_key(key, table, 7);
        uint8_t moved[36];
        memcpy(moved, to + 4 + 7 * record, record);
        memset(to, 0, 4 + SLOTS * record);
        to[slot / 8] = (uint8_t)(1u << slot % 8);
        memcpy(to + 4 + slot * record, moved, record);
        memcpy(state.before, state.octets, HUB_STATE_LEN);
        look("alone", slot, &state, FULL, table, key, length, length, (uint64_t)(slot + 256 * (slot + 1)) << 32);
        key[0] ^= 1;
        look("absent beside one", slot, &state, FULL, table, key, length, length, (uint64_t)(HUB_SLOTS + 256 * (slot + 1)) << 32);
        take_back(state);
    }
}

/* Forgets the entries of a table that have a key. */
static void forget(unsigned index, unsigned table, const uint8_t *key, size_t length)
{
    for (unsigned slot = 0; slot < SLOTS; slot++) {
        uint8_t other[16];
        const int entry = held[index][table][slot];
        if (entry != NONE && put_key(other, table, (unsigned)entry) == length && memcmp(key, other, length) == 0)
            held[index][table][slot] = NONE;
    }
}

/* Frees the slot of entry k by the command for it: Remove UUID, Unblock, Remove Device, or Unpair, which empties three tables of the device's keys. */
static void free_entry(unsigned index, unsigned table, unsigned k)
{
    static const unsigned codes[TABLES] = { 0x0011, 0x001B, 0x001B, 0x001B, 0x0027, 0x0034 };
    struct packet packet;
    uint8_t key[16];
    const size_t length = put_key(key, table, k);
    const int unpairs = codes[table] == 0x001B;
    memcpy(make_packet(&packet, codes[table], index, length + (unpairs ? 1 : 0)), key, length);
    must_send(base, &packet, HUB_DONE);
    for (unsigned of = 0; of < TABLES; of++)
        if (of == table || (unpairs && of >= HUB_LINK_KEYS && of <= HUB_IDENTITY_KEYS))
            forget(index, of, key, length);
}

/* The hub that all begin with, and what its slots have. */
static void make_base(void)
{
    plug_all(base);
    fill_tables(base, FULL, SLOTS, 1);
    fill_tables(base, SOME, 5, 0);
    must_set(base, 0x0005, FULL, 1, 1, 0, HUB_STARTED, 1);
    must("unplug", hub_unplug(base, HUB_STATE_LEN, ABSENT, (uint8_t[HUB_REPLY_MIN]){ 0 }, HUB_REPLY_MIN), HUB_DONE);
    for (unsigned index = 0; index < 4; index++)
        for (unsigned table = 0; table < TABLES; table++)
            for (unsigned slot = 0; slot < SLOTS; slot++) {
                const int used = index == FULL || (index == SOME && table != HUB_LINK_KEYS && slot < 5);
                held[index][table][slot] = used ? (int)slot : NONE;
            }
}

/* Frees the slots of a full table in an order, from one on by a step that comes to all of them; after each all keys are looked for. */
static void drain(unsigned table, unsigned first, unsigned step)
{
    make_base();
    for (unsigned round = 0; round < SLOTS; round++) {
        const unsigned k = (first + step * round) % SLOTS;
        if (held[FULL][table][k] == NONE)
            continue;
        free_entry(FULL, table, k);
        look_for_all("drained", FULL, table);
    }
}

/* A hub whose every second slot is free in all tables: the odd ones, of long term keys every second pair. */
static void make_gaps(void)
{
    make_base();
    for (unsigned table = 0; table < TABLES; table++)
        for (unsigned k = 1; k < SLOTS; k += 2) {
            const unsigned entry = table == HUB_LONG_TERM_KEYS ? 2 * k % SLOTS : k;
            if (held[FULL][table][entry] != NONE)
                free_entry(FULL, table, entry);
        }
}

int main(void)
{
    make_base();
    try_numbers();
    try_state_lengths();
    try_broken(FULL);
    for (unsigned table = 0; table < TABLES; table++) {
        look_for_all("full", FULL, table);
        look_for_all("empty", EMPTY, table);
        look_for_all("some", SOME, table);
        try_lengths(table);
        try_bits(table);
        try_alone(table);
    }
    make_gaps();
    try_broken(FULL);
    try_broken(EMPTY);
    for (unsigned table = 0; table < TABLES; table++)
        look_for_all("gaps", FULL, table);
    for (unsigned table = 0; table < TABLES; table++) {
        drain(table, 0, 1);
        drain(table, 31, 31);
        drain(table, 3, 13);
    }
    printf("bad look-up: %lu checks, %lu failures\n", tried, failures);
    return failures != 0;
}
