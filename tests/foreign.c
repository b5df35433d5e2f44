/* foreign: lends the library and its peer the same contents, most of them such as no run produces, and compares all that
 * either hands back and all that it leaves.
 *
 *   foreign CALLS SEED
 *
 * Calls come in groups over one setup and one foreign state, and every group has a seed of its own: SEED, SEED + 1 and so
 * on, until CALLS calls were made. What is found wrong is printed with the seed of its group; `foreign 1 THAT-SEED` makes
 * that group alone.
 *
 * Most rooms are lent so that their end, or their beginning, touches pages that cannot be accessed. An access there is
 * reported with its seed like any other failure. Some rooms stand a little off, so that they begin at places of all kinds, and
 * have marks on both sides. The test knows what it made bad for a call, so it also knows which refusal is due, and it sees
 * that a refusal leaves everything as it was.
 *
 * The last line is `N passed, M failed`, over the calls and over the answers that had to be seen: each answer of each call
 * has to come up often enough, else too little was tried. That is asked of runs of 100,000 calls and more. */
#define _DEFAULT_SOURCE
#include <setjmp.h>
#include <signal.h>
#include <stdint.h>
#include <stdio.h>
#include <stdlib.h>
#include <string.h>
#include <sys/mman.h>
#include <unistd.h>

#include "peer.h"
#include "ridkostan.h"

/* ---- Drawing ------------------------------------------------------------------------------------------------------------*/

static uint64_t drawn;

/* splitmix64: neighbouring seeds give unlike numbers. */
static uint64_t draw(void)
{
    uint64_t x = drawn += 0x9e3779b97f4a7c15u;

    x = (x ^ x >> 30) * 0xbf58476d1ce4e5b9u;
    x = (x ^ x >> 27) * 0x94d049bb133111ebu;
    return x ^ x >> 31;
}

static uint32_t below(uint32_t limit)
{
    return (uint32_t)(draw() % limit);
}

static uint32_t between(uint32_t least, uint32_t most)
{
    return least + below(most - least + 1);
}

static int chance(uint32_t percent)
{
    return below(100) < percent;
}

/* Any number, small ones and the upper end more often than the rest. */
static uint32_t any(void)
{
    const uint32_t way = below(4);

    return way == 0 ? below(8) : way == 1 ? UINT32_MAX - below(2) : (uint32_t)draw();
}

static uint32_t nonzero(void)
{
    return chance(50) ? 1u << below(32) : any() | 1;
}

/* A number at or above the limit: by one, at the upper end, or only by a high bit, which a cut to fewer bits would lose. */
static uint32_t beyond(uint32_t limit)
{
    const uint32_t way = below(4), bit = between(1, 4), low = below(limit);
    const uint32_t number = low + (1u << (bit < 4 ? 8 * bit : 31));

    return way < 2 ? limit : way == 2 ? UINT32_MAX : number < limit ? limit : number;
}

/* ---- Rooms between guard pages ------------------------------------------------------------------------------------------*/

enum { LIBRARY, PEER, SIDES };
enum { MEMORY, ROWS, ENTRIES, HEADS, ROOMS };

enum {
    MORE = 64,       /* numbers that a room may have too many */
    BESIDE = 64,     /* bytes on the free side of a room that are looked at too */
    GUARD = 1 << 16, /* a multiple of the pages of any machine that emulates this one */
    RECORD = 64,     /* bytes of a record and more */
    MEMORY_MOST = (1 << 20) + MORE,
    ROWS_MOST = 4 * 4096 + MORE,
    ENTRIES_MOST = 4 * 64 * 128 + MORE,
    HEADS_MOST = 2 * 64 + MORE
};

/* What is lent: copied to a room of each side before each call. */
static uint32_t memory[MEMORY_MOST], rows[ROWS_MOST], entries[ENTRIES_MOST], heads[HEADS_MOST];
static uint8_t record[RECORD];

static const struct {
    const char *name;
    uint32_t *numbers;
    size_t bytes;
} images[ROOMS] = {
    { "memory", memory, sizeof memory },
    { "rows", rows, sizeof rows },
    { "entries", entries, sizeof entries },
    { "heads", heads, sizeof heads },
};

/* The accessible bytes between two guards. */
struct pages {
    uint8_t *low, *high;
};

static struct pages room_pages[SIDES][ROOMS], record_pages[SIDES];

/* Room for a length that is too large by 2^32: cut to 32 bits, it would be exact. NULL without the address space. */
static uint32_t *vast;

static struct pages guarded(size_t bytes)
{
    const size_t inner = (bytes + 2 * BESIDE + GUARD - 1) / GUARD * GUARD;
    uint8_t *at = mmap(NULL, inner + 3 * GUARD, PROT_NONE, MAP_PRIVATE | MAP_ANONYMOUS, -1, 0);

    if (at == MAP_FAILED) {
        perror("mmap");
        exit(2);
    }
    at += 2 * GUARD - (uintptr_t)at % GUARD;
    if (mprotect(at, inner, PROT_READ | PROT_WRITE) != 0) {
        perror("mprotect");
        exit(2);
    }
    return (struct pages){ at, at + inner };
}

static void make_pages(void)
{
    for (int side = 0; side < SIDES; side++) {
        for (int r = 0; r < ROOMS; r++)
            room_pages[side][r] = guarded(images[r].bytes);
        record_pages[side] = guarded(sizeof record);
    }
    void *at = mmap(NULL, ((size_t)4 << 32) + sizeof memory, PROT_READ | PROT_WRITE,
                    MAP_PRIVATE | MAP_ANONYMOUS | MAP_NORESERVE, -1, 0);
    vast = at == MAP_FAILED ? NULL : at;
}

/* A room with these bytes at the upper guard or the lower one, touching it or some bytes off, and marks beside it. */
static void *placed(struct pages pages, const void *bytes, size_t length, int upper, size_t off)
{
    uint8_t *room = upper ? pages.high - length - off : pages.low + off;

    if (length == 0)
        return upper ? room : NULL;
    const size_t before = upper ? BESIDE : off, behind = upper ? off : BESIDE;
    memset(room - before, 0xa5, before);
    memcpy(room, bytes, length);
    memset(room + length, 0xa5, behind);
    return room;
}

/* Whether the marks beside a room stand. */
static int marks_stand(const uint8_t *room, size_t length, int upper, size_t off)
{
    const size_t before = upper ? BESIDE : off, behind = upper ? off : BESIDE;

    for (size_t i = 0; length != 0 && i < before; i++)
        if ((room - before)[i] != 0xa5)
            return 0;
    for (size_t i = 0; length != 0 && i < behind; i++)
        if ((room + length)[i] != 0xa5)
            return 0;
    return 1;
}

/* ---- The call at hand ---------------------------------------------------------------------------------------------------*/

enum { CYCLE, WAITING, FRESH_START, CHECK, LENGTHS, READ_SETUP, WRITE_SETUP, READ_OPERATION, WRITE_OPERATION, CALLS };

/* Each call and its answers: it gives no other, and each of them has to be seen. */
static const struct {
    const char *name, *answers;
} calls[CALLS] = {
    { "cycle", "012345679" },
    { "waiting", "01234" },
    { "fresh_start", "012" },
    { "check", "01" },
    { "lengths", "01" },
    { "read_setup", "01" },
    { "write_setup", "012" },
    { "read_operation", "09" },
    { "write_operation", "029" },
};

static const char *const deliveries[] = { "none", "unready", "word" };

/* What the answer has to be, where it is not one of the numbers: that of a cycle that passes or stops, or not known. */
enum { PASSES = -1, UNKNOWN = -2 };

static uint64_t group_seed;
static unsigned group_call;
static int call, due, wrong;

/* What each side is lent. */
static uint32_t *lent[SIDES][ROOMS];
static uint8_t *lent_record[SIDES];
static size_t lent_length[ROOMS], record_length, off[ROOMS];
static int upper[ROOMS], record_upper;

#define LENT(side)                                                                                                          \
    lent[side][MEMORY], lent_length[MEMORY], lent[side][ROWS], lent_length[ROWS], lent[side][ENTRIES], lent_length[ENTRIES], \
        lent[side][HEADS], lent_length[HEADS]

/* The side whose call is running, for a signal. */
static volatile sig_atomic_t running = SIDES;

static size_t passed, failed, seen[CALLS][10], left_by[3];

/* Begins a line about what is wrong in the call at hand. */
static void say_wrong(void)
{
    wrong = 1;
    printf("FAILED: seed %llu, its call %u, %s: ", (unsigned long long)group_seed, group_call, calls[call].name);
}

static void same(const char *what, uint32_t library, uint32_t peer)
{
    if (library != peer) {
        say_wrong();
        printf("%s is %lu from the library and %lu from the peer\n", what, (unsigned long)library, (unsigned long)peer);
    }
}

static void is(const char *what, uint32_t got, uint32_t wanted)
{
    if (got != wanted) {
        say_wrong();
        printf("%s is %lu and should be %lu\n", what, (unsigned long)got, (unsigned long)wanted);
    }
}

static int is_refusal(uint32_t answer)
{
    return answer != RIDKOSTAN_DONE && answer != RIDKOSTAN_DROPPED && answer != RIDKOSTAN_STOPPING;
}

/* Both answers are the same, and the one that is due. */
static void answered(uint32_t library, uint32_t peer)
{
    same("the answer", library, peer);
    if (library > 9 || !strchr(calls[call].answers, (int)('0' + library))) {
        say_wrong();
        printf("it never answers %lu\n", (unsigned long)library);
        return;
    }
    seen[call][library]++;
    if (due >= 0) {
        is("the answer", library, (uint32_t)due);
    } else if (due == PASSES && is_refusal(library)) {
        say_wrong();
        printf("the answer is %lu, but nothing is to be refused\n", (unsigned long)library);
    }
}

/* Both sides returned the same state, the wanted one if that is known. */
static void same_state(ridkostan_state library, ridkostan_state peer, const ridkostan_state *wanted)
{
    static const char *const names[4] = { "the next stamp", "the turn", "the position", "the stop mark" };
    const uint32_t from_library[4] = { library.stamp, library.turn, library.position, library.stopped };
    const uint32_t from_peer[4] = { peer.stamp, peer.turn, peer.position, peer.stopped };

    for (int i = 0; i < 4; i++)
        same(names[i], from_library[i], from_peer[i]);
    if (wanted) {
        const uint32_t due_numbers[4] = { wanted->stamp, wanted->turn, wanted->position, wanted->stopped };
        for (int i = 0; i < 4; i++)
            is(names[i], from_library[i], due_numbers[i]);
    }
}

/* A setup's numbers, with their places and bytes in a record. */
enum { NUMBERS = 9 };
static const struct {
    const char *name;
    int at, bytes;
} setup_numbers[NUMBERS] = {
    { "mode", 0, 1 },      { "a", 1, 1 }, { "s", 2, 1 },  { "m", 3, 1 },  { "K", 4, 2 },
    { "the delay", 6, 2 }, { "C", 8, 2 }, { "u", 12, 4 }, { "v", 16, 4 },
};

static uint32_t setup_number(const ridkostan_setup *s, int i)
{
    const uint32_t numbers[NUMBERS] = { s->mode, s->a, s->s, s->m, s->k, s->delta, s->c, s->u, s->v };

    return numbers[i];
}

/* Both sides returned the same setup, the wanted one if that is known. */
static void same_setup(ridkostan_setup library, ridkostan_setup peer, const ridkostan_setup *wanted)
{
    for (int i = 0; i < NUMBERS; i++) {
        same(setup_numbers[i].name, setup_number(&library, i), setup_number(&peer, i));
        if (wanted)
            is(setup_numbers[i].name, setup_number(&library, i), setup_number(wanted, i));
    }
}

/* ---- Setups -------------------------------------------------------------------------------------------------------------*/

static const ridkostan_setup no_setup;
static const ridkostan_state no_state;

/* The group's setup: as it is given, defaults perhaps as 0, and with them in; N, B and the exact lengths. */
static ridkostan_setup given, full;
static uint32_t words, banks;
static size_t exact[ROOMS];

/* The sizes of a group. Most are tiny, so that every place of every room is met; some have wide addresses, some have tables
 * and buffers that are gone through by blocks, and some stand at the upper ends. Draws a, s, m and K, and returns the most
 * rows. */
static uint32_t draw_sizes(void)
{
    const uint32_t way = below(100);
    uint32_t a = between(1, 6), s = below(4), m = between(1, 4), k = between(1, 4), most = 32;

    if (way >= 98) {
        a = chance(15) ? 20 : between(6, 12);
        s = chance(50) ? 6 : below(7);
        m = chance(50) ? 64 : between(1, 64);
        k = 4096 / m < 128 ? 4096 / m : 128;
        k = chance(50) ? k : between(1, k);
        most = 4096;
    } else if (way >= 96) {
        a = chance(75) ? 17 : between(18, 20);
    } else if (way >= 91) {
        a = between(1, 12);
        s = below(7);
        m = between(1, 64);
        k = between(1, 16);
        most = 1024;
    } else if (way >= 84) {
        a = between(2, 12);
        s = below(7);
        k = chance(20) ? between(32, 128) : between(1, 16);
        m = k > 16 ? 1 : between(1, 4);
        most = 600;
    }
    full.a = (uint8_t)a;
    full.s = (uint8_t)(s < a ? s : a);
    full.m = (uint8_t)m;
    full.k = (uint16_t)k;
    return most;
}

static void draw_setup(void)
{
    memset(&full, (int)below(256), sizeof full); /* what stands between the numbers means nothing */
    const uint32_t most = draw_sizes(), least = (uint32_t)full.k * full.m;

    words = 1u << full.a;
    banks = 1u << full.s;
    full.mode = (uint8_t)below(2);
    full.delta = (uint16_t)(chance(50) ? least : chance(20) ? most : between(least, most));
    full.c = (uint16_t)(chance(40) ? full.delta : chance(20) ? most : between(full.delta, most));
    if (most > 64 && chance(50)) { /* whole blocks of rows, or one row more or less */
        const uint32_t c = 64 * between(1, most / 64) + below(3) - 1;
        full.c = (uint16_t)(c < full.delta ? full.delta : c > most ? most : c);
    }
    full.u = below(words) | 1;
    full.v = chance(20) ? words - 1 : below(words);
    given = full;
    if (full.delta == least && chance(50))
        given.delta = 0;
    if (full.c == full.delta && chance(50))
        given.c = 0;
    exact[MEMORY] = words;
    exact[ROWS] = 4u * full.c;
    exact[ENTRIES] = (size_t)4 * banks * full.k;
    exact[HEADS] = 2 * (size_t)banks;
}

/* The given setup with a number out of range: by one, or wildly. */
static ridkostan_setup bad_setup(void)
{
    ridkostan_setup bad = given;
    const uint32_t least = (uint32_t)full.k * full.m;

    switch (below(12)) {
    case 0:
        bad.mode = (uint8_t)(chance(50) ? 2 : between(2, 255));
        break;
    case 1:
        bad.a = (uint8_t)(chance(40) ? 0 : chance(50) ? 21 : between(21, 255));
        break;
    case 2:
        bad.s = (uint8_t)(chance(50) ? 7 : between(7, 255));
        break;
    case 3:
        bad.s = (uint8_t)(full.a + 1);
        break;
    case 4:
        bad.m = (uint8_t)(chance(40) ? 0 : chance(50) ? 65 : between(65, 255));
        break;
    case 5:
        bad.k = (uint16_t)(chance(30) ? 0 : chance(30) ? 129 : chance(50) ? full.k + 256u : between(129, 65535));
        break;
    case 6: /* one short, unless that is the 0 of a default */
        bad.delta = (uint16_t)(least > 1 && chance(50) ? least - 1 : chance(50) ? 4097 : between(4097, 65535));
        break;
    case 7:
        bad.c = (uint16_t)(full.delta > 1 && chance(50) ? full.delta - 1u : chance(50) ? 4097 : between(4097, 65535));
        break;
    case 8:
        bad.u = full.u - 1;
        break;
    case 9:
        bad.u = chance(50) ? full.u + words : beyond(words);
        break;
    case 10:
        bad.v = beyond(words);
        break;
    default: /* K*m above any delay */
        bad.k = 128;
        bad.m = (uint8_t)between(33, 64);
        bad.delta = bad.c = chance(50) ? 0 : 4096;
        break;
    }
    return bad;
}

/* Nine numbers of which nothing is known. */
static ridkostan_setup wild_setup(void)
{
    return (ridkostan_setup){ (uint8_t)below(3), (uint8_t)any(),  (uint8_t)below(8), (uint8_t)any(), (uint16_t)any(),
                              (uint16_t)any(),   (uint16_t)any(), any(),             any() };
}

/* ---- Foreign states -----------------------------------------------------------------------------------------------------*/

static ridkostan_state state;

/* Whether every number that answer 3 looks at is in range; if not, that is not known. */
static int in_range;

/* Addresses that come up often, so that lookups find something: one, and others that differ from it in a bit. */
static uint32_t often[5];

static uint32_t draw_address(void)
{
    return chance(70) ? often[below(5)] : below(words);
}

/* How many of 100 numbers that have no meaning where they stand hold anything. With none, a number that is made bad stands
 * alone among good ones; with few, a look at all numbers together finds a large one here and there, which must not count. */
static uint32_t untidy;

/* A row that many entries and links name; and whether the links to it, and the address often[0], stand in few rows only, so
 * that services and lookups go far. */
static uint32_t sought;
static int seldom;

/* A number that has no meaning where it stands: what a run leaves there, or anything. */
static uint32_t unseen(uint32_t usual)
{
    return chance(untidy) ? any() : usual;
}

/* A row of the table, often the first or the last one of a block. */
static uint32_t draw_row(void)
{
    const uint32_t i = below(full.c), edge = i - i % 16 + 15 * below(2);

    return chance(50) ? i : chance(30) ? full.c - 1u : edge < full.c ? edge : i;
}

/* Row i is rows[i], rows[C + i], rows[2*C + i] and rows[3*C + i]: kind, address, link and word. */
static uint32_t *kind_of(uint32_t i)
{
    return rows + i;
}

static uint32_t *address_of(uint32_t i)
{
    return rows + full.c + i;
}

static uint32_t *link_of(uint32_t i)
{
    return rows + 2 * full.c + i;
}

static uint32_t *word_of(uint32_t i)
{
    return rows + 3 * full.c + i;
}

/* Rows in range, as no run leaves them. */
static void draw_rows(void)
{
    for (uint32_t i = 0; i < full.c; i++) {
        const uint32_t kind = (uint32_t)("0011112233"[below(10)] - '0');
        *kind_of(i) = kind;
        *address_of(i) = kind == 0 ? unseen(0) : draw_address();
        *link_of(i) = kind != 3 ? unseen(0) : chance(40) ? i : chance(20) ? sought : below(full.c);
        *word_of(i) = kind == 0 || kind == 3 ? unseen(0) : any();
        if (seldom && *address_of(i) == often[0])
            *address_of(i) ^= 1;
        if (seldom && *link_of(i) == sought)
            *link_of(i) = i;
    }
    for (uint32_t few = seldom ? between(1, 3) : 0; few > 0; few--) {
        const uint32_t i = draw_row();
        *kind_of(i) = between(1, 3);
        *address_of(i) = often[0];
        *link_of(i) = *kind_of(i) == 3 ? sought : unseen(0);
    }
}

/* Buffers in range; cells may be those of other banks. Places where nothing waits hold anything. The counts are of all
 * kinds, or every place has a waiting entry, or hardly one has. */
static void draw_buffers(void)
{
    const uint32_t way = below(10);

    for (uint32_t b = 0; b < banks; b++) {
        const uint32_t oldest = below(full.k), some = chance(35) ? full.k : chance(30) ? 0 : below(full.k + 1u);
        const uint32_t count = way < 6 ? some : way < 8 ? full.k : way == 8 && chance(10) ? 1 : 0;
        heads[2 * b] = oldest;
        heads[2 * b + 1] = count;
        for (uint32_t i = 0; i < full.k; i++) {
            uint32_t *entry = entries + 4 * (b * full.k + (oldest + i) % full.k);
            const uint32_t kind = below(2);
            const int waits = i < count || !chance(untidy);
            entry[0] = waits ? kind : any();
            entry[1] = !waits || kind != 0 ? unseen(0) : chance(30) ? sought : below(full.c);
            entry[2] = waits ? below(words) : any();
            entry[3] = kind == 0 ? unseen(0) : any();
        }
    }
}

/* Makes one number large that has no meaning where it stands: of the row i, of an entry that does not wait, or the row of a
 * write that waits. */
static void litter(uint32_t i)
{
    const uint32_t b = below(banks), oldest = heads[2 * b], count = heads[2 * b + 1];
    uint32_t *entry = entries + 4 * (b * full.k + (oldest + full.k - 1) % full.k);

    if (chance(40) && count < full.k)
        entry[below(4)] = beyond(words);
    else if (chance(40) && count > 0 && entries[4 * (b * full.k + oldest)] == 1)
        entries[4 * (b * full.k + oldest) + 1] = beyond(full.c);
    else if (*kind_of(i) == 0 && chance(60))
        *address_of(i) = beyond(words);
    else if (*kind_of(i) != 3)
        *link_of(i) = beyond(full.c);
}

/* A state in range and rooms in range, or (seldom) numbers of which nothing is known. */
static void draw_contents(void)
{
    for (int i = 0; i < 5; i++)
        often[i] = i == 0 || chance(20) ? below(words) : often[0] ^ 1u << below(full.a);
    if (chance(25))
        often[1] = words - 1;
    for (int r = 0; r < ROOMS; r++)
        for (size_t i = r == MEMORY ? 0 : exact[r]; i < exact[r] + MORE; i++)
            images[r].numbers[i] = any();
    state.stamp = any();
    state.turn = chance(30) ? full.m - 1u : below(full.m);
    state.position = chance(30) ? full.c - 1u : below(full.c);
    state.stopped = 0;
    in_range = 1;
    untidy = chance(50) ? 50 : chance(70) ? 0 : between(1, 3);
    seldom = chance(30);
    sought = draw_row();
    draw_rows();
    draw_buffers();
    if (chance(30))
        litter(draw_row());
    if (chance(94))
        return;

    in_range = 0;
    if (chance(50)) {
        state = (ridkostan_state){ any(), any(), any(), any() };
        return;
    }
    for (int r = ROWS; r < ROOMS; r++)
        for (size_t i = 0; i < exact[r]; i++)
            images[r].numbers[i] = any();
}

/* Where a room was made bad for a call, and the numbers to be put back there after it. */
static struct {
    uint32_t *at, number;
} spoiled[3];
static int spoils;

static void spoil(uint32_t *at, uint32_t number)
{
    spoiled[spoils].at = at;
    spoiled[spoils++].number = *at;
    *at = number;
}

static void put_back(void)
{
    for (; spoils > 0; spoils--)
        *spoiled[spoils - 1].at = spoiled[spoils - 1].number;
}

/* Makes a number bad of an entry that waits at bank b or the next one where one does; else a bank's oldest place. */
static void spoil_entry(uint32_t b)
{
    while (b < banks - 1 && heads[2 * b + 1] == 0)
        b++;
    const uint32_t oldest = heads[2 * b], count = heads[2 * b + 1];
    if (count == 0) {
        spoil(heads + 2 * b, beyond(full.k));
        return;
    }
    uint32_t *entry = entries + 4 * (b * full.k + (oldest + below(count)) % full.k);
    switch (below(3)) {
    case 0:
        spoil(entry, beyond(2));
        break;
    case 1:
        spoil(entry, 0);
        spoil(entry + 1, beyond(full.c));
        break;
    default:
        spoil(entry + 2, beyond(words));
        break;
    }
}

/* Makes one of the numbers bad that answer 3 looks at. */
static void spoil_one(ridkostan_state *passed_on)
{
    const uint32_t i = draw_row();
    uint32_t *head = heads + 2 * below(banks);

    switch (below(9)) {
    case 0:
        passed_on->turn = beyond(full.m);
        break;
    case 1:
        passed_on->position = beyond(full.c);
        break;
    case 2:
        passed_on->stopped = beyond(2);
        break;
    case 3:
        spoil(kind_of(i), beyond(4));
        break;
    case 4:
        spoil(kind_of(i), between(1, 3));
        spoil(address_of(i), beyond(words));
        break;
    case 5:
        spoil(kind_of(i), 3);
        spoil(address_of(i), draw_address());
        spoil(link_of(i), beyond(full.c));
        break;
    case 6:
        spoil(head, beyond(full.k));
        break;
    case 7:
        spoil(head + 1, beyond(full.k + 1u));
        break;
    default:
        spoil_entry(below(banks));
        break;
    }
}

/* ---- Operations ---------------------------------------------------------------------------------------------------------*/

static ridkostan_operation draw_operation(void)
{
    const uint32_t way = below(20);
    const uint32_t address = seldom && chance(50) ? often[0] : draw_address();

    if (way < 3)
        return (ridkostan_operation){ RIDKOSTAN_IDLE, 0, 0 };
    if (way < 12)
        return (ridkostan_operation){ RIDKOSTAN_READ, address, 0 };
    return (ridkostan_operation){ RIDKOSTAN_WRITE, address, any() };
}

/* What is no operation: of unknown kind, or not zero where zero is due. */
static ridkostan_operation bad_operation(void)
{
    switch (below(4)) {
    case 0:
        return (ridkostan_operation){ beyond(3), chance(50) ? draw_address() : 0, chance(50) ? any() : 0 };
    case 1:
        return (ridkostan_operation){ RIDKOSTAN_IDLE, nonzero(), 0 };
    case 2:
        return (ridkostan_operation){ RIDKOSTAN_IDLE, 0, nonzero() };
    default:
        return (ridkostan_operation){ RIDKOSTAN_READ, draw_address(), nonzero() };
    }
}

/* ---- Lending ------------------------------------------------------------------------------------------------------------*/

/* A length other than the exact one: by one, none, any. */
static size_t other_length(size_t right)
{
    const uint32_t way = below(4);
    const size_t length = way == 0 ? right - 1 : way == 1 ? right + 1 : way == 2 ? 0 : below((uint32_t)right + MORE);

    return length == right ? right + 1 : length;
}

/* Lends both sides the four rooms, the length of one, or two, of them wrong. */
static void lend(int wrong_length)
{
    memcpy(lent_length, exact, sizeof exact);
    int too_long = ROOMS;
    if (wrong_length) {
        const uint32_t r = below(ROOMS);
        lent_length[r] = other_length(exact[r]);
        if (chance(20)) {
            const uint32_t another = below(ROOMS);
            lent_length[another] = other_length(exact[another]);
        } else if (vast && chance(20)) {
            too_long = (int)r;
            lent_length[r] = exact[r] + ((size_t)1 << 32);
        }
    }
    for (int r = 0; r < ROOMS; r++) {
        upper[r] = chance(50);
        off[r] = chance(25) ? sizeof(uint32_t) * between(1, 3) : 0;
        for (int side = 0; side < SIDES; side++)
            lent[side][r] = r == too_long ? vast : placed(room_pages[side][r], images[r].numbers,
                                                          lent_length[r] * sizeof(uint32_t), upper[r], off[r]);
    }
}

/* Both sides left the same in every room, nothing in those that had to stay, and nothing beside them. */
static void compare_rooms(int memory_stays, int rows_stay, int entries_stay, int heads_stay)
{
    const int stays[ROOMS] = { memory_stays, rows_stay, entries_stay, heads_stay };

    for (int r = 0; r < ROOMS; r++) {
        const uint32_t *library = lent[LIBRARY][r], *peer = lent[PEER][r], *before = images[r].numbers;
        const size_t bytes = lent_length[r] * sizeof *library;
        if (library == vast || bytes == 0)
            continue;
        if (!marks_stand((const uint8_t *)library, bytes, upper[r], off[r])
            || !marks_stand((const uint8_t *)peer, bytes, upper[r], off[r])) {
            say_wrong();
            printf("there is a write beside %s\n", images[r].name);
        }
        if (memcmp(library, peer, bytes) == 0 && (!stays[r] || memcmp(library, before, bytes) == 0))
            continue;
        size_t i = 0;
        while (library[i] == peer[i] && (!stays[r] || library[i] == before[i]))
            i++;
        say_wrong();
        printf("%s[%zu], before %lu, is %lu from the library and %lu from the peer\n", images[r].name, i,
               (unsigned long)before[i], (unsigned long)library[i], (unsigned long)peer[i]);
    }
}

/* The next call of the group is lent what this one left. */
static void keep_rooms(void)
{
    for (int r = 0; r < ROOMS; r++)
        if (memcmp(images[r].numbers, lent[LIBRARY][r], exact[r] * sizeof(uint32_t)) != 0)
            memcpy(images[r].numbers, lent[LIBRARY][r], exact[r] * sizeof(uint32_t));
}

static void lend_record(size_t length)
{
    record_length = length;
    record_upper = chance(50);
    for (int side = 0; side < SIDES; side++)
        lent_record[side] = placed(record_pages[side], record, length, record_upper, 0);
}

static void compare_records(int stays)
{
    for (int side = 0; side < SIDES; side++)
        if (!marks_stand(lent_record[side], record_length, record_upper, 0)) {
            say_wrong();
            puts("there is a write beside the record");
        }
    for (size_t i = 0; i < record_length && !wrong; i++) {
        same("a byte of the record", lent_record[LIBRARY][i], lent_record[PEER][i]);
        if (stays)
            is("a byte of the record", lent_record[LIBRARY][i], record[i]);
    }
}

/* ---- Calls over the rooms -----------------------------------------------------------------------------------------------*/

/* Makes one bad thing or another for the refusals 3, 2 and 1; true where a length is to be wrong. What is made bad is drawn
 * from the last of the refusals to the first, here and by the callers, so that the first decides which is due. */
static int draw_refusals(ridkostan_setup *s, ridkostan_state *t)
{
    if (!in_range) {
        due = UNKNOWN;
    } else if (chance(10)) {
        spoil_one(t);
        due = RIDKOSTAN_BAD_STATE;
    }
    const int wrong_length = chance(5);
    if (wrong_length)
        due = RIDKOSTAN_BAD_LENGTH;
    if (chance(4)) {
        *s = bad_setup();
        due = RIDKOSTAN_BAD_SETUP;
    }
    return wrong_length;
}

static void try_cycle(void)
{
    ridkostan_setup s = given;
    ridkostan_state t = state;
    ridkostan_operation operation = draw_operation();

    due = PASSES;
    if (operation.kind != RIDKOSTAN_IDLE && chance(5)) {
        operation.address = beyond(words);
        due = RIDKOSTAN_BAD_ADDRESS;
    }
    if (chance(2))
        t.stopped = 1;
    if (t.stopped)
        due = RIDKOSTAN_STOPPED;
    const int wrong_length = draw_refusals(&s, &t);
    if (chance(4)) {
        operation = bad_operation();
        due = RIDKOSTAN_BAD_RECORD;
    }
    lend(wrong_length);

    running = LIBRARY;
    const ridkostan_cycled library = ridkostan_cycle(s, t, operation, LENT(LIBRARY));
    running = PEER;
    const ridkostan_cycled peer = peer_cycle(s, t, operation, LENT(PEER));
    running = SIDES;

    answered(library.reply.answer, peer.reply.answer);
    same("the delivery", library.reply.delivery, peer.reply.delivery);
    same("the word", library.reply.word, peer.reply.word);
    same("the stamp", library.reply.stamp, peer.reply.stamp);
    const int refused = is_refusal(library.reply.answer);
    same_state(library.state, peer.state, refused ? &t : NULL);
    compare_rooms(refused, refused, refused, refused);
    put_back();
    if (library.reply.delivery != RIDKOSTAN_WORD)
        is("the word", library.reply.word, 0);
    if (refused) {
        is("the delivery", library.reply.delivery, RIDKOSTAN_NONE);
        is("the stamp", library.reply.stamp, 0);
    } else if (!wrong) {
        left_by[library.reply.delivery % 3]++;
        state = library.state;
        keep_rooms();
    }
}

static void try_waiting(void)
{
    ridkostan_setup s = given;
    ridkostan_state t = state;
    uint32_t bank = below(banks);

    due = RIDKOSTAN_DONE;
    if (chance(8)) {
        bank = beyond(banks);
        due = RIDKOSTAN_BAD_ADDRESS;
    }
    const int wrong_length = draw_refusals(&s, &t);
    lend(wrong_length);

    running = LIBRARY;
    const ridkostan_told library = ridkostan_waiting(s, t, bank, LENT(LIBRARY));
    running = PEER;
    const ridkostan_told peer = peer_waiting(s, t, bank, LENT(PEER));
    running = SIDES;

    answered(library.answer, peer.answer);
    same("the count", library.count, peer.count);
    is("the count", library.count, library.answer == RIDKOSTAN_DONE ? heads[2 * (bank % banks) + 1] : 0);
    compare_rooms(1, 1, 1, 1);
    put_back();
}

static void all_zero(int r)
{
    for (size_t i = 0; i < lent_length[r] && !wrong; i++)
        is(images[r].name, lent[LIBRARY][r][i], 0);
}

static void try_fresh_start(void)
{
    ridkostan_setup s = given;
    const ridkostan_state t = { any(), any(), any(), any() };

    due = RIDKOSTAN_DONE;
    const int wrong_length = chance(10);
    if (wrong_length)
        due = RIDKOSTAN_BAD_LENGTH;
    if (chance(10)) {
        s = bad_setup();
        due = RIDKOSTAN_BAD_SETUP;
    }
    lend(wrong_length);

    running = LIBRARY;
    const ridkostan_started library = ridkostan_fresh_start(s, t, LENT(LIBRARY));
    running = PEER;
    const ridkostan_started peer = peer_fresh_start(s, t, LENT(PEER));
    running = SIDES;

    answered(library.answer, peer.answer);
    const int refused = is_refusal(library.answer);
    same_state(library.state, peer.state, refused ? &t : &no_state);
    compare_rooms(1, refused, 1, refused);
    if (refused || wrong)
        return;
    all_zero(ROWS);
    all_zero(HEADS);
    state = library.state;
    in_range = 1;
    keep_rooms();
}

/* ---- Calls over setups --------------------------------------------------------------------------------------------------*/

/* A setup that is good, bad, or not known to be either. */
static ridkostan_setup some_setup(void)
{
    if (chance(45)) {
        due = RIDKOSTAN_DONE;
        return given;
    }
    if (chance(80)) {
        due = RIDKOSTAN_BAD_SETUP;
        return bad_setup();
    }
    due = UNKNOWN;
    return wild_setup();
}

static void try_check(void)
{
    const ridkostan_setup s = some_setup();

    running = LIBRARY;
    const ridkostan_checked library = ridkostan_check(s);
    running = PEER;
    const ridkostan_checked peer = peer_check(s);
    running = SIDES;

    answered(library.answer, peer.answer);
    same_setup(library.setup, peer.setup, due == UNKNOWN ? NULL : due == RIDKOSTAN_DONE ? &full : &no_setup);
}

static void try_lengths(void)
{
    const ridkostan_setup s = some_setup();

    running = LIBRARY;
    const ridkostan_lent library = ridkostan_lengths(s);
    running = PEER;
    const ridkostan_lent peer = peer_lengths(s);
    running = SIDES;

    answered(library.answer, peer.answer);
    same("the length of memory", library.memory, peer.memory);
    same("the length of rows", library.rows, peer.rows);
    same("the length of entries", library.entries, peer.entries);
    same("the length of heads", library.heads, peer.heads);
    if (due != UNKNOWN) {
        const uint32_t good = due == RIDKOSTAN_DONE;
        is("the length of memory", library.memory, good * (uint32_t)exact[MEMORY]);
        is("the length of rows", library.rows, good * (uint32_t)exact[ROWS]);
        is("the length of entries", library.entries, good * (uint32_t)exact[ENTRIES]);
        is("the length of heads", library.heads, good * (uint32_t)exact[HEADS]);
    }
}

/* ---- Calls over records -------------------------------------------------------------------------------------------------*/

static void put_number(uint8_t *at, uint32_t number, int bytes)
{
    for (int i = 0; i < bytes; i++)
        at[i] = (uint8_t)(number >> 8 * i);
}

/* The bytes that docs/INTERFACE.md gives a setup. */
static void setup_bytes(ridkostan_setup s, uint8_t *at)
{
    memset(at, 0, RIDKOSTAN_SETUP_BYTES);
    for (int i = 0; i < NUMBERS; i++)
        put_number(at + setup_numbers[i].at, setup_number(&s, i), setup_numbers[i].bytes);
}

/* The bytes of an operation; of a kind that is none, too. */
static void operation_bytes(ridkostan_operation operation, uint8_t *at)
{
    put_number(at, operation.kind, 4);
    put_number(at + 4, operation.address, 4);
    put_number(at + 8, operation.word, 4);
}

static void draw_record(void)
{
    for (int i = 0; i < RECORD; i++)
        record[i] = (uint8_t)draw();
}

/* Lends the record, in one of a few cases with another length; true then. */
static int lend_some_record(size_t right)
{
    const int other = chance(20);

    lend_record(other ? other_length(right) % RECORD : right);
    return record_length != right;
}

/* Lends the record, in some cases not zero in one of the bytes where zero is due, or with another length: the answer is then
 * due. */
static void lend_spoiled_record(uint32_t first, uint32_t last, size_t right, int answer)
{
    if (chance(15)) {
        record[between(first, last)] = (uint8_t)(1u << below(8));
        due = answer;
    }
    if (lend_some_record(right))
        due = answer;
}

static void try_read_setup(void)
{
    const ridkostan_setup s = some_setup();

    draw_record();
    setup_bytes(s, record);
    lend_spoiled_record(10, 11, RIDKOSTAN_SETUP_BYTES, RIDKOSTAN_BAD_SETUP);

    running = LIBRARY;
    const ridkostan_checked library = ridkostan_read_setup(lent_record[LIBRARY], record_length);
    running = PEER;
    const ridkostan_checked peer = peer_read_setup(lent_record[PEER], record_length);
    running = SIDES;

    answered(library.answer, peer.answer);
    same_setup(library.setup, peer.setup, library.answer == RIDKOSTAN_DONE ? &s : &no_setup);
    compare_records(1);
}

static void try_write_setup(void)
{
    const ridkostan_setup s = some_setup();
    uint8_t wanted[RIDKOSTAN_SETUP_BYTES];

    draw_record();
    if (lend_some_record(RIDKOSTAN_SETUP_BYTES) && due == RIDKOSTAN_DONE)
        due = RIDKOSTAN_BAD_LENGTH;

    running = LIBRARY;
    const uint32_t library = ridkostan_write_setup(s, lent_record[LIBRARY], record_length);
    running = PEER;
    const uint32_t peer = peer_write_setup(s, lent_record[PEER], record_length);
    running = SIDES;

    answered(library, peer);
    compare_records(is_refusal(library));
    setup_bytes(s, wanted);
    for (size_t i = 0; library == RIDKOSTAN_DONE && i < record_length && !wrong; i++)
        is("a byte of the record", lent_record[LIBRARY][i], wanted[i]);
}

static void try_read_operation(void)
{
    const int good = chance(50);
    const ridkostan_operation operation = good ? draw_operation() : bad_operation();

    due = good ? RIDKOSTAN_DONE : RIDKOSTAN_BAD_RECORD;
    draw_record();
    operation_bytes(operation, record);
    lend_spoiled_record(1, 3, RIDKOSTAN_OPERATION_BYTES, RIDKOSTAN_BAD_RECORD);

    running = LIBRARY;
    const ridkostan_recorded library = ridkostan_read_operation(lent_record[LIBRARY], record_length);
    running = PEER;
    const ridkostan_recorded peer = peer_read_operation(lent_record[PEER], record_length);
    running = SIDES;

    const int done = library.answer == RIDKOSTAN_DONE;
    answered(library.answer, peer.answer);
    same("the kind", library.operation.kind, peer.operation.kind);
    same("the address", library.operation.address, peer.operation.address);
    same("the word", library.operation.word, peer.operation.word);
    is("the kind", library.operation.kind, done ? operation.kind : RIDKOSTAN_IDLE);
    is("the address", library.operation.address, done ? operation.address : 0);
    is("the word", library.operation.word, done ? operation.word : 0);
    compare_records(1);
}

static void try_write_operation(void)
{
    const int good = chance(60);
    ridkostan_operation operation = good ? draw_operation() : bad_operation();
    uint8_t wanted[RIDKOSTAN_OPERATION_BYTES];

    due = good ? RIDKOSTAN_DONE : RIDKOSTAN_BAD_RECORD;
    if (good && operation.kind != RIDKOSTAN_IDLE && chance(50))
        operation.address = any(); /* an address is written as given */
    draw_record();
    if (lend_some_record(RIDKOSTAN_OPERATION_BYTES) && good)
        due = RIDKOSTAN_BAD_LENGTH;

    running = LIBRARY;
    const uint32_t library = ridkostan_write_operation(operation, lent_record[LIBRARY], record_length);
    running = PEER;
    const uint32_t peer = peer_write_operation(operation, lent_record[PEER], record_length);
    running = SIDES;

    answered(library, peer);
    compare_records(is_refusal(library));
    operation_bytes(operation, wanted);
    for (size_t i = 0; library == RIDKOSTAN_DONE && i < record_length && !wrong; i++)
        is("a byte of the record", lent_record[LIBRARY][i], wanted[i]);
}

/* ---- Groups -------------------------------------------------------------------------------------------------------------*/

/* A group takes far less than a second, emulated too. */
enum { SECONDS = 30 };

static void try_call(void)
{
    static void (*const tries[CALLS])(void) = {
        try_cycle,      try_waiting,     try_fresh_start,    try_check,           try_lengths,
        try_read_setup, try_write_setup, try_read_operation, try_write_operation,
    };
    const uint32_t way = below(100);

    call = way < 74 ? CYCLE : way < 84 ? WAITING : way < 87 ? FRESH_START : CHECK + (int)below(CALLS - CHECK);
    wrong = 0;
    tries[call]();
}

/* Calls over one setup, the first of them over a foreign state and each other over what the one before left. */
static void try_group(void)
{
    drawn = group_seed;
    spoils = 0;
    draw_setup();
    draw_contents();
    const unsigned group_calls = between(4, 16);
    for (group_call = 0; group_call < group_calls; group_call++) {
        if (in_range && state.stopped && chance(50))
            state.stopped = 0;
        try_call();
        passed += !wrong;
        failed += (size_t)wrong;
        if (wrong)
            return;
    }
}

static sigjmp_buf out;
static volatile sig_atomic_t caught;

/* Out of a call that met a guard page, was ended or does not end; a signal outside the calls ends the program. */
static void on_signal(int number)
{
    if (running == SIDES) {
        signal(number, SIG_DFL);
        raise(number);
    }
    caught = number;
    siglongjmp(out, 1);
}

static void say_signal(void)
{
    say_wrong();
    printf("%s in the %s (signal %d)\n",
           caught == SIGALRM                       ? "no end"
           : caught == SIGSEGV || caught == SIGBUS ? "an access outside the rooms"
                                                   : "a trap",
           running == LIBRARY ? "library" : "peer", (int)caught);
    running = SIDES;
    failed++;
}

/* ---- What was seen ------------------------------------------------------------------------------------------------------*/

/* Prints how often each answer was given, and sees to it that each was given often enough. */
static void report(size_t least)
{
    printf("answers:        ");
    for (int answer = 0; answer < 10; answer++)
        printf("%9d", answer);
    puts("");
    for (int c = 0; c < CALLS; c++) {
        printf("%-16s", calls[c].name);
        for (int answer = 0; answer < 10; answer++)
            if (strchr(calls[c].answers, '0' + answer))
                printf("%9zu", seen[c][answer]);
            else
                printf("%9s", "-");
        puts("");
    }
    printf("deliveries of cycles: none %zu, unready %zu, word %zu\n", left_by[0], left_by[1], left_by[2]);
    if (!vast)
        puts("no address space for rooms of 2^32 numbers: lengths too large by 2^32 were not tried");
    if (least == 0)
        return;
    for (int c = 0; c < CALLS; c++)
        for (const char *answer = calls[c].answers; *answer; answer++) {
            const int enough = seen[c][*answer - '0'] >= least;
            if (!enough)
                printf("FAILED: %s answered %c too seldom\n", calls[c].name, *answer);
            passed += (size_t)enough;
            failed += (size_t)!enough;
        }
    for (int d = 0; d < 3; d++) {
        const int enough = left_by[d] >= least;
        if (!enough)
            printf("FAILED: cycles delivered %s too seldom\n", deliveries[d]);
        passed += (size_t)enough;
        failed += (size_t)!enough;
    }
}

int main(int argc, char **argv)
{
    static const int signals[] = { SIGSEGV, SIGBUS, SIGILL, SIGFPE, SIGABRT, SIGALRM };
    static size_t wanted;
    struct sigaction action = { .sa_handler = on_signal };

    if (argc != 3) {
        fputs("foreign CALLS SEED\n", stderr);
        return 2;
    }
    wanted = strtoull(argv[1], NULL, 10);
    group_seed = strtoull(argv[2], NULL, 10);
    make_pages();
    for (size_t i = 0; i < sizeof signals / sizeof *signals; i++)
        sigaction(signals[i], &action, NULL);

    /* Ten failures say enough, and so does one call that does not end. */
    for (; passed + failed < wanted && failed < 10 && caught != SIGALRM; group_seed++) {
        alarm(SECONDS);
        if (sigsetjmp(out, 1) == 0)
            try_group();
        else
            say_signal();
    }
    alarm(0);
    report(wanted < 100000 || failed ? 0 : wanted / 2500);
    printf("%zu passed, %zu failed\n", passed, failed);
    return failed != 0;
}
