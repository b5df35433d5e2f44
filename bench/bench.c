/* bench: drives the library or its peer with the same operations and prints a checksum of all that it was handed back.
 *
 *   bench SIDE CALL MODE C M WORKLOAD COUNT [S K]
 *
 *   SIDE      library, peer, or driver: calls that return at once, for what the driver itself executes
 *   CALL      cycle; refused, refused-none, refused-all, refused-length (see `refused`); or another call of ridkostan.h by
 *             its name
 *   MODE      plain or merging
 *   C, M      rows of the table, and cycles between two services of a bank; the delay is C, so K*M is at most C
 *   WORKLOAD  uniform, hot, stride, far, cells or idle (see `record`)
 *   COUNT     how many calls are measured, at most 4096
 *   S, K      bank bits (5) and places in each buffer (8)
 *
 * Every run records its operations before it makes a call, always as many, passes 2*C cycles so that the table is full and
 * every row has retired once, and then makes the measured calls. Two runs that differ in COUNT alone differ by nothing but
 * those calls, so the difference of their instructions is the cost of the calls in a steady state. */
#include <stddef.h>
#include <stdint.h>
#include <stdio.h>
#include <stdlib.h>
#include <string.h>

#include "peer.h"
#include "ridkostan.h"

enum {
    ADDRESS_BITS = 12,
    WORDS = 1 << ADDRESS_BITS,
    ROWS = 4096,
    BANKS = 64,
    PLACES = 128,
    COUNT = 4096,
    OPERATIONS = 2 * ROWS + COUNT,
    ANSWERS = 10
};

/* The numbers of the address map. This u is no good choice for walks (u^-1 is 3, and bench/spread finds better ones); it stays,
 * so that rows can be compared with earlier ones. */
static const uint32_t U = 2731, V = 1234;

/* ---- What is lent -------------------------------------------------------------------------------------------------------*/

static ridkostan_setup setup;
static ridkostan_state state;
static ridkostan_lent lent;
static _Alignas(64) uint32_t memory[WORDS], rows[4 * ROWS], entries[4 * BANKS * PLACES], heads[2 * BANKS];
static _Alignas(64) uint8_t setup_record[RIDKOSTAN_SETUP_BYTES], operation_record[RIDKOSTAN_OPERATION_BYTES];

/* ---- Sides --------------------------------------------------------------------------------------------------------------*/

struct side {
    const char *name;
    ridkostan_checked (*check)(ridkostan_setup);
    ridkostan_lent (*lengths)(ridkostan_setup);
    ridkostan_started (*fresh_start)(ridkostan_setup, ridkostan_state, const uint32_t *, size_t, uint32_t *, size_t,
                                     const uint32_t *, size_t, uint32_t *, size_t);
    ridkostan_cycled (*cycle)(ridkostan_setup, ridkostan_state, ridkostan_operation, uint32_t *, size_t, uint32_t *, size_t,
                              uint32_t *, size_t, uint32_t *, size_t);
    ridkostan_told (*waiting)(ridkostan_setup, ridkostan_state, uint32_t, const uint32_t *, size_t, const uint32_t *, size_t,
                              const uint32_t *, size_t, const uint32_t *, size_t);
    ridkostan_checked (*read_setup)(const uint8_t *, size_t);
    uint32_t (*write_setup)(ridkostan_setup, uint8_t *, size_t);
    ridkostan_recorded (*read_operation)(const uint8_t *, size_t);
    uint32_t (*write_operation)(ridkostan_operation, uint8_t *, size_t);
};

static ridkostan_checked no_check(ridkostan_setup s)
{
    return (ridkostan_checked){ RIDKOSTAN_DONE, s };
}

static ridkostan_lent no_lengths(ridkostan_setup s)
{
    (void)s;
    return (ridkostan_lent){ RIDKOSTAN_DONE, 0, 0, 0, 0 };
}

static ridkostan_started no_fresh_start(ridkostan_setup s, ridkostan_state t, const uint32_t *m, size_t ml, uint32_t *r,
                                        size_t rl, const uint32_t *e, size_t el, uint32_t *h, size_t hl)
{
    (void)s, (void)m, (void)ml, (void)r, (void)rl, (void)e, (void)el, (void)h, (void)hl;
    return (ridkostan_started){ RIDKOSTAN_DONE, t };
}

static ridkostan_cycled no_cycle(ridkostan_setup s, ridkostan_state t, ridkostan_operation o, uint32_t *m, size_t ml,
                                 uint32_t *r, size_t rl, uint32_t *e, size_t el, uint32_t *h, size_t hl)
{
    (void)s, (void)o, (void)m, (void)ml, (void)r, (void)rl, (void)e, (void)el, (void)h, (void)hl;
    return (ridkostan_cycled){ t, { RIDKOSTAN_DONE, RIDKOSTAN_NONE, 0, 0 } };
}

static ridkostan_told no_waiting(ridkostan_setup s, ridkostan_state t, uint32_t b, const uint32_t *m, size_t ml,
                                 const uint32_t *r, size_t rl, const uint32_t *e, size_t el, const uint32_t *h, size_t hl)
{
    (void)s, (void)t, (void)b, (void)m, (void)ml, (void)r, (void)rl, (void)e, (void)el, (void)h, (void)hl;
    return (ridkostan_told){ RIDKOSTAN_DONE, 0 };
}

static ridkostan_checked no_read_setup(const uint8_t *record, size_t length)
{
    (void)record, (void)length;
    return (ridkostan_checked){ .answer = RIDKOSTAN_DONE };
}

static uint32_t no_write_setup(ridkostan_setup s, uint8_t *room, size_t length)
{
    (void)s, (void)room, (void)length;
    return RIDKOSTAN_DONE;
}

static ridkostan_recorded no_read_operation(const uint8_t *record, size_t length)
{
    (void)record, (void)length;
    return (ridkostan_recorded){ .answer = RIDKOSTAN_DONE };
}

static uint32_t no_write_operation(ridkostan_operation o, uint8_t *room, size_t length)
{
    (void)o, (void)room, (void)length;
    return RIDKOSTAN_DONE;
}

static const struct side sides[] = {
    { "library", ridkostan_check, ridkostan_lengths, ridkostan_fresh_start, ridkostan_cycle, ridkostan_waiting,
      ridkostan_read_setup, ridkostan_write_setup, ridkostan_read_operation, ridkostan_write_operation },
    { "peer", peer_check, peer_lengths, peer_fresh_start, peer_cycle, peer_waiting, peer_read_setup, peer_write_setup,
      peer_read_operation, peer_write_operation },
    { "driver", no_check, no_lengths, no_fresh_start, no_cycle, no_waiting, no_read_setup, no_write_setup, no_read_operation,
      no_write_operation },
};

/* ---- The recorded operations --------------------------------------------------------------------------------------------*/

static ridkostan_operation operations[OPERATIONS];

static uint32_t drawn = 2463534242u;

/* Marsaglia's xorshift: the same numbers in every run. */
static uint32_t draw(void)
{
    drawn ^= drawn << 13;
    drawn ^= drawn >> 17;
    drawn ^= drawn << 5;
    return drawn;
}

/* The number that u makes 1 of, modulo N: an odd u has one. */
static uint32_t inverse(uint32_t u)
{
    uint32_t found = 1;

    while (u * found % WORDS != 1)
        found += 2;
    return found;
}

/* How far the next address of a workload is from the last: 0 where it is no walk. */
static uint32_t step_of(const char *workload, uint32_t banks)
{
    if (!strcmp(workload, "stride"))
        return banks;
    if (!strcmp(workload, "far"))
        return WORDS / banks;
    if (!strcmp(workload, "cells"))
        return inverse(U);
    return 0;
}

/* Two of five operations read, two write and one is idle: a port in use four cycles out of five, with both kinds alike.
 *
 * uniform  any address. The lookups of merging mode find few rows and go far; the banks are loaded alike, and lightly.
 * hot      one address. Lookups end at the first rows; in plain mode one buffer is always full and most are dropped.
 * stride   addresses B apart, N/B of them: the walk over a table of entries of B words.
 * far      addresses N/B apart, B of them. Each is in a bank of its own whatever odd u is: the banks have their turn one after
 *          the other.
 * cells    addresses whose cells are next to one another: u^-1 apart. N/B of them in a row are in one bank, the most that a
 *          walk can have there, and what merging cannot take together is dropped or stops the run.
 * idle     nothing at all: a table of empty rows and empty buffers. */
static int record(const char *workload, uint32_t banks)
{
    const int uniform = !strcmp(workload, "uniform"), idle = !strcmp(workload, "idle");
    const uint32_t step = step_of(workload, banks);
    uint32_t next = 0;

    if (!uniform && !step && !idle && strcmp(workload, "hot"))
        return 0;
    for (size_t i = 0; i < OPERATIONS; i++) {
        const uint32_t kind = (draw() >> 8) % 5, any = (draw() >> 8) % WORDS, word = draw();
        operations[i] = (ridkostan_operation){ RIDKOSTAN_IDLE, 0, 0 };
        if (kind == 4 || idle)
            continue;
        next = (next + step) % WORDS;
        operations[i].address = uniform ? any : next;
        operations[i].kind = kind < 2 ? RIDKOSTAN_READ : RIDKOSTAN_WRITE;
        operations[i].word = kind < 2 ? 0 : word;
    }
    return 1;
}

/* ---- The calls ----------------------------------------------------------------------------------------------------------*/

static uint64_t checksum = 14695981039346656037u;
static size_t answered[ANSWERS];

static void mix(uint32_t number)
{
    checksum = (checksum ^ number) * 1099511628211u;
}

static void mix_room(const uint32_t *room, size_t length)
{
    for (size_t i = 0; i < length; i++)
        mix(room[i]);
}

static void mix_bytes(const uint8_t *room, size_t length)
{
    for (size_t i = 0; i < length; i++)
        mix(room[i]);
}

static void mix_state(ridkostan_state t)
{
    mix(t.stamp);
    mix(t.turn);
    mix(t.position);
    mix(t.stopped);
}

static void mix_setup(ridkostan_setup s)
{
    mix(s.mode);
    mix(s.a);
    mix(s.s);
    mix(s.m);
    mix(s.k);
    mix(s.delta);
    mix(s.c);
    mix(s.u);
    mix(s.v);
}

static void count(uint32_t answer)
{
    mix(answer);
    answered[answer % ANSWERS]++;
}

static void start(const struct side *side)
{
    const ridkostan_started r = side->fresh_start(setup, state, memory, lent.memory, rows, lent.rows, entries, lent.entries,
                                                  heads, lent.heads);
    count(r.answer);
    mix_state(r.state);
    state = r.state;
}

static void cycle(const struct side *side, ridkostan_operation operation)
{
    const ridkostan_cycled r = side->cycle(setup, state, operation, memory, lent.memory, rows, lent.rows, entries,
                                           lent.entries, heads, lent.heads);
    count(r.reply.answer);
    mix(r.reply.delivery);
    mix(r.reply.word);
    mix(r.reply.stamp);
    mix_state(r.state);
    state = r.state;
    if (r.reply.answer == RIDKOSTAN_STOPPING)
        start(side);
}

static void cycles(const struct side *side, const ridkostan_operation *first, size_t calls)
{
    for (size_t i = 0; i < calls; i++)
        cycle(side, first[i]);
}

/* Cycles with an address out of range: answer 4 comes after every other refusal was tested, so such a call looks at every
 * number that a cycle looks at before it may begin, and does nothing else. The rows are as the workload left them; so are
 * the buffers, or (refused-none) no entry waits, or (refused-all) every place has a waiting entry. With a length that differs
 * (refused-length) answer 2 comes first, and no number behind 3 is looked at. */
static void refused(const struct side *side, size_t calls)
{
    for (size_t i = 0; i < calls; i++)
        cycle(side, (ridkostan_operation){ RIDKOSTAN_READ, WORDS, 0 });
}

static void set_buffers(uint32_t waiting)
{
    const uint32_t k = setup.k, banks = 1u << setup.s;

    for (uint32_t b = 0; b < banks; b++) {
        heads[2 * b] = b % k;
        heads[2 * b + 1] = waiting;
    }
    for (uint32_t i = 0; i < banks * k; i++) {
        entries[4 * i] = i % 2;
        entries[4 * i + 1] = i % 2 ? 0 : i % lent.rows / 4;
        entries[4 * i + 2] = i % WORDS;
        entries[4 * i + 3] = i % 2 ? i : 0;
    }
}

static void starts(const struct side *side, size_t calls)
{
    for (size_t i = 0; i < calls; i++)
        start(side);
}

static void questions(const struct side *side, size_t calls)
{
    for (size_t i = 0; i < calls; i++) {
        const ridkostan_told r = side->waiting(setup, state, i % 2 ? 0 : 1, memory, lent.memory, rows, lent.rows, entries,
                                               lent.entries, heads, lent.heads);
        count(r.answer);
        mix(r.count);
    }
}

static void checks(const struct side *side, size_t calls)
{
    for (size_t i = 0; i < calls; i++) {
        const ridkostan_checked r = side->check(setup);
        count(r.answer);
        mix_setup(r.setup);
    }
}

static void all_lengths(const struct side *side, size_t calls)
{
    for (size_t i = 0; i < calls; i++) {
        const ridkostan_lent r = side->lengths(setup);
        count(r.answer);
        mix(r.memory);
        mix(r.rows);
        mix(r.entries);
        mix(r.heads);
    }
}

static void setups_read(const struct side *side, size_t calls)
{
    side->write_setup(setup, setup_record, sizeof setup_record);
    for (size_t i = 0; i < calls; i++) {
        const ridkostan_checked r = side->read_setup(setup_record, sizeof setup_record);
        count(r.answer);
        mix_setup(r.setup);
    }
}

static void setups_written(const struct side *side, size_t calls)
{
    for (size_t i = 0; i < calls; i++)
        count(side->write_setup(setup, setup_record, sizeof setup_record));
}

static void operations_read(const struct side *side, size_t calls)
{
    side->write_operation((ridkostan_operation){ RIDKOSTAN_WRITE, 1234, 5678 }, operation_record, sizeof operation_record);
    for (size_t i = 0; i < calls; i++) {
        const ridkostan_recorded r = side->read_operation(operation_record, sizeof operation_record);
        count(r.answer);
        mix(r.operation.kind);
        mix(r.operation.address);
        mix(r.operation.word);
    }
}

static void operations_written(const struct side *side, size_t calls)
{
    for (size_t i = 0; i < calls; i++)
        count(side->write_operation(operations[i], operation_record, sizeof operation_record));
}

static int measured(const struct side *side, const char *call, size_t calls)
{
    if (!strcmp(call, "cycle")) {
        cycles(side, operations + 2 * (lent.rows / 4), calls);
    } else if (!strcmp(call, "refused")) {
        refused(side, calls);
    } else if (!strcmp(call, "refused-none")) {
        set_buffers(0);
        refused(side, calls);
    } else if (!strcmp(call, "refused-all")) {
        set_buffers(setup.k);
        refused(side, calls);
    } else if (!strcmp(call, "refused-length")) {
        lent.heads--;
        refused(side, calls);
        lent.heads++;
    } else if (!strcmp(call, "fresh_start")) {
        starts(side, calls);
    } else if (!strcmp(call, "waiting")) {
        questions(side, calls);
    } else if (!strcmp(call, "check")) {
        checks(side, calls);
    } else if (!strcmp(call, "lengths")) {
        all_lengths(side, calls);
    } else if (!strcmp(call, "read_setup")) {
        setups_read(side, calls);
    } else if (!strcmp(call, "write_setup")) {
        setups_written(side, calls);
    } else if (!strcmp(call, "read_operation")) {
        operations_read(side, calls);
    } else if (!strcmp(call, "write_operation")) {
        operations_written(side, calls);
    } else {
        return 0;
    }
    return 1;
}

/* ---- The program --------------------------------------------------------------------------------------------------------*/

int main(int argc, char **argv)
{
    const struct side *side = NULL;

    if (argc != 8 && argc != 10) {
        puts("bench SIDE CALL MODE C M WORKLOAD COUNT [S K]");
        return 2;
    }
    for (size_t i = 0; i < sizeof sides / sizeof *sides; i++)
        if (!strcmp(argv[1], sides[i].name))
            side = &sides[i];

    const int c = atoi(argv[4]), m = atoi(argv[5]), calls = atoi(argv[7]);
    const int s = argc == 10 ? atoi(argv[8]) : 5, k = argc == 10 ? atoi(argv[9]) : 8;
    setup = (ridkostan_setup){
        .mode = strcmp(argv[3], "plain") ? RIDKOSTAN_MERGING : RIDKOSTAN_PLAIN,
        .a = ADDRESS_BITS,
        .s = (uint8_t)s,
        .m = (uint8_t)m,
        .k = (uint16_t)k,
        .delta = (uint16_t)c,
        .c = 0,
        .u = U,
        .v = V,
    };
    lent = peer_lengths(setup);
    if (!side || lent.answer != RIDKOSTAN_DONE || calls < 0 || calls > COUNT || !record(argv[6], 1u << s)) {
        puts("a word or a number is out of range");
        return 2;
    }

    start(side);
    cycles(side, operations, 2 * (lent.rows / 4));
    if (!measured(side, argv[2], (size_t)calls)) {
        puts("no such call");
        return 2;
    }

    mix_room(memory, lent.memory);
    mix_room(rows, lent.rows);
    mix_room(entries, lent.entries);
    mix_room(heads, lent.heads);
    mix_bytes(setup_record, sizeof setup_record);
    mix_bytes(operation_record, sizeof operation_record);
    printf("checksum %016llx dropped %zu stopped %zu\n", (unsigned long long)checksum, answered[RIDKOSTAN_DROPPED],
           answered[RIDKOSTAN_STOPPING]);
    return 0;
}
