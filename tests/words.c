/* words: a memory that one run leaves is read by another with the same words, whichever bits name the banks.
 *
 *   words leave SETUP OPERATIONS          runs the operations over memory of zeros, idles until all is stored, and prints the
 *                                         memory, a word a line, in the order of the cells
 *   words read SETUP OPERATIONS MEMORY    lends such a memory to a fresh start, reads every address through the port, and
 *                                         compares each word with the one last written to its address
 *
 * SETUP and OPERATIONS are house records, MEMORY is text. Ends 0 where all is so; in `read` its last line is
 * `N passed, M failed`, over the addresses. */
#include <stdint.h>
#include <stdio.h>
#include <stdlib.h>
#include <string.h>

#include "ridkostan.h"

enum { MOST_OPERATIONS = 4096, WORDS = 1 << 12, ROWS = 4 * 1024, ENTRIES = 4 * 1024, HEADS = 2 * 64 };

static ridkostan_setup setup;
static ridkostan_state state;
static ridkostan_lent lent;
static uint32_t memory[WORDS], rows[ROWS], entries[ENTRIES], heads[HEADS];
static ridkostan_operation operations[MOST_OPERATIONS];
static size_t count;

static _Noreturn void fail(const char *what)
{
    fprintf(stderr, "words: %s\n", what);
    exit(2);
}

static void read_files(const char *setup_file, const char *operations_file)
{
    uint8_t record[RIDKOSTAN_SETUP_BYTES];
    FILE *in = fopen(setup_file, "rb");
    const size_t got = in ? fread(record, 1, sizeof record, in) : 0;
    const ridkostan_checked checked = ridkostan_read_setup(record, got);

    if (!in || checked.answer != RIDKOSTAN_DONE)
        fail("no setup");
    fclose(in);
    setup = checked.setup;
    lent = ridkostan_lengths(setup);
    if (lent.memory > WORDS || lent.rows > ROWS || lent.entries > ENTRIES || lent.heads > HEADS)
        fail("a setup too large");

    in = fopen(operations_file, "rb");
    if (!in)
        fail("no operations");
    for (uint8_t one[RIDKOSTAN_OPERATION_BYTES]; fread(one, 1, sizeof one, in) == sizeof one; count++) {
        const ridkostan_recorded recorded = ridkostan_read_operation(one, sizeof one);
        if (count == MOST_OPERATIONS || recorded.answer != RIDKOSTAN_DONE)
            fail("a bad operation, or too many");
        operations[count] = recorded.operation;
    }
    fclose(in);
}

static void start(void)
{
    const ridkostan_started started = ridkostan_fresh_start(setup, state, memory, lent.memory, rows, lent.rows, entries,
                                                            lent.entries, heads, lent.heads);
    if (started.answer != RIDKOSTAN_DONE)
        fail("the fresh start is refused");
    state = started.state;
}

static ridkostan_reply cycle(ridkostan_operation operation)
{
    const ridkostan_cycled cycled = ridkostan_cycle(setup, state, operation, memory, lent.memory, rows, lent.rows, entries,
                                                    lent.entries, heads, lent.heads);
    state = cycled.state;
    return cycled.reply;
}

static const ridkostan_operation idle = { RIDKOSTAN_IDLE, 0, 0 };

/* C cycles on every write has retired, and K*m later the last entry is served. */
static void leave(void)
{
    start();
    for (size_t i = 0; i < count; i++)
        if (cycle(operations[i]).answer != RIDKOSTAN_DONE)
            fail("an operation is not taken");
    for (uint32_t i = 0; i < lent.rows / 4 + (uint32_t)setup.k * setup.m; i++)
        if (cycle(idle).answer != RIDKOSTAN_DONE)
            fail("the run stops");
    for (size_t i = 0; i < lent.memory; i++)
        printf("%lu\n", (unsigned long)memory[i]);
}

static void read_memory(const char *file)
{
    FILE *in = fopen(file, "r");
    char line[32];

    if (!in)
        fail("no memory");
    for (size_t i = 0; i < lent.memory; i++) {
        if (!fgets(line, sizeof line, in))
            fail("a memory of another length");
        memory[i] = (uint32_t)strtoul(line, NULL, 10);
    }
    fclose(in);
}

/* Reads the address until the read is taken, and waits for its word. */
static uint32_t word_at(uint32_t address)
{
    const ridkostan_operation read = { RIDKOSTAN_READ, address, 0 };
    ridkostan_reply reply;

    do
        reply = cycle(read);
    while (reply.answer == RIDKOSTAN_DROPPED);
    if (reply.answer != RIDKOSTAN_DONE)
        fail("a read is refused");
    do
        reply = cycle(idle);
    while (reply.delivery == RIDKOSTAN_NONE);
    return reply.word;
}

static int read_all(void)
{
    static uint32_t written[WORDS];
    size_t passed = 0, failed = 0;

    for (size_t i = 0; i < count; i++)
        if (operations[i].kind == RIDKOSTAN_WRITE)
            written[operations[i].address] = operations[i].word;
    start();
    for (uint32_t address = 0; address < lent.memory; address++) {
        const uint32_t word = word_at(address);
        if (word == written[address]) {
            passed++;
        } else {
            printf("FAILED: address %lu has the word %lu, written was %lu\n", (unsigned long)address, (unsigned long)word,
                   (unsigned long)written[address]);
            failed++;
        }
    }
    printf("%zu passed, %zu failed\n", passed, failed);
    return failed != 0;
}

int main(int argc, char **argv)
{
    const int leaves = argc == 4 && !strcmp(argv[1], "leave"), reads = argc == 5 && !strcmp(argv[1], "read");

    if (!leaves && !reads)
        fail("leave SETUP OPERATIONS, or read SETUP OPERATIONS MEMORY");
    read_files(argv[2], argv[3]);
    if (leaves) {
        leave();
        return 0;
    }
    read_memory(argv[4]);
    return read_all();
}
