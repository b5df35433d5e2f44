/* linecard.c: the byte counts of a line card's flows, kept in the memory behind Ridkostan's port.
 *
 *     linecard [NAME=NUMBER ..] [FILE]
 *
 * FILE has a packet a line, `flow bytes`; - is standard input, and what follows a # is a comment. Without a FILE the program
 * makes packets itself. NAME is a number of the setup (mode a s m k delta c u v), or `packets`, how many it makes, or
 * `naive`: 1 does without the table of updates below, to show what is then lost.
 *
 * A flow is an address, and the word there is its count of bytes, modulo 2^32. To count a packet, the card reads the word,
 * has it delta cycles later, and writes back the sum. The trap: a second packet of the flow that reads in between gets the
 * word without the first one's bytes, and its write undoes the first one's. So the card keeps the updates in flight in a
 * small table of its own, and a packet whose flow is in there adds its bytes to that update and needs no read. Once the write
 * is taken, the update may go: the port answers as one SRAM would, so every later read gives the word that was written, even
 * while it is still on its way to its bank.
 *
 * Exit status: 0 every count is right; 1 some count is wrong; 2 bad use, or lines that are no packets (the others are
 * counted); 3 the controller stopped, or refused a call.
 */
#include <inttypes.h>
#include <stdbool.h>
#include <stdio.h>
#include <stdlib.h>
#include <string.h>

#include "ridkostan.h"

enum { WRONG_COUNT = 1, BAD_INPUT = 2, NO_SERVICE = 3 };

/* ---- The port: the controller, and what it is lent --------------------------------------------------------------------- */

struct port {
    ridkostan_setup setup; /* with its defaults in */
    ridkostan_lent lent;   /* how long each room is */
    uint32_t *memory, *rows, *entries, *heads;
    ridkostan_state state;
    uint64_t cycles, drops;
};

/* What each call is lent, in the header's order: every room with its length. */
#define ROOMS(p) (p)->memory, (p)->lent.memory, (p)->rows, (p)->lent.rows, \
                 (p)->entries, (p)->lent.entries, (p)->heads, (p)->lent.heads

static const ridkostan_operation idle = {RIDKOSTAN_IDLE, 0, 0};

static const char *meaning(uint32_t answer)
{
    switch (answer) {
    case RIDKOSTAN_DONE: return "done";
    case RIDKOSTAN_BAD_SETUP: return "a number of the setup is out of range";
    case RIDKOSTAN_BAD_LENGTH: return "a lent length differs";
    case RIDKOSTAN_BAD_STATE: return "a number in state, row or entry is out of range";
    case RIDKOSTAN_BAD_ADDRESS: return "no such address or bank";
    case RIDKOSTAN_DROPPED: return "dropped at a full buffer";
    case RIDKOSTAN_STOPPING: return "a retiring write found its buffer full, and the controller stops";
    case RIDKOSTAN_STOPPED: return "the controller has stopped";
    case RIDKOSTAN_ROOM_TOO_SMALL: return "the program's room is too small";
    case RIDKOSTAN_BAD_RECORD: return "not an operation";
    default: return "unknown";
    }
}

/* Says what a call answered after so many cycles, and ends the program. */
static _Noreturn void give_up(uint64_t cycles, const char *call, uint32_t answer, int status)
{
    fprintf(stderr, "linecard: %s, after %" PRIu64 " cycles: answer %" PRIu32 ", %s\n", call, cycles, answer, meaning(answer));
    exit(status);
}

/* Zeroed room for `count` elements. */
static void *zeros(size_t count, size_t size)
{
    void *room = calloc(count, size);
    if (room == NULL) {
        fputs("linecard: no memory\n", stderr);
        exit(BAD_INPUT);
    }
    return room;
}

/* Lends the rooms, cut from one block, and makes a fresh start. Every word is 0 then, and so is every count. */
static struct port open_port(ridkostan_setup setup)
{
    ridkostan_checked checked = ridkostan_check(setup);
    if (checked.answer != RIDKOSTAN_DONE) give_up(0, "ridkostan_check", checked.answer, BAD_INPUT);
    struct port p = {.setup = checked.setup, .lent = ridkostan_lengths(checked.setup)};
    p.memory = zeros((size_t)p.lent.memory + p.lent.rows + p.lent.entries + p.lent.heads, sizeof *p.memory);
    p.rows = p.memory + p.lent.memory;
    p.entries = p.rows + p.lent.rows;
    p.heads = p.entries + p.lent.entries;
    ridkostan_started started = ridkostan_fresh_start(p.setup, p.state, ROOMS(&p));
    if (started.answer != RIDKOSTAN_DONE) give_up(0, "ridkostan_fresh_start", started.answer, NO_SERVICE);
    p.state = started.state;
    return p;
}

/* One cycle. It passes with RIDKOSTAN_DONE, and with RIDKOSTAN_DROPPED: the caller then offers the operation again. After
 * RIDKOSTAN_STOPPING no cycle would pass, and any other answer would be a mistake of this program. */
static ridkostan_reply cycle(struct port *p, ridkostan_operation operation)
{
    ridkostan_cycled cycled = ridkostan_cycle(p->setup, p->state, operation, ROOMS(p));
    p->state = cycled.state;
    switch (cycled.reply.answer) {
    case RIDKOSTAN_DONE: break;
    case RIDKOSTAN_DROPPED: p->drops++; break;
    default: give_up(p->cycles, "ridkostan_cycle", cycled.reply.answer, NO_SERVICE);
    }
    p->cycles++;
    return cycled.reply;
}

/* Passes idle cycles until every word is in its cell: C of them retire every row, and then the banks have to run empty. */
static void drain(struct port *p)
{
    for (uint32_t i = 0; i < p->setup.c; i++) cycle(p, idle);
    for (uint32_t bank = 0; bank < UINT32_C(1) << p->setup.s;) {
        ridkostan_told told = ridkostan_waiting(p->setup, p->state, bank, ROOMS(p));
        if (told.answer != RIDKOSTAN_DONE) give_up(p->cycles, "ridkostan_waiting", told.answer, NO_SERVICE);
        if (told.count == 0)
            bank++;
        else
            cycle(p, idle);
    }
}

/* ---- The card: a packet in hand, and the table of updates in flight ---------------------------------------------------- */

struct packet {
    uint32_t flow, bytes;
};

struct update {
    uint32_t flow, bytes; /* whose count, and by how much it grows */
    uint32_t word;        /* the count as it was read, once that has left */
    uint64_t due;         /* the cycle in which it leaves */
};

/* The table is a ring. Words leave in the order of their reads and are written back in that order, so the oldest `ready` of
 * the `count` updates have their word. A read is offered only while none is ready, and at most one read was taken in each of
 * the last delta cycles: with the new one, delta + 1 places are always enough. */
struct card {
    struct port port;
    struct packet packet;
    bool in_hand, naive;
    struct update *updates;
    uint32_t places, oldest, count, ready;
    uint64_t joined;
};

static struct update *update_at(struct card *card, uint32_t i)
{
    return &card->updates[(card->oldest + i) % card->places];
}

/* The update in flight of a flow, or NULL. Hardware asks all places at once. */
static struct update *in_flight(struct card *card, uint32_t flow)
{
    for (uint32_t i = 0; i < card->count; i++)
        if (update_at(card, i)->flow == flow) return update_at(card, i);
    return NULL;
}

/* The operation of this cycle. A write goes before a read, so that updates leave the table as soon as they can. */
static ridkostan_operation choose(struct card *card)
{
    if (card->ready > 0) {
        const struct update *oldest = update_at(card, 0);
        return (ridkostan_operation){RIDKOSTAN_WRITE, oldest->flow, oldest->word + oldest->bytes};
    }
    if (card->in_hand) return (ridkostan_operation){RIDKOSTAN_READ, card->packet.flow, 0};
    return idle;
}

/* One cycle of the card: the packet in hand, an operation at the port, and what leaves there. */
static void step(struct card *card)
{
    /* Before the sum is made, so that a packet can join its flow's update even in the cycle that writes it back. */
    struct update *same = card->in_hand && !card->naive ? in_flight(card, card->packet.flow) : NULL;
    if (same != NULL) {
        same->bytes += card->packet.bytes;
        card->joined++;
        card->in_hand = false;
    }

    ridkostan_operation operation = choose(card);
    uint64_t now = card->port.cycles;
    ridkostan_reply reply = cycle(&card->port, operation);
    bool taken = reply.answer == RIDKOSTAN_DONE; /* a dropped operation is offered again: all stays as it is */
    if (taken && operation.kind == RIDKOSTAN_WRITE) {
        card->oldest = (card->oldest + 1) % card->places;
        card->count--;
        card->ready--;
    } else if (taken && operation.kind == RIDKOSTAN_READ) {
        struct update update = {card->packet.flow, card->packet.bytes, 0, now + card->port.setup.delta};
        *update_at(card, card->count++) = update;
        card->in_hand = false;
    }

    struct update *next = card->ready < card->count ? update_at(card, card->ready) : NULL;
    bool due = next != NULL && next->due == now;
    if (reply.delivery != (due ? RIDKOSTAN_WORD : RIDKOSTAN_NONE)) {
        fprintf(stderr, "linecard: cycle %" PRIu64 ": not the promised delivery\n", now);
        exit(NO_SERVICE);
    }
    if (due) {
        next->word = reply.word;
        card->ready++;
    }
}

/* ---- Where packets come from ------------------------------------------------------------------------------------------- */

struct source {
    FILE *file; /* NULL: packets are made */
    const char *name;
    unsigned long line, damaged;
    uint32_t flows, left, random;
};

/* Makes a packet: half of them are of eight busy flows, the others of any. */
static bool make_packet(struct source *source, struct packet *packet)
{
    static const uint32_t sizes[] = {64, 64, 576, 1500};
    if (source->left == 0) return false;
    source->left--;
    uint32_t r = source->random;
    r ^= r << 13;
    r ^= r >> 17;
    r ^= r << 5;
    source->random = r;
    *packet = (struct packet){(r & 1 ? r >> 8 & 7 : r >> 8) % source->flows, sizes[r >> 1 & 3]};
    return true;
}

/* Reads a packet from the file. A damaged line is told and left out. */
static bool read_packet(struct source *source, struct packet *packet)
{
    for (int c = getc(source->file); c != EOF; c = getc(source->file)) {
        char line[128], rest;
        size_t length = 0;
        for (; c != '\n' && c != EOF; c = getc(source->file), length++)
            if (length < sizeof line) line[length] = (char)c;
        source->line++;
        bool text = length < sizeof line && memchr(line, '\0', length) == NULL;
        line[text ? length : 0] = '\0';
        line[strcspn(line, "#")] = '\0';
        if (text && line[strspn(line, " \t\r")] == '\0') continue;
        if (sscanf(line, "%9" SCNu32 "%9" SCNu32 " %c", &packet->flow, &packet->bytes, &rest) == 2
            && packet->flow < source->flows && 0 < packet->bytes && packet->bytes <= UINT16_MAX)
            return true;
        fprintf(stderr, "%s:%lu: no packet, which is a flow below %" PRIu32 " and 1 to %d bytes\n", source->name, source->line,
                source->flows, UINT16_MAX);
        source->damaged++;
    }
    if (ferror(source->file)) {
        perror(source->name);
        exit(BAD_INPUT);
    }
    return false;
}

/* ---- The run ----------------------------------------------------------------------------------------------------------- */

/* What the counts must be: a plain array, updated as each packet comes. */
struct plain {
    uint32_t packets, bytes;
};

/* Prints the counts in drained memory, each at the cell of its flow's address, and tells how many are wrong. */
static uint32_t report(const struct port *p, const struct plain *plain)
{
    enum { SHOWN = 16 };
    uint32_t wrong = 0, flows = 0;
    printf("%8s %8s %10s\n", "flow", "packets", "bytes");
    for (uint32_t flow = 0; flow < p->lent.memory; flow++) {
        uint32_t cell = (p->setup.u * flow + p->setup.v) % p->lent.memory, word = p->memory[cell], right = plain[flow].bytes;
        wrong += word != right;
        if (plain[flow].packets == 0 || flows++ >= SHOWN) continue;
        printf("%8" PRIu32 " %8" PRIu32 " %10" PRIu32, flow, plain[flow].packets, word);
        if (word != right) printf(" and should be %" PRIu32, right);
        putchar('\n');
    }
    if (flows > SHOWN) printf("%8s %" PRIu32 " flows more\n", "..", flows - SHOWN);
    return wrong;
}

enum { MODE, A, S, M, K, DELTA, C, U, V, PACKETS, NAIVE, NUMBERS };

/* Takes an argument NAME=NUMBER. */
static bool set_number(const char *text, uint32_t n[NUMBERS])
{
    static const char *const names[NUMBERS] = {"mode", "a", "s", "m", "k", "delta", "c", "u", "v", "packets", "naive"};
    char name[8], rest;
    uint32_t number;
    if (sscanf(text, "%7[a-z]=%9" SCNu32 "%c", name, &number, &rest) != 2) return false;
    for (int i = 0; i < NUMBERS; i++) {
        if (strcmp(name, names[i]) != 0) continue;
        n[i] = number;
        return true;
    }
    return false;
}

/* A number that is too large for its field becomes the largest there, which is out of range as well. */
static uint8_t small(uint32_t n) { return n < UINT8_MAX ? (uint8_t)n : UINT8_MAX; }
static uint16_t middling(uint32_t n) { return n < UINT16_MAX ? (uint16_t)n : UINT16_MAX; }

/* Counts every packet of the source, behind the port and in the plain array, and tells how many there were. */
static uint64_t count_packets(struct card *card, struct source *source, struct plain *plain)
{
    for (uint64_t packets = 0;; step(card)) {
        if (!card->in_hand && (source->file != NULL ? read_packet : make_packet)(source, &card->packet)) {
            card->in_hand = true;
            packets++;
            plain[card->packet.flow].packets++;
            plain[card->packet.flow].bytes += card->packet.bytes;
        }
        if (!card->in_hand && card->count == 0) return packets; /* none comes, and no update is in flight */
    }
}

int main(int argc, char **argv)
{
    /* u is the odd number nearest to N over the golden ratio: neighbouring flows lie in different banks. */
    uint32_t n[NUMBERS] = {RIDKOSTAN_MERGING, 10, 4, 8, 8, 0, 128, 633, 3, 4000, 0};
    struct source source = {.random = 2463534242u};
    for (int i = 1; i < argc; i++) {
        bool file = strchr(argv[i], '=') == NULL;
        if (file ? source.name != NULL : !set_number(argv[i], n)) {
            fputs("usage: linecard [NAME=NUMBER ..] [FILE]\n", stderr);
            return BAD_INPUT;
        }
        if (file) source.name = argv[i];
    }
    if (source.name != NULL) {
        source.file = strcmp(source.name, "-") == 0 ? stdin : fopen(source.name, "r");
        if (source.file == NULL) {
            perror(source.name);
            return BAD_INPUT;
        }
    }
    ridkostan_setup setup = {small(n[MODE]), small(n[A]), small(n[S]), small(n[M]), middling(n[K]), middling(n[DELTA]),
                             middling(n[C]), n[U], n[V]};
    struct card card = {.port = open_port(setup), .naive = n[NAIVE] != 0};
    card.places = card.port.setup.delta + UINT32_C(1);
    card.updates = zeros(card.places, sizeof *card.updates);
    source.flows = card.port.lent.memory;
    source.left = n[PACKETS];
    struct plain *plain = zeros(source.flows, sizeof *plain);

    uint64_t packets = count_packets(&card, &source, plain);
    drain(&card.port);
    uint32_t wrong = report(&card.port, plain);
    printf("%" PRIu64 " packets; %" PRIu64 " joined an update in flight\n", packets, card.joined);
    printf("%" PRIu64 " cycles; %" PRIu64 " operations dropped and offered again\n", card.port.cycles, card.port.drops);
    if (wrong > 0)
        printf("%" PRIu32 " counts are wrong\n", wrong);
    else
        puts("every count is right");
    free(card.port.memory);
    free(card.updates);
    free(plain);
    return wrong > 0 ? WRONG_COUNT : source.damaged > 0 ? BAD_INPUT : 0;
}
