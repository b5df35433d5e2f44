/* peer.c: the calls of ridkostan.h in plain C11. */
#include "peer.h"

#include <string.h>

/* The lent rooms of 32-bit numbers (docs/INTERFACE.md, "What is lent"). The rows stand in columns of C numbers each: kinds,
 * addresses, links, words. An entry is four numbers next to one another, and a bank's head is two. */
enum { ROW_EMPTY, ROW_WRITE, ROW_READY, ROW_WAITING };
enum { ENTRY_READ, ENTRY_WRITE };
enum { KIND, ROW, CELL, WORD, ENTRY };
enum { OLDEST, COUNT, HEAD };

/* ---- Setups --------------------------------------------------------------------------------------------------------- */

/* Numbers of a configuration: puts the defaults in and tells whether every number is then in range. */
static int complete(ridkostan_setup *s)
{
    if (s->mode > RIDKOSTAN_MERGING || s->a < 1 || s->a > 20 || s->s > 6 || s->s > s->a)
        return 0;
    if (s->m < 1 || s->m > 64 || s->k < 1 || s->k > 128)
        return 0;

    const uint32_t n = 1u << s->a;
    const uint32_t least = (uint32_t)s->k * s->m;
    if (s->delta == 0)
        s->delta = (uint16_t)least;
    if (s->c == 0)
        s->c = s->delta;
    return s->delta >= least && s->c >= s->delta && s->c <= 4096 && s->u < n && (s->u & 1) && s->v < n;
}

/* Lent lengths, in 32-bit numbers, under a setup with its defaults in. */
static ridkostan_lent lengths(const ridkostan_setup *s)
{
    return (ridkostan_lent){
        .answer = RIDKOSTAN_DONE,
        .memory = 1u << s->a,
        .rows = 4u * s->c,
        .entries = 4u * s->k << s->s,
        .heads = 2u << s->s,
    };
}

/* Whether every lent length is exact. */
static int lengths_exact(const ridkostan_setup *s, size_t memory_len, size_t rows_len, size_t entries_len, size_t heads_len)
{
    const ridkostan_lent due = lengths(s);
    return memory_len == due.memory && rows_len == due.rows && entries_len == due.entries && heads_len == due.heads;
}

/* From address to cell: (u*address + v) mod N. */
static uint32_t cell_of(const ridkostan_setup *s, uint32_t address)
{
    return (s->u * address + s->v) & ((1u << s->a) - 1);
}

/* The place after i, going round at end. */
static uint32_t after(uint32_t i, uint32_t end)
{
    return i + 1 == end ? 0 : i + 1;
}

/* The lesser of two numbers. */
static uint32_t least(uint32_t a, uint32_t b)
{
    return a < b ? a : b;
}

/* ---- Numbers taken together --------------------------------------------------------------------------------------------
 * A call looks at whole columns. It does so by blocks, in loops of a fixed length without a way out: a compiler makes vector
 * instructions of these. */

enum { BLOCK = 64 };

/* The bits of all the numbers together. */
static uint32_t bits_of(const uint32_t *numbers, uint32_t count)
{
    uint32_t bits = 0;

    for (; count >= BLOCK; count -= BLOCK, numbers += BLOCK)
        for (int i = 0; i < BLOCK; i++)
            bits |= numbers[i];
    for (; count != 0; count--)
        bits |= *numbers++;
    return bits;
}

/* Four numbers that stand side by side, or the bits of many such. */
struct four {
    uint32_t a, b, c, d;
};

/* The bits of the numbers, every fourth together; the count is a multiple of four. */
static struct four bits_by_four(const uint32_t *numbers, uint32_t count)
{
    struct four bits = { 0, 0, 0, 0 };

    for (; count >= BLOCK; count -= BLOCK, numbers += BLOCK)
        for (int i = 0; i < BLOCK; i += 4) {
            bits.a |= numbers[i];
            bits.b |= numbers[i + 1];
            bits.c |= numbers[i + 2];
            bits.d |= numbers[i + 3];
        }
    for (; count != 0; count -= 4, numbers += 4) {
        bits.a |= numbers[0];
        bits.b |= numbers[1];
        bits.c |= numbers[2];
        bits.d |= numbers[3];
    }
    return bits;
}

/* How many of the numbers, at most a block, are this one. */
static inline uint32_t times(uint32_t number, const uint32_t *numbers, uint32_t count)
{
    uint32_t found = 0;

    if (count == BLOCK)
        for (int i = 0; i < BLOCK; i++)
            found += numbers[i] == number;
    else
        for (uint32_t i = 0; i < count; i++)
            found += numbers[i] == number;
    return found;
}

/* The last of the whole blocks from first up to end that has the number, or NULL. */
static const uint32_t *last_block_with(uint32_t number, const uint32_t *first, const uint32_t *end)
{
    while (end != first) {
        uint32_t found = 0;
        end -= BLOCK;
        for (int i = 0; i < BLOCK; i++)
            found |= end[i] == number ? ~0u : 0;
        if (found)
            return end;
    }
    return NULL;
}

/* ---- What answer 3 looks at --------------------------------------------------------------------------------------------
 * Numbers are looked at together first: if all their bits make a number in range, each of them is in range. If not, the cause
 * may be a number without a meaning, or just the bits of several; then each is looked at. */

/* Whether a number is at or beyond the limit in a row of a kind above this one. */
static int any_beyond(uint32_t limit, const uint32_t *numbers, uint32_t kind, const uint32_t *kinds, uint32_t count)
{
    uint32_t found = 0;

    for (uint32_t i = 0; i < count; i++)
        found |= (numbers[i] >= limit ? ~0u : 0) & (kinds[i] > kind ? ~0u : 0);
    return found != 0;
}

/* Rows: kind, the address of a row that is not empty, the link of a waiting row. */
static int rows_in_range(const uint32_t *rows, uint32_t c, uint32_t n)
{
    const uint32_t *kinds = rows, *addresses = rows + c, *links = rows + 2 * c;

    return bits_of(kinds, c) <= ROW_WAITING
           && (bits_of(addresses, c) < n || !any_beyond(n, addresses, ROW_EMPTY, kinds, c))
           && (bits_of(links, c) < c || !any_beyond(c, links, ROW_READY, kinds, c));
}

/* One buffer: of the entries that wait kind, cell and a read's row. */
static int buffer_in_range(const uint32_t *head, const uint32_t *buffer, uint32_t k, uint32_t c, uint32_t n)
{
    const uint32_t *e = buffer + ENTRY * head[OLDEST], *end = buffer + ENTRY * k;

    for (uint32_t count = head[COUNT]; count != 0; count--) {
        if (e[KIND] > ENTRY_WRITE || e[CELL] >= n || (e[ROW] >= c && e[KIND] == ENTRY_READ))
            return 0;
        e += ENTRY;
        if (e == end)
            e = buffer;
    }
    return 1;
}

/* Buffers: oldest place and count of each, and the entries that wait. */
static int buffers_in_range(const uint32_t *heads, uint32_t banks, const uint32_t *entries, uint32_t k, uint32_t c, uint32_t n)
{
    struct four bits = { heads[OLDEST], heads[COUNT], 0, 0 };

    if (banks > 1)
        bits = bits_by_four(heads, HEAD * banks);
    const uint32_t counts = bits.b | bits.d;
    if ((bits.a | bits.c) >= k || counts > k)
        for (uint32_t b = 0; b < banks; b++)
            if (heads[HEAD * b + OLDEST] >= k || heads[HEAD * b + COUNT] > k)
                return 0;
    if (counts == 0)
        return 1;

    /* Where three banks have many, all banks may well have: then it is shorter to take all places together. */
    if (4 * heads[COUNT] >= k && 4 * heads[banks / 2 * HEAD + COUNT] >= k && 4 * heads[(banks - 1) * HEAD + COUNT] >= k) {
        bits = bits_by_four(entries, ENTRY * banks * k);
        if (bits.a <= ENTRY_WRITE && bits.b < c && bits.c < n)
            return 1;
    }
    /* Most banks have none as a rule, so four are gone through in a turn. */
    const uint32_t *h = heads, *end = heads + HEAD * banks, *fours = heads + HEAD * (banks & ~3u), size = ENTRY * k;
    for (; h != fours; h += 4 * HEAD, entries += 4 * size)
        if ((h[COUNT] && !buffer_in_range(h, entries, k, c, n))
            || (h[HEAD + COUNT] && !buffer_in_range(h + HEAD, entries + size, k, c, n))
            || (h[2 * HEAD + COUNT] && !buffer_in_range(h + 2 * HEAD, entries + 2 * size, k, c, n))
            || (h[3 * HEAD + COUNT] && !buffer_in_range(h + 3 * HEAD, entries + 3 * size, k, c, n)))
            return 0;
    for (; h != end; h += HEAD, entries += size)
        if (!buffer_in_range(h, entries, k, c, n))
            return 0;
    return 1;
}

/* State, rows and buffers: whether each number is in the range its meaning allows. */
static int state_in_range(const ridkostan_setup *s, ridkostan_state state, const uint32_t *rows, const uint32_t *entries,
                          const uint32_t *heads)
{
    const uint32_t n = 1u << s->a, banks = 1u << s->s;

    return state.stopped <= 1 && state.turn < s->m && state.position < s->c && rows_in_range(rows, s->c, n)
           && buffers_in_range(heads, banks, entries, s->k, s->c, n);
}

/* ---- One cycle ------------------------------------------------------------------------------------------------------ */

/* Fills the row at a place. */
static inline void fill(uint32_t *rows, uint32_t c, uint32_t place, uint32_t kind, uint32_t address, uint32_t link,
                        uint32_t word)
{
    rows[place] = kind;
    rows[c + place] = address;
    rows[2 * c + place] = link;
    rows[3 * c + place] = word;
}

/* Gives the word to those rows from first up to end that wait on the row at place. */
static void give(uint32_t *rows, uint32_t c, uint32_t first, uint32_t end, uint32_t place, uint32_t word)
{
    for (uint32_t i = first; i < end; i++)
        if (rows[2 * c + i] == place && rows[i] == ROW_WAITING)
            fill(rows, c, i, ROW_READY, rows[c + i], 0, word);
}

/* Service of a read entry: its word goes to its row and to every row waiting on that row. */
static void hand_out(uint32_t *rows, uint32_t c, uint32_t place, uint32_t word)
{
    const uint32_t *links = rows + 2 * c;
    const uint32_t whole = c - c % BLOCK;

    if (rows[place] == ROW_WAITING)
        fill(rows, c, place, ROW_READY, rows[c + place], 0, word);
    for (const uint32_t *at = links + whole; (at = last_block_with(place, links, at)) != NULL; )
        give(rows, c, (uint32_t)(at - links), (uint32_t)(at - links) + BLOCK, place, word);
    give(rows, c, whole, c, place, word);
}

/* Service: each bank whose turn it is takes the oldest entry of its buffer, if any. */
static void serve(const ridkostan_setup *s, uint32_t turn, uint32_t *memory, uint32_t *rows, const uint32_t *entries,
                  uint32_t *heads)
{
    const uint32_t banks = 1u << s->s;

    for (uint32_t b = turn; b < banks; b += s->m) {
        uint32_t *head = heads + HEAD * b;
        if (head[COUNT] == 0)
            continue;
        const uint32_t *e = entries + ENTRY * (b * s->k + head[OLDEST]);
        if (e[KIND] == ENTRY_WRITE)
            memory[e[CELL]] = e[WORD];
        else
            hand_out(rows, s->c, e[ROW], memory[e[CELL]]);
        head[OLDEST] = after(head[OLDEST], s->k);
        head[COUNT]--;
    }
}

/* Delivery: what leaves of the row filled at t - delta, by its kind and word. */
static void deliver(uint32_t kind, uint32_t word, ridkostan_reply *reply)
{
    if (kind == ROW_READY) {
        reply->delivery = RIDKOSTAN_WORD;
        reply->word = word;
    } else if (kind == ROW_WAITING) {
        reply->delivery = RIDKOSTAN_UNREADY;
    }
}

/* The last row from first up to end that is of the address and of one of the kinds (a bit for each), or c. */
static uint32_t last_of(const uint32_t *rows, uint32_t c, uint32_t first, uint32_t end, uint32_t address, uint32_t kinds)
{
    while (end != first) {
        end--;
        if (rows[c + end] == address && (kinds >> rows[end]) & 1)
            return end;
    }
    return c;
}

/* The same for whole blocks: only the rows of a block that has the address are looked at. */
static uint32_t last_in_blocks(const uint32_t *rows, uint32_t c, uint32_t first, uint32_t end, uint32_t address,
                               uint32_t kinds)
{
    const uint32_t *addresses = rows + c;

    for (const uint32_t *at = addresses + end; (at = last_block_with(address, addresses + first, at)) != NULL; ) {
        const uint32_t i = (uint32_t)(at - addresses), found = last_of(rows, c, i, i + BLOCK, address, kinds);
        if (found != c)
            return found;
    }
    return c;
}

/* Lookup: the newest row of the address and the kinds among the c - 1 rows other than the one at position, or c. The newest
 * are those before position, and then the last ones of the table. */
static uint32_t newest(const uint32_t *rows, uint32_t c, uint32_t position, uint32_t address, uint32_t kinds)
{
    const uint32_t *addresses = rows + c;
    const uint32_t first = position - position % BLOCK, end = least(first + BLOCK, c), whole = c - c % BLOCK;
    const int near = times(address, addresses + first, end - first) > (addresses[position] == address);
    uint32_t found = c;

    if (near)
        found = last_of(rows, c, first, position, address, kinds);
    if (found == c)
        found = last_in_blocks(rows, c, 0, first, address, kinds);
    if (found == c && end <= whole) {
        if (times(address, addresses + whole, c - whole))
            found = last_of(rows, c, whole, c, address, kinds);
        if (found == c)
            found = last_in_blocks(rows, c, end, whole, address, kinds);
    }
    if (found == c && near)
        found = last_of(rows, c, position + 1, end, address, kinds);
    return found;
}

/* Placing: puts the entry behind the others of its bank, which the cell's top s bits name, and tells whether there was a
 * place. */
static int place_entry(const ridkostan_setup *s, uint32_t kind, uint32_t row, uint32_t cell, uint32_t word, uint32_t *entries,
                       uint32_t *heads)
{
    const uint32_t bank = cell >> (s->a - s->s);
    uint32_t *head = heads + HEAD * bank, i = head[OLDEST] + head[COUNT];

    if (head[COUNT] == s->k)
        return 0;
    if (i >= s->k)
        i -= s->k;
    uint32_t *e = entries + ENTRY * (bank * s->k + i);
    e[KIND] = kind;
    e[ROW] = row;
    e[CELL] = cell;
    e[WORD] = word;
    head[COUNT]++;
    return 1;
}

/* Retirement: a merging write that no newer live write replaces is placed; answers 0, or 6 where its buffer holds K. */
static uint32_t retire(const ridkostan_setup *s, uint32_t position, const uint32_t *rows, uint32_t *entries, uint32_t *heads)
{
    const uint32_t c = s->c, address = rows[c + position], word = rows[3 * c + position];

    if (s->mode == RIDKOSTAN_PLAIN || rows[position] != ROW_WRITE
        || newest(rows, c, position, address, 1u << ROW_WRITE) != c
        || place_entry(s, ENTRY_WRITE, 0, cell_of(s, address), word, entries, heads))
        return RIDKOSTAN_DONE;
    return RIDKOSTAN_STOPPING;
}

/* Arrival: the operation fills the row at position; answers 0, or 5 where it needs a place and its buffer holds K. */
static uint32_t arrive(const ridkostan_setup *s, uint32_t position, ridkostan_operation operation, uint32_t *rows,
                       uint32_t *entries, uint32_t *heads)
{
    const int read = operation.kind == RIDKOSTAN_READ, merging = s->mode == RIDKOSTAN_MERGING;
    const uint32_t c = s->c, address = operation.address, word = operation.word, link = read ? position : 0;

    if (operation.kind == RIDKOSTAN_IDLE) {
        fill(rows, c, position, ROW_EMPTY, 0, 0, 0);
        return RIDKOSTAN_DONE;
    }
    const uint32_t live = read && merging ? newest(rows, c, position, address, ~(1u << ROW_EMPTY)) : c;
    if (live != c) {
        if (rows[live] == ROW_WAITING)
            fill(rows, c, position, ROW_WAITING, address, rows[2 * c + live], 0);
        else
            fill(rows, c, position, ROW_READY, address, 0, rows[3 * c + live]);
        return RIDKOSTAN_DONE;
    }
    if ((read || !merging)
        && !place_entry(s, read ? ENTRY_READ : ENTRY_WRITE, link, cell_of(s, address), word, entries, heads)) {
        fill(rows, c, position, ROW_EMPTY, 0, 0, 0);
        return RIDKOSTAN_DROPPED;
    }
    fill(rows, c, position, read ? ROW_WAITING : ROW_WRITE, address, link, word);
    return RIDKOSTAN_DONE;
}

/* Whether an operation is one: a known kind, and zero where zero is due. */
static int is_operation(ridkostan_operation operation)
{
    switch (operation.kind) {
    case RIDKOSTAN_IDLE:
        return operation.address == 0 && operation.word == 0;
    case RIDKOSTAN_READ:
        return operation.word == 0;
    default:
        return operation.kind == RIDKOSTAN_WRITE;
    }
}

/* A refused cycle: the given state, delivery none, stamp 0. */
static ridkostan_cycled refused(ridkostan_state state, uint32_t answer)
{
    return (ridkostan_cycled){ state, { answer, RIDKOSTAN_NONE, 0, 0 } };
}

/* ---- Calls ---------------------------------------------------------------------------------------------------------- */

/* The setup with its defaults in, or answer 1. */
ridkostan_checked peer_check(ridkostan_setup setup)
{
    if (!complete(&setup))
        return (ridkostan_checked){ .answer = RIDKOSTAN_BAD_SETUP };
    return (ridkostan_checked){ RIDKOSTAN_DONE, setup };
}

/* How long each lent room is, or answer 1. */
ridkostan_lent peer_lengths(ridkostan_setup setup)
{
    if (!complete(&setup))
        return (ridkostan_lent){ .answer = RIDKOSTAN_BAD_SETUP };
    return lengths(&setup);
}

/* Fresh start: empties rows and buffers; answers 0, 1 or 2. */
ridkostan_started peer_fresh_start(ridkostan_setup setup, ridkostan_state state,
                                   const uint32_t *memory, size_t memory_len,
                                   uint32_t *rows, size_t rows_len,
                                   const uint32_t *entries, size_t entries_len,
                                   uint32_t *heads, size_t heads_len)
{
    (void)memory;
    (void)entries;
    if (!complete(&setup))
        return (ridkostan_started){ RIDKOSTAN_BAD_SETUP, state };
    if (!lengths_exact(&setup, memory_len, rows_len, entries_len, heads_len))
        return (ridkostan_started){ RIDKOSTAN_BAD_LENGTH, state };

    memset(rows, 0, rows_len * sizeof *rows);
    memset(heads, 0, heads_len * sizeof *heads);
    return (ridkostan_started){ .answer = RIDKOSTAN_DONE };
}

/* One cycle: the refusals 9, 1, 2, 3, 7, 4 in this order, then service, delivery, retirement, arrival. */
ridkostan_cycled peer_cycle(ridkostan_setup setup, ridkostan_state state, ridkostan_operation operation,
                            uint32_t *memory, size_t memory_len,
                            uint32_t *rows, size_t rows_len,
                            uint32_t *entries, size_t entries_len,
                            uint32_t *heads, size_t heads_len)
{
    if (!is_operation(operation))
        return refused(state, RIDKOSTAN_BAD_RECORD);
    if (!complete(&setup))
        return refused(state, RIDKOSTAN_BAD_SETUP);
    if (!lengths_exact(&setup, memory_len, rows_len, entries_len, heads_len))
        return refused(state, RIDKOSTAN_BAD_LENGTH);
    if (!state_in_range(&setup, state, rows, entries, heads))
        return refused(state, RIDKOSTAN_BAD_STATE);
    if (state.stopped)
        return refused(state, RIDKOSTAN_STOPPED);
    if (operation.address >> setup.a)
        return refused(state, RIDKOSTAN_BAD_ADDRESS);

    const uint32_t c = setup.c, delta = setup.delta, position = state.position;
    const uint32_t leaving = position < delta ? position + c - delta : position - delta;
    ridkostan_reply reply = { .stamp = state.stamp };

    serve(&setup, state.turn, memory, rows, entries, heads);
    deliver(rows[leaving], rows[3 * c + leaving], &reply);
    reply.answer = retire(&setup, position, rows, entries, heads);
    if (reply.answer == RIDKOSTAN_STOPPING) {
        state.stopped = 1;
        return (ridkostan_cycled){ state, reply };
    }
    reply.answer = arrive(&setup, position, operation, rows, entries, heads);

    state.stamp++;
    state.turn = after(state.turn, setup.m);
    state.position = after(position, c);
    return (ridkostan_cycled){ state, reply };
}

/* A question: how many entries wait at one bank; answers 0 to 4. */
ridkostan_told peer_waiting(ridkostan_setup setup, ridkostan_state state, uint32_t bank,
                            const uint32_t *memory, size_t memory_len,
                            const uint32_t *rows, size_t rows_len,
                            const uint32_t *entries, size_t entries_len,
                            const uint32_t *heads, size_t heads_len)
{
    (void)memory;
    if (!complete(&setup))
        return (ridkostan_told){ RIDKOSTAN_BAD_SETUP, 0 };
    if (!lengths_exact(&setup, memory_len, rows_len, entries_len, heads_len))
        return (ridkostan_told){ RIDKOSTAN_BAD_LENGTH, 0 };
    if (!state_in_range(&setup, state, rows, entries, heads))
        return (ridkostan_told){ RIDKOSTAN_BAD_STATE, 0 };
    if (bank >> setup.s)
        return (ridkostan_told){ RIDKOSTAN_BAD_ADDRESS, 0 };
    return (ridkostan_told){ RIDKOSTAN_DONE, heads[HEAD * bank + COUNT] };
}

/* ---- Records -------------------------------------------------------------------------------------------------------- */

/* Reads a little-endian number of two bytes. */
static uint16_t get16(const uint8_t *p)
{
    return (uint16_t)(p[0] | p[1] << 8);
}

/* Reads a little-endian number of four bytes. */
static uint32_t get32(const uint8_t *p)
{
    return p[0] | (uint32_t)p[1] << 8 | (uint32_t)p[2] << 16 | (uint32_t)p[3] << 24;
}

/* Writes a little-endian number of two bytes. */
static void put16(uint8_t *p, uint32_t number)
{
    p[0] = (uint8_t)number;
    p[1] = (uint8_t)(number >> 8);
}

/* Writes a little-endian number of four bytes. */
static void put32(uint8_t *p, uint32_t number)
{
    put16(p, number);
    put16(p + 2, number >> 16);
}

/* A setup record: the setup as written, or answer 1. */
ridkostan_checked peer_read_setup(const uint8_t *record, size_t record_len)
{
    ridkostan_checked out = { .answer = RIDKOSTAN_BAD_SETUP };

    if (record_len != RIDKOSTAN_SETUP_BYTES || get16(record + 10) != 0)
        return out;
    const ridkostan_setup setup = {
        .mode = record[0],
        .a = record[1],
        .s = record[2],
        .m = record[3],
        .k = get16(record + 4),
        .delta = get16(record + 6),
        .c = get16(record + 8),
        .u = get32(record + 12),
        .v = get32(record + 16),
    };
    ridkostan_setup full = setup;
    if (!complete(&full))
        return out;
    return (ridkostan_checked){ RIDKOSTAN_DONE, setup };
}

/* Writes a setup record; answers 0, 1 or 2. */
uint32_t peer_write_setup(ridkostan_setup setup, uint8_t *room, size_t room_len)
{
    ridkostan_setup full = setup;

    if (!complete(&full))
        return RIDKOSTAN_BAD_SETUP;
    if (room_len != RIDKOSTAN_SETUP_BYTES)
        return RIDKOSTAN_BAD_LENGTH;
    room[0] = setup.mode;
    room[1] = setup.a;
    room[2] = setup.s;
    room[3] = setup.m;
    put16(room + 4, setup.k);
    put16(room + 6, setup.delta);
    put16(room + 8, setup.c);
    put16(room + 10, 0);
    put32(room + 12, setup.u);
    put32(room + 16, setup.v);
    return RIDKOSTAN_DONE;
}

/* An operation record: the operation, or answer 9 and idle. */
ridkostan_recorded peer_read_operation(const uint8_t *record, size_t record_len)
{
    const ridkostan_recorded bad = { .answer = RIDKOSTAN_BAD_RECORD };

    if (record_len != RIDKOSTAN_OPERATION_BYTES)
        return bad;
    /* The kind is one byte and three zero bytes: as one number, it is a known kind only if those are zero. */
    const ridkostan_operation operation = { get32(record), get32(record + 4), get32(record + 8) };
    if (!is_operation(operation))
        return bad;
    return (ridkostan_recorded){ RIDKOSTAN_DONE, operation };
}

/* Writes an operation record; answers 0, 9 or 2. */
uint32_t peer_write_operation(ridkostan_operation operation, uint8_t *room, size_t room_len)
{
    if (!is_operation(operation))
        return RIDKOSTAN_BAD_RECORD;
    if (room_len != RIDKOSTAN_OPERATION_BYTES)
        return RIDKOSTAN_BAD_LENGTH;
    put32(room, operation.kind);
    put32(room + 4, operation.address);
    put32(room + 8, operation.word);
    return RIDKOSTAN_DONE;
}
