/* ridkostan.h: a memory controller that is proved to answer as one fast SRAM would.
 *
 * Many slow banks stand behind one port. Each call of ridkostan_cycle that is not refused is one cycle: the port is offered a
 * read, a write or nothing, and the word of a read that is taken leaves exactly `delta` passed cycles later, once that cycle
 * is reached. docs/INTERFACE.md has the whole interface in words, docs/PROMISES.md what is proved of it.
 *
 * What is lent. The library allocates nothing and keeps nothing: all it works on is passed to each call. The caller owns
 * four rooms of 32-bit numbers (ridkostan_lengths tells their lengths) and one small state that goes in and comes back by
 * value. A run is: lend the rooms, call ridkostan_fresh_start once, then ridkostan_cycle with the state that the call before
 * returned and the rooms as it left them.
 *
 * A lent room is a pointer and then a count of its ELEMENTS, not of bytes. What no call can test, the caller sees to:
 * - the count tells the truth, and every element was written once, as calloc does; what it holds does not matter;
 * - the pointer is aligned for its type, and not null unless the count is 0;
 * - the rooms of one call do not overlap, except that rooms which are `const` in that call may share elements;
 * - while the call runs nobody else writes to its rooms, nor reads one that is not `const` in it.
 * With these, every call ends and stays inside the rooms it was lent, whatever they hold and whatever the numbers are.
 *
 * Threads. The library has no state of its own: calls over different rooms can run at the same time, and so can
 * ridkostan_waiting over the same rooms while none writes to them.
 *
 * The archive is for x86-64 Linux. The header is C11 and C++17.
 */
#ifndef RIDKOSTAN_H
#define RIDKOSTAN_H

#include <stddef.h>
#include <stdint.h>

#ifdef __cplusplus
extern "C" {
#endif

/* ---- Answers ------------------------------------------------------------------------------------------------------------
 * Every call answers one of these. 1, 2, 3, 4, 7 and 9 are refusals: they change nothing lent, pass no cycle and hand out
 * no word. Where several apply, the order is 9 (an operation that is none), 1, 2, 3, 7, 4, and then 6 before 5. */
enum {
    RIDKOSTAN_DONE = 0,           /* the cycle passed and nothing was dropped; or what was asked for is done */
    RIDKOSTAN_BAD_SETUP = 1,      /* a number of the setup is out of range; of a setup record also a wrong length, or a byte
                                     that is not zero where zero is due */
    RIDKOSTAN_BAD_LENGTH = 2,     /* a lent length is not the one due: by the setup, or that of the record to be written */
    RIDKOSTAN_BAD_STATE = 3,      /* a number in state, row, entry or head is out of the range its meaning allows */
    RIDKOSTAN_BAD_ADDRESS = 4,    /* address at or above N, or bank at or above B in a question */
    RIDKOSTAN_DROPPED = 5,        /* the operation needed a place in a full buffer and is dropped; the cycle passed */
    RIDKOSTAN_STOPPING = 6,       /* a retiring write needed a place in a full buffer: the state is now marked stopped */
    RIDKOSTAN_STOPPED = 7,        /* the state is marked stopped: no cycle passes; ridkostan_waiting answers all the same */
    RIDKOSTAN_ROOM_TOO_SMALL = 8, /* the program cyclerun's own room is too small; no call of this library answers it */
    RIDKOSTAN_BAD_RECORD = 9      /* an operation, or its record, is of unknown kind or not zero where zero is due; for a
                                     wrong length ridkostan_read_operation alone answers it */
};

/* ---- Setups -------------------------------------------------------------------------------------------------------------
 * N = 2^a words, B = 2^s banks. Zero means a default for delta and c only; the ranges apply after the defaults. */
enum {
    RIDKOSTAN_PLAIN = 0,
    RIDKOSTAN_MERGING = 1
};

typedef struct ridkostan_setup {
    uint8_t mode;   /* RIDKOSTAN_PLAIN or RIDKOSTAN_MERGING */
    uint8_t a;      /* address bits: 1 to 20 */
    uint8_t s;      /* bank bits: 0 to 6, at most a; the top s of a cell's a bits name its bank */
    uint8_t m;      /* cycles between two services of one bank: 1 to 64 */
    uint16_t k;     /* places in each request buffer: 1 to 128 */
    uint16_t delta; /* the fixed delay: k*m to 4096; 0 stands for k*m */
    uint16_t c;     /* rows in the reservation table: delta to 4096; 0 stands for delta */
    uint32_t u;     /* the address map, cell = (u*address + v) mod N: below N, odd; how to choose it: docs/PERFORMANCE.md */
    uint32_t v;     /* below N */
} ridkostan_setup;  /* 20 bytes; the two between c and u are padding, which no call looks at and none is bound to set */

typedef struct ridkostan_checked {
    uint32_t answer;       /* RIDKOSTAN_DONE or RIDKOSTAN_BAD_SETUP */
    ridkostan_setup setup; /* as the call says; every number 0 where it is refused */
} ridkostan_checked;

/* Whether every number of the setup is in range, and the setup with its defaults in. */
ridkostan_checked ridkostan_check(ridkostan_setup setup);

typedef struct ridkostan_lent {
    uint32_t answer;  /* RIDKOSTAN_DONE or RIDKOSTAN_BAD_SETUP; the lengths are 0 where it is refused */
    uint32_t memory;  /* N: a word a cell */
    uint32_t rows;    /* 4*C: the kinds of all rows, then their addresses, links and words */
    uint32_t entries; /* 4*B*K: kind, row, cell, word of each entry */
    uint32_t heads;   /* 2*B: oldest place and count of each bank */
} ridkostan_lent;

/* How many 32-bit numbers each lent room has under this setup. Every length must be exact. */
ridkostan_lent ridkostan_lengths(ridkostan_setup setup);

/* ---- A run --------------------------------------------------------------------------------------------------------------*/

/* Goes in and comes back by value. After a fresh start the caller only hands it on. */
typedef struct ridkostan_state {
    uint32_t stamp;    /* the cycle number modulo 2^32; wraps on purpose */
    uint32_t turn;     /* below m */
    uint32_t position; /* below C */
    uint32_t stopped;  /* 0, or 1 once a call has answered RIDKOSTAN_STOPPING */
} ridkostan_state;

typedef struct ridkostan_started {
    uint32_t answer;       /* RIDKOSTAN_DONE, RIDKOSTAN_BAD_SETUP or RIDKOSTAN_BAD_LENGTH */
    ridkostan_state state; /* all zero once it is done; the given state where it is refused */
} ridkostan_started;

/* A fresh start: empties rows and buffers. The words in memory stay: they are what the run starts with, each at the cell of
 * its address. What `state` holds does not matter; it comes back as it was from a refused start. */
ridkostan_started ridkostan_fresh_start(ridkostan_setup setup, ridkostan_state state,
                                        const uint32_t *memory, size_t memory_len,
                                        uint32_t *rows, size_t rows_len,
                                        const uint32_t *entries, size_t entries_len,
                                        uint32_t *heads, size_t heads_len);

enum {
    RIDKOSTAN_IDLE = 0,
    RIDKOSTAN_READ = 1,
    RIDKOSTAN_WRITE = 2
};

typedef struct ridkostan_operation {
    uint32_t kind;    /* RIDKOSTAN_IDLE, RIDKOSTAN_READ or RIDKOSTAN_WRITE */
    uint32_t address; /* below N; 0 in idle */
    uint32_t word;    /* the word of a write; 0 in idle and in a read */
} ridkostan_operation;

enum {
    RIDKOSTAN_NONE = 0,    /* nothing leaves */
    RIDKOSTAN_UNREADY = 1, /* a read that still lacks its word; never in a run from a fresh start */
    RIDKOSTAN_WORD = 2     /* a word leaves */
};

typedef struct ridkostan_reply {
    uint32_t answer;   /* see Answers; any but 8 */
    uint32_t delivery; /* RIDKOSTAN_NONE, RIDKOSTAN_UNREADY or RIDKOSTAN_WORD */
    uint32_t word;     /* the word that leaves; 0 where none does */
    uint32_t stamp;    /* the stamp of this cycle; 0 where the call is refused */
} ridkostan_reply;

typedef struct ridkostan_cycled {
    ridkostan_state state; /* of the next call; the given state where the call is refused */
    ridkostan_reply reply;
} ridkostan_cycled;

/* One cycle: service, delivery, retirement, arrival. The operation is taken exactly when the answer is RIDKOSTAN_DONE. */
ridkostan_cycled ridkostan_cycle(ridkostan_setup setup, ridkostan_state state, ridkostan_operation operation,
                                 uint32_t *memory, size_t memory_len,
                                 uint32_t *rows, size_t rows_len,
                                 uint32_t *entries, size_t entries_len,
                                 uint32_t *heads, size_t heads_len);

typedef struct ridkostan_told {
    uint32_t answer; /* RIDKOSTAN_DONE, or the first of 1, 2, 3, 4 that applies */
    uint32_t count;  /* how many entries wait; 0 where the question is refused */
} ridkostan_told;

/* How many entries wait at one bank. It changes nothing and also answers on a stopped state. */
ridkostan_told ridkostan_waiting(ridkostan_setup setup, ridkostan_state state, uint32_t bank,
                                 const uint32_t *memory, size_t memory_len,
                                 const uint32_t *rows, size_t rows_len,
                                 const uint32_t *entries, size_t entries_len,
                                 const uint32_t *heads, size_t heads_len);

/* ---- Records: fixed size, no header, little-endian ------------------------------------------------------------------------*/
enum {
    RIDKOSTAN_SETUP_BYTES = 20,
    RIDKOSTAN_OPERATION_BYTES = 12
};

/* The setup in a record as it is written there, a default given as 0 still 0. RIDKOSTAN_BAD_SETUP and a setup of zeros for
 * another length, a nonzero byte where zero is due, or a number out of range. */
ridkostan_checked ridkostan_read_setup(const uint8_t *bytes, size_t bytes_len);

/* Writes the setup over the whole room and answers RIDKOSTAN_DONE. RIDKOSTAN_BAD_SETUP for a setup out of range, then
 * RIDKOSTAN_BAD_LENGTH for a room that has not 20 bytes; the room then stays as it was. */
uint32_t ridkostan_write_setup(ridkostan_setup setup, uint8_t *room, size_t room_len);

typedef struct ridkostan_recorded {
    uint32_t answer;               /* RIDKOSTAN_DONE or RIDKOSTAN_BAD_RECORD */
    ridkostan_operation operation; /* idle where the record is bad */
} ridkostan_recorded;

/* The operation in a record. RIDKOSTAN_BAD_RECORD for another length, an unknown kind, or a nonzero byte where zero is due. */
ridkostan_recorded ridkostan_read_operation(const uint8_t *bytes, size_t bytes_len);

/* Writes the operation over the whole room and answers RIDKOSTAN_DONE. RIDKOSTAN_BAD_RECORD for an operation that is none,
 * then RIDKOSTAN_BAD_LENGTH for a room that has not 12 bytes; the room then stays as it was. */
uint32_t ridkostan_write_operation(ridkostan_operation operation, uint8_t *room, size_t room_len);

#ifdef __cplusplus
}
#endif

#endif
