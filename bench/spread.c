/* spread: how many reads wait at one bank when addresses are walked through in equal steps, as Markdown.
 *
 *   spread [--svg] [NAME=NUMBER ..]
 *
 *   --svg  the same as a picture
 *   NAME   a number of the setup: a (12), s (5), m (8), k (128), or u, which is compared with u = 1; without it, the best u
 *          by `search`
 *
 * The setup is plain, its delay K*m, and v = 0. A walk is 4,096 reads, one a cycle, after a fresh start of the library; after
 * each cycle every bank's head tells how many wait there. The reads are also counted without the library, by `counted`: the
 * search goes by that, and so do the reads by the rule that was, under which the low s bits of the cell named the bank.
 *
 * Exit status: 0; 1 where library and count differ in a walk that is shown; 2 bad use, or numbers out of range. */
#include <math.h>
#include <stdarg.h>
#include <stdint.h>
#include <stdio.h>
#include <stdlib.h>
#include <string.h>

#include "ridkostan.h"

enum { READS = 4096, BANKS = 64, STEPS = 320, DIFFERENT = 1, BAD_USE = 2 };

static ridkostan_setup setup = { .mode = RIDKOSTAN_PLAIN, .a = 12, .s = 5, .m = 8, .k = 128, .u = 1 };
static uint32_t words, banks;

static _Noreturn void say_and_end(const char *why)
{
    fprintf(stderr, "spread: %s\n", why);
    exit(BAD_USE);
}

static void *room(size_t count, size_t size)
{
    void *zeros = calloc(count, size);

    if (!zeros)
        say_and_end("no memory");
    return zeros;
}

/* ---- Walks --------------------------------------------------------------------------------------------------------------*/

static uint32_t addresses[READS];

static void in_steps(uint32_t step)
{
    for (uint32_t i = 0; i < READS; i++)
        addresses[i] = i * step & (words - 1);
}

/* Marsaglia's xorshift, as in bench.c: the same numbers in every run. */
static void at_random(uint32_t step)
{
    uint32_t drawn = 2463534242u;

    (void)step;
    for (uint32_t i = 0; i < READS; i++) {
        drawn ^= drawn << 13;
        drawn ^= drawn >> 17;
        drawn ^= drawn << 5;
        addresses[i] = (drawn >> 8) & (words - 1);
    }
}

/* The number that u makes 1 of, modulo N: steps of it go from one cell to the next. */
static uint32_t inverse(uint32_t u)
{
    uint32_t found = 1;

    while ((u * found & (words - 1)) != 1 % words)
        found += 2;
    return found;
}

/* ---- Reads --------------------------------------------------------------------------------------------------------------*/

/* The most that waited at one bank after any cycle, and how many reads were dropped. */
struct waited {
    uint32_t most, dropped;
};

static int differ;

/* The reads by the count alone: each cycle serves the banks whose turn it is, and then one read comes. */
static struct waited counted(uint32_t u, int by_top)
{
    struct waited result = { 0, 0 };
    uint32_t waiting[BANKS] = { 0 };

    for (uint32_t i = 0; i < READS; i++) {
        for (uint32_t b = i % setup.m; b < banks; b += setup.m)
            waiting[b] -= waiting[b] != 0;
        const uint32_t cell = u * addresses[i] & (words - 1);
        uint32_t *const here = &waiting[by_top ? cell >> (setup.a - setup.s) : cell & (banks - 1)];
        if (*here == setup.k)
            result.dropped++;
        else if (++*here > result.most)
            result.most = *here;
    }
    return result;
}

/* The reads by the library, held to the count. A bank's head is two numbers, its oldest place and how many wait
 * (docs/INTERFACE.md, "What is lent"). */
static struct waited run(uint32_t u)
{
    ridkostan_setup here = setup;
    here.u = u;
    const ridkostan_lent lent = ridkostan_lengths(here);
    if (lent.answer != RIDKOSTAN_DONE)
        say_and_end("the library refuses this setup");
    uint32_t *const memory = room(lent.memory, sizeof *memory), *const rows = room(lent.rows, sizeof *rows);
    uint32_t *const entries = room(lent.entries, sizeof *entries), *const heads = room(lent.heads, sizeof *heads);
    ridkostan_state state = { 0 };
    struct waited result = { 0, 0 };

    state = ridkostan_fresh_start(here, state, memory, lent.memory, rows, lent.rows, entries, lent.entries, heads,
                                  lent.heads).state;
    for (uint32_t i = 0; i < READS; i++) {
        const ridkostan_operation read = { RIDKOSTAN_READ, addresses[i], 0 };
        const ridkostan_cycled after = ridkostan_cycle(here, state, read, memory, lent.memory, rows, lent.rows, entries,
                                                       lent.entries, heads, lent.heads);
        state = after.state;
        result.dropped += after.reply.answer == RIDKOSTAN_DROPPED;
        for (uint32_t b = 0; b < banks; b++)
            if (heads[2 * b + 1] > result.most)
                result.most = heads[2 * b + 1];
    }
    free(memory);
    free(rows);
    free(entries);
    free(heads);

    const struct waited count = counted(u, 1);
    if (result.most != count.most || result.dropped != count.dropped) {
        fprintf(stderr, "FAILED: u = %u: %u wait and %u are dropped by the library, %u and %u by the count\n", (unsigned)u,
                (unsigned)result.most, (unsigned)result.dropped, (unsigned)count.most, (unsigned)count.dropped);
        differ = 1;
    }
    return result;
}

/* ---- The best u ---------------------------------------------------------------------------------------------------------*/

/* The most that wait where a walk goes from a cell to the one so much further. A step t goes u*t further, so that one count
 * for each distance will do for every u. */
static uint32_t *most_at;

static void count_distances(void)
{
    most_at = room(words, sizeof *most_at);
    in_steps(1);
    for (uint32_t distance = 0; distance < words; distance++)
        most_at[distance] = counted(distance, 1).most;
}

/* How many steps have more than m waiting, under any u: an odd u gives each step a distance of its own. */
static uint32_t crowded(void)
{
    uint32_t steps = 0;

    for (uint32_t distance = 1; distance < words; distance++)
        steps += most_at[distance] > setup.m;
    return steps;
}

/* What a u comes to: the worst of the walks in every step from 1 to B and then in powers of two, as far as a walk has m
 * addresses or more; the sum over these; and the first step of all at which more than m wait. */
struct judged {
    uint32_t u, worst, sum, first;
};

static struct judged judge(uint32_t u)
{
    struct judged here = { u, 0, 0, 1 };

    for (uint32_t step = 1; step * setup.m <= words; step += step < banks ? 1 : step) {
        const uint32_t most = most_at[u * step & (words - 1)];
        here.worst = most > here.worst ? most : here.worst;
        here.sum += most;
    }
    while (here.first < words && most_at[u * here.first & (words - 1)] <= setup.m)
        here.first++;
    return here;
}

/* Whether x is better than y: the lesser worst, then the lesser sum, then the later first. */
static int better(const struct judged *x, const struct judged *y)
{
    if (x->worst != y->worst)
        return x->worst < y->worst;
    return x->sum != y->sum ? x->sum < y->sum : x->first > y->first;
}

/* The best odd u below N, of equals the smallest. */
static uint32_t search(void)
{
    struct judged best = judge(1);

    for (uint32_t u = 3; u < words; u += 2) {
        const struct judged here = judge(u);
        if (better(&here, &best))
            best = here;
    }
    return best.u;
}

/* ---- What is shown ------------------------------------------------------------------------------------------------------*/

enum { SHOWN = 6, LOW = 0, ONE = 1, GOOD = 2, COLUMNS = 3 };

/* The walks of the table by name, and what waited in each column: by the low bits with u = 1, by the top bits with u = 1 and
 * with the good u. */
static char names[SHOWN][40];
static struct waited shown[SHOWN][COLUMNS];

/* Digits in threes. */
static const char *commas(uint32_t number)
{
    static char said[8][16];
    static size_t next;
    char *const out = said[next++ % 8];
    const unsigned n = number;

    if (n < 1000)
        snprintf(out, sizeof *said, "%u", n);
    else if (n < 1000000)
        snprintf(out, sizeof *said, "%u,%03u", n / 1000, n % 1000);
    else
        snprintf(out, sizeof *said, "%u,%03u,%03u", n / 1000000, n / 1000 % 1000, n % 1000);
    return out;
}

/* A row of the table: a walk for u = 1 and one for the good u, which differ at most in their steps. */
static void show(size_t row, void (*walk)(uint32_t), uint32_t one, uint32_t good)
{
    walk(one);
    shown[row][LOW] = counted(1, 0);
    shown[row][ONE] = run(1);
    walk(good);
    shown[row][GOOD] = run(setup.u);
}

static void show_all(void)
{
    const uint32_t rows = words / banks, few = words / 4, next = inverse(setup.u);

    snprintf(names[0], sizeof *names, "steps of 1");
    show(0, in_steps, 1, 1);
    snprintf(names[1], sizeof *names, "steps of B = %s", commas(banks));
    show(1, in_steps, banks, banks);
    snprintf(names[2], sizeof *names, "steps of N/B = %s", commas(rows));
    show(2, in_steps, rows, rows);
    snprintf(names[3], sizeof *names, "at random");
    show(3, at_random, 0, 0);
    snprintf(names[4], sizeof *names, "consecutive cells: steps of u⁻¹");
    show(4, in_steps, 1, next);
    snprintf(names[5], sizeof *names, "four addresses: steps of N/4");
    show(5, in_steps, few, few);
}

static void table(void)
{
    const struct judged judged[] = { judge(1), judge(setup.u) };

    printf("Under every odd u, %s of the %s steps have more than m = %u reads waiting at one bank.\n\n", commas(crowded()),
           commas(words - 1), (unsigned)setup.m);
    puts("| u | Worst of steps 1 to B, 2B, 4B .. N/m | Sum over these | First step with more than m waiting | u⁻¹ |\n"
         "|---|---|---|---|---|");
    for (size_t i = 0; i < 2; i++)
        printf("| %s | %u | %s | %s | %s |\n", commas(judged[i].u), (unsigned)judged[i].worst, commas(judged[i].sum),
               judged[i].first < words ? commas(judged[i].first) : "none", commas(inverse(judged[i].u)));
    printf("\n| %s reads | Most waiting by the low bits, u = 1 | Dropped | By the top bits, u = 1 | Dropped "
           "| By the top bits, u = %s | Dropped |\n|---|---|---|---|---|---|---|\n", commas(READS), commas(setup.u));
    for (size_t row = 0; row < SHOWN; row++) {
        printf("| %s |", names[row]);
        for (size_t column = 0; column < COLUMNS; column++)
            printf(" %u | %s |", (unsigned)shown[row][column].most, commas(shown[row][column].dropped));
        putchar('\n');
    }
}

/* ---- The picture --------------------------------------------------------------------------------------------------------*/

/* The colours of second/src/draw/svg.rs: they differ in lightness, so that they stay apart in grey. */
static const char *const colours[COLUMNS] = { "#c4c4c4", "#f3cf86", "#1f3a5f" };
static const char INK[] = "#222222", SHADE[] = "#d8d8d8", PAPER[] = "#ffffff";

static void text(double x, double y, const char *anchor, const char *form, ...)
{
    va_list said;

    printf("<text x=\"%.1f\" y=\"%.1f\" font-size=\"11.0\" fill=\"%s\" text-anchor=\"%s\">", x, y, INK, anchor);
    va_start(said, form);
    vprintf(form, said);
    va_end(said);
    puts("</text>");
}

static void box(double x, double y, double width, double height, const char *fill, const char *stroke)
{
    printf("<rect x=\"%.1f\" y=\"%.1f\" width=\"%.1f\" height=\"%.1f\" fill=\"%s\" stroke=\"%s\"/>\n", x, y, width, height,
           fill, stroke);
}

static void line(double x1, double y1, double x2, double y2)
{
    printf("<line x1=\"%.1f\" y1=\"%.1f\" x2=\"%.1f\" y2=\"%.1f\" stroke=\"%s\"/>\n", x1, y1, x2, y2, SHADE);
}

static const double WIDTH = 840, HEIGHT = 648, LEFT = 192, LONG = 512;

static void title(void)
{
    const char *const said[COLUMNS] = { "by the low bits, u = 1", "by the top bits, u = 1", "by the top bits, u = " };

    text(8, 18, "start", "plain, a = %u, s = %u, m = %u, K = %u, Δ = C = %s, v = 0; %s reads, one a cycle", (unsigned)setup.a,
         (unsigned)setup.s, (unsigned)setup.m, (unsigned)setup.k, commas((uint32_t)setup.k * setup.m), commas(READS));
    text(8, 34, "start", "the most that waited at one bank after any cycle, of at most K");
    for (size_t column = 0; column < COLUMNS; column++) {
        const double x = LEFT + 160 * (double)column;
        box(x, 48, 11, 11, colours[column], INK);
        text(x + 18, 57.5, "start", "%s%s", said[column], column == GOOD ? commas(setup.u) : "");
    }
}

/* A bar for each walk and column, with its number behind it. */
static void bars(double top)
{
    const double bar = 13, group = 3 * bar + 12, bottom = top + SHOWN * group;

    for (uint32_t i = 0; i <= 4; i++) {
        const double x = LEFT + LONG * i / 4;
        line(x, top, x, bottom);
        text(x, bottom + 14, "middle", "%g", setup.k * (double)i / 4);
    }
    for (size_t row = 0; row < SHOWN; row++) {
        const double y = top + 6 + group * (double)row;
        text(LEFT - 8, y + 1.5 * bar + 4, "end", "%s", names[row]);
        for (size_t column = 0; column < COLUMNS; column++) {
            const struct waited w = shown[row][column];
            const double length = LONG * w.most / setup.k, at = y + bar * (double)column;
            box(LEFT, at, length, bar - 2, colours[column], INK);
            if (w.dropped)
                text(LEFT + length + 5, at + 9.5, "start", "%u, %s dropped", (unsigned)w.most, commas(w.dropped));
            else
                text(LEFT + length + 5, at + 9.5, "start", "%u", (unsigned)w.most);
        }
    }
}

/* A dot for each step and each of the two u. From one line to the next the number doubles. */
static void dots(double top)
{
    const uint32_t last = words - 1 < STEPS ? words - 1 : STEPS;
    const double left = 40, width = 784, twice = 24, bottom = top + 7 * twice;

    for (uint32_t i = 0; i <= 7; i++) {
        line(left, bottom - twice * i, left + width, bottom - twice * i);
        text(left - 6, bottom - twice * i + 4, "end", "%u", 1u << i);
    }
    for (uint32_t step = 1; step <= last; step++) {
        const double x = left + width * step / (last + 1);
        if (step == 1 || step % 32 == 0)
            text(x, bottom + 18, "middle", "%u", (unsigned)step);
        in_steps(step);
        for (size_t column = ONE; column < COLUMNS; column++)
            printf("<circle cx=\"%.1f\" cy=\"%.1f\" r=\"2.2\" fill=\"%s\" stroke=\"%s\" stroke-width=\"0.6\"/>\n", x,
                   bottom - twice * log2(run(column == ONE ? 1 : setup.u).most), colours[column], INK);
    }
    text(left + width / 2, bottom + 36, "middle", "in steps of 1 to %u, by the top bits", (unsigned)last);
}

static void picture(void)
{
    printf("<svg xmlns=\"http://www.w3.org/2000/svg\" width=\"%.0f\" height=\"%.0f\" viewBox=\"0 0 %.0f %.0f\" "
           "font-family=\"Helvetica, Arial, sans-serif\">\n", WIDTH, HEIGHT, WIDTH, HEIGHT);
    box(0, 0, WIDTH, HEIGHT, PAPER, "none");
    title();
    bars(70);
    dots(426);
    puts("</svg>");
}

/* ---- The program --------------------------------------------------------------------------------------------------------*/

/* Puts NAME=NUMBER into the setup; false where it is no such word. */
static int take(const char *word)
{
    char name, rest;
    unsigned number;

    if (sscanf(word, "%c=%7u%c", &name, &number, &rest) != 2)
        return 0;
    if (name != 'u' && number > UINT8_MAX)
        return 0;
    switch (name) {
    case 'a': setup.a = (uint8_t)number; break;
    case 's': setup.s = (uint8_t)number; break;
    case 'm': setup.m = (uint8_t)number; break;
    case 'k': setup.k = (uint16_t)number; break;
    case 'u': setup.u = number; break;
    default: return 0;
    }
    return 1;
}

int main(int argc, char **argv)
{
    int svg = 0, given = 0;

    for (int i = 1; i < argc; i++) {
        if (!strcmp(argv[i], "--svg"))
            svg = 1;
        else if (!take(argv[i]))
            say_and_end("[--svg] [a=12] [s=5] [m=8] [k=128] [u=U]");
        given |= argv[i][0] == 'u';
    }
    if (ridkostan_check(setup).answer != RIDKOSTAN_DONE)
        say_and_end("the library refuses this setup");
    words = 1u << setup.a;
    banks = 1u << setup.s;
    count_distances();
    if (!given)
        setup.u = search();
    show_all();
    if (svg)
        picture();
    else
        table();
    free(most_at);
    return differ ? DIFFERENT : 0;
}
