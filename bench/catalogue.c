/*
 * Calls of the library with and without a catalogue, for bench/catalogue.
 *
 *   catalogue ROWS   a line for each row: nanoseconds of a call, the best of many
 *
 * A row is a letter (p print, r read; P and R the same with a catalogue), the stanza, the catalogue's
 * entries and names, the text or the RDATA, and what must come out. All are octets in hex, in small
 * letters, `-` for none; the stanza has one field.
 */
#include <stdio.h>
#include <stdlib.h>
#include <string.h>
#include <time.h>

#include "extlang.h"

enum { ROWS = 200, TURNS = 120, ENOUGH = 5, ROOM = 1048576, LONGEST = 2200000 };
static const double TURN = 5e5, SHARE = 3e8; /* nanoseconds: of a turn, and of all turns of a slow row */

struct part {
    uint8_t *octets;
    size_t len;
};

struct row {
    char letter;
    struct part stanza, entries, names, given, wanted;
    long count; /* calls in a turn */
    int turns;
    double best, spent;
};

static uint8_t out[ROOM];

static void *found(void *pointer, const char *what)
{
    if (!pointer) {
        fprintf(stderr, "catalogue: %s\n", what);
        exit(1);
    }
    return pointer;
}

static int digit(char c)
{
    return c <= '9' ? c - '0' : c - 'a' + 10;
}

/* memory of malloc, so that entries are aligned */
static struct part next_part(FILE *file)
{
    static char word[LONGEST];
    struct part p = {NULL, 0};
    found(fscanf(file, " %2199999s", word) == 1 ? word : NULL, "a row lacks a word");
    p.len = word[0] == '-' ? 0 : strlen(word) / 2;
    p.octets = found(malloc(p.len + 1), "no memory");
    for (size_t i = 0; i < p.len; i++)
        p.octets[i] = (uint8_t)(digit(word[2 * i]) * 16 + digit(word[2 * i + 1]));
    return p;
}

static int next_row(FILE *file, struct row *r)
{
    if (fscanf(file, " %c", &r->letter) != 1)
        return 0;
    r->stanza = next_part(file);
    r->entries = next_part(file);
    r->names = next_part(file);
    r->given = next_part(file);
    r->wanted = next_part(file);
    return 1;
}

#define PART(p) (p).octets, (p).len
#define CATALOGUE (const struct extlang_entry *)(void *)r->entries.octets, r->entries.len / sizeof(struct extlang_entry), PART(r->names)

static uint64_t call(const struct row *r)
{
    static const uint8_t root[1] = {0};
    switch (r->letter) {
    case 'p':
        return extlang_print(PART(r->stanza), 1, 1, PART(r->given), out, ROOM, 0);
    case 'r':
        return extlang_read(PART(r->stanza), 1, 1, root, 1, PART(r->given), out, ROOM, 0);
    case 'P':
        return extlang_print_named(PART(r->stanza), 1, 1, CATALOGUE, PART(r->given), out, ROOM, 0);
    default:
        return extlang_read_named(PART(r->stanza), 1, 1, CATALOGUE, root, 1, PART(r->given), out, ROOM, 0);
    }
}

/* Nanoseconds of the thread for so many calls. */
static double calls(const struct row *r, long count)
{
    struct timespec a, b;
    clock_gettime(CLOCK_THREAD_CPUTIME_ID, &a);
    for (long i = 0; i < count; i++)
        call(r);
    clock_gettime(CLOCK_THREAD_CPUTIME_ID, &b);
    return (b.tv_sec - a.tv_sec) * 1e9 + (b.tv_nsec - a.tv_nsec);
}

/* The answer must be right; then so many calls that they fill a turn. */
static void prepare(struct row *r)
{
    if (call(r) != r->wanted.len || memcmp(out, r->wanted.octets, r->wanted.len))
        found(NULL, "a row has another answer than it should");
    r->best = 1e18;
    r->count = 1;
    for (int i = 0; i < 3; i++)
        r->count = (long)(TURN / (calls(r, r->count) / r->count + 1)) + 1;
}

int main(int argc, char **argv)
{
    static struct row rows[ROWS];
    int n = 0;
    FILE *file = found(argc == 2 ? fopen(argv[1], "r") : NULL, "no file of rows");
    while (n < ROWS && next_row(file, &rows[n]))
        prepare(&rows[n++]);
    /* the rows take turns, so that what else runs strikes all of them alike */
    for (int turn = 0; turn < TURNS; turn++)
        for (struct row *r = rows; r < rows + n; r++) {
            if (r->spent > SHARE && r->turns >= ENOUGH)
                continue;
            double took = calls(r, r->count);
            r->turns++;
            r->spent += took;
            if (took / r->count < r->best)
                r->best = took / r->count;
        }
    for (struct row *r = rows; r < rows + n; r++)
        printf("%.1f\n", r->best);
    return 0;
}
