/*
 * The same description as a file and as the DNS stores it, for bench/stored.
 *
 *   stored ROWS   a line for each row: nanoseconds of a call under the file and of one under the strings, the best of many
 *
 * A row is a letter (J judge, P print, R read), the file, the strings, how many fields there are, and the text or the RDATA.
 * Octets are in hex, in small letters, `-` for none.
 */
#include <stdio.h>
#include <stdlib.h>
#include <string.h>
#include <time.h>

#include "extlang.h"

enum { ROWS = 200, TURNS = 120, ROOM = 1048576, LONGEST = 2200000, EDITION = 13 };
static const double TURN = 5e5; /* nanoseconds of a turn */

struct part {
    uint8_t *octets;
    size_t len;
};

struct row {
    char letter;
    struct part form[2], given; /* the file, the strings */
    unsigned long fields;
    long count[2]; /* calls in a turn */
    double best[2];
};

static uint8_t out[ROOM];

static void *found(void *pointer, const char *what)
{
    if (!pointer) {
        fprintf(stderr, "stored: %s\n", what);
        exit(1);
    }
    return pointer;
}

static int digit(char c)
{
    return c <= '9' ? c - '0' : c - 'a' + 10;
}

static struct part next_part(FILE *file)
{
    static char word[LONGEST];
    struct part p = {NULL, 0};
    found(fscanf(file, " %2199999s", word) == 1 ? word : NULL, "a row lacks a word");
    p.len = word[0] == '-' ? 0 : strlen(word) / 2;
    p.octets = found(malloc(p.len + 1), "no memory");
    for (size_t i = 0; i < p.len; i++)
        p.octets[i] = (uint8_t)(digit(word[2 * i]) * 16 + digit(word[2 * i + 1]));
    return p;
}

static int next_row(FILE *file, struct row *r)
{
    if (fscanf(file, " %c", &r->letter) != 1)
        return 0;
    r->form[0] = next_part(file);
    r->form[1] = next_part(file);
    found(fscanf(file, "%lu", &r->fields) == 1 ? r : NULL, "a row lacks its fields");
    r->given = next_part(file);
    return 1;
}

#define PART(p) (p).octets, (p).len

static uint64_t call(const struct row *r, int stored)
{
    static const uint8_t root[1] = {0};
    struct part d = r->form[stored], v = r->given;
    if (r->letter == 'J')
        return stored ? extlang_judge_stored(PART(d), EDITION) : extlang_judge(PART(d));
    if (r->letter == 'P')
        return stored ? extlang_print_stored(PART(d), 1, r->fields, EDITION, PART(v), out, ROOM, 0)
                      : extlang_print(PART(d), 1, r->fields, PART(v), out, ROOM, 0);
    return stored ? extlang_read_stored(PART(d), 1, r->fields, EDITION, root, 1, PART(v), out, ROOM, 0)
                  : extlang_read(PART(d), 1, r->fields, root, 1, PART(v), out, ROOM, 0);
}

/* Nanoseconds of the thread for so many calls. */
static double calls(const struct row *r, int stored, long count)
{
    struct timespec a, b;
    clock_gettime(CLOCK_THREAD_CPUTIME_ID, &a);
    for (long i = 0; i < count; i++)
        call(r, stored);
    clock_gettime(CLOCK_THREAD_CPUTIME_ID, &b);
    return (b.tv_sec - a.tv_sec) * 1e9 + (b.tv_nsec - a.tv_nsec);
}

/* Both forms must be accepted and write the same into a cleared room; then so many calls that they fill a turn. */
static void prepare(struct row *r)
{
    static uint8_t wrote[ROOM];
    memset(out, 0, ROOM);
    uint64_t answer = call(r, 0);
    memcpy(wrote, out, ROOM);
    memset(out, 0, ROOM);
    if (answer >> 32 || call(r, 1) != answer || memcmp(wrote, out, ROOM))
        found(NULL, "a row is refused, or the two forms answer otherwise");
    for (int stored = 0; stored < 2; stored++) {
        r->best[stored] = 1e18;
        r->count[stored] = 1;
        for (int i = 0; i < 3; i++)
            r->count[stored] = (long)(TURN / (calls(r, stored, r->count[stored]) / r->count[stored] + 1)) + 1;
    }
}

int main(int argc, char **argv)
{
    static struct row rows[ROWS];
    int n = 0;
    FILE *file = found(argc == 2 ? fopen(argv[1], "r") : NULL, "no file of rows");
    while (n < ROWS && next_row(file, &rows[n]))
        prepare(&rows[n++]);
    /* the rows take turns, so that what else runs strikes all of them alike */
    for (int turn = 0; turn < TURNS; turn++)
        for (struct row *r = rows; r < rows + n; r++)
            for (int stored = 0; stored < 2; stored++) {
                double took = calls(r, stored, r->count[stored]) / r->count[stored];
                if (took < r->best[stored])
                    r->best[stored] = took;
            }
    for (struct row *r = rows; r < rows + n; r++)
        printf("%.1f %.1f\n", r->best[0], r->best[1]);
    return 0;
}
