/*
 * Calls of two builds of the library, for bench/between.
 *
 *   between ROWS OLD.so NEW.so   a line for each row: nanoseconds of a call, by OLD and by NEW
 *   between ROWS LIB.so N        makes the call of row N, from 0, once
 *
 * A row is a letter (J judge, R read, P print), the stanza, how many fields it has, and the text or the
 * RDATA; octets are in hex, in small letters, `-` for none.
 */
#include <dlfcn.h>
#include <stdint.h>
#include <stdio.h>
#include <stdlib.h>
#include <string.h>
#include <time.h>

enum { TURNS = 41, ROOM = 1048576, LONGEST = 300000 };
static const double TURN = 3e5; /* nanoseconds */

struct library {
    uint64_t (*judge)(const uint8_t *, size_t);
    uint64_t (*read)(const uint8_t *, size_t, uint64_t, uint64_t, const uint8_t *, size_t, const uint8_t *, size_t, uint8_t *, size_t,
                     uint64_t);
    uint64_t (*print)(const uint8_t *, size_t, uint64_t, uint64_t, const uint8_t *, size_t, uint8_t *, size_t, uint64_t);
};

struct row {
    char letter;
    size_t stanza_len, octets_len;
    uint64_t fields;
    uint8_t *stanza, *octets;
};

static uint8_t out[ROOM];

static void *found(void *pointer, const char *what)
{
    if (!pointer) {
        fprintf(stderr, "between: %s\n", what);
        exit(1);
    }
    return pointer;
}

static struct library library(const char *path)
{
    void *handle = found(dlopen(path, RTLD_NOW | RTLD_LOCAL), path);
    struct library l;
    *(void **)&l.judge = found(dlsym(handle, "extlang_judge"), path);
    *(void **)&l.read = found(dlsym(handle, "extlang_read"), path);
    *(void **)&l.print = found(dlsym(handle, "extlang_print"), path);
    return l;
}

static int digit(char c)
{
    return c <= '9' ? c - '0' : c - 'a' + 10;
}

static uint8_t *octets(const char *word, size_t *len)
{
    *len = word[0] == '-' ? 0 : strlen(word) / 2;
    uint8_t *made = found(malloc(*len + 1), "no memory");
    for (size_t i = 0; i < *len; i++)
        made[i] = (uint8_t)(digit(word[2 * i]) * 16 + digit(word[2 * i + 1]));
    return made;
}

static int next_row(FILE *file, struct row *r)
{
    static char stanza[LONGEST], value[LONGEST];
    if (fscanf(file, " %c %s %lu %s", &r->letter, stanza, &r->fields, value) != 4)
        return 0;
    r->stanza = octets(stanza, &r->stanza_len);
    r->octets = octets(value, &r->octets_len);
    return 1;
}

static uint64_t call(const struct library *l, const struct row *r)
{
    static const uint8_t root[1] = {0};
    if (r->letter == 'J')
        return l->judge(r->stanza, r->stanza_len);
    if (r->letter == 'R')
        return l->read(r->stanza, r->stanza_len, 1, r->fields, root, 1, r->octets, r->octets_len, out, ROOM, 0);
    return l->print(r->stanza, r->stanza_len, 1, r->fields, r->octets, r->octets_len, out, ROOM, 0);
}

/* Nanoseconds of the thread for so many calls. */
static double calls(const struct library *l, const struct row *r, long count)
{
    struct timespec a, b;
    clock_gettime(CLOCK_THREAD_CPUTIME_ID, &a);
    for (long i = 0; i < count; i++)
        call(l, r);
    clock_gettime(CLOCK_THREAD_CPUTIME_ID, &b);
    return (b.tv_sec - a.tv_sec) * 1e9 + (b.tv_nsec - a.tv_nsec);
}

static int by_size(const void *a, const void *b)
{
    double x = *(const double *)a, y = *(const double *)b;
    return (x > y) - (x < y);
}

/* Both must accept the row, and write the same into a cleared room. */
static void check(const struct library *both, const struct row *r)
{
    static uint8_t wrote[ROOM];
    memset(out, 0, ROOM);
    uint64_t old = call(both, r);
    memcpy(wrote, out, ROOM);
    memset(out, 0, ROOM);
    if (old >> 32 || call(both + 1, r) != old || memcmp(wrote, out, ROOM))
        found(NULL, "a row is refused, or the two answer otherwise");
}

/* The two take turns; the median of each counts. */
static void compare(const struct library *both, const struct row *r)
{
    static double times[2][TURNS];
    long count = (long)(TURN / (calls(both, r, 100) / 100 + 1)) + 1;
    for (int turn = 0; turn < TURNS; turn++)
        for (int l = 0; l < 2; l++)
            times[l][turn] = calls(both + l, r, count) / count;
    for (int l = 0; l < 2; l++)
        qsort(times[l], TURNS, sizeof(double), by_size);
    printf("%.1f %.1f\n", times[0][TURNS / 2], times[1][TURNS / 2]);
}

int main(int argc, char **argv)
{
    if (argc != 4)
        return 2;
    FILE *rows = found(fopen(argv[1], "r"), argv[1]);
    int two = strchr(argv[3], '/') != NULL;
    struct library both[2] = {library(argv[2]), library(argv[two ? 3 : 2])};
    struct row r;
    for (int n = 0; next_row(rows, &r); n++) {
        if (two) {
            check(both, &r);
            compare(both, &r);
        } else if (n == atoi(argv[3])) {
            call(both, &r);
        }
    }
    return 0;
}
