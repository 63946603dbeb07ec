/* Times the judge on stanzas that are slow to judge: many qualifiers or field names that are hard to tell apart. */
#define _GNU_SOURCE
#include <stdio.h>
#include <stdlib.h>
#include <string.h>
#include <time.h>

#include "extlang.h"

enum { MOST = 8192 };
static const char octets[] = "abcdefghijklmnopqrstuvwxyz0123456789-";
static char stanza[2 * MOST];
static double worst;

static double now(void)
{
    struct timespec t;
    clock_gettime(CLOCK_THREAD_CPUTIME_ID, &t);
    return t.tv_sec * 1e9 + t.tv_nsec;
}

/* the best of some turns, each of about 2 ms */
static void judge(const char *what)
{
    size_t n = strlen(stanza);
    const uint8_t *s = (const uint8_t *)stanza;
    uint64_t r = extlang_judge(s, n);
    double best = 1e18;
    int many = 1;
    for (int turn = 0; turn < 40; turn++) {
        double a = now();
        for (int i = 0; i < many; i++)
            r = extlang_judge(s, n);
        double b = (now() - a) / many;
        if (b < best)
            best = b;
        many = (int)(2e6 / (b + 1)) + 1;
    }
    printf("%-52s %5zu octets %10.0f ns %7.2f ns an octet, answer %u %u\n", what, n, best, best / n, extlang_number(r), extlang_place(r));
    if (worst < best / n && n > 500)
        worst = best / n;
}

/* the letters of w octets, in capitals or not as if thrown by a coin */
static void capitals(char *out, int w)
{
    static unsigned seed = 1;
    for (int i = 0; i < w; i++) {
        seed = seed * 1664525 + 1013904223;
        if ('a' <= out[i] && out[i] <= 'z' && seed >> 31)
            out[i] -= 32;
    }
}

/* name k of w octets: a letter, then any; the last are changed first */
static void name(char *out, unsigned k, int w)
{
    memset(out, 'a', w);
    for (int i = w - 1; i > 0 && k; i--, k /= 37)
        out[i] = octets[k % 37];
    if (k)
        out[0] = octets[k % 26];
}

/* symbols of w octets, of which the first `front` are the same, as many as fit, in an order: 0 rising, 1 falling, 2 mixed, 3 bits reversed, 4 mixed with capitals */
static void symbols(const char *type, int front, int w, int order, unsigned most)
{
    char text[128], what[128];
    unsigned tail = w - front, n = 1;
    for (unsigned i = 0; i < tail; i++)
        n = n > 100000 ? n : n * (front == 0 && i == 0 ? 26 : 37);
    size_t head = sprintf(stanza, "T:1\n %s[", type);
    unsigned fit = (MOST - head - 3) / (w + 3);
    if (n > fit)
        n = fit;
    if (n > most)
        n = most;
    char *at = stanza + head;
    unsigned bits = 1;
    while ((1u << bits) < n)
        bits++;
    for (unsigned i = 0, j = 0; i < (1u << bits) && j < n; i++) {
        unsigned k = i;
        if (order == 1)
            k = n - 1 - i;
        if (order == 2 || order == 4)
            k = (unsigned)((i * 7919ul + 13) % n);
        if (order == 3) {
            k = 0;
            for (unsigned b = 0; b < bits; b++)
                k |= (i >> b & 1) << (bits - 1 - b);
        }
        if (k >= n || (order != 3 && i >= n))
            continue;
        memset(text, 'f', front);
        if (tail)
            name(text + front, k, tail);
        if (order == 4)
            capitals(text, w);
        memcpy(at, text, w);
        at += w;
        at += sprintf(at, "=1,");
        j++;
    }
    sprintf(at - 1, "]\n");
    static const char *orders[] = {"rising", "falling", "mixed", "bits reversed", "mixed with capitals"};
    snprintf(what, sizeof what, "%s: %u symbols of %d, %d in front, %s", type, n, w, front, orders[order]);
    judge(what);
}

/* a1 to an */
static void numbered(int n)
{
    char what[64];
    char *at = stanza + sprintf(stanza, "T:1\n I2[");
    for (int i = 1; i <= n; i++)
        at += sprintf(at, "a%d=1,", i);
    sprintf(at - 1, "]\n");
    snprintf(what, sizeof what, "a1 to a%d", n);
    judge(what);
}

/* 64 fields whose names have w octets, the same but for the last two, and for capitals if `mixed` */
static void fields(int w, int mixed)
{
    char what[64];
    char *at = stanza + sprintf(stanza, "T:1\n");
    for (int i = 0; i < 64; i++) {
        at += sprintf(at, " I1:");
        memset(at, 'n', w);
        name(at + w - 2, i, 2);
        if (mixed)
            capitals(at, w);
        at += w;
        at += sprintf(at, "\n");
    }
    snprintf(what, sizeof what, "64 fields, names of %d octets%s", w, mixed ? ", with capitals" : "");
    judge(what);
}

int main(void)
{
    strcpy(stanza, "DOOR:65280:I Door timing\n I2:opening Tenths\n I2:dwell Tenths\n I1[STEP=1,HOLD=2]:mode Mode\n N:site Site\n");
    judge("a door");
    numbered(9);
    numbered(10);
    numbered(40);
    numbered(1000);
    static const char *types[] = {"I1", "I4"};
    for (int t = 0; t < 2; t++)
        for (int order = 0; order < 5; order++)
            for (int w = 2; w <= 6; w++)
                symbols(types[t], 0, w, order, 8192);
    for (int front = 8; front <= 61; front += front < 56 ? 8 : 5)
        for (int order = 0; order < 5; order++)
            symbols("I1", front, front + 2, order, 8192);
    for (int w = 3; w <= 63; w += 12)
        for (int mixed = 0; mixed < 2; mixed++)
            fields(w, mixed);
    printf("worst of those over 500 octets: %.2f ns an octet\n", worst);
    return 0;
}
