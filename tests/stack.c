/* Calls each entry on a thread whose stack is filled with one octet beforehand, and looks how far it was changed. */
#include <pthread.h>
#include <stdio.h>
#include <stdlib.h>
#include <string.h>
#include <sys/mman.h>

#include "../examples/types.h"

enum { STACK = 1 << 20, FILL = 0xA5, ROOM = 1 << 20, NAMES = 512, NAME = 63, EDITION = 13 };
/* each way to read stands before the one to print what it has read */
enum { NONE, JUDGE, READ, PRINT, READ_NAMED, PRINT_NAMED, READ_LONG, PRINT_LONG, JUDGE_STORED, READ_STORED, PRINT_STORED, WAYS };

struct call {
    int way;
    const char *stanza;
    const char *text;
};

static uint8_t rdata[65535], text_out[ROOM];
static uint8_t long_names[NAMES * NAME];
static struct extlang_entry long_entries[NAMES];
static char word[2001], types[4001], symbols[8192];
static const uint8_t root[] = {0};
static uint8_t txt[8192];
static size_t txt_len;
static uint64_t answer, fields;

/* the arguments that the ways of one direction share */
#define RUN s, n, 1, fields
#define TEXT root, sizeof root, (const uint8_t *)c->text, strlen(c->text), rdata, sizeof rdata, 0
#define RDATA rdata, extlang_place(answer), text_out, sizeof text_out, 0
#define PUBLISHED extlang_types, EXTLANG_TYPES, extlang_type_names, EXTLANG_TYPE_NAMES
#define LONG long_entries, NAMES, long_names, sizeof long_names

/* the description as the DNS stores it, its length; 0 if a line is over 255 octets after its leading blanks, and so has no stored form */
static size_t stored(const char *stanza)
{
    static const char tag[] = "\x08RRTYPE=1";
    size_t end = sizeof tag - 1;
    memcpy(txt, tag, end);
    for (const char *line = stanza; *line; line += strcspn(line, "\n") + 1) {
        line += strspn(line, " \t");
        size_t n = strcspn(line, "\n");
        if (n > 255)
            return 0;
        txt[end] = (uint8_t)n;
        memcpy(txt + end + 1, line, n);
        end += n + 1;
    }
    return end;
}

/* what the ways need of a description, outside the stack that is looked at */
static void prepare(const struct call *c)
{
    fields = extlang_place(extlang_judge((const uint8_t *)c->stanza, strlen(c->stanza)));
    txt_len = stored(c->stanza);
}

static void *make(void *argument)
{
    const struct call *c = argument;
    const uint8_t *s = (const uint8_t *)c->stanza;
    size_t n = strlen(c->stanza);
    if (c->way == JUDGE)
        extlang_judge(s, n);
    if (c->way == READ)
        answer = extlang_read(RUN, TEXT);
    if (c->way == PRINT)
        answer = extlang_print(RUN, RDATA);
    if (c->way == READ_NAMED)
        answer = extlang_read_named(RUN, PUBLISHED, TEXT);
    if (c->way == PRINT_NAMED)
        answer = extlang_print_named(RUN, PUBLISHED, RDATA);
    if (c->way == READ_LONG)
        answer = extlang_read_named(RUN, LONG, TEXT);
    if (c->way == PRINT_LONG)
        answer = extlang_print_named(RUN, LONG, RDATA);
    if (c->way == JUDGE_STORED)
        extlang_judge_stored(txt, txt_len, EDITION);
    if (c->way == READ_STORED)
        answer = extlang_read_stored(txt, txt_len, 1, fields, EDITION, TEXT);
    if (c->way == PRINT_STORED)
        answer = extlang_print_stored(txt, txt_len, 1, fields, EDITION, RDATA);
    return NULL;
}

static void *nothing(void *argument)
{
    return argument;
}

/* the octets of a fresh stack that a function changes */
static size_t depth(void *(*run)(void *), struct call *c)
{
    uint8_t *stack = mmap(NULL, STACK, PROT_READ | PROT_WRITE, MAP_PRIVATE | MAP_ANONYMOUS, -1, 0);
    if (stack == MAP_FAILED)
        exit(1);
    memset(stack, FILL, STACK);
    pthread_attr_t attributes;
    pthread_t thread;
    pthread_attr_init(&attributes);
    pthread_attr_setstack(&attributes, stack, STACK);
    if (pthread_create(&thread, &attributes, run, c) != 0)
        exit(1);
    pthread_join(thread, NULL);
    size_t free_octets = 0;
    while (free_octets < STACK && stack[free_octets] == FILL)
        free_octets++;
    munmap(stack, STACK);
    return STACK - free_octets;
}

int main(void)
{
    static const char *names[] = {
        "", "judging", "reading", "printing", "reading with the published names", "printing with the published names",
        "reading with 512 names of 63 octets", "printing with 512 names of 63 octets",
        "judging a stored description", "reading under one", "printing under one",
    };
    /* texts that go through the longer array */
    memset(word, 'a', sizeof word - 1);
    for (size_t i = 0; i + 10 < sizeof types; i += 10)
        snprintf(types + i, 11, "TYPE%05u ", (unsigned)i);
    /* the longest names there may be, as many as there may be, told apart at their ends */
    for (unsigned i = 0; i < NAMES; i++) {
        char number[5];
        sprintf(number, "%04u", i);
        memset(long_names + i * NAME, 'a', NAME);
        memcpy(long_names + (i + 1) * NAME - 4, number, 4);
        long_entries[i] = (struct extlang_entry){i, (uint16_t)(i * NAME), NAME};
    }
    /* symbols that share their length, first and last octets, so that they are sorted */
    size_t end = sprintf(symbols, "T:1\n I2[");
    for (unsigned i = 0; end + 16 < sizeof symbols; i++)
        end += sprintf(symbols + end, "a%04ub=%u,", i, i);
    strcpy(symbols + end - 1, "]\n");
    struct call calls[] = {
        {NONE, "DOOR:65280:I Door timing\n I2:opening Tenths\n I2:dwell Tenths\n I1[STEP=1,HOLD=2]:mode Mode\n N:site Site\n", "30 70 HOLD lobby"},
        {NONE, "T:1\n N[C,A]\n R[L]\n", "a.b. TYPE1 TYPE28 TYPE65535"},
        {NONE, "T:1\n A\n AA\n AAAA\n EUI48\n EUI64\n T\n R\n", "1.2.3.4 1:2:3:4 ::1.2.3.4 00-00-5e-00-53-2a 00-00-5e-ef-10-00-00-2a 20000229000000 TYPE1"},
        {NONE, "T:1\n B32\n X[C]\n B64\n", "VS 00FF /w=="},
        {NONE, "T:1\n S\n X\n", "\"a\\255\" 00 FF"},
        {NONE, "T:1\n S\n S[M]\n", "a \"b c\" 'd'"},
        {NONE, "T:1\n S[X]\n", word},
        {NONE, "T:1\n R[L]\n", types},
        {NONE, "T:1\n N[O]\n", "@"},
        {NONE, symbols, "a0001b"},
    };
    /* once here, so that the loader has found every function of the C library before a stack is looked at */
    prepare(&calls[0]);
    for (int way = JUDGE; way < WAYS; way++) {
        calls[0].way = way;
        make(&calls[0]);
    }
    size_t most[WAYS] = {0}, own = depth(nothing, NULL), last = sizeof calls / sizeof *calls - 1;
    for (size_t i = 0; i <= last; i++) {
        prepare(&calls[i]);
        for (int way = JUDGE; way < (txt_len ? WAYS : JUDGE_STORED); way++) {
            calls[i].way = way;
            size_t d = depth(make, &calls[i]) - own;
            if (way > JUDGE && extlang_number(answer) != 0)
                printf("%s: refused, number %u\n", calls[i].stanza, extlang_number(answer));
            if (i == last)
                printf("%s %zu, %zu where many symbols are sorted\n", names[way], most[way], d);
            else if (most[way] < d)
                most[way] = d;
        }
    }
    for (int way = JUDGE_STORED; way < WAYS; way++)
        printf("%s %zu\n", names[way], most[way]);
    return 0;
}
