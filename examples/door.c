/*
 * The library called from C: door timings under a description of their own.
 *
 * After `tools/build extlang`, at the root of the repository:
 *
 *     cc -Wall -Wextra -Iinclude examples/door.c target/staticlib/libextlang.a -o target/door && target/door
 */
#include <stdio.h>
#include <string.h>

#include "extlang.h"

static const char door[] =
    "DOOR:65280:I Door timing\n"
    " I2:opening Tenths\n"
    " I2:dwell Tenths\n"
    " I1[STEP=1,HOLD=2]:mode Mode\n"
    " N:site Site\n";

/* the wire form of example. ; the NUL of the literal is its root label */
static const char origin[] = "\7example";

static const char line[] = "30 70 HOLD lobby";

/* A string literal's octets, without its NUL, as a pointer and a count. */
#define OCTETS(literal) (const uint8_t *)(literal), sizeof(literal) - 1

static void show_refusal(const char *what, uint64_t answer)
{
    printf("%s: refused, number %u, place %u\n", what, extlang_number(answer), extlang_place(answer));
}

int main(void)
{
    uint64_t judged = extlang_judge(OCTETS(door));
    if (extlang_number(judged) != 0) {
        show_refusal("stanza", judged);
        return 1;
    }
    uint32_t fields = extlang_place(judged);
    printf("stanza: %u fields\n", fields);

    uint8_t rdata[512];
    uint64_t read = extlang_read(OCTETS(door), 1, fields, (const uint8_t *)origin, sizeof origin,
                                 OCTETS(line), rdata, sizeof rdata, 0);
    if (extlang_number(read) != 0) {
        show_refusal("reading", read);
        return 1;
    }
    uint32_t count = extlang_place(read);
    printf("reading: ");
    for (uint32_t i = 0; i < count; i++)
        printf("%02X", rdata[i]);
    printf("\n");

    uint8_t text[512];
    uint64_t printed = extlang_print(OCTETS(door), 1, fields, rdata, count, text, sizeof text, 0);
    if (extlang_number(printed) != 0) {
        show_refusal("printing", printed);
        return 1;
    }
    printf("printing: %.*s\n", (int)extlang_place(printed), (const char *)text);

    /* three octets end in the second field: nothing is filled in, and text is as it was */
    show_refusal("printing three octets", extlang_print(OCTETS(door), 1, fields, rdata, 3, text, sizeof text, 0));
    return 0;
}
