/*
 * Types by the names that people know: a catalogue lent to the library from C.
 *
 * After `tools/build extlang`, at the root of the repository:
 *
 *     cc -Wall -Wextra -Iinclude examples/names.c target/staticlib/libextlang.a -o target/names && target/names
 */
#include <stdio.h>

#include "types.h" /* the published names, as a catalogue; includes extlang.h */

static const char nsec[] = "NSEC:47:A NSEC\n N:next Next name\n R[L]:types Types\n";
enum { FIELDS = 2 };

/* the wire form of example. ; the NUL of the literal is its root label */
static const char origin[] = "\7example";

/* A string literal's octets, without its NUL, as a pointer and a count. */
#define OCTETS(literal) (const uint8_t *)(literal), sizeof(literal) - 1

/* The published names, as the four arguments that a catalogue takes. */
#define PUBLISHED extlang_types, EXTLANG_TYPES, extlang_type_names, EXTLANG_TYPE_NAMES

static void show(const char *what, uint64_t answer, const uint8_t *text)
{
    if (extlang_number(answer) == 0)
        printf("%s: %.*s\n", what, (int)extlang_place(answer), (const char *)text);
    else
        printf("%s: refused, number %u, place %u\n", what, extlang_number(answer), extlang_place(answer));
}

int main(void)
{
    /* a name or TYPE and a number, in capitals or not; type28 and aaaa are the same type */
    uint8_t rdata[512], text[512];
    uint64_t read = extlang_read_named(OCTETS(nsec), 1, FIELDS, PUBLISHED, (const uint8_t *)origin, sizeof origin,
                                       OCTETS("lobby A MX type28 aaaa TYPE65280"), rdata, sizeof rdata, 0);
    if (extlang_number(read) != 0) {
        show("reading", read, text);
        return 1;
    }
    uint32_t count = extlang_place(read);
    printf("reading: %u octets\n", count);

    show("without names", extlang_print(OCTETS(nsec), 1, FIELDS, rdata, count, text, sizeof text, 0), text);
    show("with names",
         extlang_print_named(OCTETS(nsec), 1, FIELDS, PUBLISHED, rdata, count, text, sizeof text, 0), text);

    /* the second entry's name is the first's but for case: the catalogue is refused, and text is as it was */
    static const struct extlang_entry own[] = {{65280, 0, 4}, {65281, 4, 4}};
    show("with two names alike",
         extlang_print_named(OCTETS(nsec), 1, FIELDS, own, 2, OCTETS("DOORdoor"), rdata, count, text, sizeof text, 0), text);
    return 0;
}
