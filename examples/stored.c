/*
 * A description as the DNS stores it, lent to the library from C: from the RDATA of a TXT record to a printed door timing.
 *
 * After `tools/build extlang`, at the root of the repository:
 *
 *     cc -Wall -Wextra -Iinclude examples/stored.c target/staticlib/libextlang.a -o target/stored && target/stored
 */
#include <stdio.h>
#include <string.h>

#include "extlang.h"

enum { EDITION = 13 };

/* The RDATA of the TXT record at 65280.RRTYPE.ARPA., as it stands in an answer's message: strings, each after its count. */
static const char txt[] =
    "\x08" "RRTYPE=1"
    "\x18" "DOOR:65280:I Door timing"
    "\x11" "I2:opening Tenths"
    "\x0F" "I2:dwell Tenths"
    "\x1B" "I1[STEP=1,HOLD=2]:mode Mode"
    "\x0B" "N:site Site";

/* What `dig +short TXT 65280.RRTYPE.ARPA.` prints of the same record. */
static const char dug[] =
    "\"RRTYPE=1\" \"DOOR:65280:I Door timing\" \"I2:opening Tenths\" \"I2:dwell Tenths\""
    " \"I1[STEP=1,HOLD=2]:mode Mode\" \"N:site Site\"";

/* A TXT record is one or more strings: its own description, as a file. */
static const char txt_type[] = "TXT:16\n S[M]:text Strings\n";

/* A door timing, opening 30, dwell 70, mode 2, at lobby.example. ; the NUL of the literal is the root label */
static const char timing[] = "\x00\x1E\x00\x46\x02\x05lobby\x07" "example";

/* A string literal's octets, without its NUL, as a pointer and a count. */
#define OCTETS(literal) (const uint8_t *)(literal), sizeof(literal) - 1

static void show(const char *what, uint64_t answer, const uint8_t *text)
{
    if (extlang_number(answer) == 0)
        printf("%s: %.*s\n", what, (int)extlang_place(answer), (const char *)text);
    else
        printf("%s: refused, number %u, place %u\n", what, extlang_number(answer), extlang_place(answer));
}

int main(void)
{
    uint8_t text[512], octets[512];
    const uint8_t *record = (const uint8_t *)timing;

    /* from the wire: no file is made */
    uint64_t judged = extlang_judge_stored(OCTETS(txt), EDITION);
    if (extlang_number(judged) != 0) {
        show("description", judged, text);
        return 1;
    }
    uint32_t fields = extlang_place(judged);
    printf("description: %u fields\n", fields);
    show("printing", extlang_print_stored(OCTETS(txt), 1, fields, EDITION, record, sizeof timing, text, sizeof text, 0), text);

    /* from dig's line: read as a TXT record, it is the same octets */
    uint64_t read = extlang_read(OCTETS(txt_type), 1, 1, (const uint8_t *)"", 1, OCTETS(dug), octets, sizeof octets, 0);
    if (extlang_number(read) != 0) {
        show("dig's line", read, text);
        return 1;
    }
    uint32_t count = extlang_place(read);
    printf("dig's line: %s\n", count == sizeof txt - 1 && memcmp(octets, txt, count) == 0 ? "the same octets" : "other octets");

    /* nothing is guessed, and text is as it was: the last string lacks its last octet; another TXT record of the same name */
    show("a description cut short", extlang_judge_stored((const uint8_t *)txt, sizeof txt - 2, EDITION), text);
    show("no description", extlang_judge_stored(OCTETS("\x0F" "v=spf1 +mx -all"), EDITION), text);
    show("a record cut short", extlang_print_stored(OCTETS(txt), 1, fields, EDITION, record, 3, text, sizeof text, 0), text);
    return 0;
}
