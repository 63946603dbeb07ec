/*
 * Knot: libknot prints and libzscanner reads. Records are made before the clock
 * runs, in the form in which Knot keeps them.
 */
#include <libknot/libknot.h>
#include <libzscanner/scanner.h>
#include <stdio.h>
#include <stdlib.h>
#include <string.h>

struct record {
    knot_rrset_t *set;
    char *line;
    size_t line_len;
};

/* One for all lines, so that it is made beforehand too. */
static zs_scanner_t scanner;

static int scan(const char *line, size_t len)
{
    int failed = zs_set_input_string(&scanner, line, len) != 0 || zs_parse_record(&scanner) != 0;
    return !failed && scanner.state == ZS_STATE_DATA ? 0 : -1;
}

/* The first line has an owner, which the others inherit. */
static int start(void)
{
    static const char first[] = ". A 192.0.2.1\n";
    if (scanner.default_class != 0)
        return 0;
    return zs_init(&scanner, ".", KNOT_CLASS_IN, 0) != 0 ? -1 : scan(first, sizeof(first) - 1);
}

/* One record, never freed; NULL where that fails. */
struct record *knot_record(const char *kind, uint16_t type, const uint8_t *rdata, uint16_t len,
                           const char *text, size_t text_len)
{
    struct record *record = calloc(1, sizeof(*record));
    if (record == NULL || start() != 0)
        return NULL;
    record->set = knot_rrset_new((const knot_dname_t *)"", type, KNOT_CLASS_IN, 0, NULL);
    if (record->set == NULL || knot_rrset_add_rdata(record->set, rdata, len, NULL) != KNOT_EOK)
        return NULL;
    /* The scanner takes whole lines; the shortest has only a type before the RDATA. */
    size_t room = strlen(kind) + text_len + 4;
    record->line = malloc(room);
    if (record->line == NULL)
        return NULL;
    record->line_len = (size_t)snprintf(record->line, room, " %s %.*s\n", kind, (int)text_len, text);
    return record;
}

/* The text of the RDATA: the count of its octets, or less than 0. */
int knot_print(const struct record *record, uint8_t *out, size_t out_len)
{
    return knot_rrset_txt_dump_data(record->set, 0, (char *)out, out_len, &KNOT_DUMP_STYLE_DEFAULT);
}

/* The RDATA of the text: the count of its octets, or less than 0. */
int knot_read(const struct record *record, uint8_t *out, size_t out_len)
{
    if (scan(record->line, record->line_len) != 0 || scanner.r_data_length > out_len)
        return -1;
    memcpy(out, scanner.r_data, scanner.r_data_length);
    return (int)scanner.r_data_length;
}
