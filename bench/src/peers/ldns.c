/*
 * ldns. Records are made before the clock runs, in the form in which ldns keeps
 * them.
 */
#include <ldns/ldns.h>
#include <stdio.h>
#include <stdlib.h>
#include <string.h>

struct record {
    ldns_rr *rr;
    char *line;
};

/* Owner, type, class, TTL and the count of the RDATA's octets. */
#define BEFORE_RDATA 11

static ldns_buffer *buffer;

/* ldns takes wires that start with an owner. */
static ldns_rr *from_wire(uint16_t type, const uint8_t *rdata, uint16_t len)
{
    static uint8_t wire[BEFORE_RDATA + 65535];
    ldns_rr *rr = NULL;
    size_t at = 0;
    memset(wire, 0, BEFORE_RDATA);
    ldns_write_uint16(wire + 1, type);
    ldns_write_uint16(wire + 3, LDNS_RR_CLASS_IN);
    ldns_write_uint16(wire + 9, len);
    memcpy(wire + BEFORE_RDATA, rdata, len);
    if (ldns_wire2rr(&rr, wire, BEFORE_RDATA + (size_t)len, &at, LDNS_SECTION_ANSWER) != LDNS_STATUS_OK)
        return NULL;
    return rr;
}

/* One record, never freed; NULL where that fails. */
struct record *ldns_record(const char *kind, uint16_t type, const uint8_t *rdata, uint16_t len,
                           const char *text, size_t text_len)
{
    struct record *record = calloc(1, sizeof(*record));
    size_t room = strlen(kind) + text_len + 16;
    if (buffer == NULL)
        buffer = ldns_buffer_new(1 << 20);
    if (record == NULL || buffer == NULL)
        return NULL;
    record->rr = from_wire(type, rdata, len);
    record->line = malloc(room);
    if (record->rr == NULL || record->line == NULL)
        return NULL;
    snprintf(record->line, room, ". 0 IN %s %.*s", kind, (int)text_len, text);
    return record;
}

static int taken(uint8_t *out, size_t out_len)
{
    size_t count = ldns_buffer_position(buffer);
    if (count > out_len)
        return -1;
    memcpy(out, ldns_buffer_begin(buffer), count);
    return (int)count;
}

/* The text of the RDATA: the count of its octets, or less than 0. */
int ldns_print(const struct record *record, uint8_t *out, size_t out_len)
{
    ldns_buffer_clear(buffer);
    for (size_t i = 0; i < ldns_rr_rd_count(record->rr); i++) {
        if (i > 0)
            ldns_buffer_write_u8(buffer, ' ');
        if (ldns_rdf2buffer_str(buffer, ldns_rr_rdf(record->rr, i)) != LDNS_STATUS_OK)
            return -1;
    }
    return taken(out, out_len);
}

/* The RDATA of the text: the count of its octets, or less than 0. */
int ldns_read(const struct record *record, uint8_t *out, size_t out_len)
{
    ldns_rr *rr = NULL;
    ldns_status status = ldns_rr_new_frm_str(&rr, record->line, 0, NULL, NULL);
    if (status != LDNS_STATUS_OK)
        return -1;
    ldns_buffer_clear(buffer);
    status = ldns_rr_rdata2buffer_wire(buffer, rr);
    ldns_rr_free(rr);
    return status == LDNS_STATUS_OK ? taken(out, out_len) : -1;
}
