/*
 * BIND's libdns. Records and the lexer are made before the clock runs.
 */
/* As BIND itself is built: its headers ask for it. */
#define HAVE_STDATOMIC_H 1
#include <dns/name.h>
#include <dns/rdata.h>
#include <isc/buffer.h>
#include <isc/lex.h>
#include <isc/mem.h>
#include <stdlib.h>
#include <string.h>

/* As BIND's own reader of master files asks of a lexer; it grows where it must. */
#define LONGEST_TOKEN 8192

struct record {
    dns_rdata_t rdata;
    uint16_t type;
    const char *text;
    size_t text_len;
};

static isc_mem_t *memory;
static isc_lex_t *lexer;

static int start(void)
{
    isc_lexspecials_t specials = {[0] = 1, ['('] = 1, [')'] = 1, ['"'] = 1};
    if (lexer != NULL)
        return 0;
    isc_mem_create(&memory);
    if (isc_lex_create(memory, LONGEST_TOKEN, &lexer) != ISC_R_SUCCESS)
        return -1;
    isc_lex_setspecials(lexer, specials);
    isc_lex_setcomments(lexer, ISC_LEXCOMMENT_DNSMASTERFILE);
    return 0;
}

static uint8_t *copy(const void *octets, size_t len)
{
    uint8_t *made = malloc(len + 1);
    if (made != NULL)
        memcpy(made, octets, len);
    return made;
}

/* One record, never freed; NULL where that fails. */
struct record *bind_record(const char *kind, uint16_t type, const uint8_t *rdata, uint16_t len,
                           const char *text, size_t text_len)
{
    struct record *record = calloc(1, sizeof(*record));
    isc_region_t region = {copy(rdata, len), len};
    (void)kind;
    if (record == NULL || region.base == NULL || start() != 0)
        return NULL;
    dns_rdata_init(&record->rdata);
    dns_rdata_fromregion(&record->rdata, dns_rdataclass_in, type, &region);
    record->type = type;
    record->text = (const char *)copy(text, text_len);
    record->text_len = text_len;
    return record->text == NULL ? NULL : record;
}

/* The text of the RDATA: the count of its octets, or less than 0. */
int bind_print(struct record *record, uint8_t *out, size_t out_len)
{
    isc_buffer_t target;
    isc_buffer_init(&target, out, out_len);
    if (dns_rdata_totext(&record->rdata, NULL, &target) != ISC_R_SUCCESS)
        return -1;
    return (int)isc_buffer_usedlength(&target);
}

/* The RDATA of the text: the count of its octets, or less than 0. */
int bind_read(const struct record *record, uint8_t *out, size_t out_len)
{
    isc_buffer_t source, target;
    isc_result_t result;
    isc_buffer_constinit(&source, record->text, record->text_len);
    isc_buffer_add(&source, record->text_len);
    isc_buffer_init(&target, out, out_len);
    if (isc_lex_openbuffer(lexer, &source) != ISC_R_SUCCESS)
        return -1;
    result = dns_rdata_fromtext(NULL, dns_rdataclass_in, record->type, lexer, dns_rootname, 0, memory,
                                &target, NULL);
    isc_lex_close(lexer);
    return result == ISC_R_SUCCESS ? (int)isc_buffer_usedlength(&target) : -1;
}
