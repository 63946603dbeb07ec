/*
 * extlang: record descriptions in the DNS extension language.
 *
 * Link with libextlang.a, which `tools/build extlang` writes to target/staticlib.
 *
 * A function takes a part of memory as a pointer and a count: of octets, but for
 * the entries of a catalogue, whose count is of entries and whose pointer is
 * aligned for their type. The pointer is never null, even if the count is 0, and
 * nothing else may write that part while the function runs. The part that is
 * written must not overlap the others: if it does, nothing is promised, and the
 * call may answer wrongly or crash. No function keeps a pointer, allocates, or
 * changes anything but what it says; each always returns.
 *
 * The archive is for x86-64. It calls memcpy and memset alone, and has no
 * writable data.
 */
#ifndef EXTLANG_H
#define EXTLANG_H

#include <stddef.h>
#include <stdint.h>

#ifdef __cplusplus
extern "C" {
#endif

/*
 * Answers. Every function answers with 64 bits in two halves.
 *
 * The upper 32 bits are the number: 0 if the request is accepted, else the number
 * of its refusal. The lower 32 bits are the place of that refusal or, if the
 * number is 0, a count; each function says what it counts.
 */
static inline uint32_t extlang_number(uint64_t answer)
{
    return (uint32_t)(answer >> 32);
}

static inline uint32_t extlang_place(uint64_t answer)
{
    return (uint32_t)answer;
}

/*
 * Judges a description, one stanza: a header and its field lines. Any octets
 * may be handed in.
 *
 * Number 0: accepted; the lower half counts its fields, 1 to 64.
 * Number 1: it has more than 8,192 octets; the place is 0.
 * Number 2: a line breaks the grammar; or no line is faulty, and there is no
 *           header or no field line: the place is then 0.
 * Number 3: a field type or a qualifier is unknown, or the type is Z.
 * Number 4: the line's parts are known, but not allowed there.
 * Number 5: it has a 65th field line.
 *
 * From 2 to 5 the place is the number of the first faulty line, counted from 1
 * over all lines, blank and comment lines too.
 */
uint64_t extlang_judge(const uint8_t *stanza, size_t stanza_len);

/*
 * Prints RDATA as text under a run of a description's fields: `length` fields,
 * starting at field `first`, counted from 1. A length of 0 is an empty run, which
 * takes no octets. Any octets may be handed in as the stanza and the RDATA.
 *
 * The text goes to out, starting at octet `at`, counted from 0. Its room is what
 * out has from there: none, if that place is past the end. Out must not
 * overlap the stanza or the RDATA, and may hold anything.
 *
 * Number 0: done; the lower half counts the text's octets, at most 1,048,576.
 *           No NUL stands after them, and no other octet of out has changed.
 * Number 1: the stanza has more than 8,192 octets, or the RDATA more than
 *           65,535; the place is 0.
 * Number 2, 3, 4, 5: the stanza is refused, with the place that extlang_judge
 *           gives.
 * Number 6: first is 0, or the run goes past the stanza's last field; the place
 *           is 0.
 * Number 8: the RDATA ends before a field is complete.
 * Number 9: a value breaks its field's rule.
 * Number 10: something is left after the last field; the place is the run's
 *           length plus 1.
 * Number 12: the text is longer than its room; the place is the count of octets
 *           that it needs.
 *
 * At 8 and 9 the place is the number of the field in the run, counted from 1.
 * If the number is not 0, no octet of out has changed.
 */
uint64_t extlang_print(const uint8_t *stanza, size_t stanza_len,
                       uint64_t first, uint64_t length,
                       const uint8_t *rdata, size_t rdata_len,
                       uint8_t *out, size_t out_len, uint64_t at);

/*
 * Reads master-file text as RDATA under a run of a description's fields: `length`
 * fields, starting at field `first`, counted from 1. The origin is a name in wire
 * form; it is appended to names of the text that lack their final dot, and stands
 * for @ in the text. Any octets may be handed in as the stanza, the origin and
 * the text.
 *
 * The RDATA goes to out, starting at octet `at`, counted from 0. Its room is what
 * out has from there: none, if that place is past the end. Out must not
 * overlap the stanza, the origin or the text, and may hold anything.
 *
 * Number 0: done; the lower half counts the RDATA's octets, at most 65,535. No
 *           other octet of out has changed.
 * Number 1: the stanza has more than 8,192 octets, or the text more than
 *           1,048,576; the place is 0.
 * Number 2, 3, 4, 5: the stanza is refused, with the place that extlang_judge
 *           gives.
 * Number 6: first is 0, or the run goes past the stanza's last field; the place
 *           is 0.
 * Number 7: the origin is not one whole wire name; the place is 0.
 * Number 8: no token is left for a field that needs one.
 * Number 9: a token has a fault inside, or its value breaks its field's rule.
 * Number 10: something but blanks is left after the last field; the place is the
 *           run's length plus 1.
 * Number 11: the RDATA would have more than 65,535 octets; the place is 0.
 * Number 12: the RDATA is longer than its room; the place is the count of octets
 *           that it needs.
 *
 * At 8 and 9 the place is the number of the field in the run, counted from 1.
 * If the number is not 0, no octet of out has changed.
 */
uint64_t extlang_read(const uint8_t *stanza, size_t stanza_len,
                      uint64_t first, uint64_t length,
                      const uint8_t *origin, size_t origin_len,
                      const uint8_t *text, size_t text_len,
                      uint8_t *out, size_t out_len, uint64_t at);

/*
 * A catalogue gives types the names that people know. It is a part of memory with
 * entries, and a text that their names lie in. An entry has the number of a type,
 * and its name is `length` octets of the text, starting at octet `start`, counted
 * from 0.
 *
 * It has at most 512 entries, whose numbers are from 0 to 65,535 and each above
 * the one before. Every name lies inside the text; names may overlap. A name is as
 * in the header of a description: a letter, then letters, digits and hyphens, at
 * most 63 octets in all. Ignoring case, no two names are the same, and none is
 * `TYPE` and one or more digits, not even those of its own number.
 */
struct extlang_entry {
    uint32_t number;
    uint16_t start;
    uint16_t length;
};

/*
 * Prints as extlang_print does, with a catalogue: R and R[L] print a type that has
 * an entry as its name, spelled as it is in the text, and any other type as TYPE
 * and its number. Any entries and any octets of names may be handed in. If
 * entry_count is 0, this gives what extlang_print gives.
 *
 * The numbers are those of extlang_print, and
 *
 * Number 13: the catalogue breaks a rule; the place is the number of the first bad
 *           entry, counted from 1: one that is bad in itself or against an earlier
 *           one, or a 513th. This comes after 6 and before 8.
 *
 * The catalogue is judged whole in every call, also where no type is printed, so
 * that a bad one is found at once and not by the first record that needs it.
 *
 * Out must not overlap the entries or the names either.
 */
uint64_t extlang_print_named(const uint8_t *stanza, size_t stanza_len,
                             uint64_t first, uint64_t length,
                             const struct extlang_entry *entries, size_t entry_count,
                             const uint8_t *names, size_t names_len,
                             const uint8_t *rdata, size_t rdata_len,
                             uint8_t *out, size_t out_len, uint64_t at);

/*
 * Reads as extlang_read does, with a catalogue: in R and R[L] a type is the name
 * of an entry, or TYPE and a number, whether or not that number has an entry; case
 * is ignored in both. Any entries and any octets of names may be handed in. If
 * entry_count is 0, this gives what extlang_read gives.
 *
 * The numbers are those of extlang_read, and 13 with the place that
 * extlang_print_named gives, after 7 and before 8. The catalogue is judged whole
 * in every call, also where no type is read.
 *
 * Out must not overlap the entries or the names either.
 */
uint64_t extlang_read_named(const uint8_t *stanza, size_t stanza_len,
                            uint64_t first, uint64_t length,
                            const struct extlang_entry *entries, size_t entry_count,
                            const uint8_t *names, size_t names_len,
                            const uint8_t *origin, size_t origin_len,
                            const uint8_t *text, size_t text_len,
                            uint8_t *out, size_t out_len, uint64_t at);

/*
 * Descriptions as the DNS stores them. The next three functions do what
 * extlang_judge, extlang_print and extlang_read do, and are handed the RDATA of a
 * TXT record where those are handed a stanza: strings, each after its count. The
 * first is exactly RRTYPE=1. Each of the others is a line of the stanza without
 * its leading blanks. A string that is blank, or whose first nonblank is #, is
 * ignored; any other that starts with a blank breaks the grammar. No file has to
 * be made, and the same lines as a file give the same answers.
 *
 * The edition is that of the draft by which the description is stored. 13 is the
 * only one taken.
 *
 * Judges a stored description. Any octets may be handed in.
 *
 * Number 0: accepted; the lower half counts its fields, 1 to 64.
 * Number 1: it has more than 8,192 octets, counts and first string included; the
 *           place is 0.
 * Number 16: the edition is not 13; the place is 0.
 * Number 8: a string is cut short: its count says more than is left; the place
 *           is its number.
 * Number 14: the first string is not RRTYPE=1, or there is none; the place is 1.
 * Number 2, 3, 4, 5: as extlang_judge; the place is the number of the first
 *           faulty string, or 0 if there is no header or no field line.
 *
 * Strings are numbered from 1, which is RRTYPE=1, and ignored ones count. If
 * several apply, the first in this order is given: 1, 16, 8, 14, the strings.
 */
uint64_t extlang_judge_stored(const uint8_t *txt, size_t txt_len, uint64_t edition);

/*
 * Prints as extlang_print does, under a stored description.
 *
 * The numbers are those of extlang_print, and in the place of the stanza's
 * refusals those of extlang_judge_stored. So 8 has two meanings here: a string of
 * the description is cut short, or the RDATA ends before a field is complete.
 * extlang_judge_stored tells which: a description that it accepts is whole.
 *
 * Out must not overlap the description or the RDATA.
 */
uint64_t extlang_print_stored(const uint8_t *txt, size_t txt_len,
                              uint64_t first, uint64_t length, uint64_t edition,
                              const uint8_t *rdata, size_t rdata_len,
                              uint8_t *out, size_t out_len, uint64_t at);

/*
 * Reads as extlang_read does, under a stored description.
 *
 * The numbers are those of extlang_read, and in the place of the stanza's refusals
 * those of extlang_judge_stored, as in extlang_print_stored.
 *
 * Out must not overlap the description, the origin or the text.
 */
uint64_t extlang_read_stored(const uint8_t *txt, size_t txt_len,
                             uint64_t first, uint64_t length, uint64_t edition,
                             const uint8_t *origin, size_t origin_len,
                             const uint8_t *text, size_t text_len,
                             uint8_t *out, size_t out_len, uint64_t at);

#ifdef __cplusplus
}
#endif

#endif
