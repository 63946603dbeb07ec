/*
 * The published type names, 69 of them, for a caller who lends a catalogue:
 * EXTLANG_TYPES entries in extlang_types, whose names lie in the
 * EXTLANG_TYPE_NAMES octets of extlang_type_names.
 *
 * 65 names are the headers of the appendix "Descriptions of currently defined
 * RRTYPEs" of "An Extension Language for the DNS" (draft-levine-dnsextlang-13).
 * NULL, UNSPEC, TKEY and TSIG are shown with their numbers in BIND 9's "RDATA
 * Types".
 *
 * examples/make-types writes this file from examples/types.tsv.
 */
#ifndef EXTLANG_TYPES_H
#define EXTLANG_TYPES_H

#include "extlang.h"

/* the names, one after the other */
static const uint8_t extlang_type_names[] =
    "A" "NS" "MD" "MF" "CNAME" "SOA" "MB" "MG" "MR" "NULL" "WKS" "PTR" "HINFO" "MINFO" "MX" "TXT"
    "RP" "AFSDB" "X25" "ISDN" "RT" "NSAP" "NSAP-PTR" "SIG" "KEY" "PX" "GPOS" "AAAA" "LOC" "NXT"
    "SRV" "NAPTR" "KX" "CERT" "A6" "DNAME" "APL" "DS" "SSHFP" "IPSECKEY" "RRSIG" "NSEC" "DNSKEY"
    "DHCID" "NSEC3" "NSEC3PARAM" "TLSA" "SMIMEA" "HIP" "CDS" "CDNSKEY" "OPENPGPKEY" "CSYNC"
    "ZONEMD" "SVCB" "HTTPS" "SPF" "UNSPEC" "NID" "L32" "L64" "LP" "EUI48" "EUI64" "TKEY" "TSIG"
    "URI" "CAA" "DLV";

/* number, start and length of the name */
static const struct extlang_entry extlang_types[] = {
    {1, 0, 1}, /* A */
    {2, 1, 2}, /* NS */
    {3, 3, 2}, /* MD */
    {4, 5, 2}, /* MF */
    {5, 7, 5}, /* CNAME */
    {6, 12, 3}, /* SOA */
    {7, 15, 2}, /* MB */
    {8, 17, 2}, /* MG */
    {9, 19, 2}, /* MR */
    {10, 21, 4}, /* NULL */
    {11, 25, 3}, /* WKS */
    {12, 28, 3}, /* PTR */
    {13, 31, 5}, /* HINFO */
    {14, 36, 5}, /* MINFO */
    {15, 41, 2}, /* MX */
    {16, 43, 3}, /* TXT */
    {17, 46, 2}, /* RP */
    {18, 48, 5}, /* AFSDB */
    {19, 53, 3}, /* X25 */
    {20, 56, 4}, /* ISDN */
    {21, 60, 2}, /* RT */
    {22, 62, 4}, /* NSAP */
    {23, 66, 8}, /* NSAP-PTR */
    {24, 74, 3}, /* SIG */
    {25, 77, 3}, /* KEY */
    {26, 80, 2}, /* PX */
    {27, 82, 4}, /* GPOS */
    {28, 86, 4}, /* AAAA */
    {29, 90, 3}, /* LOC */
    {30, 93, 3}, /* NXT */
    {33, 96, 3}, /* SRV */
    {35, 99, 5}, /* NAPTR */
    {36, 104, 2}, /* KX */
    {37, 106, 4}, /* CERT */
    {38, 110, 2}, /* A6 */
    {39, 112, 5}, /* DNAME */
    {42, 117, 3}, /* APL */
    {43, 120, 2}, /* DS */
    {44, 122, 5}, /* SSHFP */
    {45, 127, 8}, /* IPSECKEY */
    {46, 135, 5}, /* RRSIG */
    {47, 140, 4}, /* NSEC */
    {48, 144, 6}, /* DNSKEY */
    {49, 150, 5}, /* DHCID */
    {50, 155, 5}, /* NSEC3 */
    {51, 160, 10}, /* NSEC3PARAM */
    {52, 170, 4}, /* TLSA */
    {53, 174, 6}, /* SMIMEA */
    {55, 180, 3}, /* HIP */
    {59, 183, 3}, /* CDS */
    {60, 186, 7}, /* CDNSKEY */
    {61, 193, 10}, /* OPENPGPKEY */
    {62, 203, 5}, /* CSYNC */
    {63, 208, 6}, /* ZONEMD */
    {64, 214, 4}, /* SVCB */
    {65, 218, 5}, /* HTTPS */
    {99, 223, 3}, /* SPF */
    {103, 226, 6}, /* UNSPEC */
    {104, 232, 3}, /* NID */
    {105, 235, 3}, /* L32 */
    {106, 238, 3}, /* L64 */
    {107, 241, 2}, /* LP */
    {108, 243, 5}, /* EUI48 */
    {109, 248, 5}, /* EUI64 */
    {249, 253, 4}, /* TKEY */
    {250, 257, 4}, /* TSIG */
    {256, 261, 3}, /* URI */
    {257, 264, 3}, /* CAA */
    {32769, 267, 3}, /* DLV */
};

#define EXTLANG_TYPES (sizeof extlang_types / sizeof extlang_types[0])
/* without the NUL of the literal */
#define EXTLANG_TYPE_NAMES (sizeof extlang_type_names - 1)

#endif
