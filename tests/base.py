"""Document 01's lines, with the answers that the landed requests of document 02 give them.

The requests to judge are the examples of the decisions (docs/DECISIONS.md), the published descriptions, the limit
cases and 3,000 random stanzas of the independent program. Those to print are the examples of the
readings, the settled lines, the published wires, the corpus, each of some records cut at every octet,
at every cut of its field list and with rooms one short and exact, RDATA and type lists at the limits,
and 5,000 random ones. Those to read are of the same sources; and of some records, with each field
missing, in many spellings and with its rule broken; with one octet of a text taken through all its
values; with bad origins, sizes at the limits, and several faults at once. The jobs are document 01's,
also cut at every octet and with each octet changed, those of the readings, some with the longest lines
and with more than one turn writes, and 300 random ones; the program job runs one whose answers take three
turns. Then there are lines that are no requests.
"""
import itertools
import pathlib
import tempfile

from lines import BAD_ORIGINS, EXAMPLE, EXAMPLES, FAULTY, FULL_LABELS, FULL_NAME, LONGEST_LINE, LONGEST_RDATA, LONGEST_STANZA
from lines import LONGEST_TEXT, MUCH, accepted, answers_to, field_lines, in_rooms, job_of, lines_of, named_stanzas, numbered
from lines import printing, reading, readings, record_cuts, rows, run, stanzas, text_cuts, texts, with_fields, word

NO_REQUESTS = """
J
P - 1 1 - 5\x20
P -  1 - 5
P - 1 1 5
P - 1 1 -  5
P  - 1 1 - 5
P - 1 1 - 5\r
P - -1 1 - 5
P - 1 1 0 5
P - 0x1 1 - 5
P - 1 184467440737095516150 - 5
J\x20
J  -
 J -
J -\x20
J - -
J - 00
J --
J -\r
J 00\r
J\t00
J 0
J 000
J 0G
J G0
J /0
J :0
J @0
J `0
J g0
J 0x00
J \x00\x00
J \xff\xff
J 00 00
J 00-
J -00
j -
JJ -
K -
? -
-
?
P
P -
P - 1 1 -
P - 1 1 - 5 5
P - 1 1 - +5
P - 1 1 - 18446744073709551616
R
R - 1 1 - -
R - 1 1 - - -5
R - 1 1 - - 5 5
R - 1 1 - - 5\x20
R - 1 1 - -  5
R - 1 1 -  - 5
R - 1 1 - - +5
R - 1 1 - - 18446744073709551616
R - 1 -1 - - 5
R - 1 1 0 - 5
R - 1 1 - 0 5
R - 1 1 0G - 5
R - 1 1 - G0 5
R 0 1 1 - - 5
W
W\x20
W  -
W - -
W -\x20
W 0
W 0G
w -
\xff\xfe
"""


def published():
    """The published descriptions, to be judged."""
    for stanza in stanzas():
        yield b"J " + word(stanza)


DOOR = b"DOOR:65280:I Door timing\n I2:opening Tenths\n I2:dwell Tenths\n I1[STEP=1,HOLD=2]:mode Mode\n N:site Site\n"
P1 = bytes.fromhex("001E004602056C6F626279076578616D706C6500")


def settled():
    """P1, P4 to P8, P10 to P14 and the run-only lines: requests to print and what they answer."""

    def line(stanza, rdata, answer, room=MUCH):
        return printing(stanza, bytes.fromhex(rdata), room=room), answer

    yield line(DOOR, P1.hex(), accepted(b"30 70 HOLD lobby.example."))
    yield line(DOOR, "001E00", b"8 2 -")
    yield line(DOOR, "001E00460300", accepted(b"30 70 3 ."))
    yield line(DOOR, P1.hex() + "00", b"10 5 -")
    yield line(DOOR, P1.hex(), b"12 25 -", room=24)
    yield line(with_fields(b"T"), "FFFFFFFF", accepted(b"21060207062815"))
    yield line(with_fields(b"S"), "0461225CFF", accepted(b'"a\\"\\\\\\255"'))
    yield line(with_fields(b"R[L]"), "000440000008", accepted(b"TYPE1 TYPE28"))
    yield line(with_fields(b"R[L]"), "00024000", b"9 1 -")
    yield line(with_fields(b"B32"), "01FF", accepted(b"VS"))
    yield line(with_fields(b"AAAA"), "00" * 16, accepted(b"::"))
    yield line(with_fields(b"S"), "00", accepted(b'""'))
    yield line(with_fields(b"B64"), "FF", accepted(b"/w=="))
    label = "3F" + "61" * 63
    yield line(with_fields(b"N"), label * 3 + "3D" + "61" * 61 + "00", accepted((b"a" * 63 + b".") * 3 + b"a" * 61 + b"."))
    yield line(with_fields(b"N"), label * 3 + "3E" + "61" * 62 + "00", b"9 1 -")
    yield line(with_fields(*[b"I1"] * 64), "01" * 64, accepted(b" ".join([b"1"] * 64)))
    yield line(with_fields(*[b"I1"] * 65), "01" * 65, b"5 66 -")


# the numbers that a vector's REFUSE may stand for
REFUSED = (8, 9, 10)


def vectors():
    """The published wires, and the numbers that their answers may have."""
    for _, fields, text, wire in rows("published.tsv"):
        if wire != b"REFUSE":
            rdata = bytes.fromhex(wire.decode().replace("-", ""))
            yield printing(with_fields(*fields.split()), rdata), REFUSED if text == b"REFUSE" else (0,)


def corpus():
    """The records of the corpus under their published stanzas."""
    named = named_stanzas()
    for kind, _, wire in rows("corpus.tsv"):
        yield named[kind], bytes.fromhex(wire.decode())


# one record of each kind, and those that end in a tail
SAMPLES = [
    (DOOR, P1),
    (with_fields(b"I1", b"I2[A=1,B=1,C=65535]", b"I4"), bytes.fromhex("00000100000100")),
    (with_fields(b"R", b"R", b"R[L]"), bytes.fromhex("0001FFFF0001400103000001")),
    (with_fields(b"A", b"AA", b"AAAA"), bytes.fromhex("7F000001" + "00000001ABCD0FFF" + "20010DB8000000000000000000000001")),
    (with_fields(b"AAAA", b"AAAA"), bytes.fromhex("00010000000000020000000000030004" + "00010002000000030000000400050006")),
    (with_fields(b"N", b"N[C]", b"N[O]"), bytes.fromhex("00" + "03612E40017E00" + "0261FF012000")),
    (with_fields(b"S", b"S", b"S[M]"), bytes.fromhex("00" + "03005C7F" + "0122" + "00" + "02FF7E")),
    (with_fields(b"S", b"S[X]"), bytes.fromhex("0141" + "61273B0920FF")),
    (with_fields(b"B32", b"B32", b"B64"), bytes.fromhex("01FF" + "05FF00FF00FF" + "14FB9C03D97E")),
    (with_fields(b"X[C]", b"X"), bytes.fromhex("02ABCD" + "0123456789")),
    (with_fields(b"EUI48", b"EUI64", b"X6", b"X8"), bytes.fromhex("00005E0053AA" + "00005EEF10000000" + "0123456789AB" + "FFFFFFFFFFFFFFFF")),
    (with_fields(b"T", b"T", b"T"), bytes.fromhex("00000000" + "38BB0480" + "F48656FF")),
    (with_fields(b"R[L]"), bytes.fromhex("0020" + "00" * 31 + "01" + "010180" + "FF0100" + "01")),
]


def cut_records():
    """The samples, and the first short record of each type in the corpus, cut in all ways."""
    short = {}
    for stanza, rdata in corpus():
        if len(rdata) <= 80 and stanza not in short:
            short[stanza] = rdata
    for stanza, rdata in SAMPLES + list(short.items()):
        yield from record_cuts(stanza, rdata)


def limits():
    """RDATA of 65,535 octets (the readings have one more), and all types."""
    types = b"".join(bytes([window, 32]) + b"\xff" * 32 for window in range(256))
    sparse = b"".join(bytes([window, 1, 1]) for window in range(0, 256, 5))
    for field in (b"B64", b"X", b"S[X]"):
        yield printing(with_fields(field), b"\x0a" * LONGEST_RDATA)
    strings = (b"\xff" + b"\x80" * 255) * 255 + b"\xfe" + b"q" * 254
    yield printing(with_fields(b"S[M]"), strings)
    yield printing(with_fields(b"S[M]"), strings[:-1])
    yield printing(with_fields(b"R[L]"), types)
    yield printing(with_fields(b"R[L]"), sparse)
    yield printing(with_fields(b"I1", b"R[L]"), b"\x00" + types[:-1])


def stated_prints():
    """The requests to print that have a stated answer, with it."""
    return [*readings([b"p"]), *settled()]


def other_prints():
    """The other requests to print."""
    records = numbered((printing(stanza, rdata), (0,)) for stanza, rdata in corpus())
    short = [request for request in records if len(request) < 2000]
    short += [printing(stanza, rdata) for stanza, rdata in SAMPLES]
    rooms = in_rooms(short, answers_to(short))
    return [*numbered(vectors()), *records, *cut_records(), *rooms, *limits(), *lines_of(run("print-requests", "5000", "1"))]


def settled_texts():
    """P2, P3, P8 to P11, P13, P14 and the run-only lines: requests to read and what they answer."""

    def line(field, text, rdata):
        answer = accepted(bytes.fromhex(rdata)) if rdata else b"9 1 -"
        return reading(with_fields(field), text), answer

    yield reading(DOOR, b"30 70 hold lobby", origin=EXAMPLE), accepted(P1)
    yield reading(DOOR, b"30 HOLD lobby", origin=EXAMPLE), b"9 2 -"
    yield line(b"T", b"21060207062815", "FFFFFFFF")
    yield line(b"T", b"21060207062816", None)
    yield line(b"T", b"20000229000000", "%08X" % 951782400)
    yield line(b"S", b'"a\\"\\\\\\255"', "0461225CFF")
    yield line(b"R[L]", b"TYPE1 TYPE28", "000440000008")
    yield line(b"B32", b"VS", "01FF")
    yield line(b"B32", b"VT", None)
    yield line(b"AAAA", b"::", "00" * 16)
    yield line(b"S", b'""', "00")
    yield line(b"B64", b"/w==", "FF")
    for text in (b"19691231235959", b"00000000001", b"4294967296"):
        yield line(b"T", text, None)
    labels = (b"o" * 63 + b".") * 3
    yield line(b"N", labels + b"o" * 61 + b".", FULL_NAME.hex())
    yield line(b"N", labels + b"o" * 62 + b".", None)
    yield reading(with_fields(*[b"I1"] * 64), b"1 " * 64), accepted(b"\x01" * 64)
    yield reading(with_fields(*[b"I1"] * 65), b"1 " * 65), b"5 66 -"


# BIND refuses this text, whose hash has 40 octets; B32 takes up to 255, and X[C] takes the empty salt since request 1, so it is
# accepted here
LONG_HASH = b"2 0 10 - 64P36D1L6ORJGE9G64P36D1L6ORJGE9G64P36D1L6ORJGE9G64P36D1L6ORJGE9G"
LONG_HASH_WIRE = b"0200000A00" + b"28" + b"31323334353637383930" * 4


def vector_texts():
    """The published texts and their octets, none where the text is refused."""
    for _, fields, text, wire in rows("published.tsv"):
        wire = LONG_HASH_WIRE if text == LONG_HASH else wire
        if text not in (b"REFUSE", b"-"):
            octets = None if wire == b"REFUSE" else bytes.fromhex(wire.decode().replace("-", ""))
            yield reading(with_fields(*fields.split()), text), octets


def corpus_texts():
    """The texts of the corpus, and the answers that it states."""
    for (stanza, rdata), (_, text, _) in zip(corpus(), rows("corpus.tsv")):
        yield reading(stanza, text), accepted(rdata)


# texts that each kind of field takes
TAKEN = {
    b"I1": texts("7  0  255  0000000255"),
    b"I2": texts("7  0  256  65535  0000065535"),
    b"I4": texts("7  0  65536  4294967295  0000000001"),
    b"R": texts("TYPE7  TYPE0  type256  tYpE65535  TYPE0000000001"),
    b"R[L]": texts("TYPE7  TYPE0  TYPE65535 type0 TYPE256 TYPE255 TYPE256  TYPE1\tTYPE2"),
    b"A": texts("1.20.199.249  0.0.0.0  255.255.255.255"),
    b"AA": texts("1:22:333:4444  0:0:0:0  FFFF:ffff:0001:aBcD"),
    b"AAAA": texts("2001:db8::1  ::  1::  ::8  FFFF:ffff:0001::aBcD  ::1.2.3.4  1:2:3:4:5:6:7:8  1:2:3:4:5:6:255.255.255.255"),
    b"N": texts(r"a.b.  .  @  a  a.b  @.  \@  \064  a@b.@  \..  a\.b\046c  \000\255  \"\'\;\(\)  *._x.#  a\\  a\\.") + [b"a\\ ", b"\\\tb\\ ."],
    b"S": texts(r""" a  "a b"  ""  ''  @.,=#  "\"\\\000\255\a"  'a"\'b'  "a'b;()"  '\.\ ' """.strip()),
    b"B32": texts("VS  vs  00  VVVVVVVV  0000  0001O  00000  0000008"),
    b"B64": texts("/w==  AA==  +/8=  AAAA  A A = =  AAAAAAA=  A\tAAAAA=="),
    b"X": texts("00  aBCd  A b  0 1 2\t3  0123456789ABCDEFabcdef"),
    b"X[C]": texts("00  aBCd  0123456789ABCDEFabcdef  -"),
    b"EUI48": texts("00-00-5e-00-53-2a  AA-bb-CC-dd-EE-ff"),
    b"EUI64": texts("00-00-5e-ef-10-00-00-2a  AA-bb-CC-dd-EE-ff-01-99"),
    b"T": texts("20000229000000  0  4294967295  0000000001  19700101000000  21060207062815  20241231235959"),
}
TAKEN[b"N[O]"] = TAKEN[b"N"] + [b""]
TAKEN[b"S[X]"] = [text for text in TAKEN[b"S"] if len(text) != 2]
TAKEN[b"S[M]"] = TAKEN[b"S"] + [b" ".join(TAKEN[b"S"]), b"a\t''  b"]

# texts that break the rule of the field, but those that no field takes
BROKEN = {
    b"I1": texts("256  00000000001  4294967297  18446744073709551617  -1  +1  0x1  1.0  1,  x  HOLDS"),
    b"I2": texts("65536  00000000001  4294967297  18446744073709551617  -1  1x"),
    b"I4": texts("4294967296  00000000001  18446744073709551617  9999999999  -1  1e3"),
    b"R": texts("TYPE65536  TYPE00000000001  TYPE4294967297  TYPE  TYP1  TYPE-1  TYPE1x  XTYPE1  7  MX  A"),
    b"R[L]": texts("TYPE65536  TYPE  TYPE1 7  TYPE1 TYPE1x TYPE2  TYPE1,TYPE2  MX TYPE1"),
    b"A": texts("1.2.3  1.2.3.4.5  1.2.3.256  256.2.3.4  01.2.3.4  1.2.3.00  1..3.4  1.2.3.  .1.2.3  1.2.3.4.  1.2.3.x  1.2.3.1000  1"),
    b"AA": texts("1:2:3  1:2:3:4:5  1::2  ::  1:2::4  :1:2:3  1:2:3:  1:2:3:00004  1:2:3:g  1-2-3-4  1"),
    b"AAAA": texts(
        "1:2:3:4:5:6:7  1:2:3:4:5:6:7:8:9  1:2:3:4::5:6:7:8  1:2:3:4:5:6:7:8::  ::1:2:3:4:5:6:7:8  :  :::  1:::2  1::2::3  :1::2  1::2:"
        "  ::00001  ::g  ::1.2.3  ::1.2.3.4.5  ::1.2.3.04  ::1.2.3.256  1.2.3.4  1.2.3.4::  ::1.2.3.4:5  ::1%1  ::1/64"
        "  1:2:3:4:5:6:7:1.2.3.4  1:2:3:4:5:1.2.3.4  1:2:3:4:5:6::1.2.3.4"
    ),
    b"N": texts(r"a..b  .a  ..  a..  \1  \12  \1a2  \256  a\999.") + [b"a" * 64],
    b"S": texts(r'a\b  \065  a\ b  "\256"  "\25"  "\1"  "\1a2"') + [b'"' + b"a" * 256 + b'"'],
    b"B32": texts("VT  V  0  000  000000  000000000  W0  Z0  VS======  V=  -  0 0") + [b"0" * 410],
    b"B64": texts("/x==  AAB=  /w  /w=  A  A===  ====  =  AAA=A  /w==/w==  /w== /w==  AA==A  AA_A  AA-A  AAAA=  AAAA====  AA== ="),
    b"X": texts("0  000  0g  G0  0x00  00 0  00-00  00:00  -"),
    b"X[C]": texts("0  000  0g  0x00") + [b"00" * 256],
    b"EUI48": texts("00-00-5e-00-53  00-00-5e-00-53-2a-00  00:00:5e:00:53:2a  00005e00532a  00-00-5e-00-53-2  00-00-5e-00-53-2g  -00-00-5e-00-53-2a  0-00-5e-00-53-2a0"),
    b"EUI64": texts("00-00-5e-ef-10-00-00  00-00-5e-ef-10-00-00-2a-00  00:00:5e:ef:10:00:00:2a  00005eef1000002a  00-00-5e-ef-10-00-00-2a-"),
    b"T": texts(
        "4294967296  9999999999  00000000001  000000000001  0000000000001  200002290000000  19691231235959  21060207062816  21060208000000  22000101000000"
        "  20000230000000  21000229000000  20010229000000  20000001000000  20001301000000  20000100000000  20000132000000  20000431000000"
        "  20000101240000  20000101006000  20000101000060  99999999999999  00000000000001  2000022900000x  -1  +0"
    ),
}
BROKEN[b"N[O]"] = BROKEN[b"N"]
BROKEN[b"S[X]"] = BROKEN[b"S"][:-1] + [b'""', b"''"]
BROKEN[b"S[M]"] = BROKEN[b"S"] + [b'a "b', b'a"b"', b"a b\\"]

# quoted tokens, which only S fields take
QUOTED = [b'"7"', b"'a.'", b'""']


def kind_of(line):
    """The type of a field line, with the qualifiers that change how it is read."""
    kind = line.strip().split(b":")[0].split()[0]
    kind = {b"X6": b"EUI48", b"X8": b"EUI64"}.get(kind, kind)
    return kind if kind in TAKEN else kind.split(b"[")[0]


def sample_texts():
    """The stanza of each sample, the kinds of its fields and a text for each."""
    for stanza, _ in SAMPLES:
        kinds = [kind_of(line) for line in field_lines(stanza)]
        yield stanza, kinds, [TAKEN[kind][0] for kind in kinds]


def changed_fields():
    """The samples with the text of one field changed: good ones, faulty ones, none, and one more before it."""
    for stanza, kinds, fields in sample_texts():
        for place, kind in enumerate(kinds):
            for text in TAKEN[kind] + BROKEN[kind] + FAULTY + QUOTED:
                yield reading(stanza, b" ".join(fields[:place] + [text] + fields[place + 1 :]), origin=EXAMPLE, room=999)
            yield reading(stanza, b" ".join(fields[:place] + fields[place + 1 :]))
            yield reading(stanza, b" ".join(fields[:place] + [b"7"] + fields[place:]))


def cut_texts():
    """The texts of the samples cut in all ways."""
    for stanza, _, fields in sample_texts():
        yield from text_cuts(stanza, fields)


# a field, and a text around one octet that takes all values
AROUND = [
    (b"I1", b"1", b""),
    (b"I1[A-1=7]", b"a", b"1"),
    (b"R", b"TYPE1", b""),
    (b"R", b"", b"YPE1"),
    (b"R[L]", b"TYPE1", b"TYPE2"),
    (b"A", b"1", b"2.3.4"),
    (b"A", b"1.2.3.", b""),
    (b"AA", b"1:2:3:", b""),
    (b"AAAA", b"1:", b":"),
    (b"AAAA", b"::1.2.3.", b""),
    (b"N", b"", b""),
    (b"N", b"a", b"b."),
    (b"N", b"a\\", b"b."),
    (b"N", b"a\\1", b"0"),
    (b"S", b"a", b"b"),
    (b"S", b"'", b"'"),
    (b"S", b'"\\', b'"'),
    (b"S", b'"\\2', b'5"'),
    (b"S", b'"a"', b""),
    (b"S[X]", b"a ", b""),
    (b"B32", b"", b"0"),
    (b"B32", b"V", b""),
    (b"B64", b"", b"AA="),
    (b"B64", b"A", b"=="),
    (b"B64", b"AAA", b""),
    (b"X", b"", b"0"),
    (b"X[C]", b"0", b""),
    (b"EUI48", b"0", b"-00-00-00-00-00"),
    (b"EUI64", b"00-00-00-00-00-00-00", b"00"),
    (b"T", b"", b"0"),
    (b"T", b"", b"0000101000000"),
]


def every_octet():
    """One octet of a text, through all its values."""
    for field, before, after in AROUND:
        for octet in range(256):
            yield reading(with_fields(field), before + bytes([octet]) + after, room=99)


def symbols():
    """Symbols in any case; numbers beside them; parts of them, and what is none."""
    stanza = with_fields(b"I2[STEP=1,HOLD=2,H=2,last-9=65535]")
    for text in texts("STEP  step  sTeP  hold  h  H  LAST-9  Last-9  1  02  65535  65536  STE  STEPS  last9  last-  -9  HOLD=2  STEP,HOLD  2STEP"):
        yield reading(stanza, text)


def addresses():
    """So many groups before and after '::', or without it, and with a dotted tail."""
    for before, after in itertools.product(range(9), repeat=2):
        for end in ([], [b"1.2.3.4"]):
            back = [b"b"] * after + end
            yield reading(with_fields(b"AAAA"), b":".join([b"a"] * before) + b"::" + b":".join(back), room=16)
        yield reading(with_fields(b"AAAA"), b":".join([b"a"] * before + [b"1.2.3.4"] * (after % 3)), room=16)


def moments():
    """The last day of each month and the one after it; the first and the last second of years."""
    for year in (1969, 1970, 1972, 1999, 2000, 2001, 2024, 2100, 2104, 2106, 2107):
        for month, days in enumerate([31, 28, 31, 30, 31, 30, 31, 31, 30, 31, 30, 31], 1):
            for day in (days, days + 1) if month != 2 else (28, 29, 30):
                yield reading(with_fields(b"T"), b"%d%02d%02d120000" % (year, month, day), room=4)
        yield reading(with_fields(b"T"), b"%d0101000000" % year, room=4)
        yield reading(with_fields(b"T"), b"%d1231235959" % year, room=4)


def type_lists():
    """One type at the edges of octets and windows; many, rising and falling, dense and sparse."""
    for number in (0, 7, 8, 254, 255, 256, 511, 512, 65279, 65280, 65535):
        yield reading(with_fields(b"R[L]"), b"TYPE%d" % number)
    for numbers in (range(256), range(2000, 0, -1), range(7, 65536, 1285), range(65535, 0, -257)):
        yield reading(with_fields(b"R[L]"), b" ".join(b"TYPE%d" % number for number in numbers))


def names():
    """Names about 255 octets, whole and through the origin; labels about 63."""
    for length in (60, 61, 62, 63, 64):
        yield reading(with_fields(b"N"), b"a" * length, origin=FULL_LABELS + b"\x00")
        yield reading(with_fields(b"N[O]"), b"\\097" * length, origin=FULL_LABELS + b"\x00", room=255)
        yield reading(with_fields(b"N"), (b"a" * 63 + b".") * 3 + b"a" * length)
        yield reading(with_fields(b"N"), b"a." * 31 + b"b" * length, origin=EXAMPLE)
    for labels in (126, 127, 128):
        yield reading(with_fields(b"N"), b"a." * labels)
        yield reading(with_fields(b"N"), b".".join([b"a"] * labels))
        yield reading(with_fields(b"N"), b".".join([b"a"] * (labels - 4)), origin=EXAMPLE)
    for origin in (FULL_NAME, b"\x3e" + FULL_NAME[2:], b"\x01o" * 126 + b"\x00"):
        for text in (b"@", b"a", b"a.", b".", b"aa"):
            yield reading(with_fields(b"N"), text, origin=origin)


def origins():
    """Origins that are no whole name, whether the run needs one or not, and before any fault of the text."""
    for origin in BAD_ORIGINS + [EXAMPLE[:octets] for octets in range(len(EXAMPLE))]:
        yield reading(with_fields(b"N"), b"a", origin=origin)
        yield reading(with_fields(b"I1"), b"7", origin=origin)
        yield reading(with_fields(b"I1"), b"", 1, 0, origin=origin)
        yield reading(with_fields(b"N", b"I1"), b"a..b x y", origin=origin, room=0)


def several_faults():
    """A fault or none at each step of the order, all together."""
    head, field = b"T:1\n", b" I1[A=1]\n"
    judged = [head + field, head, head + b" I1[\n", head + b" Z\n" + field, head + b" I1[C]\n" + field, head + field * 65]
    runs, origins = [(1, 1), (0, 1), (1, 66)], [EXAMPLE, b"\x01o"]
    read_texts, rooms = [b"a", b"", b"b", b"1 2", b"b 2", b"1 ;"], [MUCH, 0]
    for stanza, (first, length), origin, text, room in itertools.product(judged, runs, origins, read_texts, rooms):
        yield reading(stanza, text, first, length, origin, room)
    long = head + field + b"#" * LONGEST_STANZA
    yield reading(long, b"1")
    yield reading(b"!" + long, b"b 2", 0, 1, b"", 0)


def longest_line():
    """A request whose stanza, origin, text and line are as long as they can be."""
    stanza = with_fields(b"N", b"R[L]")
    stanza += b"#" * (LONGEST_STANZA - len(stanza))
    text = b"@ " + b" ".join(b"TYPE%d" % (65535 - number * 263 % 65536) for number in range(LONGEST_TEXT // 10))
    text = text[: LONGEST_TEXT - 1].ljust(LONGEST_TEXT - 1) + b"\t"
    line = reading(stanza, text, 1, 2, FULL_NAME, 0)
    # leading zeros of the room fill the line
    return line[:-1] + b"9999".rjust(LONGEST_LINE - len(line) + 1, b"0")


def long_results():
    """Results of 65,535 octets and of one more: 63 times the longest name, then a tail."""
    names = 63
    rest = LONGEST_RDATA - names * len(FULL_NAME)
    strings, left = divmod(rest, 256)
    listed = (b"q" * 255 + b" ") * strings + b"'" + b"q" * (left - 1) + b"'"

    def line(field, text, room=MUCH):
        return reading(with_fields(*[b"N"] * names, field), b"@ " * names + text, origin=FULL_NAME, room=room)

    yield line(b"S[X]", b"s" * rest, LONGEST_RDATA)
    yield line(b"S[X]", b"s" * (rest + 1))
    yield line(b"S[M]", listed)
    yield line(b"S[M]", listed + b" ''")
    yield line(b"B64", b"AAAA" * (rest // 3) + b"AA==")


def stated_numbers():
    """Requests to read of whose answer only the number is stated, and the numbers that it may be."""
    for line, octets in vector_texts():
        if octets is None:
            yield line, REFUSED
    for table, number in ((TAKEN, 0), (BROKEN, 9)):
        for kind, text in ((kind, text) for kind, listed in table.items() for text in listed):
            yield reading(with_fields(kind), text, origin=EXAMPLE), (number,)


def stated_reads():
    """The requests to read that have a stated answer, with it."""
    vectors = ((line, accepted(octets)) for line, octets in vector_texts() if octets is not None)
    return [*readings([b"r"]), *settled_texts(), *corpus_texts(), *vectors]


def other_reads():
    """The other requests to read."""
    others = numbered(stated_numbers())
    bare = [reading(stanza, b" ".join(fields)) for stanza, _, fields in sample_texts()]
    short = [line for line, _ in corpus_texts() if len(line) < 2000]
    others += in_rooms(bare + short, answers_to(bare + short))
    for made in (changed_fields, cut_texts, every_octet, symbols, addresses, moments, type_lists, names, origins, several_faults):
        others += made()
    others += [longest_line(), *long_results()]
    # the limits are tried above, so the random ones are the short ones
    random = [line for line in lines_of(run("read-requests", "5100", "1")) if len(line) < 10_000]
    return others + random[:5000]


# document 01's job, and what it writes
DOOR_JOB = (EXAMPLES / "door.job").read_bytes()
DOOR_LINES = b"ok 001E004602056C6F626279076578616D706C6500\nno 9 2\n"


def changed_jobs():
    """Document 01's job cut at every octet, with each octet doubled, left out and made another, and with other counts."""
    for place in range(len(DOOR_JOB)):
        front, octet, back = DOOR_JOB[:place], DOOR_JOB[place : place + 1], DOOR_JOB[place + 1 :]
        for middle in (octet + octet, b"", b"\n", b" ", b"0", b".", b"\xff"):
            yield front + middle + back
        yield front
    lines = DOOR_JOB.splitlines()
    for place in range(len(lines)):
        for others in (lines[:place] + lines[place + 1 :], lines[:place] + lines[place : place + 1] + lines[place:]):
            yield b"\n".join(others)
    for counts in itertools.product((b"0", b"4", b"5", b"0000000005", b"00000000005"), (b"0", b"1", b"2"), (b"0", b"1", b"2", b"3", b"4294967297")):
        yield b"\n".join([counts[0], *lines[1:6], counts[1], lines[7], counts[2], *lines[9:]])


def long_jobs():
    """The longest line and one octet more, lines that take several turns, and jobs of 65,535 octets and one more."""
    origin = (b"o" * 63 + b".") * 3 + b"o" * 61 + b"."
    names = with_fields(*[b"N"] * 63, b"S[X]")
    rest = LONGEST_RDATA - 63 * len(FULL_NAME)
    for octets in (rest, rest + 1):
        yield job_of(names, origin, [b"@ " * 63 + b"s" * octets, b"@ " * 63 + b"s", b"@ " * 62 + b"s"])
    for records in (255, 256, 800):
        yield job_of(with_fields(b"N"), origin, [b"@"] * records)
    yield job_of(b"T:1\n N", b".", [b"!"] * 20_000)
    short = job_of(with_fields(b"S[X]"), b".", [b"s" * 60_000])
    for size in (65_535, 65_536):
        yield job_of(with_fields(b"S[X]"), b".", [b"s" * (60_000 + size - len(short))])


def turns_job():
    """Document 01's two records, and many more with a long name: each of three turns writes more than 4,096 octets."""
    origin = (b"o" * 63 + b".") * 3 + b"o" * 61 + b"."
    first = [b"30 70 HOLD lobby.example.", b"30 HOLD lobby"]
    return job_of(DOOR, origin, [*first, *[b"30 70 HOLD @"] * 600, first[1]])


def stated_jobs():
    """The jobs that have a stated answer, with it."""
    stated = [(b"W " + request, answer) for request, answer in readings([b"job"])]
    return stated + [(b"W " + word(DOOR_JOB), word(DOOR_LINES))]


def other_jobs():
    """The other jobs."""
    with tempfile.TemporaryDirectory() as folder:
        run("job-requests", "300", "1", folder)
        random = [path.read_bytes() for path in sorted(pathlib.Path(folder).iterdir())]
    return [b"W " + word(job) for job in [*changed_jobs(), *long_jobs(), *random]]


def spellings():
    """Hex of either case."""
    stanza = b"T:1 \xab\xcd\xef\n I1:n\n"
    yield b"J " + stanza.hex().encode()
    yield b"J " + stanza.hex().upper().encode()
    yield b"J " + stanza.hex().title().encode()


def no_requests():
    """All answer '?'. The first is an empty line, the last but for its length a request."""
    yield from lines_of(NO_REQUESTS.encode("latin-1"))
    yield b"J " + b"0A" * (LONGEST_LINE // 2)


def stated():
    """All requests that have a stated answer, with it."""
    return [*readings([b"j"]), *stated_prints(), *stated_reads(), *stated_jobs()]


def others():
    """All other requests."""
    judged = [*published(), *spellings(), *lines_of(run("judge-requests", "3000", "1"))]
    return [*judged, *other_prints(), *other_reads(), *other_jobs()]
