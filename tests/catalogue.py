"""Request 3's lines, names of types: the caller lends a catalogue, which R and R[L] print from and read by.

There are the examples of the readings; the published names (examples/types.tsv) in both directions; every octet in a name
and beside one in a text; each kind of bad entry at several places, up to the 513th, and two at once; places in the lent
text; catalogues of every size about the limits; names of 63 octets in a list of 512 types; texts that are near to a name;
a fault or none at each step of the order of refusals; records cut in all ways; every room; the longest stanza, text and
RDATA; lines of document 01 with no entry, which are answered as before; and 2,500 random requests. In a stated answer the
rule of names is Python's.
"""
import itertools
import random
import re
import struct
import subprocess

from lines import BAD_ORIGINS, EXAMPLES, FULL_NAME, LONGEST_RDATA, LONGEST_STANZA, LONGEST_TEXT, MUCH, accepted, answers_to
from lines import edge_runs, lines_of, named_stanzas, printing, reading, readings, record_cuts, refused, run, stanzas
from lines import text_cuts, texts, with_fields, word

MOST_ENTRIES = 512
LONGEST_NAME = 63
R, LIST = with_fields(b"R"), with_fields(b"R[L]")


def lent(listed, before=b"", after=b""):
    """A catalogue of numbers and names that lie one after the other in the text: its entries and the text."""
    entries, text = [], before
    for number, name in listed:
        entries.append((number, len(text), len(name)))
        text += name
    return entries, text + after


def lending(line, catalogue):
    """A request of document 01 with a catalogue."""
    letter, stanza, first, length, *rest = line.split(b" ")
    entries, text = catalogue
    octets = b"".join(struct.pack(">IHH", *entry) for entry in entries)
    return b" ".join([letter + b"C", stanza, first, length, word(octets), word(text), *rest])


def both_ways(catalogue, stanza, text, octets):
    """A record printed and read back."""
    yield lending(printing(stanza, octets), catalogue), accepted(text)
    yield lending(reading(stanza, text), catalogue), accepted(octets)


def refused_both(catalogue, place):
    """13 where nothing else is wrong, printing and reading."""
    yield lending(printing(R, b"\x00\x05"), catalogue), refused(13, place)
    yield lending(reading(R, b"TYPE5"), catalogue), refused(13, place)


def accepted_both(catalogue):
    """A good catalogue: a type without a name prints its number and reads."""
    yield from both_ways(catalogue, R, b"TYPE65000", b"\xfd\xe8")


def two(number):
    """The octets of R."""
    return number.to_bytes(2, "big")


def blocks(numbers):
    """The octets of R[L]."""
    windows = {}
    for number in numbers:
        octets = windows.setdefault(number >> 8, bytearray(32))
        octets[number % 256 // 8] |= 0x80 >> number % 8
    cut = {window: bytes(octets).rstrip(b"\x00") for window, octets in windows.items()}
    return b"".join(bytes([window, len(cut[window])]) + cut[window] for window in sorted(cut))


def is_name(octets):
    """The rule of names in a catalogue."""
    return bool(re.fullmatch(rb"[A-Za-z][A-Za-z0-9-]{0,62}", octets)) and not re.fullmatch(rb"(?i:type)[0-9]+", octets)


def short_name(index):
    """Two letters, others for each index up to 676."""
    return bytes([ord("a") + index // 26, ord("A") + index % 26])


def many(count):
    """So many entries, two numbers apart, with short names."""
    return [(2 * index + 1, short_name(index)) for index in range(count)]


# what engineers know; the header beside the table must be made from it
subprocess.run([EXAMPLES / "make-types", "--check"], check=True)
TYPES = [(int(number), name) for number, name in (row.split(b"\t") for row in (EXAMPLES / "types.tsv").read_bytes().splitlines())]
PUBLISHED = lent(TYPES)
FEW = lent([(1, b"A"), (2, b"Ns"), (15, b"MX"), (28, b"aAaA"), (46, b"RRSIG"), (256, b"URI"), (65535, b"x-9")])


def published_names():
    """Each published name printed, and read in several cases and as a number; and the types beside it."""
    names = dict(TYPES)
    for number, name in TYPES:
        yield from both_ways(PUBLISHED, R, name, two(number))
        for text in (name.lower(), b"type%05d" % number)[number % 2 :]:
            yield lending(reading(R, text), PUBLISHED), accepted(two(number))
    for number in {beside for number in names for beside in (number - 1, number + 1)} - set(names):
        yield lending(printing(R, two(number)), PUBLISHED), accepted(b"TYPE%d" % number)
    yield from both_ways(PUBLISHED, LIST, b" ".join(names.values()), blocks(names))
    for name in texts("ANY  AXFR  NSEC4  TYPE  NSAPPTR"):
        yield lending(reading(R, name), PUBLISHED), refused(9, 1)


def name_octets():
    """Each octet as a name, and in a name after its first."""
    for octet in range(256):
        for name in (bytes([octet]), b"t" + bytes([octet])):
            catalogue = lent([(5, name)])
            answer = accepted(name) if is_name(name) else refused(13, 1)
            yield lending(printing(R, b"\x00\x05"), catalogue), answer


def text_octets():
    """Each octet before and after a name in a text: only blanks leave it what it is."""
    for octet in range(256):
        one = bytes([octet])
        for text in (one + b"MX", b"MX" + one):
            answer = accepted(b"\x00\x0f") if text.strip(b" \t") == b"MX" else refused(9, 1)
            yield lending(reading(R, text), FEW), answer


# names, and what is none
GOOD_NAMES = texts("A  z  Z9  a-  a--b  TYPE  type  TYPE-1  TYPE1A  TYPE-  TYPEA1  XTYPE1  TYP1  TYPE1-  T")
GOOD_NAMES += [b"n" * LONGEST_NAME, b"TYPE" + b"1" * 58 + b"x"]
BAD_NAMES = texts("TYPE0  TYPE1  type0  tYpE28  TYPE00  TYPE65535  TYPE65536  TYPE99999999999  9  9a  -  -a  a_b  a.  a*  *  \\065")
BAD_NAMES += [b"", b"TYPE" + b"1" * 59, b"n" * (LONGEST_NAME + 1), b"a b", b" a", b"a\t", b"a\x00", b"\xc4", b'"a"', b"TYPE1" * 20]
# numbers above the limit
BAD_NUMBERS = [65536, 65537, 2**31, 2**32 - 1]


def good_names():
    """Names that are near to what none may be, printed, and read in either case."""
    for name in GOOD_NAMES:
        catalogue = lent([(5, name)])
        yield from both_ways(catalogue, R, name, b"\x00\x05")
        yield lending(reading(R, name.swapcase()), catalogue), accepted(b"\x00\x05")


def at_its_place(listed, index, entry):
    """The list with another entry at an index."""
    return [*listed[:index], entry, *listed[index + 1 :]]


def bad_lists(listed, index):
    """The list with each kind of bad entry at an index."""
    number, name = listed[index]
    for bad in BAD_NUMBERS + [65536 + number]:
        yield at_its_place(listed, index, (bad, name))
    for bad in BAD_NAMES:
        yield at_its_place(listed, index, (number, bad))
    earlier = {0, index - 1, index // 2} if index else set()
    for other in earlier:
        yield at_its_place(listed, index, (number, listed[other][1]))
        yield at_its_place(listed, index, (number, listed[other][1].swapcase()))
        yield at_its_place(listed, index, (listed[other][0], name))
    if index:
        yield at_its_place(listed, index, (listed[index - 1][0] - 1, name))
        yield at_its_place(listed, index, (0, name))


def bad_entries():
    """Each kind of bad entry, first and second of three, and late in catalogues as long as they may be."""
    for index in range(2):
        for listed in bad_lists(many(3), index):
            yield from refused_both(lent(listed), index + 1)
    for index in (510, 511):
        for place, listed in enumerate(bad_lists(many(MOST_ENTRIES), index)):
            yield [*refused_both(lent(listed), index + 1)][place % 2]
    # the 513th, whatever it is
    for listed in [*bad_lists(many(MOST_ENTRIES + 1), MOST_ENTRIES)][::4]:
        yield [*refused_both(lent(listed), MOST_ENTRIES + 1)][0]


def numbers_at_limits():
    """The smallest and the largest number, alone and together."""
    for listed in ([(0, b"a")], [(65535, b"a")], [(0, b"a"), (65535, b"b")], [(65534, b"a"), (65535, b"b")]):
        yield from both_ways(lent(listed), R, listed[-1][1], two(listed[-1][0]))
        yield from both_ways(lent(listed), LIST, b" ".join(name for _, name in listed), blocks(number for number, _ in listed))
    yield from refused_both(lent([(65535, b"a"), (65536, b"b")]), 2)
    yield from refused_both(lent([(65535, b"a"), (0, b"b")]), 2)


# entries, the lent text, and the place of 13, 0 for none
PLACES = [
    ([(1, 0, 3), (2, 1, 2), (3, 2, 1), (4, 0, 1), (6, 0, 2)], b"abc", 0),
    ([(1, 2, 1), (2, 1, 1), (3, 0, 1)], b"abc", 0),
    ([(1, 0, 2), (2, 0, 2)], b"abc", 2),
    ([(1, 0, 2), (2, 2, 2)], b"abAB", 2),
    ([(1, 2, 1)], b"abc", 0),
    ([(1, 2, 2)], b"abc", 1),
    ([(1, 3, 0)], b"abc", 1),
    ([(1, 4, 0)], b"abc", 1),
    ([(1, 3, 1)], b"abc", 1),
    ([(1, 0, 4)], b"abc", 1),
    ([(1, 0, 3), (2, 0, 4)], b"abc", 2),
    ([(1, 0, 0)], b"abc", 1),
    ([(1, 0, 0)], b"", 1),
    ([(1, 0, 1)], b"", 1),
    ([(1, 65535, 1)], b"abc", 1),
    ([(1, 65535, 65535)], b"abc", 1),
    ([(1, 1, 65535)], b"abc", 1),
    ([(1, 0, 65535)], b"abc", 1),
    ([(1, 0, 63)], b"n" * 64, 0),
    ([(1, 1, 63)], b"n" * 64, 0),
    ([(1, 2, 63)], b"n" * 64, 1),
    ([(1, 0, 64)], b"n" * 64, 1),
    ([(1, 1, 1)], b"?a?", 0),
    ([(1, 0, 2)], b"?a?", 1),
    ([(1, 1, 2)], b"?a?", 1),
    ([(1, 65535, 1)], b"-" * 65535 + b"z", 0),
    ([(1, 65535, 1)], b"-" * 65535, 1),
    ([(1, 65535, 63)], b"-" * 65535 + b"z" * 63, 0),
    ([(1, 65535, 63)], b"-" * 65535 + b"z" * 62, 1),
    ([(1, 65534, 2)], b"-" * 65534 + b"zz", 0),
]


def places():
    """Names at the edges of the lent text and beyond them, and names that share octets."""
    for entries, text, place in PLACES:
        for number, start, length in entries:
            answer = refused(13, place) if place else accepted(text[start : start + length])
            yield lending(printing(R, two(number)), (entries, text)), answer
            # a long text once
            if len(text) < 65534:
                name, read_answer = text[start : start + length].upper(), refused(13, place) if place else accepted(two(number))
                yield lending(reading(R, name), (entries, text)), read_answer


def sizes():
    """Sizes about the limit; a fault before the 513th entry, and after it."""
    for count in (0, 1, 2, 511, 512):
        yield from accepted_both(lent(many(count)))
    for count in (513, 514, 600):
        yield from refused_both(lent(many(count)), 513)
        for index in (0, 300, 511):
            yield [*refused_both(lent(at_its_place(many(count), index, (2 * index + 1, b"?"))), index + 1)][index % 2]
    yield from refused_both(lent(at_its_place(many(600), 550, (1101, b"?"))), 513)


def two_faults():
    """Each kind of fault before each other one, beside it or apart: the first entry counts."""
    faults = [(65536, b"a"), (1, b"b"), (5, b""), (5, b"TYPE5"), (5, b"-"), (5, b"n" * 64), (5, b"AA")]
    for index, (first, second) in enumerate(itertools.product(faults, repeat=2)):
        beside, apart = [many(1)[0], first, second], [many(1)[0], (4, b"good"), first, (7, b"fine"), second]
        catalogue, place = (lent(apart), 3) if index % 2 else (lent(beside), 2)
        yield [*refused_both(catalogue, place)][index // 2 % 2]


def search():
    """Every number about the entries of a short catalogue; and all of a long one, with types between that have no name."""
    for count in range(9):
        names = dict(many(count))
        for number in range(2 * count + 1):
            text = names.get(number, b"TYPE%d" % number)
            yield lending(printing(R, two(number)), lent(many(count))), accepted(text)
    names, numbers = dict(many(MOST_ENTRIES)), range(2 * MOST_ENTRIES + 2)
    listed = [names.get(number, b"TYPE%d" % number) for number in numbers]
    yield from both_ways(lent(many(MOST_ENTRIES)), LIST, b" ".join(listed), blocks(numbers))
    falling = b" ".join(name.swapcase() for name in reversed(listed))
    yield lending(reading(LIST, falling), lent(many(MOST_ENTRIES))), accepted(blocks(numbers))


def cases():
    """A name in each mixture of cases, and names that begin alike."""
    name = b"nSaP-9t"
    spellings = {bytes(octets) for octets in itertools.product(*zip(name.lower(), name.upper()))}
    for text in sorted(spellings):
        yield lending(reading(R, text), lent([(23, name)])), accepted(b"\x00\x17")
    alike = lent([(number, b"A" * number) for number in range(1, 6)])
    for count in range(7):
        answer = accepted(two(count)) if 1 <= count <= 5 else refused(9 if count else 8, 1)
        yield lending(reading(R, b"a" * count), alike), answer


# texts of R with the catalogue FEW, and the type they read to
TAKEN = {b"MX": 15, b"mx": 15, b"Mx": 15, b" mX\t": 15, b"TYPE15": 15, b"type0000000015": 15, b"AAAA": 28, b"NS": 2}
TAKEN |= {b"X-9": 65535, b"TYPE65535": 65535, b"TYPE0": 0, b"TYPE3": 3, b"a": 1}
NEAR = [b'"MX"', b"'MX'", b"'mx", b'"mx', b"M\\X", b"\\MX", b"\\077X", b"MX\\", b"MX\\ ", b"MX;", b"MX.", b"MX,", b"MX,A", b"(MX)"]
NEAR += texts("TYPE  TYPEMX  XMX  MXX  M  15  0  @  .  -  CNAME  TYPE-1  TYPE65536  TYPE00000000015  TYPE015x  *  ANY  x9  x-  x-9-  A6")
# stanzas with a place for one type: what stands before and after it, in the text and in the octets, and the field
AMONG = [
    (R, b"", b"", b"", b"", 1),
    (with_fields(b"I1", b"R", b"I1"), b"7 ", b" 7", b"\x07", b"\x07", 2),
    (with_fields(b"R", b"R"), b"ns ", b"", b"\x00\x02", b"", 2),
]


def near_names():
    """Texts that are types and that are none, in R alone and among other fields."""
    for stanza, before, after, front, back, field in AMONG:
        for text, number in TAKEN.items():
            yield lending(reading(stanza, before + text + after), FEW), accepted(front + two(number) + back)
        for text in NEAR:
            yield lending(reading(stanza, before + text + after), FEW), refused(9, field)
    for text, answer in ((b"MX A", refused(10, 2)), (b"MX 'A'", refused(10, 2)), (b"M X", refused(9, 1)), (b"", refused(8, 1))):
        yield lending(reading(R, text), FEW), answer


def near_listed_names():
    """The same in R[L], alone and after others."""
    for before, numbers in ((b"", set()), (b"MX TYPE7 mx ", {7, 15})):
        for text, number in TAKEN.items():
            yield lending(reading(LIST, before + text), FEW), accepted(blocks({number} | numbers))
        for text in NEAR:
            yield lending(reading(LIST, before + text), FEW), refused(9, 1)


def not_types():
    """A name is no value of other fields, but of N and S, which take any word; the catalogue is judged all the same."""
    for kind in texts("I1  I2  I4  A  AA  AAAA  B32  X[C]  X  T  EUI48"):
        yield lending(reading(with_fields(kind), b"MX"), FEW), refused(9, 1)
        yield lending(printing(with_fields(kind), b"\x00" * 16), lent([(1, b"?")])), refused(13, 1)
    yield lending(reading(with_fields(b"N"), b"MX"), FEW), accepted(b"\x02MX\x00")
    yield lending(reading(with_fields(b"S"), b"MX"), FEW), accepted(b"\x02MX")
    yield lending(reading(with_fields(b"I1[MX=7]"), b"mx"), FEW), accepted(b"\x07")
    yield lending(printing(with_fields(b"I2"), b"\x00\x0f"), FEW), accepted(b"15")


LONG_NAMES = lent([(1, b"a"), (2, b"n" * 64)])
# a fault or none at each step, and the refusal
STANZAS = [(b"T:1\n R\n N\n", None), (b"T:1\n", (2, 0)), (b"T:1\n R[P]\n", (3, 2)), (b"T:1\n" + b" R\n" * 65, (5, 66))]
RUNS = [((1, 2), None), ((0, 1), (6, 0))]
ORIGINS = [(FULL_NAME, None), (b"\x01o", (7, 0))]
CATALOGUES = [(FEW, None), (LONG_NAMES, (13, 2))]
WIRES = [(b"\x00\x0f\x00", None), (b"\x00\x0f", (8, 2)), (b"\x00\x0f\x40", (9, 2)), (b"\x00\x0f\x00\x00", (10, 3))]
WORDS = [(b"mx .", None), (b"mx", (8, 2)), (b"m .", (9, 1)), (b"mx . a", (10, 3))]


def first_of(refusals, room, result):
    """The answer: the first of the refusals, then 12, then the result."""
    found = [refused(*refusal) for refusal in refusals if refusal]
    return (found + [accepted(result) if room else refused(12, len(result))])[0]


def order():
    """A fault or none at each step of the order, all together."""
    for (stanza, *ill), (span, *no_run), (catalogue, *bad), (rdata, *wrong), room in itertools.product(
        STANZAS, RUNS, CATALOGUES, WIRES, (MUCH, 0)
    ):
        line = printing(stanza, rdata, *span, room=room)
        yield lending(line, catalogue), first_of(ill + no_run + bad + wrong, room, b"MX .")
    for (stanza, *ill), (span, *no_run), (origin, *no_name), (catalogue, *bad), (text, *wrong), room in itertools.product(
        STANZAS, RUNS, ORIGINS, CATALOGUES, WORDS, (MUCH, 0)
    ):
        line = reading(stanza, text, *span, origin, room)
        yield lending(line, catalogue), first_of(ill + no_run + no_name + bad + wrong, room, b"\x00\x0f\x00")


# lines that are refused in place of a header and of a field line, and the number
HEADERS = [(2, b"T"), (4, b"T:0")]
LINES = [(2, b" R["), (2, b"R"), (3, b" R[l]"), (3, b" Z[L]"), (4, b" R[C]")]


def refused_stanzas():
    """2 to 5: a fault of each number on each line that can have it, before a bad catalogue."""
    lines = [b"T:1", b" R", b" N", b" R[L]"]
    faulty = [(2, 0, lines[:1])]
    for place in range(len(lines)):
        for number, line in LINES if place else HEADERS:
            faulty.append((number, place + 1, at_its_place(lines, place, line)))
    faulty += [(4, place + 2, at_its_place(lines, place, b" R[L]")) for place in (1, 2)]
    faulty.append((5, 66, [lines[0], *[b" R"] * 62, *lines[1:]]))
    for number, place, stanza in faulty:
        yield lending(printing(b"\n".join(stanza), b"\x00\x0f\x00"), LONG_NAMES), refused(number, place)
        yield lending(reading(b"\n".join(stanza), b"mx ."), LONG_NAMES), refused(number, place)


def over_limits():
    """1 comes before 13; a stanza, a text and RDATA as long as they may be are judged."""
    longest = R + b"#" * (LONGEST_STANZA - len(R))
    for catalogue, bad in CATALOGUES:
        yield lending(printing(longest, b"\x00\x0f"), catalogue), first_of([bad], MUCH, b"MX")
        yield lending(reading(longest, b"mx"), catalogue), first_of([bad], MUCH, b"\x00\x0f")
        yield lending(printing(longest + b"#", b"\x00\x0f"), catalogue), refused(1, 0)
        yield lending(reading(longest + b"#", b"mx"), catalogue), refused(1, 0)
        yield lending(printing(R, b"\x00\x0f".ljust(LONGEST_RDATA, b"\x00")), catalogue), first_of([bad, (10, 2)], MUCH, b"")
        yield lending(printing(R, b"\x00\x0f".ljust(LONGEST_RDATA + 1, b"\x00")), catalogue), refused(1, 0)
    text = b" ".join(name for _, name in TYPES).ljust(LONGEST_TEXT)
    yield lending(reading(LIST, text), PUBLISHED), accepted(blocks(number for number, _ in TYPES))
    yield lending(reading(LIST, text + b" "), LONG_NAMES), refused(1, 0)


def bad_origins():
    """7 comes before 13, also in a run without fields; printing has no origin."""
    for origin in BAD_ORIGINS:
        yield lending(reading(R, b"mx", origin=origin), LONG_NAMES), refused(7, 0)
        yield lending(reading(R, b"", 1, 0, origin), FEW), refused(7, 0)
    for first, length in ((1, 0), (2, 0)):
        yield lending(reading(R, b"", first, length), LONG_NAMES), refused(13, 2)
        yield lending(printing(R, b"", first, length), LONG_NAMES), refused(13, 2)
        yield lending(reading(R, b"", first, length), FEW), accepted(b"")
    for first, length in edge_runs(1):
        if (first, length) != (2, 0):
            yield lending(reading(R, b"mx", first, length), LONG_NAMES), refused(6, 0)
            yield lending(printing(R, b"\x00\x0f", first, length), LONG_NAMES), refused(6, 0)


def too_long():
    """11: names read to as many octets as RDATA may have, and to one more; 13 comes before it."""
    names = 62
    stanza = with_fields(*[b"N"] * names, b"R", b"S[X]")
    rest = LONGEST_RDATA - names * len(FULL_NAME) - 2
    for octets, catalogue, answer in (
        (rest, FEW, accepted(FULL_NAME * names + b"\x00\x0f" + b"s" * rest)),
        (rest + 1, FEW, refused(11, 0)),
        (rest + 1, LONG_NAMES, refused(13, 2)),
    ):
        yield lending(reading(stanza, b"@ " * names + b"mx " + b"s" * octets, origin=FULL_NAME), catalogue), answer


def rooms():
    """Every room about the result, with names and without."""
    several = with_fields(b"R", b"I1", b"R", b"R[L]")
    text, octets = b"MX 7 TYPE3 A Ns aAaA TYPE29 x-9", b"\x00\x0f\x07\x00\x03" + blocks([1, 2, 28, 29, 65535])
    for stanza, text, octets in ((several, text, octets), (R, b"RRSIG", b"\x00\x2e"), (LIST, b"URI", blocks([256]))):
        for room in range(len(text) + 2):
            answer = accepted(text) if room >= len(text) else refused(12, len(text))
            yield lending(printing(stanza, octets, room=room), FEW), answer
        for room in range(len(octets) + 2):
            answer = accepted(octets) if room >= len(octets) else refused(12, len(octets))
            yield lending(reading(stanza, text.lower(), room=room), FEW), answer


def longest_names():
    """A list of 512 types with names of 63 octets, one after the other and one octet apart, in rooms exact and one short."""
    apart = [(97 * index, b"%s-%03d" % (b"Nm" * 29 + b"x", index)) for index in range(MOST_ENTRIES)]
    # each octet begins a name, and no two parts of 63 octets are alike
    text = b"".join(b"%c%s" % (97 + index // 26, bytes([65 + index % 26])) for index in range(MOST_ENTRIES))
    shared = [(97 * index, index, LONGEST_NAME) for index in range(MOST_ENTRIES)]
    numbers = [97 * index for index in range(MOST_ENTRIES)]
    for catalogue in (lent(apart), (shared, text)):
        names = b" ".join(catalogue[1][start : start + length] for _, start, length in catalogue[0])
        octets = blocks(numbers)
        assert len(names) == 64 * MOST_ENTRIES - 1
        yield lending(printing(LIST, octets, room=len(names)), catalogue), accepted(names)
        yield lending(printing(LIST, octets, room=len(names) - 1), catalogue), refused(12, len(names))
        yield lending(reading(LIST, names.swapcase(), room=len(octets)), catalogue), accepted(octets)
        yield lending(reading(LIST, names, room=len(octets) - 1), catalogue), refused(12, len(octets))


def no_entries():
    """The examples of document 01 with no entry, with a lent text and without: as they were."""
    for line, answer in [*readings([b"p", b"r"])]:
        if len(line) < 600:
            yield lending(line, ([], b"MX")), answer
    for line, answer in ((printing(R, b"\x00\x0f"), accepted(b"TYPE15")), (reading(R, b"mx"), refused(9, 1))):
        for text in (b"", b"?", b"MX"):
            yield lending(line, ([], text)), answer


def judged():
    """Judging takes no catalogue."""
    lines = [(line, answer) for line, answer in readings([b"j"]) if len(line) < 600]
    published = [b"J " + word(stanza) for stanza in stanzas()]
    longest = R + b"#" * (LONGEST_STANZA - len(R))
    lines += zip(published, answers_to(published))
    lines += [(b"J " + word(longest), b"0 1"), (b"J " + word(longest + b"#"), b"1 0"), (b"J -", b"2 0")]
    return [(b"JC" + line[1:], answer) for line, answer in lines]


def cuts():
    """Records with types at the start, in the middle and at the end, cut in all ways; with and without names for them."""
    records = [
        ([b"R", b"I1", b"R", b"R[L]"], texts("mx  7  TYPE3  A aaaa x-9"), b"\x00\x0f\x07\x00\x03" + blocks([1, 28, 65535])),
        ([b"I1", b"R", b"N"], texts("7  Uri  a."), b"\x07\x01\x00\x01a\x00"),
    ]
    for fields, text, octets in records:
        stanza = with_fields(*fields)
        for line in itertools.chain(record_cuts(stanza, octets), text_cuts(stanza, text)):
            yield lending(line, FEW)


def damaged(draw, octets):
    """Octets cut, with one more, or with one changed."""
    place = draw.randrange(len(octets) + 1)
    return draw.choice([octets[:place], octets + draw.randbytes(1), octets[:place] + draw.randbytes(1) + octets[place + 1 :]])


def damaged_catalogue(draw, catalogue):
    """An entry with one number changed a little or altogether, two entries changed about, or a changed text."""
    entries, text = [*map(list, catalogue[0])], catalogue[1]
    place, part = draw.randrange(len(entries)), draw.randrange(3)
    other = draw.randrange(len(entries))
    choice = draw.randrange(4)
    if choice == 0:
        entries[place][part] = max(0, entries[place][part] + draw.choice([-2, -1, 1, 2]))
    elif choice == 1:
        entries[place][part] = draw.choice([0, 1, 63, 64, 65535, draw.randrange(65536)])
    elif choice == 2:
        entries[place], entries[other] = entries[other], entries[place]
    else:
        text = damaged(draw, text)
    return entries, text


# the octets before the types of published descriptions that end in R[L]
HEADS = {b"NSEC": b"\x01a\x00", b"NSEC3": b"\x01\x00\x00\x0a\x00\x01\xff", b"CSYNC": b"\x00\x00\x00\x07\x00\x03"}
SIGNED = b"\x05\x02" + b"\x00\x00\x0e\x10" + b"\x38\xbb\x04\x80" * 2 + b"\x12\x34\x01a\x00\xab"


def drawn_record(draw):
    """A random record of a published description that has types: its stanza and its octets."""
    kind = draw.choice([b"RRSIG", *HEADS])
    types = [draw.choice([*dict(TYPES), draw.randrange(65536)]) for _ in range(draw.randrange(1, 7))]
    return named_stanzas()[kind], two(types[0]) + SIGNED if kind == b"RRSIG" else HEADS[kind] + blocks(types)


def drawn_records():
    """Random records, each with a catalogue; of every four one has its octets damaged, and one its catalogue."""
    draw = random.Random(3)
    for number in range(500):
        stanza, rdata = drawn_record(draw)
        catalogue = draw.choice([PUBLISHED, lent(sorted(draw.sample(TYPES, 9)), b"?", b"?"), FEW])
        if number % 4 == 1:
            rdata = damaged(draw, rdata)
        if number % 4 == 3:
            catalogue = damaged_catalogue(draw, catalogue)
        yield stanza, rdata, catalogue


def drawn():
    """The random records printed."""
    return [lending(printing(stanza, rdata), catalogue) for stanza, rdata, catalogue in drawn_records()]


def read_back():
    """What is printed, read with the published names in small letters."""
    known = {name for _, name in TYPES}
    for (stanza, rdata, catalogue), answer in zip(drawn_records(), answers_to(drawn())):
        number, _, octets = answer.split()
        if number == b"0":
            tokens = bytes.fromhex(octets.decode()).split(b" ")
            text = b" ".join(token.lower() if token in known else token for token in tokens)
            yield lending(reading(stanza, text), catalogue), accepted(rdata)


def no_requests():
    """A catalogue that ends inside an entry, too few and too many words, and other letters."""
    entry = b"0000000F00000002"
    for count, octets in itertools.product((0, 1, MOST_ENTRIES), range(1, 8)):
        if count < MOST_ENTRIES or octets in (1, 7):
            tail = entry * count + b"00" * octets
            yield b"PC %s 1 1 %s 4D58 000F 9" % (word(R), tail)
            yield b"RC %s 1 1 %s 4D58 00 4D58 9" % (word(R), tail)
    yield from lines_of(NO_REQUESTS)


NO_REQUESTS = b"""JC
JC\x20
JC  -
JC - -
JC 0
JC 0G
jc -
Jc -
CJ -
PC
PC - 1 1 - -
PC - 1 1 - - 5
PC - 1 1 - - - 5 5
PC - 1 1 - - - 5\x20
PC - 1 1 -  - - 5
PC - 1 1 0 - - 5
PC - 1 1 000000000000000G - - 5
PC - 1 1 - 0 - 5
PC - 1 1 - G0 - 5
PC - 1 1 - - - +5
PC - 1 1 - - - 18446744073709551616
PC - -1 1 - - - 5
pc - 1 1 - - - 5
RC
RC - 1 1 - - -
RC - 1 1 - - 5
RC - 1 1 - - - 5
RC - 1 1 - - - - 5 5
RC - 1 1 0 - - - 5
RC - 1 1 - 0 - - 5
RC - 1 1 - - 0 - 5
RC - 1 1 - - - 0 5
RC - 1 1 - - - - -5
RC - 1 1 -  - - 5
rc - 1 1 - - - - 5
WC -
"""


def stated():
    """All requests that have a stated answer, with it."""
    made = (published_names, name_octets, text_octets, good_names, bad_entries, numbers_at_limits, places, sizes, two_faults)
    made += (search, cases, near_names, near_listed_names, not_types, order, refused_stanzas, over_limits, bad_origins)
    made += (too_long, rooms, longest_names, no_entries, judged, read_back)
    lines = [*readings([b"pc", b"rc"]), *[line for lines in made for line in lines()]]
    # some are made twice
    return list(dict(lines).items())


def others():
    """All other requests."""
    return [*cuts(), *drawn(), *lines_of(run("catalogue-requests", "1690", "1"))]
