"""Request 1's lines, records with no salt: X[C] takes count 0, which prints `-`, and the bare token `-` reads as count 0.

There are the published records with an empty salt; `-` and what is like it in X[C], with other fields around it, and in
the other kinds of fields; each octet beside `-`; each count with exactly its octets, one fewer and one more; two and three
empty salts, cut in all ways; every refusal at every place that it can have beside an empty salt; jobs; and 2,500 random
requests. The examples of the decisions are among the readings, which document 01's lines have.
"""
import re

from lines import BAD_ORIGINS, FULL_NAME, LONGEST_RDATA, LONGEST_STANZA, MOST_FIELDS, accepted, edge_runs
from lines import field_lines, job_of, lines_of, named_stanzas, numbered, printing, reading, record_cuts, refused, rows
from lines import run, text_cuts, texts, with_fields, word

NSEC3, NSEC3PARAM = (named_stanzas()[name] for name in (b"NSEC3", b"NSEC3PARAM"))

# a text for each kind of field, as it is printed, and its octets
FIELDS = {
    b"I1": (b"7", b"\x07"),
    b"I1[SHA-1=1]": (b"SHA-1", b"\x01"),
    b"I1[OPTOUT=1]": (b"0", b"\x00"),
    b"I2": (b"10", b"\x00\x0a"),
    b"N": (b"a.", b"\x01a\x00"),
    b"X[C]": (b"-", b"\x00"),
    b"B32": (b"VS", b"\x01\xff"),
    b"X": (b"ABCD", b"\xab\xcd"),
    b"R[L]": (b"TYPE1", b"\x00\x01\x40"),
    b"N[O]": (b"b.", b"\x01b\x00"),
}

# `-` alone, whatever blanks are around it; bare tokens that have it and more; with an escape; in quotes, and these
# empty; and tokens with a fault, some of them cut by a control octet
ALONE = [b"-", b"- ", b" -", b"\t-", b"-\t", b"\t-\t", b" \t- \t "]
WITH_MORE = texts("--  ---  -A  A-  -AB  AB-  A-B")
ESCAPED = texts(r"\-  \045")
QUOTED = [b'"-"', b"'-'", b'""', b'"" ', b"''"]
WITH_FAULT = [b'-"', b"-'", b"-;", b"-(", b";-", b'"-', b"-\x00", b"\x00-", b"-\x01-", b"-\n", b"\n-", b"-\r", b"-\x1f", b"-\x7f", b"-\xad"]
REFUSED = WITH_MORE + ESCAPED + QUOTED + WITH_FAULT


def kinds_of(stanza):
    """The types of the fields, with their qualifiers."""
    return [line.split(b":")[0].strip() for line in field_lines(stanza)]


def record_of(stanza):
    """A record with empty salts: the texts of its fields and their octets."""
    return tuple(map(list, zip(*[FIELDS[kind] for kind in kinds_of(stanza)])))


def stanza_of(fields):
    """A stanza with these fields, parted by spaces."""
    return with_fields(*fields.split())


# two that have the refusals at all their places
ONE_SALT = stanza_of(b"I1 X[C] I1")
WHOLE = [(stanza, *record_of(stanza)) for stanza in (ONE_SALT, NSEC3)]
SALTED = [stanza_of(fields) for fields in texts("X[C]  I1 X[C] I1  X[C] X  X[C] B32  X[C] R[L]  X[C] N[O]  X[C] X[C]  N X[C]")]
SALTED += [NSEC3, NSEC3PARAM]


def changed(parts, place, part):
    """The parts with another one at a place."""
    return [*parts[:place], part, *parts[place + 1 :]]


def printed_word(field, text):
    """The text of one field as it is printed: the first symbol of its number, else in upper case."""
    symbols = {number: symbol for symbol, number in reversed(re.findall(rb"([\w-]+)=(\d+)", field))}
    return symbols.get(text, text.upper())


def printed_text(fields, text):
    """A text as it is printed: each field so, types in rising order."""
    words = text.split()
    single = [field for field in fields if field != b"R[L]"]
    types = sorted(words[len(single) :], key=lambda name: int(name.removeprefix(b"TYPE")))
    return b" ".join([*map(printed_word, single, words), *types])


def published():
    """The published records that have a text: it reads to the octets, and they print it as document 01 prints."""
    for _, fields, text, wire in rows("salt.tsv"):
        if text != b"-":
            stanza, octets = stanza_of(fields), bytes.fromhex(wire.decode())
            yield reading(stanza, text), accepted(octets)
            yield printing(stanza, octets), accepted(printed_text(fields.split(), text))


def published_wires():
    """The published records without a text: the octets are accepted."""
    for _, fields, text, wire in rows("salt.tsv"):
        if text == b"-":
            yield printing(stanza_of(fields), bytes.fromhex(wire.decode())), (0,)


def dashes():
    """`-` and what is like it in X[C]: first, in the middle and last of its fields."""
    for stanza in SALTED:
        fields, octets = record_of(stanza)
        for place in (place for place, kind in enumerate(kinds_of(stanza)) if kind == b"X[C]"):
            for text in ALONE:
                yield reading(stanza, b" ".join(changed(fields, place, text))), accepted(b"".join(octets))
            for text in REFUSED:
                yield reading(stanza, b" ".join(changed(fields, place, text))), refused(9, place + 1)


def dashes_elsewhere():
    """The same in other kinds of fields, where it is 9; N takes bare tokens with their escapes, S bare and quoted ones."""
    for kind in texts("X  B32  B64  I1  EUI48  T  R  A"):
        for text in ALONE + REFUSED:
            yield reading(with_fields(kind), text), refused(9, 1)
    values = {text: text.strip() for text in ALONE + WITH_MORE}
    names = values | dict.fromkeys(ESCAPED, b"-")
    strings = values | {text: text.strip()[1:-1] for text in QUOTED}
    for kind, taken, end in ((b"N", names, b"\x00"), (b"S", strings, b"")):
        for text in ALONE + REFUSED:
            value = taken.get(text)
            answer = refused(9, 1) if value is None else accepted(bytes([len(value)]) + value + end)
            yield reading(with_fields(kind), text), answer


def two_tokens():
    """`-` beside other tokens, where one, two or three fields take them in their order."""
    for stanza in map(stanza_of, texts("X[C]  X[C] X  X[C] X[C]  X[C] B32  I1 X[C] I1")):
        for text in texts('- -  - AB  AB -  -\tAB  - - -  7 - 7  - 7 7  7 7 -  7 - -  - VS  - -- 7  7 "-" 7  7 -7  7- 7  7-7'):
            yield reading(stanza, text)


def every_octet():
    """Each octet alone, before `-` and after it: only blanks leave `-` what it is."""
    for octet in range(256):
        one = bytes([octet])
        for text in (one, one + b"-", b"-" + one):
            token = text.strip(b" \t")
            answer = {b"-": accepted(b"\x00"), b"": refused(8, 1)}.get(token, refused(9, 1))
            yield reading(with_fields(b"X[C]"), text), answer


def salt_of(count):
    """A salt of so many octets: its octets after their count, and its text."""
    octets = bytes((count + place) % 256 for place in range(count))
    return bytes([count]) + octets, octets.hex().upper().encode() or b"-"


def every_count():
    """Each count with exactly its octets, one fewer and one more, alone and before another field."""
    for count in range(256):
        octets, text = salt_of(count)
        after = {
            b"X[C]": (accepted(text), refused(10, 2)),
            b"X[C] X": (refused(8, 2), accepted(text + b" AB")),
            b"X[C] B32": (refused(8, 2), refused(8, 2)),
            b"X[C] R[L]": (accepted(text), refused(8, 2)),
        }
        for fields, (exactly, one_more) in after.items():
            yield printing(stanza_of(fields), octets), exactly
            yield printing(stanza_of(fields), octets[:-1]), refused(8, 1)
            yield printing(stanza_of(fields), octets + b"\xab"), one_more


def counts_in_text():
    """The smallest and the largest salts as texts, in either case, alone and before another field; and one that is too large."""
    for fields in texts("X[C]  X[C] X  X[C] B32  X[C] R[L]"):
        stanza = stanza_of(fields)
        words, parts = record_of(stanza)
        for count in (0, 1, 254, 255):
            octets, text = salt_of(count)
            for spelled in {text: True, text.lower(): True}:
                yield reading(stanza, b" ".join([spelled, *words[1:]])), accepted(b"".join([octets, *parts[1:]]))
            yield printing(stanza, b"".join([octets, *parts[1:]])), accepted(b" ".join([text, *words[1:]]))
        yield reading(stanza, b" ".join([b"AB" * 256, *words[1:]])), refused(9, 1)


def no_hash():
    """Count 0 of B32 stays 9, at its count octet, after an empty salt too."""
    for more in (b"", b"\x00", b"\x01\xff"):
        yield printing(with_fields(b"B32"), b"\x00" + more), refused(9, 1)
        yield printing(stanza_of(b"X[C] B32"), b"\x00\x00" + more), refused(9, 2)
        yield printing(NSEC3, b"\x01\x00\x00\x0a\x00\x00" + more), refused(9, 5)


def most_salts():
    """So many empty salts as a stanza has fields, and one more field."""
    stanza = with_fields(*[b"X[C]"] * MOST_FIELDS)
    text, octets = b" ".join([b"-"] * MOST_FIELDS), b"\x00" * MOST_FIELDS
    yield reading(stanza, text), accepted(octets)
    yield printing(stanza, octets), accepted(text)
    yield reading(stanza, text[:-1]), refused(8, MOST_FIELDS)
    yield printing(stanza, octets[:-1]), refused(8, MOST_FIELDS)
    yield reading(stanza + b" X[C]\n", text + b" -"), refused(5, MOST_FIELDS + 2)
    yield printing(stanza + b" X[C]\n", octets + b"\x00"), refused(5, MOST_FIELDS + 2)


def cuts():
    """Two and three empty salts, alone and among other fields, and the two whole records, cut in all ways."""
    several = map(stanza_of, texts("X[C] X[C]  X[C] X[C] X[C]  I1 X[C] X[C] I1  X[C] I1 X[C] N X[C]  X[C] X[C] R[L]"))
    for stanza in [*several, ONE_SALT, NSEC3, NSEC3PARAM]:
        fields, octets = record_of(stanza)
        yield from record_cuts(stanza, b"".join(octets))
        yield from text_cuts(stanza, fields)


def both_ways(stanza, fields, octets, first, length, answer):
    """A request to read and one to print, refused alike for the stanza or the run."""
    yield reading(stanza, b" ".join(fields), first, length), answer
    yield printing(stanza, b"".join(octets), first, length), answer


def over_limits():
    """1: a stanza and RDATA of one octet too many; and as many as there may be. Document 01's lines have the longest text."""
    for stanza, fields, octets in WHOLE:
        longest = stanza + b"#" * (LONGEST_STANZA - len(stanza))
        yield reading(longest, b" ".join(fields)), accepted(b"".join(octets))
        yield printing(longest, b"".join(octets)), accepted(b" ".join(fields))
        yield from both_ways(longest + b"#", fields, octets, 1, len(fields), refused(1, 0))
    for octets, answer in ((LONGEST_RDATA, refused(10, 4)), (LONGEST_RDATA + 1, refused(1, 0))):
        yield printing(ONE_SALT, b"\x07\x00\x07".ljust(octets, b"\x00")), answer


# header lines and field lines that are refused, and the number
HEADERS = [(2, b"T"), (4, b"T:0")]
LINES = [(2, b" X[C"), (2, b"X[C]"), (2, b" X[-]"), (3, b" X[c]"), (3, b" Z[C]"), (4, b" X[C,C]"), (4, b" X[C=0]"), (4, b" B32[C]")]


def faulty_stanzas(stanza):
    """The stanza with a fault of each number on each line that can have it: the number, the place and the stanza."""
    lines = stanza.splitlines()
    yield 2, 0, lines[0]
    for place in range(len(lines)):
        for number, line in LINES if place else HEADERS:
            yield number, place + 1, b"\n".join(changed(lines, place, line))
    for place in range(1, len(lines) - 1):
        yield 4, place + 2, b"\n".join(changed(lines, place, b" X"))
    more = [b" I1"] * (MOST_FIELDS + 2 - len(lines))
    yield 5, MOST_FIELDS + 2, b"\n".join([lines[0], *more, *lines[1:]])


def refused_stanzas():
    """2 to 5: the records under stanzas that are refused."""
    for stanza, fields, octets in WHOLE:
        for number, place, faulty in faulty_stanzas(stanza):
            yield from both_ways(faulty, fields, octets, 1, len(fields), refused(number, place))


def refused_runs_and_origins():
    """6 and, when reading, 7."""
    for stanza, fields, octets in WHOLE:
        count = len(fields)
        for first, length in [(2, count), (count + 1, 1), *edge_runs(count)]:
            if (first, length) != (count + 1, 0):
                yield from both_ways(stanza, fields, octets, first, length, refused(6, 0))
        for origin in BAD_ORIGINS:
            yield reading(stanza, b" ".join(fields), origin=origin), refused(7, 0)


def refused_fields():
    """8 and 9 at each field: its octets cut, its text absent, and its rule broken."""
    for stanza, fields, octets in WHOLE:
        for place, kind in enumerate(kinds_of(stanza)):
            front, text = b"".join(octets[:place]), b" ".join(fields[:place])
            # no block at all is allowed
            if kind != b"R[L]":
                yield printing(stanza, front), refused(8, place + 1)
                yield reading(stanza, text), refused(8, place + 1)
            for cut in range(1, len(octets[place])):
                yield printing(stanza, front + octets[place][:cut]), refused(8, place + 1)
            # of X[C] there are such above
            for broken in [] if kind == b"X[C]" else ALONE + REFUSED:
                yield reading(stanza, b" ".join(changed(fields, place, broken))), refused(9, place + 1)
            for broken in {b"B32": (b"\x00",), b"R[L]": (b"\x00\x00", b"\x00\x21", b"\x00\x01\x00", b"\x01\x01\x40\x01")}.get(kind, ()):
                yield printing(stanza, front + broken), refused(9, place + 1)


def left_over():
    """10: something left after each run that no tail ends, an empty salt or another octet, a dash or another token."""
    for stanza, fields, octets in WHOLE:
        ends = len(fields) - (stanza == NSEC3)
        for first in range(ends + 1):
            for length in range(ends - first + 1):
                front, text = b"".join(octets[first : first + length]), b" ".join(fields[first : first + length])
                for more in (b"\x00", b"\x01\xab", b"\xff"):
                    yield printing(stanza, front + more, first + 1, length), refused(10, length + 1)
                for more in (b"-", b"--", b"7", b"'-'", b";", b"-\x00"):
                    yield reading(stanza, text + b" " + more, first + 1, length), refused(10, length + 1)


def too_long():
    """11: an empty salt is one octet, which may be the last that RDATA can have; one of two octets is then too long."""
    names = 62
    rest = LONGEST_RDATA - names * len(FULL_NAME) - 1
    for text, octets, answer in (
        (b"-", rest, accepted(FULL_NAME * names + b"\x00" + b"s" * rest)),
        (b"-", rest + 1, refused(11, 0)),
        (b"00", rest, refused(11, 0)),
        (b"--", rest + 1, refused(9, names + 1)),
    ):
        stanza = with_fields(*[b"N"] * names, b"X[C]", b"S[X]")
        yield reading(stanza, b"@ " * names + text + b" " + b"s" * octets, origin=FULL_NAME), answer
    # without a tail even the longest names leave room
    names = MOST_FIELDS - 1
    stanza = with_fields(*[b"N"] * names, b"X[C]")
    yield reading(stanza, b"@ " * names + b"-", origin=FULL_NAME), accepted(FULL_NAME * names + b"\x00")


def rooms():
    """12: every room from none to one more than enough."""
    for stanza, fields, octets in WHOLE:
        text, rdata = b" ".join(fields), b"".join(octets)
        for room in range(len(rdata) + 2):
            yield reading(stanza, text, room=room), accepted(rdata) if room >= len(rdata) else refused(12, len(rdata))
        for room in range(len(text) + 2):
            yield printing(stanza, rdata, room=room), accepted(text) if room >= len(text) else refused(12, len(text))


def jobs():
    """Jobs of records with an empty salt, with what is none, and without a salt."""
    for stanza, records, written in (
        (NSEC3PARAM, texts("1 0 10 -  1 0 10 --  1 0 10"), b"ok 0100000A00\nno 9 4\nno 8 4\n"),
        (NSEC3PARAM, [b" sha-1\t0 10 -\t", b'1 0 10 "-"', b"1 0 10 - -"], b"ok 0100000A00\nno 9 4\nno 10 5\n"),
        (NSEC3, texts("1 0 10 - VS  1 0 10 -VS  1 0 10 - -  1 0 10 - VS TYPE1 -"), b"ok 0100000A0001FF\nno 9 4\nno 9 5\nno 9 6\n"),
    ):
        yield b"W " + word(job_of(stanza, b".", records)), word(written)


def stated():
    """All requests that have a stated answer, with it."""
    made = (published, dashes, dashes_elsewhere, every_octet, every_count, counts_in_text, no_hash, most_salts)
    made += (over_limits, refused_stanzas, refused_runs_and_origins, refused_fields, left_over, too_long, rooms, jobs)
    return [line for lines in made for line in lines()]


def others():
    """All other requests."""
    return [*numbered(published_wires()), *two_tokens(), *cuts(), *lines_of(run("salt-requests", "2500", "1"))]
