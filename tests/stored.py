"""Request 4's lines, descriptions as the DNS stores them: counted strings, the first of them the tag.

There are the examples of the readings and of draft 13; the 65 published descriptions stored, and published records printed
and read under them; a description cut at every octet, and with each count changed; wrong tags; other editions, before every
other refusal but 1; every octet at the start, in and at the end of a string; each fault of a line at each string, with
ignored strings between; strings of 255 octets, 64 fields and 8,192 octets in all, one fewer and one more; a fault or none
at each step of the order of refusals; records cut in all ways; every room; strings and the file that has them as its lines,
judged, printed and read under, which are answered alike; and 2,200 random requests. What a stored form answers is stated
from the file's answer, where it has one.
"""
import itertools

from base import DOOR, P1, SAMPLES, corpus, corpus_texts, sample_texts
from lines import BAD_ORIGINS, EXAMPLE, FULL_NAME, LONGEST_RDATA, LONGEST_STANZA, MOST_FIELDS, MUCH, accepted
from lines import answers_to, edge_runs, lines_of, printing, reading, readings, record_cuts, refused, run, stanzas, text_cuts
from lines import texts, with_fields, word

TAG = b"RRTYPE=1"
EDITION = 13
LONGEST_STRING = 255
# some are 13 in fewer bits
EDITIONS = [0, 1, 10, 12, 14, 23, 113, 130, 269, 65549, 2**32 + 13, 2**63 + 13, 2**64 - 13, MUCH]
# strings that only count; an LF in a comment ends nothing
IGNORED = [b"", b" ", b"\t", b" \t ", b"#", b"# c", b" # c", b"\t#", b"# c\n I2", b"#\n", b" #\nI1", b"#\x00\xff\r"]


def txt(*strings):
    """Counted strings."""
    return b"".join(bytes([len(string)]) + string for string in strings)


def stored(*strings):
    """The tag and these strings."""
    return txt(TAG, *strings)


def judging(octets, edition=EDITION):
    """A request to judge a stored description."""
    return b"JS %s %d" % (word(octets), edition)


def is_ignored(string):
    """Whether a string only counts."""
    return string.strip(b" \t")[:1] in (b"", b"#")


def octets_of(part):
    """The octets of a word of a request."""
    return bytes.fromhex(part.decode().removeprefix("-"))


def strings_of(stanza):
    """The lines of a file as strings: without their leading blanks."""
    return [line.lstrip(b" \t") for line in stanza.removesuffix(b"\n").split(b"\n")] if stanza else []


def file_form(strings):
    """The file that has these strings as its lines, one space before each after the header."""
    header = next((place for place, string in enumerate(strings) if not is_ignored(string)), len(strings))
    return b"".join(b" " * (place > header) + string + b"\n" for place, string in enumerate(strings))


def storing(line, octets=None, edition=EDITION):
    """A request of document 01 with a stored description, that of its file where no other is given."""
    letter, stanza, *rest = line.split(b" ")
    if octets is None:
        octets = stored(*strings_of(octets_of(stanza)))
    return b" ".join([letter + b"S", word(octets), b"%d" % edition, *rest])


def one_on(answer):
    """The answer of a file as that of its stored form: line numbers are one apart, and 0 is none."""
    number, place, *octets = answer.split(b" ")
    if number in (b"2", b"3", b"4", b"5") and place != b"0":
        place = b"%d" % (int(place) + 1)
    return b" ".join([number, place, *octets])


def alike(requests):
    """Requests over files, stored: the stored form is answered as the file."""
    requests = list(requests)
    return [(storing(line), one_on(answer)) for line, answer in zip(requests, answers_to(requests))]


def both(requests):
    """Requests over files and the same stored."""
    requests = list(requests)
    return [*zip(requests, answers_to(requests)), *alike(requests)]


def in_all_ways(octets, number, place, edition=EDITION):
    """A description that is refused, judged and in both conversions, with a bad run and a bad origin beside it."""
    yield judging(octets, edition), b"%d %d" % (number, place)
    for first, length, origin in ((1, 1, b"\x00"), (0, 9, b"")):
        yield storing(printing(b"", b"\x07", first, length), octets, edition), refused(number, place)
        yield storing(reading(b"", b"7", first, length, origin), octets, edition), refused(number, place)


def of_draft():
    """The examples of draft 13; and one with a language string after the tag, which is a bad header in this edition."""
    for strings, answer in (
        ([b"FOO:999 Foorec", b"I2:count Count"], b"0 1"),
        ([b"FOO:999 Foorec", b"I2:count Count", b"..."], b"2 4"),
        ([b"FOO:999 Un foo", b"I2:count Compte"], b"0 1"),
        ([b"A", b"A6", b"WKS", b"X25"], b"2 2"),
        ([b"EN", b"FOO:999 Foorec", b"I2:count Count"], b"2 2"),
    ):
        yield judging(stored(*strings)), answer


def published():
    """The published descriptions; none has a line that is too long for a string."""
    return alike(b"J " + word(stanza) for stanza in stanzas())


def published_records():
    """The short records of the corpus, both ways."""
    printed = [printing(stanza, rdata) for stanza, rdata in corpus()]
    short = [line for line in printed if len(line) < 1500]
    yield from alike(short)
    for line, answer in corpus_texts():
        if len(line) < 1500:
            yield storing(line), answer


# a description with ignored strings between its lines
STRINGS = [b"# c", b"DOOR:65280:I Door", b"", b"I2:opening Tenths", b" # c", b"I1[STEP=1,HOLD=2]:mode", b"#\n I2"]
STRINGS += [b"N:site", b"X"]


def cut_anywhere():
    """Cut at every octet: where no string ends there 8, else what the strings before it make."""
    whole, ends = stored(*STRINGS), {}
    for count in range(len(STRINGS) + 1):
        lines = [line for line in STRINGS[:count] if not is_ignored(line)]
        ends[len(stored(*STRINGS[:count]))] = b"0 %d" % (len(lines) - 1) if len(lines) > 1 else b"2 0"
    for octets in range(len(whole) + 1):
        strings = sum(end <= octets for end in ends)
        answer = ends.get(octets, b"8 %d" % (strings + 1)) if octets else b"14 1"
        yield judging(whole[:octets]), answer
        if octets not in ends and octets and octets % 3 == 0:
            yield from in_all_ways(whole[:octets], 8, strings + 1)


def cut_strings():
    """A string cut short after so many whole ones, whatever they are; and the last one that can be."""
    for count in range(40):
        yield judging(stored(b"T:1", b"I1", *[b""] * count) + b"\x01"), b"8 %d" % (count + 4)
    for count in (1, 2, 3, 63, 64, 65, 127, 128, 129, 255, 256, 257, 1000):
        yield judging(txt(*[b""] * count) + b"\xff"), b"8 %d" % (count + 1)
    for whole in ([b"!"], [b"T:0"], [b"T:1", b"Z"], [b"T:1", b"I1[", b" N"], [b"T:1", b"N[C,C]"], []):
        yield from in_all_ways(stored(*whole) + b"\x02a", 8, len(whole) + 2)
    for count in range(1, 9):
        yield from in_all_ways((b"\x08" + TAG)[:count], 8, 1)
    for count in (2, 128, LONGEST_STRING):
        for octets in {0, 1, count // 2, count - 1}:
            yield judging(stored(b"T:1", b"I1") + bytes([count]) + b"#" * octets), b"8 4"
        yield judging(stored(b"T:1", b"I1") + bytes([count]) + b"#" * count), b"0 1"
    empty = LONGEST_STANZA - len(stored(b"T:1", b"I1")) - 1
    yield judging(stored(b"T:1", b"I1", *[b""] * empty) + b"\x01"), b"8 %d" % (empty + 4)
    yield judging(stored(b"T:1", b"I1", *[b""] * (empty + 1))), b"0 1"


def changed_counts():
    """Each count of a description made another: the strings after it lie elsewhere."""
    whole, place = stored(*STRINGS), 0
    for string in (TAG, *STRINGS):
        for count in sorted({0, 1, len(string) - 1, len(string) + 1, 63, 128, 254, 255} - {-1, len(string)}):
            yield judging(whole[:place] + bytes([count]) + whole[place + 1 :])
        place += 1 + len(string)


def tags():
    """14: another octet at each place of the tag, one fewer and one more, none, and something before it."""
    near = [TAG[:count] for count in range(len(TAG))] + [TAG + bytes([octet]) for octet in b"\x00\t\n 01=\xff"]
    for place, octet in enumerate(TAG):
        for other in {0, 9, 10, 32, 255, octet ^ 0x20, octet ^ 0x80, octet - 1, octet + 1}:
            near.append(TAG[:place] + bytes([other]) + TAG[place + 1 :])
    near += [b" " + TAG, b"\t" + TAG, b'"' + TAG + b'"', TAG[::-1], TAG + TAG, TAG.lower(), TAG.title()]
    near += [b"#", b"# c", b"T:1", b"EN"]
    for tag in near:
        yield judging(txt(tag, b"T:1", b"I1")), b"14 1"
    for octets in (b"", b"\x00", b"\x00" * 9, txt(b"no"), txt(b"T:1", b"I1"), txt(b"", TAG, b"T:1", b"I1"), txt(b"# c", TAG)):
        yield from in_all_ways(octets, 14, 1)
    for lines in ([b"!"], [b"T:0"], [b"T:1", b"Z"], [], [b" T:1"]):
        yield from in_all_ways(txt(TAG.lower(), *lines), 14, 1)
    # a second one is a line
    for strings, answer in (([TAG, b"T:1", b"I1"], b"2 2"), ([b"T:1", TAG], b"2 3"), ([b"T:1", b"I1", TAG], b"2 4")):
        yield judging(stored(*strings)), answer


def editions():
    """16: another edition, before all but 1."""
    over = stored(b"T:1", b"I1", *[b"#" * LONGEST_STRING] * 32)
    for edition in EDITIONS:
        for octets in (b"", b"\x00", b"\x07", txt(b"no"), txt(b"no") + b"\x01", stored(), stored(b"!")):
            yield from in_all_ways(octets, 16, 0, edition)
        for octets in (stored(b"T:1", b"I1"), stored(b"EN", b"T:1", b"I1")):
            yield from in_all_ways(octets, 16, 0, edition)
    yield from in_all_ways(over, 1, 0, 10)
    yield storing(printing(b"", b"\x00" * (LONGEST_RDATA + 1), 1, 1), b"", 10), refused(1, 0)
    for spelled in (b"13", b"013", b"00000000000000000000000000013"):
        yield b"JS %s %s" % (word(stored(b"T:1", b"I1")), spelled), b"0 1"
        yield b"PS %s %s 1 1 07 9" % (word(stored(b"T:1", b"I1")), spelled), accepted(b"7")
        yield b"RS %s %s 1 1 00 37 9" % (word(stored(b"T:1", b"I1")), spelled), accepted(b"\x07")


def every_octet():
    """Each octet at the start of a header and of a field, at their ends, and in free text and a comment."""
    for octet in range(256):
        one = bytes([octet])
        letter, free = one.isalpha(), 0x20 <= octet <= 0xFE
        header = b"0 1" if letter else b"2 3" if one == b"#" else b"2 2"
        field = b"3 3" if letter else b"0 1" if one == b"#" else b"2 3"
        yield judging(stored(one + b"T:1", b"I1")), header
        yield judging(stored(b"T:1", one + b"I1", b"I1")), field
        yield judging(stored(b"T:1" + one, b"I1")), b"0 1" if octet in b" \t" or one.isdigit() else b"2 2"
        yield judging(stored(b"T:1 a" + one, b"I1")), b"0 1" if free else b"2 2"
        yield judging(stored(b"T:1", b"I1 " + one + b"a", b"N")), b"0 2" if free else b"2 3"
        yield judging(stored(b"#" + one, b"T:1", b"\t #" + one + b"!", b"I1")), b"0 1"
        # alone it is ignored, a bad line or a field of one letter
        known = b"0 2" if one in (b"A", b"N", b"R", b"S", b"T", b"X") else b"3 4"
        alone = b"0 1" if is_ignored(one) else known if letter else b"2 4"
        yield judging(stored(b"T:1", b"I1", one)), alone


def ignored():
    """Strings that only count, before the header, after it and last: the numbers go on, and places with them."""
    for string in IGNORED:
        for place in range(4):
            strings = [b"T:1", b"I1", b"N"]
            strings.insert(place, string)
            yield judging(stored(*strings)), b"0 2"
            yield judging(stored(*strings, b"Q")), b"3 6"
            yield storing(printing(b"", b"\x07\x01a\x00", 1, 2), stored(*strings)), accepted(b"7 a.")
        for count in (1, 2, 60):
            yield judging(stored(*[string] * count)), b"2 0"
            yield judging(stored(*[string] * count, b"T:1", *[string] * count)), b"2 0"
            yield judging(stored(*[string] * count, b"T:1", *[string] * count, b"I1[")), b"2 %d" % (2 * count + 3)
    # what is like them and is none
    for string in (b"\n", b"\r", b" \n", b"\n#", b"\x0c", b"\x00", b"-", b";", b"// c", b"\xa0", b" ;"):
        yield judging(stored(string, b"T:1", b"I1")), b"2 2"
        yield judging(stored(b"T:1", string, b"I1")), b"2 3"
        yield judging(stored(b"T:1", b"I1", string)), b"2 4"


# lines that are refused in place of a header and of a field, and the number
HEADERS = [(2, b"T"), (2, b" T:1"), (2, b"\tT:1"), (2, b"T:1\n I1"), (2, b"EN"), (4, b"T:0"), (4, b"T:65536")]
FIELDS = [(2, b" I1"), (2, b"\tI1"), (2, b"  N:x"), (2, b"I1["), (2, b"I1\n"), (2, b"I1\n I2"), (2, b"\nI1"), (2, b"N:")]
FIELDS += [(2, b"I1 \tx"), (3, b"Z"), (3, b"Z[APL]"), (3, b"I3"), (3, b"N[P]"), (3, b"i1"), (4, b"I1[C]"), (4, b"N[C,C]")]
FIELDS += [(4, b"S[M,X]"), (4, b"I1[A=256]"), (4, b"I1:A")]


def refused_lines():
    """2 to 5 at each string, with ignored ones between; 2 at 0; and a fault before another."""
    lines = [b"T:1", b"I1:a", b"N:b", b"S:c", b"X:d"]
    for gap, place in itertools.product(((), (b"#",), (b"", b" # c")), range(len(lines))):
        for number, line in FIELDS if place else HEADERS:
            # the first field has that name itself
            if (place, line) != (1, b"I1:A"):
                listed = [*lines[:place], line, *lines[place + 1 :]]
                strings = [string for parted in listed for string in (*gap, parted)]
                made = [*in_all_ways(stored(*strings), number, (place + 1) * (len(gap) + 1) + 1)]
                yield from made[:1] if gap else made
    for place in (2, 3):
        # the line after a tail is at fault, unless it has a lower number of its own
        for more, number in ((b"I1", 4), (b"X", 4), (b"Q", 3), (b" I1", 2), (b"!", 2)):
            yield from in_all_ways(stored(*lines[:place], b"X", more), number, place + 3)
    for strings in ([], [b"#"], [b"T:1"], [b"T:1", b"# c"], [b"", b"T:1:I Free text"], [b"", b" "]):
        yield from in_all_ways(stored(*strings), 2, 0)
    for first, second in itertools.product([(2, b" N"), (3, b"Q"), (4, b"N[M]")], repeat=2):
        yield judging(stored(b"T:1", b"I1", first[1], second[1])), b"%d 4" % first[0]


def many_fields():
    """63 and 64 fields are taken; a 65th is 5 at its string, whatever follows, unless it has a lower number."""
    for before in ([], [b"#"], [b"", b"# c", b" "]):
        first = 3 + len(before)
        for count in (MOST_FIELDS - 1, MOST_FIELDS):
            yield judging(stored(*before, b"T:1", *[b"I1"] * count)), b"0 %d" % count
        yield from in_all_ways(stored(*before, b"T:1", *[b"I1"] * (MOST_FIELDS + 1)), 5, first + MOST_FIELDS)
        for more, number in ((b"X", 5), (b"#", 0), (b"Q", 3), (b" I1", 2), (b"N[M]", 4), (b"I1:\n", 2)):
            answer = b"%d %d" % (number, first + MOST_FIELDS if number else MOST_FIELDS)
            yield judging(stored(*before, b"T:1", *[b"I1"] * MOST_FIELDS, more)), answer
        yield judging(stored(*before, b"T:1", *[b"I1"] * (MOST_FIELDS + 1), b"!")), b"5 %d" % (first + MOST_FIELDS)
    octets = stored(b"T:1", *[b"I1"] * MOST_FIELDS)
    text, rdata = b" ".join([b"7"] * MOST_FIELDS), b"\x07" * MOST_FIELDS
    yield storing(printing(b"", rdata, 1, MOST_FIELDS), octets), accepted(text)
    yield storing(reading(b"", text, 1, MOST_FIELDS), octets), accepted(rdata)
    yield storing(printing(b"", rdata[:-1], 1, MOST_FIELDS), octets), refused(8, MOST_FIELDS)
    yield storing(reading(b"", text + b" 7", 1, MOST_FIELDS), octets), refused(10, MOST_FIELDS + 1)


def long_strings():
    """Strings of 254 and 255 octets: free text, symbols, names, comments and blanks."""
    symbols = b"I1[" + b",".join(b"s%02d=%d" % (number, number) for number in range(35))
    for octets in (LONGEST_STRING - 1, LONGEST_STRING):
        listed = symbols + b",x" + b"y" * (octets - len(symbols) - 5) + b"=9]"
        for strings, answer in (
            ([b"T:1 ".ljust(octets, b"t"), b"I1"], b"0 1"),
            ([b"T:1", b"I1:x ".ljust(octets, b"\xfe"), b"N"], b"0 2"),
            ([b"T:1", listed, b"N"], b"0 2"),
            ([b"T:1", listed[:-1]], b"2 3"),
            ([b"T:1", b"I1", b"#".ljust(octets, b"\n")], b"0 1"),
            ([b"T:1", b" ".ljust(octets), b"I1", b"\t" * octets], b"0 1"),
            ([b"T:1", b"I1".rjust(octets)], b"2 3"),
            ([b"T:1", b"I1 ".ljust(octets - 1, b"t") + b"\xff"], b"2 3"),
            ([b"T:1", b"#I1".rjust(octets), b"I1"], b"0 1"),
            ([b"T:1", b"I" * octets], b"3 3"),
        ):
            assert octets in map(len, strings) or octets - 1 in map(len, strings)
            yield judging(stored(*strings)), answer
        yield storing(reading(b"", b"S34", 1, 1), stored(b"T:1", listed)), accepted(b"\x22")
        yield storing(printing(b"", b"\x22", 1, 1), stored(b"T:1", listed)), accepted(b"s34")


def filled(octets, length):
    """A description with comments up to so many octets."""
    while len(octets) < length:
        octets += txt(b"#" * min(LONGEST_STRING, length - len(octets) - 1))
    return octets


def over_limits():
    """1: as many octets as there may be, one fewer and one more, in the description and in what is printed."""
    one = stored(b"T:1", b"I1")
    for length in range(LONGEST_STANZA - 1, LONGEST_STANZA + 2):
        good = length <= LONGEST_STANZA
        yield judging(filled(one, length)), b"0 1" if good else b"1 0"
        yield storing(printing(b"", b"\x07", 1, 1), filled(one, length)), accepted(b"7") if good else refused(1, 0)
        yield storing(reading(b"", b"7", 1, 1), filled(one, length)), accepted(b"\x07") if good else refused(1, 0)
    for length in (LONGEST_STANZA, LONGEST_STANZA + 1):
        good = length == LONGEST_STANZA
        # a field at the very end, empty strings; and 1 before a string cut short, a wrong tag and a bad line
        yield judging(filled(stored(b"T:1"), length - 3) + txt(b"I1")), b"0 1" if good else b"1 0"
        yield judging(one + b"\x00" * (length - len(one))), b"0 1" if good else b"1 0"
        yield judging(filled(one, length - 1) + b"\x05"), b"8 36" if good else b"1 0"
        yield judging(filled(b"", length)), b"14 1" if good else b"1 0"
        yield judging(filled(stored(b"!"), length)), b"2 2" if good else b"1 0"
    for length, answer in ((LONGEST_RDATA, refused(10, 2)), (LONGEST_RDATA + 1, refused(1, 0))):
        yield storing(printing(b"", b"\x07" * length, 1, 1), one), answer


def too_long():
    """11: as many octets as RDATA may have, and one more."""
    names, octets = 62, stored(b"T:1", *[b"N"] * 62, b"S[X]")
    rest = LONGEST_RDATA - names * len(FULL_NAME)
    for count, answer in ((rest, accepted(FULL_NAME * names + b"s" * rest)), (rest + 1, refused(11, 0))):
        yield storing(reading(b"", b"@ " * names + b"s" * count, 1, names + 1, FULL_NAME), octets), answer


def first_of(faults, room, octets):
    """The first fault, else the result, if there is room."""
    fault = next((fault for fault in faults if fault), None)
    fault = fault or (len(octets) > room and (12, len(octets)))
    return refused(*fault) if fault else accepted(octets)


# a fault or none at each step, and the refusal
NAMED = [(EDITION, None), (10, (16, 0))]
ENDS = [(b"", None), (b"\x03ab", (8, 4))]
FIRST = [(TAG, None), (b"RRTYPE=2", (14, 1))]
SECOND = [(b"I1[ON=1]", None), (b" I1", (2, 3)), (b"I1[ON]", (3, 3)), (b"I1[C]", (4, 3))]
RUNS = [((1, 1), None), ((0, 1), (6, 0)), ((1, 2), (6, 0))]
ORIGINS = [(b"\x00", None), (b"\x01o", (7, 0))]
WORDS = [(b"on", None), (b"", (8, 1)), (b"off", (9, 1)), (b"on off", (10, 2))]
OCTETS = [(b"\x01", None), (b"", (8, 1)), (b"\x01\x01", (10, 2))]


def order():
    """A fault or none at each step of the order, all together."""
    steps = itertools.product(NAMED, ENDS, FIRST, SECOND, RUNS)
    for (edition, *other), (end, *cut), (tag, *wrong), (field, *bad), (span, *no_run) in steps:
        octets, faults = txt(tag, b"T:1", field) + end, other + cut + wrong + bad + no_run
        for (rdata, *broken), room in itertools.product(OCTETS, (MUCH, 0)):
            line = printing(b"", rdata, *span, room)
            yield storing(line, octets, edition), first_of(faults + broken, room, b"ON")
        for (origin, *no_name), (text, *broken), room in itertools.product(ORIGINS, WORDS, (MUCH, 0)):
            line = reading(b"", text, *span, origin, room)
            # one text is enough where it is not looked at
            if text == b"off" or not any(faults):
                yield storing(line, octets, edition), first_of(faults + no_name + broken, room, b"\x01")


def runs_and_origins():
    """6 at every edge, an empty run after the last field, and 7 with every bad origin."""
    octets = stored(*strings_of(DOOR))
    for first, length in [(2, 4), (5, 1), (0, 0), *edge_runs(4)]:
        answer = accepted(b"") if (first, length) == (5, 0) else refused(6, 0)
        yield storing(printing(b"", b"", first, length), octets), answer
        yield storing(reading(b"", b"", first, length), octets), answer
    for origin in BAD_ORIGINS:
        yield storing(reading(b"", b"30 70 hold lobby", 1, 4, origin), octets), refused(7, 0)
        yield storing(reading(b"", b"", 1, 0, origin), octets), refused(7, 0)


def no_catalogue():
    """R and R[L] print and read `TYPE` and a number."""
    octets, rdata, text = stored(b"T:1", b"R", b"R[L]"), b"\x00\x0f\x00\x04\x40\x00\x00\x08", b"TYPE15 TYPE1 TYPE28"
    yield storing(printing(b"", rdata, 1, 2), octets), accepted(text)
    yield storing(reading(b"", text.lower(), 1, 2), octets), accepted(rdata)
    for name in texts("MX  A  AAAA  TYPE  TYPEMX"):
        yield storing(reading(b"", name, 1, 1), octets), refused(9, 1)
        yield storing(reading(b"", b"TYPE15 " + name, 1, 2), octets), refused(9, 2)


def rooms():
    """Every room from none to one more than enough, both ways."""
    text = b"30 70 HOLD lobby.example."
    for room in range(len(text) + 2):
        yield storing(printing(DOOR, P1, room=room)), accepted(text) if room >= len(text) else refused(12, len(text))
    for room in range(len(P1) + 2):
        answer = accepted(P1) if room >= len(P1) else refused(12, len(P1))
        yield storing(reading(DOOR, b"30 70 hold lobby", origin=EXAMPLE, room=room)), answer


def cuts():
    """Two records cut in all ways, printed and read as under their files; and each sample whole."""
    text = [b"30", b"70", b"hold", b"lobby."]
    listed = with_fields(b"I1", b"S", b"R[L]")
    lines = [*record_cuts(DOOR, P1), *text_cuts(DOOR, text)]
    lines += [*record_cuts(listed, b"\x07\x01a\x00\x01\x40"), *text_cuts(listed, [b"7", b"'a'", b"TYPE1"])]
    lines += [printing(stanza, rdata) for stanza, rdata in SAMPLES]
    lines += [reading(stanza, b" ".join(fields), origin=EXAMPLE) for stanza, _, fields in sample_texts()]
    return alike(lines)


def with_strings(line, strings):
    """The request with the file form of these strings."""
    letter, _, *rest = line.split(b" ")
    return b" ".join([letter, word(file_form(strings)), *rest])


# lists of strings, with no LF and no blank at the start
LISTS = [[], [b""], [b"#"], [b"", b"# c", b"#"], [b"T:1"], [b"T:1", b""], [b"T:1", b"#"], [b"", b"T:1", b"", b"I1", b""]]
LISTS += [[b"#", b"#", b"T:1", b"#", b"I1", b"#I2", b"N[C]:x y"], [b"!"], [b"#", b"!"], [b"\r"], [b"T:1\r", b"I1"]]
LISTS += [[b"T:1", b"I1\r"], [b"T:1", b"I1", b"\x00"], [b"\xff"], [b"T:1", b"\xff"], [TAG], [b"T:1", TAG], [b"I1", b"T:1"]]
LISTS += [[b"T:1", b"I1", b"I1 \t"], [b"T:1", b"#" * 255, b"I1 ".ljust(255, b"x")]]
LISTS += [[b"T:1 ".ljust(255, b"#"), b"N:" + b"n" * 63], [b"T:1", b"N:" + b"n" * 64]]


def one_description():
    """The law: strings judged, printed and read under, and the file that has them as its lines, by hand and drawn."""
    lines = []
    for strings in LISTS:
        stanza = file_form(strings)
        lines += [b"J " + word(stanza), printing(stanza, b"\x07", 1, 1, 9), reading(stanza, b"7", 1, 1, b"\x00", 9)]
    for mode, count in (("judge-requests", 400), ("print-requests", 300), ("read-requests", 300)):
        for line in lines_of(run(mode, str(count), "4"))[-count:]:
            strings = strings_of(octets_of(line.split(b" ")[1]))
            if len(line) < 3000 and all(len(string) <= LONGEST_STRING for string in strings):
                lines.append(with_strings(line, strings))
    return both(lines)


def sizes_of_both():
    """Strings of which one form is over the limit and the other is not; many after the header make the file the longer one."""
    comments, limits = [b"#" * LONGEST_STRING] * 31, (LONGEST_STANZA, LONGEST_STANZA + 1)
    for before, last in itertools.product((31, 0), range(LONGEST_STRING + 1)):
        strings = [*comments[:before], b"T:1", b"I1", *comments[before:], b"#" * last]
        octets, stanza = stored(*strings), file_form(strings)
        if len(octets) in limits or len(stanza) in limits:
            yield judging(octets), b"0 1" if len(octets) <= LONGEST_STANZA else b"1 0"
            yield b"J " + word(stanza), b"0 1" if len(stanza) <= LONGEST_STANZA else b"1 0"


def limit_cases():
    """Of the limit cases of stanzas some that have a stored form."""
    for line in lines_of(run("judge-requests", "0", "1"))[::5]:
        strings = strings_of(octets_of(line.split(b" ")[1]))
        if len(line) < 3000 and all(len(string) <= LONGEST_STRING for string in strings):
            yield with_strings(line, strings)


def spellings():
    """Hex of either case."""
    octets = stored(b"T:1 \xab\xcd\xef", b"I1:n")
    for spelled in (octets.hex(), octets.hex().upper(), octets.hex().title()):
        yield b"JS %s 13" % spelled.encode(), b"0 1"
        yield b"PS %s 13 1 1 07 1" % spelled.encode(), accepted(b"7")
        yield b"RS %s 13 1 1 00 37 1" % spelled.encode(), accepted(b"\x07")


def no_requests():
    """Too few and too many words, words that are no octets or no numbers, two spaces, and other letters."""
    yield from lines_of(NO_REQUESTS)
    good = word(stored(b"T:1", b"I1"))
    over = [b"%d" % (MUCH + 1), b"%d0" % MUCH]
    for number in (b"", b"-", b"+13", b"-13", b"13.", b"1 3", b"0x0D", b"D", b"13\r", b"13\t", *over):
        yield b"JS %s %s" % (good, number)
        yield b"PS %s %s 1 1 07 9" % (good, number)
        yield b"RS %s %s 1 1 00 37 9" % (good, number)
        for place in range(3):
            span = [b"1", b"1", b"9"]
            span[place] = number
            yield b"PS %s 13 %s %s 07 %s" % (good, *span)
            yield b"RS %s 13 %s %s 00 37 %s" % (good, *span)


NO_REQUESTS = b"""JS
JS\x20
JS -
JS 13
JS -\x20
JS  13
JS  - 13
JS -  13
JS - 13\x20
JS - 13 -
JS - 13 13
JS - 13 1 1 - 5
JS 0 13
JS 000 13
JS 0G 13
JS G0 13
JS 0x00 13
JS -- 13
JS 13 -
JS\t- 13
 JS - 13
js - 13
Js - 13
SJ - 13
J - 13
JC - 13
PS
PS - 13
PS - 1 1 - 5
PS - 13 1 1 -
PS - 13 1 1 5
PS - 13 1 1 - - 5
PS - 13 1 1 - 5 5
PS - 13 1 1 - 5\x20
PS - 13 1 1 -  5
PS - 13 1  1 - 5
PS -  13 1 1 - 5
PS  - 13 1 1 - 5
PS 0 13 1 1 - 5
PS 0G 13 1 1 - 5
PS - 13 1 1 0 5
PS - 13 1 1 0G 5
ps - 13 1 1 - 5
SP - 13 1 1 - 5
P - 13 1 1 - 5
RS
RS - 13
RS - 1 1 - - 5
RS - 13 1 1 - 5
RS - 13 1 1 - -
RS - 13 1 1 - - - 5
RS - 13 1 1 - - 5 5
RS - 13 1 1 - - 5\x20
RS - 13 1 1 -  - 5
RS - 13 1  1 - - 5
RS -  13 1 1 - - 5
RS  - 13 1 1 - - 5
RS 0 13 1 1 - - 5
RS G0 13 1 1 - - 5
RS - 13 1 1 0 - 5
RS - 13 1 1 - 0 5
RS - 13 1 1 - 0G 5
rs - 13 1 1 - - 5
SR - 13 1 1 - - 5
R - 13 1 1 - - 5
WS -
WS - 13
"""


def stated():
    """All requests that have a stated answer, with it."""
    made = (of_draft, published, published_records, cut_anywhere, cut_strings, tags, editions, every_octet, ignored)
    made += (refused_lines, many_fields, long_strings, over_limits, too_long, order, runs_and_origins, no_catalogue, rooms, cuts)
    made += (one_description, sizes_of_both, spellings)
    lines = [*readings([b"js", b"ps", b"rs"]), *[line for lines in made for line in lines()], *alike(limit_cases())]
    # some are made twice, with the same answer
    assert all(dict(lines)[line] == answer for line, answer in lines)
    return list(dict(lines).items())


def others():
    """All other requests."""
    return [*changed_counts(), *lines_of(run("stored-requests", "2200", "1"))]
