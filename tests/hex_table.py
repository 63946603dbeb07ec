"""Request 2's lines, hex digits from a table: not one answer changes, so document 01 and request 1 state them all.

There is each octet alone and beside others, in X and in X[C], and in EUI48 and AA, which keep their small letters; every
length up to 300, and the longest; every room for some lengths, in which a text is measured first or written at once;
records with several hex fields cut in all ways; a job, whose answers are in hex; and 1,500 random records, half of them
damaged. The digits of a stated text are Python's.
"""
import random

from lines import LONGEST_RDATA, accepted, job_of, printing, reading, record_cuts, refused, text_cuts, with_fields, word

X, COUNTED = with_fields(b"X"), with_fields(b"X[C]")
# hex fields before, between and after others
SEVERAL = with_fields(b"X[C]", b"I1", b"X[C]", b"N", b"X")
ALL_OCTETS = bytes(range(256))


def digits(octets):
    """The octets in hex."""
    return octets.hex().upper().encode()


def some_octets(count):
    """So many octets, that differ with their count."""
    return bytes((7 * place + count) % 256 for place in range(count))


def counted(octets):
    """The octets after their count."""
    return bytes([len(octets)]) + octets


def both_fields(octets):
    """The octets printed by X and by X[C], and read back in either case."""
    text = digits(octets)
    yield printing(X, octets), accepted(text)
    yield printing(COUNTED, counted(octets)), accepted(text)
    yield reading(X, text.lower()), accepted(octets)
    yield reading(COUNTED, text), accepted(counted(octets))


def decided():
    """The examples of the decisions."""
    yield printing(X, b"\x09\xaf"), accepted(b"09AF")
    yield printing(with_fields(b"EUI48"), b"\x09\xaf\x00\x00\x00\x00"), accepted(b"09-af-00-00-00-00")


def every_octet():
    """Each octet alone, and first, between and last beside its neighbours."""
    for octet in ALL_OCTETS:
        yield from both_fields(bytes([octet]))
        yield printing(X, bytes([octet, 255 - octet, octet ^ 0x0F])), accepted(b"%02X%02X%02X" % (octet, 255 - octet, octet ^ 0x0F))


def small_letters():
    """Each octet in each place of EUI48, and in each half of a group of AA."""
    for octet in ALL_OCTETS:
        eui, groups = bytes((octet + 43 * place) % 256 for place in range(6)), [octet, octet << 8, 257 * octet, octet << 8 | 15]
        yield printing(with_fields(b"EUI48"), eui), accepted(eui.hex("-").encode())
        aa = b"".join(group.to_bytes(2, "big") for group in groups)
        yield printing(with_fields(b"AA"), aa), accepted(b"%x:%x:%x:%x" % tuple(groups))


def every_length():
    """Every length up to 300, X[C] up to its longest; all octets in a row; and as many as RDATA may have."""
    for count in range(1, 256):
        yield from both_fields(some_octets(count))
    for count in range(256, 301):
        yield printing(X, some_octets(count)), accepted(digits(some_octets(count)))
    yield printing(X, ALL_OCTETS), accepted(digits(ALL_OCTETS))
    longest = (ALL_OCTETS * 256)[:LONGEST_RDATA]
    yield printing(X, longest, room=2 * LONGEST_RDATA), accepted(digits(longest))
    yield printing(X, longest, room=2 * LONGEST_RDATA - 1), refused(12, 2 * LONGEST_RDATA)
    yield printing(X, longest + b"\x00"), refused(1, 0)


def every_room():
    """Every room from none to one in which nothing is measured; an octet may have room for one digit alone."""
    for count in (1, 2, 3, 8, 15, 16, 17, 33):
        octets, text = some_octets(count), digits(some_octets(count))
        for room in range(4 * count + 70):
            answer = accepted(text) if room >= len(text) else refused(12, len(text))
            yield printing(X, octets, room=room), answer
            yield printing(COUNTED, counted(octets), room=room), answer


def jobs():
    """Records of every octet: an answer's digits are those of the table too."""
    records = [digits(bytes([octet])).lower() for octet in ALL_OCTETS] + [digits(ALL_OCTETS), b"0", b"0G", b"AB CD"]
    written = b"".join(b"ok %02X\n" % octet for octet in ALL_OCTETS) + b"ok %s\nno 9 1\nno 9 1\nok ABCD\n" % digits(ALL_OCTETS)
    yield b"W " + word(job_of(X, b".", records)), word(written)


def cuts():
    """Records with several hex fields, one of them empty, cut in all ways."""
    for salt in (b"\x9a\xbc", b""):
        yield from record_cuts(SEVERAL, b"\x01\xf0\x07" + counted(salt) + b"\x01a\x00\x0f\xed\xcb")
        yield from text_cuts(SEVERAL, [b"F0", b"7", digits(salt) or b"-", b"a.", b"0fEDcb"])


def drawn():
    """Random records with several hex fields; every other one cut, or with an octet changed."""
    draw = random.Random(2)
    for number in range(1500):
        first, second, last = (draw.randbytes(draw.choice((0, 1, 2, draw.randrange(40)))) for _ in range(3))
        rdata = counted(first) + draw.randbytes(1) + counted(second) + b"\x01a\x00" + last
        if number % 4 == 1:
            rdata = rdata[: draw.randrange(len(rdata))]
        if number % 4 == 3:
            place = draw.randrange(len(rdata))
            rdata = rdata[:place] + draw.randbytes(1) + rdata[place + 1 :]
        yield printing(SEVERAL, rdata, room=draw.choice((2**20, 2 * len(rdata), draw.randrange(3 * len(rdata) + 1))))


def stated():
    """All requests that have a stated answer, with it."""
    made = (decided, every_octet, small_letters, every_length, every_room, jobs)
    return [line for lines in made for line in lines()]


def others():
    """All other requests."""
    return [*cuts(), *drawn()]
