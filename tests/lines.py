"""What the stored tests are made with: the independent program, the words of a request, the data, and the ways to cut a record.

A file of the same folder has the lines of one document or request (base.py those of document 01); tests/make puts them together.
"""
import itertools
import pathlib
import subprocess

ROOT = pathlib.Path(__file__).resolve().parent.parent
INDEPENDENT = ROOT / "independent"
PROBE = ROOT / "crates" / "probe"
JOB = ROOT / "crates" / "job"
EXAMPLES = ROOT / "examples"
PROGRAM = INDEPENDENT / "target" / "release" / "independent"
LONGEST_LINE = 2_200_000
LONGEST_TEXT = 1_048_576
LONGEST_STANZA = 8_192
LONGEST_RDATA = 65_535
MOST_FIELDS = 64
MUCH = 2**64 - 1

EXAMPLE = b"\x07example\x00"
FULL_LABELS = (b"\x3f" + b"o" * 63) * 3
FULL_NAME = FULL_LABELS + b"\x3d" + b"o" * 61 + b"\x00"
BAD_ORIGINS = [b"", b"\x00\x00", b"\x01o\x00\x00", b"\xc0\x0c", b"\x40" + b"o" * 64 + b"\x00", b"\xff", b"a.", b"."]
BAD_ORIGINS += [FULL_LABELS + b"\x3e" + b"o" * 62 + b"\x00", b"\x01o" * 128 + b"\x00", FULL_NAME[:-1], FULL_NAME + b"\x00"]

# texts that break the rules of tokens
FAULTY = [b'"a', b"'a\"", b'"', b'a"', b"a'b", b'"a"b', b'"a""b"', b";", b"a;b", b"(", b"a)", b"\\", b"a\\", b'"a\\', b'"\\"']
FAULTY += [b"\x00", b"a\n", b"\x7f", b"'\x1f'", b"\\\x80", b'"\\\xff"', b'"a"\r']


def build():
    """Builds the independent program."""
    manifest = INDEPENDENT / "Cargo.toml"
    subprocess.run(["cargo", "build", "--quiet", "--release", "--offline", "--jobs", "1", "--manifest-path", manifest], check=True)


def run(*arguments, data=b""):
    """What the independent program writes."""
    return subprocess.run([PROGRAM, *arguments], input=data, stdout=subprocess.PIPE, check=True).stdout


def lines_of(octets):
    """The lines; the last may lack its LF."""
    return octets.removesuffix(b"\n").split(b"\n")


def answers_to(requests):
    """The independent program's answers."""
    return lines_of(run("probe", data=b"\n".join(requests)))


def accepted(octets):
    """The answer with these octets as the result."""
    return b"0 %d %s" % (len(octets), word(octets))


def refused(number, place):
    """The answer to a request to print or to read that is refused."""
    return b"%d %d -" % (number, place)


def numbered(requests):
    """Of requests with the numbers that their answers may have, the requests; the independent program's answers must agree."""
    requests = list(requests)
    for (line, numbers), answer in zip(requests, answers_to([line for line, _ in requests])):
        assert int(answer.split()[0]) in numbers, (line, numbers, answer)
    return [line for line, _ in requests]


def word(octets):
    """Octets as a word of a request."""
    return octets.hex().upper().encode() or b"-"


def request(letter, stanza, first, length, octets, room):
    """A request to print or to read, all fields where no length is given."""
    if length is None:
        length = len(field_lines(stanza))
    return b" ".join([letter, word(stanza), b"%d" % first, b"%d" % length, *map(word, octets), b"%d" % room])


def printing(stanza, rdata, first=1, length=None, room=MUCH):
    """A request to print."""
    return request(b"P", stanza, first, length, [rdata], room)


def reading(stanza, text, first=1, length=None, origin=b"\x00", room=MUCH):
    """A request to read."""
    return request(b"R", stanza, first, length, [origin, text], room)


def field_lines(stanza):
    """The field lines of a stanza: all after the header but blank and comment lines."""
    lines = [line for line in stanza.split(b"\n") if line.strip(b" \t")]
    return [line for line in lines if not line.strip(b" \t").startswith(b"#")][1:]


def with_fields(*fields):
    """A stanza with these field lines."""
    return b"T:1\n" + b"".join(b" " + field + b"\n" for field in fields)


def job_of(stanza, origin, records):
    """A job of three sections, each after its line count."""
    sections = (stanza.splitlines(), [origin], records)
    return b"".join(b"%d\n" % len(lines) + b"".join(line + b"\n" for line in lines) for lines in sections)


def texts(line):
    """Two spaces part two texts."""
    return line.encode().split(b"  ")


def readings(kinds):
    """Requests and the answers that the readings state."""
    for row in (INDEPENDENT / "readings.tsv").read_bytes().splitlines():
        kind, request, answer = row.split(b"\t")
        if kind in kinds:
            yield request, answer


def rows(name):
    """The rows of a file of vectors, each as its columns."""
    for row in (INDEPENDENT / "tests" / "data" / name).read_bytes().splitlines():
        yield row.split(b"\t")


def stanzas():
    """The published descriptions."""
    text = (INDEPENDENT / "tests" / "data" / "stanzas.txt").read_bytes()
    for stanza in text.removesuffix(b"\n").split(b"\n\n"):
        yield stanza + b"\n"


def named_stanzas():
    """The published descriptions by the names of their types."""
    return {stanza.split(b":")[0]: stanza for stanza in stanzas()}


def in_rooms(requests, answers):
    """The accepted ones again, in rooms one short, exact, one more, and none."""
    for request, answer in zip(requests, answers):
        number, place, _ = answer.split()
        if number == b"0":
            for room in {0, int(place) - 1, int(place), int(place) + 1} - {-1}:
                yield request.rsplit(b" ", 1)[0] + b" %d" % room


def edge_runs(fields):
    """Runs (first, length) that start below field 1 or end past the last field; and the empty one just after it, which is allowed."""
    return (0, fields), (1, fields + 1), (fields + 1, 0), (fields + 2, 0), (1, MUCH), (MUCH, MUCH)


def record_cuts(stanza, rdata):
    """A record cut at every octet and with one octet more; at every cut of its field list, each division of the octets."""
    fields = len(field_lines(stanza))
    for octets in range(len(rdata) + 1):
        yield printing(stanza, rdata[:octets])
    for more in (b"\x00", b"\x01", b"\xff"):
        yield printing(stanza, rdata + more)
    for cut in range(fields + 1):
        for octets in range(0, len(rdata) + 1, 1 if len(rdata) <= 24 else 5):
            yield printing(stanza, rdata[:octets], 1, cut)
            yield printing(stanza, rdata[octets:], cut + 1, fields - cut)
    for first, length in edge_runs(fields):
        yield printing(stanza, rdata, first, length)


def text_cuts(stanza, fields):
    """A text, given field by field, cut at every octet, at every cut of the field list, and with something more at the end."""
    text, count = b" ".join(fields), len(fields)
    for octets in range(len(text) + 1):
        yield reading(stanza, text[:octets], room=999)
    for more in [b" ", b"\t ", b" 7", b" TYPE1", b" ''"] + FAULTY:
        yield reading(stanza, text + b" " + more, room=999)
    for cut, fields_taken in itertools.product(range(count + 1), repeat=2):
        yield reading(stanza, b" ".join(fields[:fields_taken]), 1, cut)
        yield reading(stanza, b" ".join(fields[fields_taken:]), cut + 1, count - cut)
    for first, length in edge_runs(count):
        yield reading(stanza, text, first, length)
    for blanks in (b"\t", b"  ", b" \t "):
        yield reading(stanza, blanks + blanks.join(fields) + blanks, room=999)
