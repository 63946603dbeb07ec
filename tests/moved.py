"""What moved: the stored runs of a git revision beside those made now, request by request.

A request is known by its text, wherever it stands; the same one may be stored several times.
"""
import collections
import subprocess
import sys

from lines import JOB, PROBE, ROOT, field_lines, lines_of

LONGEST_GONE = 100
LONGEST_SHOWN = 120
LONGEST_ANSWER = 30
# of a request that is cut, so much is kept of what follows the stanza
LONGEST_WORDS = 40


def stored(revision, path):
    """A file as the revision has it."""
    git = subprocess.run(["git", "show", f"{revision}:{path.relative_to(ROOT)}"], cwd=ROOT, capture_output=True)
    if git.returncode:
        sys.exit(git.stderr.decode().strip())
    return git.stdout


def readable(octets):
    """Octets as text on one line, with `|` for LF."""
    return "".join("|" if octet == 10 else chr(octet) if 32 <= octet < 127 else f"\\x{octet:02x}" for octet in octets)


def decoded(word):
    """A word of a request as text, and as it is if it is not in hex."""
    try:
        return readable(bytes.fromhex(word))
    except ValueError:
        return word


def short_request(request, length):
    """A request with its stanza, or its job, as text, cut, and in the stanza first."""
    letter, *words = readable(request).split(" ")
    front, back = " ".join([letter, *map(decoded, words[:1])]), "".join(" " + word for word in words[1:])
    back = back[: max(LONGEST_WORDS, length - len(front))]
    return front[: length - len(back)] + back


def short_answer(request, answer):
    """An answer, a job's as text, cut."""
    text = readable(answer)
    return (decoded(text) if request.startswith(b"W ") else text)[:LONGEST_ANSWER]


def times(count):
    """How often, where it is more than once."""
    return f" ({count} times)" if count > 1 else ""


def shown(request, old, new, count):
    """A request and its two answers on one line; what does not fit is cut from the request."""
    answers = f"  {short_answer(request, old)} -> {short_answer(request, new)}{times(count)}"
    return short_request(request, LONGEST_SHOWN - len(answers)) + answers


def number_of(request, answer):
    """The number that an answer starts with; a job's answer has none."""
    return "" if request.startswith(b"W") else readable(answer).split(" ")[0]


def field_at(request, answer):
    """The field at the answer's place in the run, its line without name and free text, where the answer is 8, 9 or 10 and that
    place is a field."""
    letter, *words = request.split(b" ")
    if letter not in (b"P", b"R", b"PC", b"RC") or number_of(request, answer) not in ("8", "9", "10"):
        return ""
    stanza, first, length, place = bytes.fromhex(words[0].decode()), int(words[1]), int(words[2]), int(answer.split(b" ")[1])
    if place > length:
        return ""
    return readable(field_lines(stanza)[first + place - 2].split(b":")[0].split()[0])


def row(request, old, new):
    """The row of the table that counts this request: its letter, the field, the old number and the new one."""
    return readable(request.split(b" ")[0]), field_at(request, old), number_of(request, old), number_of(request, new)


def show_gone(gone):
    """Shows each request that is not made any more."""
    for request, count in gone.items():
        print(f"gone{times(count)}: {readable(request)[:LONGEST_GONE]}")


def show_table(changed, old, new):
    """Shows how many requests are answered otherwise, by letter, field and numbers, the most first."""
    counts = collections.Counter()
    for request, count in changed.items():
        counts[row(request, old[request], new[request])] += count
    table = [("lines", "letter", "field at the old place", "old", "new")]
    table += [(str(count), *cells) for cells, count in counts.most_common()]
    widths = [max(map(len, column)) for column in zip(*table)]
    for cells in table:
        print("  ".join(cell.ljust(width) for cell, width in zip(cells, widths)).rstrip())


def show_requests(revision, stdin, stdout):
    """Shows what moved in the run of probe."""
    before, now = lines_of(stored(revision, PROBE / "stdin")), lines_of(stdin)
    old, new = dict(zip(before, lines_of(stored(revision, PROBE / "stdout")))), dict(zip(now, lines_of(stdout)))
    counted = collections.Counter(before), collections.Counter(now)
    both, added, gone = counted[0] & counted[1], counted[1] - counted[0], counted[0] - counted[1]
    changed = {request: count for request, count in both.items() if old[request] != new[request]}
    print(f"probe: {len(before)} lines at {revision}, {len(now)} now")
    for lines, what in ((both, "there and here"), (added, "new"), (gone, "gone"), (changed, "answered otherwise")):
        print(f"{sum(lines.values())} {what}")
    show_gone(gone)
    if changed:
        show_table(changed, old, new)
    for request, count in changed.items():
        print(shown(request, old[request], new[request], count))


def show_job(revision, stdin, stdout):
    """Shows what moved in the run of the program job."""
    for name, octets in (("stdin", stdin), ("stdout", stdout)):
        print(f"job: {name} is {'equal' if stored(revision, JOB / name) == octets else 'not equal'}")
