"""Times dnspython over records on standard input: type, text and RDATA in hex, parted by tabs.

Writes a line for each type: the nanoseconds of processor time to read and to print a record, 'nan' where
dnspython refuses one of them or reads other octets. The words on the command line are the rounds, of
which the median counts, and the nanoseconds of each.
"""
import itertools
import statistics
import sys
import time

import dns.name
import dns.rdata
import dns.rdataclass
import dns.rdatatype

ROUNDS, ROUND = map(int, sys.argv[1:])
IN = dns.rdataclass.IN


def read(record):
    kind, text, _, _ = record
    return dns.rdata.from_text(IN, kind, text, origin=dns.name.root, relativize=False).to_wire()


def print_(record):
    return record[3].to_text()


def clocked(convert, records, passes):
    start = time.thread_time_ns()
    for _ in range(passes):
        for record in records:
            convert(record)
    return (time.thread_time_ns() - start) / passes / len(records)


def median(convert, records):
    passes = 1
    while clocked(convert, records, passes) * passes * len(records) * 10 < ROUND:
        passes *= 2
    passes *= 10
    return statistics.median(clocked(convert, records, passes) for _ in range(ROUNDS))


def records():
    for line in sys.stdin:
        name, text, wire = line.rstrip("\n").split("\t")
        kind, octets = dns.rdatatype.from_text(name), bytes.fromhex(wire)
        yield kind, text, octets, dns.rdata.from_wire(IN, kind, octets, 0, len(octets))


def reads(record):
    try:
        return read(record) == record[2]
    except dns.exception.DNSException:
        return False


for kind, group in itertools.groupby(records(), key=lambda record: record[0]):
    group = list(group)
    reading = median(read, group) if all(map(reads, group)) else "nan"
    print(dns.rdatatype.to_text(kind), reading, median(print_, group), sep="\t")
