"""A case of tests/reports and its answer, in the form of REPORTS.md."""

import struct
from typing import NamedTuple

CASE_BYTES = 1088
MOST_DESCRIPTORS, MOST_LENT = 66, 1072  # with the header, 66 descriptors are 1,072 bytes
MEMORY = 2**64
HEADER_BYTES = DESCRIPTOR_BYTES = 16


def unit_of(granularity):
    """A unit in bytes: "2^n times 4 KiB"."""
    return 2**(12 + granularity)


# ---- An answer

class Answer(NamedTuple):
    refusal: int = 0
    first_bad: int = 0
    suspended: int = 0
    more: int = 0
    identifier: int = 0
    granularity: int = 0
    count: int = 0
    refusal_at_index: int = 0
    address: int = 0
    length: int = 0
    run_address: int = 0
    run_length: int = 0

    def packed(self):
        return PACKED_ANSWER.pack(*self)


PACKED_ANSWER = struct.Struct("<BQBBHHIBQIQI")
ANSWER_BYTES = PACKED_ANSWER.size


def read_answer(data):
    return Answer(*PACKED_ANSWER.unpack(data))


def refused(number, first_bad=0, run=(0, 0)):
    """An index of a refused report is refused as the report is, and all else is 0 save a run by itself."""
    return Answer(number, first_bad, refusal_at_index=number, run_address=run[0], run_length=run[1])


# ---- A report

def zeros(bits):
    return 0


def ones(bits):
    return 2**bits - 1


class Report:
    """A report's fields, broken or not. Descriptors are pairs of address and length in units; the count is theirs
    unless said, so that more or fewer can be there than are counted."""

    def __init__(self, *descriptors, version=0, suspended=0, more=0, identifier=5, granularity=0, count=None):
        self.descriptors = list(descriptors)
        self.version, self.suspended, self.more = version, suspended, more
        self.identifier, self.granularity = identifier, granularity
        self.count = len(descriptors) if count is None else count

    def packed(self, reserved=zeros):
        """Its bytes. `reserved` answers what stands in so many reserved bits."""
        attributes = reserved(6) << 2 | self.suspended << 1 | self.more
        header = struct.pack("<BBHIH", self.version, attributes, self.identifier, self.count, self.granularity)
        listed = [struct.pack("<QII", *pair, reserved(32)) for pair in self.descriptors]
        return header + reserved(48).to_bytes(6, "little") + b"".join(listed)

    def accepted(self, index):
        """The answer if no rule is broken: exactly these fields, and 33 past the last descriptor."""
        header = Answer(0, 0, self.suspended, self.more, self.identifier, self.granularity, self.count)
        if index >= self.count:
            return header._replace(refusal_at_index=33)
        address, length = self.descriptors[index]
        return header._replace(address=address, length=length, run_address=address, run_length=length)

    def refused(self, number, first_bad, index, size):
        """The answer if a rule is broken, of the first so many bytes: a run by itself is there if it is counted and its
        bytes are among them."""
        there = index < self.count and size >= HEADER_BYTES + DESCRIPTOR_BYTES * (index + 1)
        return refused(number, first_bad, self.descriptors[index] if there else (0, 0))


# ---- A case

class Case(NamedTuple):
    """Lent bytes, an index, and where the documents were worked out by hand, the answer that they ask for."""
    name: str
    lent: bytes
    index: int
    known: Answer = None

    def packed(self):
        return (struct.pack("<HQ6x", len(self.lent), self.index) + self.lent).ljust(CASE_BYTES, b"\0")

    def readable(self):
        yield f"case: {self.name}"
        yield f"index {self.index} ({self.index:#x}) of {len(self.lent)} lent bytes"
        yield from self.readable_header()
        list_end = len(self.lent) - DESCRIPTOR_BYTES + 1
        for number, at in enumerate(range(HEADER_BYTES, list_end, DESCRIPTOR_BYTES)):
            address, length, reserved = struct.unpack_from("<QII", self.lent, at)
            yield f"descriptor {number}: address {address} ({address:#x}), length {length}, reserved {reserved:#x}"
        left = len(self.lent) % DESCRIPTOR_BYTES
        if left:
            yield f"then {left} bytes: {self.lent[-left:].hex(' ')}"

    def readable_header(self):
        if len(self.lent) < HEADER_BYTES:
            return
        version, attributes, identifier, count, granularity = struct.unpack_from("<BBHIH", self.lent)
        yield (f"header: version {version}, attributes {attributes:#010b}, identifier {identifier}, count {count}, "
               f"granularity {granularity}, reserved {self.lent[10:16].hex(' ')}")
