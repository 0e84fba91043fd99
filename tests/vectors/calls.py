"""A case for the program `calls`, and what it must print: the calls that a record has, asked one by one.

A case lends a record, another selector for it, a source, an output and an index. README.md has its bytes.
"""

from typing import NamedTuple, Optional

import answers
import held
import tables
from records import Record

GREATEST_ROOM = 4096
GREATEST_CASE = 8192
NO_INDEX = 0xFFFF
TWO_RECORDS = (2, 11)  # the mode, the unique part is that of a second record
MAGIC, AUTH, LIST, POLICY = 28, 29, 30, 35  # what is replaced is no selector
HIERARCHY_OF = dict(zip(range(31, 35), tables.TICKETS))  # of a ticket of which kind: its hierarchy, its digest
DIGEST_OF = dict(zip(range(36, 40), tables.TICKETS))
SPANS = (AUTH, LIST, POLICY, *DIGEST_OF)  # it is a span


class Inner(NamedTuple):
    """A selector further in: in which kind and under which arm it stands."""
    kind: int
    arm: int
    ahead: int  # how many selectors come first
    inside: int  # the kind whose selector it is, as a part of the arm


INNER = {
    21: Inner(10, tables.HMAC, 1, 1),
    22: Inner(9, tables.KEYEDHASH, 1, 4),
    23: Inner(9, tables.SYMCIPHER, 1, 2),
    24: Inner(9, tables.RSA, 1, 2),
    25: Inner(9, tables.RSA, 2, 6),
    26: Inner(9, tables.ECC, 2, 7),
    27: Inner(9, tables.ECC, 3, 3),
}
READ_BY = {MAGIC: 13, AUTH: 12, LIST: 15, POLICY: 16, **HIERARCHY_OF, **DIGEST_OF}
CASE_KINDS = (*tables.KINDS, *INNER, *sorted(READ_BY))

# Where the part that is replaced, and is no selector, stands in the row.
PARTS = {
    MAGIC: 0, AUTH: 1, LIST: 2, POLICY: 5, **dict.fromkeys(tables.TICKETS, 0), **dict.fromkeys(HIERARCHY_OF, 1),
    **dict.fromkeys(DIGEST_OF, 2),
}


def record_kind(kind):
    """The kind of the record that a case of that kind reads."""
    return INNER[kind].kind if kind in INNER else READ_BY.get(kind, kind)


def selectors_ahead(kind):
    """How many of the record's selectors come ahead of the one that is replaced."""
    return INNER[kind].ahead if kind in INNER else 0


class Placed(NamedTuple):
    """Records as a case lends them: where the first begins, what follows it, and a second for two kinds."""
    record: Record
    ahead: bytes = b''
    behind: bytes = b''
    second: Optional[Record] = None  # stands last; without one the first is the second too

    @property
    def tail(self):
        return self.behind + (self.second.data if self.second else b'')

    @property
    def data(self):
        return self.ahead + self.record.data + self.tail

    @property
    def first_place(self):
        return len(self.ahead)

    @property
    def second_place(self):
        return len(self.data) - len(self.second.data) if self.second else self.first_place

    @property
    def source(self):
        return held.Source(self.data, held.items_of(self.record))

    @property
    def row(self):
        row = held.row_of(self.record, self.first_place)
        return held.with_last_arm(row, held.row_of(self.second, self.second_place)) if self.second else row


class Asked(NamedTuple):
    """What a case asks for, beside its records."""
    kind: int
    selector: int
    room: int = GREATEST_ROOM
    index: int = NO_INDEX


class Call(NamedTuple):
    """A case with its answer, and what it tries."""
    case: bytes
    answer: str
    number: Optional[int] = None  # of the writer's refusal
    tried: tuple = ()  # the kind, the new selector, and the arms held by the unions that it chooses for


def case_bytes(asked, first, second, records, source=None):
    """The bytes of a case; a source that is None is the records."""
    upper, lower = divmod(asked.selector, 0x10000)
    words = (lower, asked.room, asked.index, first, second or upper)
    head = bytes([asked.kind]) + b''.join(word.to_bytes(2, 'big') for word in words)
    behind = b'' if source is None else source
    case = head + bytes([source is not None]) + len(records).to_bytes(2, 'big') + records + behind
    if asked.room > GREATEST_ROOM or len(case) > GREATEST_CASE:
        raise SystemExit(f'a case of kind {asked.kind} has room for {asked.room} and {len(case)} bytes')
    return case


def refused_call(asked, refusal, first, second, records):
    """A case that ends with its records: one is refused, or there is no such kind or arm."""
    return Call(case_bytes(asked, first, second, records), answers.refused(asked.kind, *refusal))


def replaced(asked, row):
    """The row with the case's number in its place, and where its selector stands (None where none is replaced)."""
    if asked.kind == 14:
        return row, None
    if asked.kind in PARTS:
        part = row[PARTS[asked.kind]]
        if asked.kind in SPANS:
            part = part._replace(span=held.Span(0, asked.selector))
        else:
            part = part._replace(value=asked.selector)
        return held.with_part(row, PARTS[asked.kind], part), None
    index = held.selectors(row)[selectors_ahead(asked.kind)]
    return held.with_part(row, index, row[index]._replace(value=asked.selector)), index


def line(asked, word, given):
    """Bytes behind their word, or the line of a refusal."""
    if isinstance(given, bytes):
        return f'{word} {given.hex() or "-"}\n'
    return answers.refused(asked.kind, *given)


def call(asked, placed, other_source=None):
    """A case whose records are read, with the records as source or another one."""
    row, selector = replaced(asked, placed.row)
    unions = [] if selector is None else held.arms_by(row, selector)
    source = other_source or placed.source
    written = held.marshalled(row, source, asked.room)
    text = ''.join(f'm {int(union.matches(asked.selector))}\n' for union in unions) + line(asked, 'again', written)
    if asked.index != NO_INDEX:
        text += line(asked, 'tail', placed.tail)
        text += line(asked, 'field', held.field(row, source, asked.index))
        text += line(asked, 'item', held.item(row, source, asked.index))
    second = placed.second_place if asked.kind in TWO_RECORDS else 0
    other = other_source.data if other_source else None
    case = case_bytes(asked, placed.first_place, second, placed.data, other)
    number = None if isinstance(written, bytes) else written[0]
    return Call(case, text, number, (asked.kind, asked.selector, tuple(union.arm for union in unions)))


def size_written(asked, placed, other_source=None):
    """How many bytes the record is written as, or None if it is refused for more than the room."""
    row, _ = replaced(asked, placed.row)
    written = held.marshalled(row, other_source or placed.source, GREATEST_ROOM)
    return len(written) if isinstance(written, bytes) else None
