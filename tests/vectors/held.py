"""A record as a writer sees it, and what docs/FORMAT.md, sections 9 and 10, say of it.

It is a row of parts in wire order, built from the record's decoded fields. A part says what it is refused
for and what it is written as; a union is a part without bytes, and names the part that is its selector.
"""

from typing import NamedTuple, Optional

import answers
import tables

YES_OR_NO = (0, 1)


class Source(NamedTuple):
    """The slice that spans point into, and what is known of the list in it: its items, or its first fault."""
    data: bytes
    items: tuple = ()
    fault: Optional[tuple] = None  # number, place from the list's first byte, value; of Short what the list had there


class Span(NamedTuple):
    start: int
    length: int

    def bad(self, source):
        return self.start + self.length > len(source.data)

    def piece(self, source):
        return source.data[self.start:self.start + self.length]


# ---- The parts. A fault is a number, a place from the part's first byte, and a value.


class Number(NamedTuple):
    size: int
    value: int
    allowed: Optional[tuple] = None  # None: any

    def fault(self, _row, _source):
        bad = self.allowed is not None and self.value not in self.allowed
        return (answers.BAD_VALUE, 0, self.value) if bad else None

    def written(self, _source):
        return self.value.to_bytes(self.size, 'big')


class Code(NamedTuple):
    value: int
    what: str  # which of the lists it must be on
    size: int

    def fault(self, _row, _source):
        listed = self.value in tables.LISTED[self.what]
        return None if listed else (answers.UNKNOWN_CODE, 0, self.value)

    def written(self, _source):
        return self.value.to_bytes(self.size, 'big')


class Union(NamedTuple):
    name: str
    arm: int  # the one that is held
    selector: int  # the index of its selector in the row

    def matches(self, code):
        return tables.arm_chosen(self.name, code) == self.arm

    def fault(self, row, _source):
        code = row[self.selector].value
        if tables.arm_chosen(self.name, code) is None:
            return answers.NO_ARM, 0, code
        return None if self.matches(code) else (answers.MISMATCH, 0, code)

    def written(self, _source):
        return b''


class Digest(NamedTuple):
    span: Span

    def fault(self, _row, source):
        return (answers.BAD_SPAN, 0, self.span.length) if self.span.bad(source) else None

    def written(self, source):
        return self.span.piece(source)


class Buffer(NamedTuple):
    span: Span
    limit: int

    def fault(self, _row, source):
        if self.span.bad(source):
            return answers.BAD_SPAN, 0, self.span.length
        return (answers.TOO_LONG, 0, self.span.length) if self.span.length > self.limit else None

    def written(self, source):
        return self.span.length.to_bytes(2, 'big') + self.span.piece(source)


class List(NamedTuple):
    span: Span

    def fault(self, _row, source):
        return (answers.BAD_SPAN, 0, self.span.length) if self.span.bad(source) else source.fault

    def written(self, source):
        return self.span.piece(source)


# ---- The row of a record


class Rows:
    """Builds the row of a record that begins at a place of its slice, and keeps the items of its list."""

    def __init__(self, record, place):
        self.record, self.place = record, place
        self.left = list(record.fields)
        self.row, self.items = [], ()
        self.form(record.kind)
        if self.left:
            self.stop(self.left[0])

    def stop(self, field):
        raise SystemExit(f'{self.record.name}: {field} is not what the form of kind {self.record.kind} has there')

    def take(self, what, size=None):
        if not self.left:
            self.stop('the end')
        field = self.left.pop(0)
        if field.what != what or size not in (None, field.size):
            self.stop(field)
        return field

    def form(self, kind):
        selector = None
        for what, detail in tables.FORMS[kind]:
            if what in tables.LISTED and selector is None:
                selector = len(self.row)
            if what == 'arm':
                self.arm(detail, selector)
            else:
                self.part(what, detail)

    def arm(self, union, selector):
        code = self.row[selector].value
        self.row.append(Union(union, tables.arm_chosen(union, code), selector))
        for part in tables.WHOLE_ARMS[union][code]:
            self.part(*part)

    def part(self, what, detail):
        if what == 'kind':
            self.form(detail)
        elif what == 'list':
            self.list(tables.LISTS[detail].item)
        elif what == 'buffer':
            self.take('number', 2)
            self.row.append(Buffer(self.span(self.take('bytes')), detail))
        elif what == 'bytes':
            self.row.append(Digest(self.span(self.take('bytes', detail))))
        elif what == 'fixed':
            size, allowed = detail
            self.row.append(Number(size, self.take('number', size).value, allowed))
        elif what == 'number':
            allowed = YES_OR_NO if (what, detail) == tables.YES_NO else None
            self.row.append(Number(detail, self.take('number', detail).value, allowed))
        else:
            self.row.append(Code(self.take('code', detail).value, what, detail))

    def span(self, field):
        return Span(self.place + field.place, field.size)

    def list(self, item):
        """The count and the items: one part."""
        count = self.take('number', 4)
        end, items = count.end, []
        for _ in range(count.value):
            begin = end
            for part in item:
                end = self.item_part(part)
            items.append(self.record.data[begin:end])
        self.items = tuple(items)
        self.row.append(List(Span(self.place + count.place, end - count.place)))

    def item_part(self, part):
        """The place where the part of an item ends."""
        for what, size in tables.fields_of(part, self.left[0].value if self.left else None):
            last = self.take(what, size)
        return last.end


def row_of(record, place=0):
    return tuple(Rows(record, place).row)


def items_of(record):
    return Rows(record, 0).items


def selectors(row):
    """Where the row's selectors stand: the outer one, then those further in."""
    return sorted({part.selector for part in row if isinstance(part, Union)})


def arms_by(row, selector):
    """The unions of a selector, in wire order."""
    return [part for part in row if isinstance(part, Union) and part.selector == selector]


def last_arm(row):
    """Where the last union of the outer selector stands: a mode, a unique part. The row ends with its arm."""
    outer = selectors(row)[0]
    return max(i for i, part in enumerate(row) if isinstance(part, Union) and part.selector == outer)


def with_last_arm(row, other):
    return row[:last_arm(row)] + other[last_arm(other):]


def with_part(row, index, part):
    return row[:index] + (part,) + row[index + 1:]


# ---- What is asked of it. An answer is bytes, or a refusal: number, place, value, and of Short what it had.


def marshalled(row, source, room):
    out = b''
    for part in row:
        fault = part.fault(row, source)
        if fault:
            number, ahead, *others = fault
            return number, len(out) + ahead, *others
        out += part.written(source)
    return out if len(out) <= room else (answers.NO_ROOM, 0, len(out))


def spans(row):
    return [part.span for part in row if isinstance(part, (Digest, Buffer, List))]


def list_span(row):
    """The span of the list; None if the row has none."""
    return next((part.span for part in row if isinstance(part, List)), None)


def field(row, source, index):
    held = spans(row)
    if index >= len(held):
        return answers.NO_FIELD, 0, index
    if held[index].bad(source):
        return answers.BAD_SPAN, 0, held[index].length
    return held[index].piece(source)


def item(row, source, index):
    span = list_span(row)
    if span is None:
        return answers.NO_FIELD, 0, index
    if span.bad(source):
        return answers.BAD_SPAN, 0, span.length
    if source.fault:
        return source.fault
    return source.items[index] if index < len(source.items) else (answers.NO_FIELD, 0, index)
