"""Copies of records, changed so that the answer follows from the decoded fields.

Each maker takes a record and a turn, a number that is another one for each record, and yields deposits: what
sort of copy it is, its bytes, its answer. A record is judged field by field, so that bytes behind the first
fault do not matter: by turns a refused copy is left as it is, ends there, or goes on with other bytes.
"""

import answers
import tables
from records import (
    Field, byte_counts, items, lengths, list_count, list_form, pcr_sizes, selectors, with_number,
)

SHORT_RECORD = 32
FEW_ITEMS = 4
TAILS = (1, 2, 3, 7, 16, 64)
PATTERN = bytes(range(256)) * 9


def deposit(kind, data):
    return bytes([kind]) + data


def whole(sort, record, tail=b''):
    text = answers.read(record.kind, record.fields, len(tail)) + answers.again(record.data)
    return sort, deposit(record.kind, record.data + tail), text


def refused(sort, kind, data, refusal):
    return sort, deposit(kind, data), answers.refused(kind, *refusal)


def refused_by_turns(sort, copy, refusal, settled, turn):
    """A refused copy; from the place `settled` on its bytes do not matter."""
    behind = copy.data[settled:]
    behind = (behind, b'', b'\xff' * len(behind))[turn % 3]
    return refused(sort, copy.kind, copy.data[:settled] + behind, refusal)


def number_refused(sort, record, index, value, fault, turn):
    """A copy that is refused at one field, for the value that was put there."""
    field = record.fields[index]
    copy = with_number(record, index, value)
    return refused_by_turns(sort, copy, (fault, field.place, value), field.end, turn + index)


def tried(record):
    """The fields that are changed one by one, by index: of a long list of kind 15 those of three items."""
    found = items(record) if record.kind == 15 else []
    skipped = range(found[2][0], found[-1][0]) if len(found) > FEW_ITEMS else ()
    return [i for i in range(len(record.fields)) if i not in skipped]


# ---- Tails and cuts


def tail(record, turn):
    yield whole('record with a tail', record, PATTERN[turn % 256:][:TAILS[turn % len(TAILS)]])


def cut_at(record, cut):
    """The first so many bytes: refused at the first field that they do not hold."""
    field = next(f for f in record.fields if f.end > cut)
    return refused('cut', record.kind, record.data[:cut], answers.short(field.place, field.size, cut))


def cuts(record, _turn):
    """Each field cut away, and cut by its last byte; a short record at every byte."""
    if len(record.data) <= SHORT_RECORD:
        places = range(len(record.data))
    else:
        fields = [record.fields[i] for i in tried(record)]
        places = sorted({p for f in fields if f.size for p in (f.place, f.end - 1)})
    for cut in places:
        yield cut_at(record, cut)


def one_cut(record, turn):
    yield cut_at(record, turn * 7919 % len(record.data))


# ---- Codes and selectors


def code_indices(record):
    return [i for i in tried(record) if record.fields[i].what == 'code']


def unlisted_at(record, index, turn):
    choices = tables.unlisted(record.kind, record.fields[index].size)
    code = choices[(turn + index) % len(choices)]
    return number_refused('code made unlisted', record, index, code, answers.UNKNOWN_CODE, turn)


def unlisted(record, turn):
    for index in code_indices(record):
        yield unlisted_at(record, index, turn)


def one_unlisted(record, turn):
    indices = code_indices(record)
    if indices:
        yield unlisted_at(record, indices[turn % len(indices)], turn)


def armless(record, turn):
    """Each selector made a listed code that has no arm there. (Every attestation type and handle type has one.)"""
    changed = tried(record)
    for s in selectors(record):
        choices = tables.armless(s.union)
        if not choices or s.index not in changed:
            continue
        code = choices[(turn + s.index) % len(choices)]
        copy = with_number(record, s.index, code)
        refusal = (answers.NO_ARM, s.due, code)
        yield refused_by_turns('selector without an arm', copy, refusal, s.due, turn + s.index)


def made_null(record, _turn):
    """A selector made Null where the record ends with its arm: what was the arm is a tail then."""
    for s in selectors(record):
        if s.ends and tables.NULL in tables.ARMS[s.union]:
            copy = with_number(record, s.index, tables.NULL)
            kept = copy._replace(data=copy.data[:s.due], fields=copy.fields[:s.ahead])
            yield whole('selector made Null', kept, copy.data[s.due:])


# ---- Lengths and bodies


def too_long(record, turn):
    for index, limit in lengths(record):
        for value in (limit + 1, 0xFFFF):
            yield number_refused('length above its limit', record, index, value, answers.TOO_LONG, turn)


def body_missing(record, _turn):
    """Each length at its limit, and then no body or all of it but a byte."""
    for index, limit in lengths(record):
        field = record.fields[index]
        front = with_number(record, index, limit).data[:field.end]
        for there in (0, limit - 1):
            copy = front + PATTERN[:there]
            refusal = answers.short(field.end, limit, len(copy))
            yield refused('length at its limit, body short', record.kind, copy, refusal)


def with_bodies(record, sizes):
    """The record with other bodies: by the index of its length, the size of each."""
    fields, data = [], b''
    for index, f in enumerate(record.fields):
        piece = record.data[f.place:f.end]
        if index in sizes:
            piece = sizes[index].to_bytes(f.size, 'big')
        elif index - 1 in sizes:
            piece = PATTERN[index:][:sizes[index - 1]]
        shown = piece.hex() if f.what == 'bytes' else int.from_bytes(piece, 'big')
        fields.append(Field(len(data), len(piece), f.what, shown))
        data += piece
    return record._replace(data=data, fields=tuple(fields))


def at_limits(record, _turn):
    due = lengths(record)
    if due:
        yield whole('every buffer at its limit', with_bodies(record, dict(due)))
        yield whole('every buffer empty', with_bodies(record, {index: 0 for index, _ in due}))


def last_body(record, _turn):
    """The last body a byte shorter, the byte in the tail; and a byte longer, and not there."""
    index = len(record.fields) - 2
    if index not in byte_counts(record):
        return
    length, body = record.fields[index:]
    if body.size > 0:
        copy = with_number(record, index, body.size - 1)
        shorter = Field(body.place, body.size - 1, 'bytes', body.value[:-2])
        kept = copy._replace(data=copy.data[:-1], fields=copy.fields[:-1] + (shorter,))
        yield whole('last body a byte shorter', kept, copy.data[-1:])
    limit = tables.GREATEST_PCR_SIZE if length.size == 1 else lengths(record)[-1][1]
    if body.size < limit:
        copy = with_number(record, index, body.size + 1)
        refusal = answers.short(body.place, body.size + 1, len(copy.data))
        yield refused('last body a byte longer', record.kind, copy.data, refusal)


# ---- The list


def too_many(record, turn):
    index = list_count(record)
    if index is not None:
        for count in (list_form(record).most + 1, 0xFFFFFFFF):
            yield number_refused('count above its limit', record, index, count, answers.TOO_MANY_ITEMS, turn)


def pcr_too_long(record, turn):
    for index in sorted({*pcr_sizes(record)} & {*tried(record)}):
        for size in (tables.GREATEST_PCR_SIZE + 1, 0xFF):
            yield number_refused('PCR size above 4', record, index, size, answers.TOO_LONG, turn)


def other_count(record, _turn):
    """A list that ends the record: a count of one less, the last item a tail then; one more, which is not there."""
    if record.kind not in (14, 15):
        return
    index, form, found = list_count(record), list_form(record), items(record)
    if found:
        copy = with_number(record, index, len(found) - 1)
        last = found[-1][0]
        end = copy.fields[last].place
        kept = copy._replace(data=copy.data[:end], fields=copy.fields[:last])
        yield whole('count of one less', kept, copy.data[end:])
    if len(found) < form.most:
        copy = with_number(record, index, len(found) + 1)
        _, size = form.item[0]
        refusal = answers.short(len(copy.data), size, len(copy.data))
        yield refused('count of one more', record.kind, copy.data, refusal)


# ---- Numbers


def magic(record, turn):
    if record.kind == 13:
        for bit in (turn % 32, (turn + 13) % 32):
            value = tables.MAGIC ^ 1 << bit
            yield number_refused('magic damaged', record, 0, value, answers.BAD_VALUE, turn)


def tag(record, turn):
    """The tag of a ticket: a bit turned, those of the other tickets, and a byte of it alone."""
    if record.kind in tables.TICKETS:
        own = record.fields[0].value
        others = {own ^ 1 << turn % 16, own & 0xFF, own << 8 & 0xFFFF, *tables.EVERY_TAG}
        for value in sorted(others - {*tables.TAGS[record.kind]}):
            yield number_refused('tag damaged', record, 0, value, answers.BAD_VALUE, turn)


def yes_no_indices(record):
    counts = byte_counts(record)
    return [i for i, f in enumerate(record.fields) if f.what == 'number' and f.size == 1 and i not in counts]


def yes_no(record, turn):
    for index in yes_no_indices(record):
        yield whole('yes/no byte turned', with_number(record, index, 1 - record.fields[index].value))
        for value in (2, 0xFF):
            yield number_refused('yes/no byte damaged', record, index, value, answers.BAD_VALUE, turn)


def free_numbers(record):
    """The numbers that have no rule."""
    ruled = set(byte_counts(record)) | set(yes_no_indices(record)) | {list_count(record)}
    if record.kind in (13, *tables.TICKETS):
        ruled.add(0)  # the magic, the tag
    return [i for i, f in enumerate(record.fields) if f.what == 'number' and i not in ruled]


def extreme_numbers(record, _turn):
    """All numbers that have no rule at their greatest, and all of them 0."""
    indices = free_numbers(record)
    greatest = least = record
    for index in indices:
        greatest = with_number(greatest, index, 256 ** record.fields[index].size - 1)
        least = with_number(least, index, 0)
    if indices:
        yield whole('numbers at their greatest', greatest)
        yield whole('numbers at 0', least)


# What one record of each layout goes through, and what every real record goes through.
FOR_EACH_LAYOUT = (
    tail, cuts, unlisted, armless, made_null, too_long, body_missing, at_limits, last_body, too_many,
    pcr_too_long, other_count, magic, tag, yes_no, extreme_numbers,
)
FOR_EACH_RECORD = (one_cut, one_unlisted)
