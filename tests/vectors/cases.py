"""All cases for the program `calls`.

Each maker yields the sort of a case and the case with its answer. What does not bear on the answer (bytes
ahead of the record and behind it, an index where the writer is tried) changes from case to case by turns.
"""

import by_hand
import calls
import damage
import early
import held
import lent
import lists
import replaced
import tables
from calls import TWO_RECORDS, Asked, Placed, call
from choice import FIELD_KINDS, another_of_its_arm, filler, own_selector

FAR_INDICES = (16, 255, 256, 0xFFFE)


# ---- Byte fields and items by index


def last_index(record):
    return max(len(held.spans(held.row_of(record))), len(held.items_of(record))) - 1


def indices(record, past):
    """Every index, and some past the last; of a long list of kind 15 the first two items and the last two."""
    last = last_index(record)
    long = record.kind == 15 and last >= damage.FEW_ITEMS
    return [index for index in range(last + 1 + past) if not (long and 2 <= index <= last - 2)]


def settings(record, found, turn):
    """The record alone, and with bytes ahead of it and a tail; if its kind has byte fields, also with either."""
    tail = filler(1 + turn % 4, turn)
    second = another_of_its_arm(record, found) if record.kind in TWO_RECORDS else None
    front = filler(1 + turn % 6, turn + 1)
    yield Placed(record)
    yield Placed(record, front, tail, second)
    if record.kind in FIELD_KINDS:
        yield Placed(record, b'', b'' if second and turn % 2 else tail, second)
        yield Placed(record, front)


def by_index(found, layouts):
    for turn, record in enumerate(layouts):
        code = own_selector(record.kind, record)
        for number, placed in enumerate(settings(record, found, turn)):
            past = 2 if number < 2 else 0
            for index in indices(record, past):
                room = calls.GREATEST_ROOM if index == number == turn % 2 else 0
                yield 'by index', call(Asked(record.kind, code, room, index), placed)
    for kind in tables.KINDS:
        record = next(r for r in layouts if r.kind == kind)
        for index in FAR_INDICES:
            yield 'by index', call(Asked(kind, own_selector(kind, record), 0, index), Placed(record))


def every_real_record(real):
    for turn, record in enumerate(r for r in real if r.kind >= 10):
        index = turn % (last_index(record) + 1) if last_index(record) >= 0 else 0
        asked = Asked(record.kind, own_selector(record.kind, record), 0, index)
        yield 'real record, by index', call(asked, Placed(record, filler(turn % 3, turn)))


# ---- All of them


def all_cases(real, samples, layouts):
    """Every case, from the real records, the records of the samples, and the smallest real one of each layout."""
    found = real + samples
    yield from by_hand.cases_by_hand(found)
    yield from replaced.replaced_cases(found)
    yield from by_index(found, layouts)
    yield from every_real_record(real)
    yield from lent.other_sources(found)
    yield from lists.list_cases(found, layouts)
    yield from early.early_cases(found, layouts)
