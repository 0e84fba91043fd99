"""Cases that end ahead of the calls: a record is refused, or there is no such kind or arm."""

from itertools import count

import answers
import damage
import held
import tables
from calls import CASE_KINDS, INNER, TWO_RECORDS, Asked, record_kind, refused_call
from choice import INDICES, ahead, by_arm, filler, own_selector, with_every_arm

FIRST, SECOND = 'first record refused', 'second record refused'
BAD_KINDS = (0, 40, 128, 255)
PAST_THE_END = 0xFFFF
UNLISTED = tables.UNLISTED[0]
FAULTS = (
    damage.one_cut, damage.one_unlisted, damage.armless, damage.too_long, damage.body_missing, damage.too_many,
    damage.pcr_too_long, damage.magic, damage.tag, damage.yes_no,
)


def damaged(record, turn):
    """Copies of the record that are refused: their bytes, and the refusal if they begin at 0."""
    for make in FAULTS:
        for _, deposit, text in make(record, turn):
            words = text.split()
            if words[2] == 'refused':
                yield deposit[1:], tuple(map(int, words[3::2]))


def moved(refusal, place):
    """The refusal if the copy begins at another place: the bytes that it had are as many."""
    number, at, *others = refusal
    return number, at + place, *others


# ---- The first record


def first_of(kind, layouts):
    """The records that are damaged: the first two, of kind 15 the smallest of each arm that has an item."""
    alike = [r for r in layouts if r.kind == record_kind(kind)]
    if kind != 15:
        return alike[:2]
    return [next(r for r in records if held.items_of(r)) for records in by_arm(kind, alike).values()]


def first_refused(layouts):
    turns = count()
    for kind in CASE_KINDS:
        for record in first_of(kind, layouts):
            for data, refusal in damaged(record, next(turns)):
                turn = next(turns)
                front = ahead(turn)
                first = len(front)
                second = first if kind in TWO_RECORDS else 0
                asked = Asked(kind, own_selector(record.kind, record), turn % 2 * 99, INDICES[turn % len(INDICES)])
                yield FIRST, refused_call(asked, moved(refusal, first), first, second, front + data)
        yield from no_first(kind)


def no_first(kind):
    """The place of the record is where the records end, or past it."""
    size = {13: 4, 14: 4, 15: 4, 16: 1}.get(record_kind(kind), 2)  # of the first field
    records = filler(3, kind)
    for place in (len(records), PAST_THE_END):
        refusal = answers.short(place, size, len(records))
        yield FIRST, refused_call(Asked(kind, 0, index=0), refusal, place, 0, records)


# ---- The second record


def second_refused(layouts):
    for kind in TWO_RECORDS:
        first, *others = [r for r in layouts if r.kind == kind][:4]
        asked, place = Asked(kind, own_selector(kind, first), index=0), len(first.data)
        for turn, record in enumerate(others):
            for data, refusal in damaged(record, turn):
                yield SECOND, refused_call(asked, moved(refusal, place), 0, place, first.data + data)
        yield from trailing(asked, first, others)
        for far in (place, PAST_THE_END):
            yield SECOND, refused_call(asked, answers.short(far, 2, place), 0, far, first.data)
        yield from first_comes_first(asked, first)


def trailing(asked, first, others):
    """Bytes after the second record, which is read whole; also where it is the first one too."""
    place = len(first.data)
    for record in others:
        for tail in (b'\0', filler(7, 3)):
            refusal = (answers.TRAILING, place + len(record.data), len(tail))
            yield SECOND, refused_call(asked, refusal, 0, place, first.data + record.data + tail)
    yield SECOND, refused_call(asked, (answers.TRAILING, place, 1), 0, 0, first.data + b'\0')


def first_comes_first(asked, record):
    """The first record has an unlisted code, and the second is good, or has another."""
    front = UNLISTED.to_bytes(2, 'big')
    for data in (record.data, b'\xff\xff' + record.data[2:]):
        yield FIRST, refused_call(asked, (answers.UNKNOWN_CODE, 0, UNLISTED), 0, len(front), front + data)


# ---- Neither


def bad_kinds(layouts):
    for kind in BAD_KINDS:
        for turn, data in enumerate([b'', *(record.data for record in layouts[:3])]):
            asked = Asked(kind, tables.NULL, index=INDICES[turn % len(INDICES)])
            yield 'no such kind', refused_call(asked, (answers.BAD_KIND, 0, kind), 0, 0, data)


def other_arms(found):
    for kind, inner in INNER.items():
        for arm, records in with_every_arm(inner.kind, found).items():
            if arm != inner.arm:
                asked, refusal = Asked(kind, tables.NULL, index=0), (answers.BAD_KIND, 0, kind)
                yield 'another arm than the kind names', refused_call(asked, refusal, 0, 0, records[0].data)


def early_cases(found, layouts):
    yield from first_refused(layouts)
    yield from second_refused(layouts)
    yield from bad_kinds(layouts)
    yield from other_arms(found)
