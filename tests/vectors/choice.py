"""Which records the cases for `calls` are made from, and what changes from case to case."""

import calls
import damage
import held
import sweeps
import tables
from calls import INNER, record_kind

FIELD_KINDS = (1, *range(10, 22))  # those whose records have byte fields
INDICES = (calls.NO_INDEX, 0, 1, 2, 3)
AHEADS = (0, 3, 0, 1, 0, 9)


def filler(size, turn):
    """So many bytes, others at each turn."""
    return damage.PATTERN[turn * 37 % 256:][:size]


def ahead(turn):
    """The bytes ahead of a record: none every other turn."""
    return filler(AHEADS[turn % len(AHEADS)], turn)


def held_arm(kind, record):
    """The arm that the union holds whose selector a case of this kind replaces; None if there is no such union.

    Of a ticket, which has no union, its tag.
    """
    row = held.row_of(record)
    if record.kind in tables.TICKETS:
        return row[0].value
    where = held.selectors(row)
    if kind in INNER and held.arms_by(row, where[0])[0].arm != INNER[kind].arm:
        return None
    return held.arms_by(row, where[calls.selectors_ahead(kind)])[0].arm


def by_arm(kind, found):
    """The records that hold each arm, the smallest first."""
    arms = {}
    for record in sorted((r for r in found if r.kind == record_kind(kind)), key=lambda r: len(r.data)):
        arms.setdefault(held_arm(kind, record), []).append(record)
    arms.pop(None, None)
    return arms


def with_every_arm(kind, found):
    """The same; an arm that no real record and no sample holds is held by a record built from the tables."""
    arms = by_arm(kind, found)
    for arm, built in by_arm(kind, list(sweeps.every_arm())).items():
        arms.setdefault(arm, built)
    return arms


def own_selector(kind, record):
    """The selector that the record has, or the tag; kind 14 has none, and any number can stand there."""
    if kind == 14:
        return tables.NULL
    row = held.row_of(record)
    if kind in tables.TICKETS:
        return row[0].value
    return row[held.selectors(row)[calls.selectors_ahead(kind)]].value


def unions_of(kind):
    """The unions whose selector a case of this kind replaces."""
    form = tables.FORMS[INNER[kind].inside if kind in INNER else kind]
    return [union for what, union in form if what == 'arm']


def listed_codes(kind):
    return tables.SELECTORS_OF_UNION.get(unions_of(kind)[0], tables.ALGORITHMS)


def unlisted_codes(kind):
    return tables.unlisted(kind, {15: 4, 16: 1}.get(kind, 2))


def is_full(record):
    """Whether no byte field is empty; of kind 15, whether its list has an item."""
    if record.kind == 15:
        return bool(held.items_of(record))
    return all(span.length for span in held.spans(held.row_of(record)))


def smallest_and_full(records):
    """Of records that are alike: the first, and the first that is full, if that is another."""
    full = [r for r in records if is_full(r)]
    return records[:1] + [r for r in full[:1] if r != records[0]]


def last_arm_bytes(record):
    row, source = held.row_of(record), held.Source(record.data)
    return b''.join(part.written(source) for part in row[held.last_arm(row):])


def another_of_its_arm(record, found):
    """A record of the same arm with another mode or unique part; the record itself if there is none."""
    others = by_arm(record.kind, found)[held_arm(record.kind, record)]
    return next((other for other in others if last_arm_bytes(other) != last_arm_bytes(record)), record)
