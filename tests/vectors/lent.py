"""Sources that are not the records: too short for a span, and with other bytes."""

import held
import tables
from calls import TWO_RECORDS, Asked, Placed, call
from choice import (
    FIELD_KINDS, ahead, another_of_its_arm, by_arm, own_selector, smallest_and_full, unions_of, unlisted_codes,
)


# ---- Spans past the end


def cuts(placed):
    """Where a source is cut: at its ends, and at both ends of each span and inside of it."""
    places = {0, len(placed.data) - 1}
    for span in held.spans(placed.row):
        end = span.start + span.length
        places |= {span.start, span.start + span.length // 2, end - 1, end}
    return sorted(place for place in places if place >= 0)


def cut_source(source, size):
    return source._replace(data=source.data[:size])


def nearest_field(placed, size):
    """The index of the first byte field that a source of that size does not hold, or one past the last."""
    held_spans = held.spans(placed.row)
    return next((i for i, span in enumerate(held_spans) if span.start + span.length > size), len(held_spans))


def cut_sources(kind, code, placed):
    for turn, size in enumerate(cuts(placed)):
        source, near = cut_source(placed.source, size), nearest_field(placed, size)
        yield 'source cut', call(Asked(kind, code, index=near), placed, source)
        if near and turn % 2:
            yield 'source cut', call(Asked(kind, code, 9, near - 1), placed, source)


def cut_and_other_selector(kind, codes, placed):
    """A span past the end and a selector that is not the record's: what comes first on the wire is refused."""
    for turn, code in enumerate(codes):
        source = cut_source(placed.source, turn % 2 * (len(placed.data) - 1))
        yield 'source cut, selector replaced', call(Asked(kind, code, index=turn % 4), placed, source)


# ---- Other bytes


def inverted(data):
    return bytes(255 - byte for byte in data)


def other_bytes(kind, code, placed):
    """What is written and handed out is the source's; a longer source makes no difference."""
    for index, source in enumerate((inverted(placed.data), inverted(placed.data) + b'\xa5' * 5)):
        asked = Asked(kind, code, index=index)
        yield 'source with other bytes', call(asked, placed, held.Source(source))


# ---- For which records


def with_sources(found):
    """For each kind and arm with byte fields: its smallest record, and the smallest that is full."""
    for kind in FIELD_KINDS:
        alike = by_arm(kind, found).values() if kind != 14 else [[r] for r in found if r.kind == 14]
        for records in alike:
            for record in smallest_and_full(records):
                yield kind, record


def other_selectors(kind, turn):
    """What is put in place of a selector, or of a tag; kind 14 has none."""
    if kind in tables.TICKETS:
        return tables.EVERY_TAG
    return (*tables.arms_of(unions_of(kind)[0]), tables.AES, unlisted_codes(kind)[turn % 9]) if kind != 14 else ()


def other_sources(found):
    for turn, (kind, record) in enumerate(with_sources(found)):
        code = own_selector(kind, record)
        second = another_of_its_arm(record, found) if kind in TWO_RECORDS and turn % 2 else None
        placed = Placed(record, ahead(turn), b'', second)
        yield from cut_sources(kind, code, placed)
        yield from cut_and_other_selector(kind, other_selectors(kind, turn), placed)
        if held.list_span(placed.row) is None:
            yield from other_bytes(kind, code, placed)
