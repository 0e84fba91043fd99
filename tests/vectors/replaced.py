"""Cases in which a part of the record is replaced: a selector, the magic, a tag, a hierarchy, the span of a buffer."""

from itertools import count, product

import answers
import calls
import held
import tables
from calls import AUTH, DIGEST_OF, HIERARCHY_OF, INNER, MAGIC, POLICY, TWO_RECORDS, Asked, Placed, call, record_kind
from choice import (
    FIELD_KINDS, INDICES, ahead, another_of_its_arm, by_arm, filler, listed_codes, smallest_and_full, unions_of,
    unlisted_codes, with_every_arm,
)

SELECTOR_KINDS = (*range(1, 14), 15, 16, *INNER)
WRITERS_REFUSALS = {*range(1, 10), answers.TRAILING}
AREA_REFUSALS = {answers.UNKNOWN_CODE, answers.TOO_LONG, answers.MISMATCH, answers.BAD_SPAN, answers.NO_ROOM}
TICKET_REFUSALS = AREA_REFUSALS - {answers.MISMATCH} | {answers.BAD_VALUE}
REFUSALS_OF_KIND = {16: AREA_REFUSALS, **dict.fromkeys(tables.TICKETS, TICKET_REFUSALS)}
BEHINDS = (0, 0, 2, 0, 5)
MAGICS = (0, 1, 0x4347, 0xFF54, 0xFFFF)
TAGS = (*tables.EVERY_TAG, 0, 0x0021, 0x8020, 0x8026, 0xFFFF)
LENGTHS = (0, 1, 63, 64, 65, 66, 67, 110, 111, 0xFFFF)
SOURCES = (0, 63, 64, 65, 66, 110)


# ---- Every arm under every code


def index_by_turns(kind, code, turn):
    """An index where there are byte fields and the code has an arm; else now and then, to keep the answers short."""
    if kind in FIELD_KINDS and tables.arm_chosen(unions_of(kind)[0], code) is not None:
        return turn % 4
    return calls.NO_INDEX if turn % 29 else turn // 29 % 4


class Tries:
    """A selector tried where there is much room; where the record can be written, with just enough and too little."""

    def __init__(self):
        self.turns = count()
        self.seen = set()

    def tries(self, sort, kind, code, record, second=None):
        turn = next(self.turns)
        behind = filler(BEHINDS[turn % len(BEHINDS)], turn) if second or kind not in TWO_RECORDS else b''
        placed = Placed(record, ahead(turn), behind, second)
        asked = Asked(kind, code, index=index_by_turns(kind, code, turn))
        size = calls.size_written(asked, placed)
        if size is None:
            yield from self.refused(sort, asked, placed)
        else:
            ample = (size + 1, size + 40, calls.GREATEST_ROOM)[turn % 3]
            yield sort + ', written', call(asked._replace(room=ample), placed)
            yield 'room to the byte', call(asked._replace(room=size), placed)
            yield 'no room', call(asked._replace(room=size - 1), placed)
            yield 'no room', call(asked._replace(room=0, index=calls.NO_INDEX), placed)

    def refused(self, sort, asked, placed):
        """A refusal comes ahead of NoRoom: once with no room, for each kind, arms and number."""
        found = call(asked, placed)
        yield sort + ', refused', found
        what = (asked.kind, found.number, found.tried[-1])
        if what not in self.seen:
            self.seen.add(what)
            yield 'refused ahead of NoRoom', call(asked._replace(room=0, index=calls.NO_INDEX), placed)


def every_arm_under_every_code(found):
    tries, turns = Tries(), count()
    for kind in SELECTOR_KINDS:
        for held_records in with_every_arm(kind, found).values():
            for code in (*listed_codes(kind), *unlisted_codes(kind)[next(turns) % 3::3]):
                yield from tries.tries('selector replaced', kind, code, held_records[0])
    for kind in TWO_RECORDS:
        smallest = [held_records[0] for held_records in with_every_arm(kind, found).values()]
        for first, second in product(smallest, smallest):
            second = another_of_its_arm(first, found) if first == second else second
            for code in listed_codes(kind):
                yield from tries.tries('mode or unique of another', kind, code, first, second)


def arms_due(kind):
    """The arms that the unions of a replaced selector must have held together in some case.

    Those of two records are any; those of one were chosen by one selector.
    """
    unions = unions_of(kind)
    if kind in TWO_RECORDS:
        return list(product(*map(tables.arms_of, unions)))
    selectors = tables.WHOLE_ARMS[unions[0]]
    return [tuple(tables.arm_chosen(union, selector) for union in unions) for selector in selectors]


def require_complete(made):
    """Every refusal of a writer comes up, and every arm under every code.

    From kind 16 on each kind has the refusals of its own writer; and every ticket every tag and hierarchy.
    """
    missed = WRITERS_REFUSALS - {found.number for found in made}
    if missed:
        raise SystemExit(f'no case has the refusals {sorted(missed)} of a writer')
    for kind, due in REFUSALS_OF_KIND.items():
        numbers = {found.number for found in made if found.tried and record_kind(found.tried[0]) == kind} - {None}
        if numbers != due:
            raise SystemExit(f'cases of kind {kind} have the refusals {sorted(numbers)}, and its writer {sorted(due)}')
    tried = {found.tried for found in made}
    due = {(kind, tag, ()) for kind in tables.TICKETS for tag in tables.EVERY_TAG}
    due |= {(kind, code, ()) for kind in HIERARCHY_OF for code in tables.HIERARCHIES}
    if due - tried:
        raise SystemExit(f'no case tries the tags and hierarchies {sorted(due - tried)}')
    for kind in SELECTOR_KINDS:
        due = {(kind, code, arms) for code in listed_codes(kind) for arms in arms_due(kind)}
        if due - tried:
            raise SystemExit(f'cases of kind {kind} lack the codes and arms {sorted(due - tried)}')


# ---- Parts that are no selectors


def magics(found):
    """The magic comes first on the wire: no later fault and no lack of room is ahead of it."""
    for turn, records in enumerate(by_arm(13, found).values()):
        placed = Placed(records[0], ahead(turn), filler(turn % 3, turn))
        for number in MAGICS:
            asked = Asked(MAGIC, number, index=INDICES[turn % len(INDICES)])
            yield 'magic replaced', call(asked, placed)
            yield 'magic replaced', call(asked._replace(room=0), placed)
            yield 'magic replaced', call(asked._replace(index=turn % 4), placed, placed.source._replace(data=b''))


def number_replaced(sort, asked, placed):
    """With much room, none, and an empty source; if the record is written, with just enough room and a byte less."""
    yield sort, call(asked, placed)
    yield sort, call(asked._replace(room=0), placed)
    yield sort, call(asked, placed, placed.source._replace(data=b''))
    size = calls.size_written(asked, placed)
    for room in (size, size - 1) if size else ():
        yield sort, call(asked._replace(room=room), placed)


def tickets(kind, found):
    """Of each tag of the kind the smallest ticket, and the smallest with a digest, as a case lends them."""
    for turn, records in enumerate(by_arm(kind, found).values()):
        for record in smallest_and_full(records):
            yield turn, Placed(record, ahead(turn), filler(turn % 3, turn))


def tags(found):
    """The tag comes first on the wire, as the magic does."""
    for kind in tables.TICKETS:
        for turn, placed in tickets(kind, found):
            for number in TAGS:
                asked = Asked(kind, number, index=INDICES[(turn + number) % len(INDICES)])
                yield from number_replaced('tag replaced', asked, placed)


def hierarchies(found):
    """A hierarchy is refused ahead of a digest that is not there."""
    for kind, ticket in HIERARCHY_OF.items():
        for turn, placed in tickets(ticket, found):
            for code in (*tables.HIERARCHIES, *tables.UNLISTED_HIERARCHIES[(turn + kind) % 3::3]):
                asked = Asked(kind, code, index=INDICES[(turn + code) % len(INDICES)])
                yield from number_replaced('hierarchy replaced', asked, placed)


def spans(sort, kinds, found):
    """A span that is too long for its source is refused ahead of one that is too long for its buffer."""
    for kind in kinds:
        for turn, records in enumerate(by_arm(record_kind(kind), found).values()):
            placed = Placed(records[0], ahead(turn))
            sources = [None, *(held.Source(filler(size, turn)) for size in SOURCES)]
            for length in LENGTHS:
                for number, source in enumerate(sources):
                    yield sort, call(Asked(kind, length, index=(number + length) % 4), placed, source)
                size = calls.size_written(Asked(kind, length), placed)
                for room in (size, size - 1, 0) if size else ():
                    yield sort, call(Asked(kind, length, room), placed)


def replaced_cases(found):
    yield from every_arm_under_every_code(found)
    yield from magics(found)
    yield from tags(found)
    yield from hierarchies(found)
    yield from spans('auth replaced', (AUTH,), found)
    yield from spans('policy or digest replaced', (POLICY, *DIGEST_OF), found)
