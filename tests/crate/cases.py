"""The cases of matches_tag, writing and asking by index: their frame, and how they are made.

The frame is that of our program `calls` (tests/vectors/README.md has its bytes), which the crate's side (writing.rs) reads too.
"""

from itertools import product
from typing import NamedTuple

from held import CRATES, ECDAA, INSIDE, OURS, UNION_OF_KIND, XOR, Held, OtherArm, Unread, arms, capacities, codes_of, has_two_forms
from inputs import ALGS, CAPACITIES, HANDLES, HIERARCHY_OF, KINDS, PERMANENT, STRUCTURES, TAGS, Maker, be

ENOUGH = 4096
NO_INDEX = 0xFFFF
HEAD = 14

# What the cases have to come to: the unions whose selector a kind replaces, and how many byte fields a record of a kind can have.
UNIONS = {
    **{kind: (name,) for kind, name in UNION_OF_KIND.items()},
    2: ('key bits', 'mode'), 11: ('parameters', 'unique'), 12: ('sensitive',), 13: ('attestation',), 15: ('capabilities',), 21: ('digest',),
    22: ('keyed hash',), 23: ('key bits', 'mode'), 24: ('key bits', 'mode'), 25: ('asymmetric',), 26: ('asymmetric',), 27: ('kdf',),
    16: ('area',), **dict.fromkeys((*TAGS, *HIERARCHY_OF), ()),
}
BYTE_FIELDS = {1: 1, 10: 2, 11: 3, 12: 3, 13: 4, **dict.fromkeys(range(14, 21), 1)}
# How many items a list of the kind can have, in the crate and here.
MOST_ITEMS = {13: 8, 14: 8, 15: 128}


class Case(NamedTuple):
    kind: int
    selector: int
    room: int
    index: int
    first_at: int
    second_at: int
    source: int  # 0: the records are the source too
    records: bytes
    rest: bytes = b''  # the source, if it is another

    @property
    def first(self):
        return self.records[self.first_at:]

    @property
    def second(self):
        return self.records[self.second_at:]

    @property
    def code(self):
        """What is put in place of the selector. A capability and a hierarchy have 4 bytes, the upper two where other cases have the place of their
        second record."""
        return self.second_at << 16 | self.selector if self.kind == 15 or self.kind in HIERARCHY_OF else self.selector

    @property
    def has_index(self):
        return self.index != NO_INDEX

    def framed(self):
        head = be(self.kind, 1) + be(self.selector, 2) + be(self.room, 2) + be(self.index, 2) + be(self.first_at, 2)
        case = head + be(self.second_at, 2) + be(self.source, 1) + be(len(self.records), 2) + self.records + self.rest
        return be(len(case), 2) + case

    def __str__(self):
        asked = f' index {self.index}' if self.has_index else ''
        places = f' at {self.first_at}' + (f' and {self.second_at}' if self.kind in (2, 11) else '')
        return f'kind {self.kind} selector {self.code:04x} room {self.room}{asked}{places} {self.records.hex()}'


def unframed(stream):
    """The cases of a file of them."""
    at = 0
    while at < len(stream):
        case = stream[at + 2:at + 2 + int.from_bytes(stream[at:at + 2], 'big')]
        numbers = [int.from_bytes(case[i:i + 2], 'big') for i in range(1, 10, 2)]
        size = int.from_bytes(case[12:HEAD], 'big')
        yield Case(case[0], *numbers, case[11], case[HEAD:HEAD + size], case[HEAD + size:])
        at += 2 + len(case)


def own_selector(kind, data):
    at, size = {13: (4, 2), 14: (0, 0), 15: (0, 4), 16: (0, 1), **dict.fromkeys(HIERARCHY_OF, (2, 4))}.get(kind, (0, 2))
    return int.from_bytes(data[at:at + size], 'big')


def items_of(kind, data):
    """How many items its list has, 0 without one."""
    return Held(kind, own_selector(kind, data), data, data).items() or 0 if kind in MOST_ITEMS else 0


def fits_both(kind, data):
    """Whether its list has no more items than either side takes, if it has one."""
    return items_of(kind, data) <= min(capacities(kind, data))


def records(maker, kind, each):
    """Legal records of the kind: `each` for each of its selectors, with no more items than both sides have room for, and in kinds 9 and 11, where
    Xor and Ecdaa stand further in, without these."""
    found = {}
    for _ in range(4000):
        data = maker.record(HIERARCHY_OF.get(kind, kind))
        held = found.setdefault(own_selector(kind, data), [])
        if len(held) < each and fits_both(kind, data) and not (kind in (9, 11) and has_two_forms(kind, data)):
            held.append(data)
    return found


def rooms(r, size):
    """Enough, just enough, one too few, less."""
    return {ENOUGH, size, max(0, size - 1), 0, r.randrange(size + 1), max(0, size - r.randrange(1, 5))}


def placed(r, kind, selector, room, first, second=b'', index=NO_INDEX):
    """A case; one in three has bytes ahead of the first record, and one in three has some behind it."""
    ahead = r.randbytes(r.choice((0, 0, r.randrange(1, 9))))
    behind = r.randbytes(r.choice((0, 0, r.randrange(1, 9))))
    between = ahead + first + behind
    upper, lower = divmod(selector, 0x10000)
    return Case(kind, lower, room, index, len(ahead), len(between) if second else upper, 0, between + second)


def relabelled(r, maker):
    """Every arm under every code; of kinds 2 and 11 with the last union of each other arm. (Xor's mode is Null's arm, and the crate's another.) And
    every ticket with every tag and with every hierarchy."""
    for kind in (*range(1, 14), *range(15, 21), *HIERARCHY_OF):
        found = records(maker, kind, 4 if kind in (9, 11) else 3)
        seconds = [held[0] for held in found.values() if not has_two_forms(kind, held[0])] if kind in (2, 11) else [b'']
        for first in (data for held in found.values() for data in held):
            for second in seconds:
                for code in codes_of(kind):
                    for room in sorted(rooms(r, len(first))):
                        yield placed(r, kind, code, room, first, second)


def relabelled_inside(r, maker):
    """Every arm further in under every code."""
    for kind in INSIDE:
        for data in for_inside(maker, kind, 60):
            for code in ALGS:
                for room in sorted({ENOUGH, r.choice(sorted(rooms(r, len(data))))}):
                    yield placed(r, kind, code, room, data)


def for_inside(maker, kind, count):
    """Records for kinds 21 to 27. Xor and Ecdaa stand nowhere but where the selector is replaced."""
    found = []
    while len(found) < count:
        data = maker.record(INSIDE[kind][0])
        if any(not {XOR, ECDAA} & set(held.selectors_around()) for held in held_by(kind, data)):
            found.append(data)
    return found


def indexed(r, maker):
    """Every byte field and every item, up to one past the last; under the record's own selector and under others."""
    for kind in (*KINDS, *HIERARCHY_OF):
        found = records(maker, kind, {14: 40, 15: 6, **dict.fromkeys(HIERARCHY_OF, 3)}.get(kind, 12))
        every = [data for held in found.values() for data in held]
        for first in every:
            second = r.choice(every) if kind in (2, 11) else b''
            for index in range(max(4, items_of(kind, first)) + 1):
                for code in (own_selector(kind, first), r.choice(codes_of(kind))):
                    yield placed(r, kind, code, r.choice((ENOUGH, len(first), 0)), first, second, index)
    for kind in INSIDE:
        for data in for_inside(maker, kind, 20):
            yield placed(r, kind, r.choice(ALGS), ENOUGH, data, b'', r.randrange(2))


def lists(r, maker):
    """Kind 14 written; lists that are longer than the crate's; and of each capability those about the capacities of both sides."""
    for _ in range(400):
        data = maker.record(14)
        for room in sorted(rooms(r, len(data))):
            yield placed(r, 14, 0, room, data)
    for _ in range(400):
        data = maker.record(13)
        if not fits_both(13, data):
            yield placed(r, 13, own_selector(13, data), ENOUGH, data)
    for cap, most in CAPACITIES.items():
        for count in sorted({*most, *(least + 1 for least in most)}):
            data = maker.capability(cap, count)
            for room in sorted(rooms(r, len(data))):
                yield placed(r, 15, cap, room, data, b'', r.choice((NO_INDEX, 0, count - 1, count)))
            yield placed(r, 15, r.choice(codes_of(15)), ENOUGH, data[:-1])


def two_forms(r, maker):
    """Records with Xor or Ecdaa wherever these can stand, in our form and in the crate's, also where the other side reads none. In kind 2 the
    mode that Xor has in the crate meets every code. One case in four asks by index: the tails are two bytes apart in any case."""
    for form, own_maker in ((OURS, maker), (CRATES, Maker(r, is_crates=True))):
        for kind in (2, *range(5, 10), 11, *range(23, 28)):
            for first in with_two_forms(own_maker, kind, form, 6 if kind == 2 else 16):
                own = Held(kind, 0, first, first, form).own
                for second in (first, maker.record(kind)) if kind in (2, 11) else (b'',):
                    for code in ALGS if kind == 2 else (own, *r.sample(ALGS, 5)):
                        for room in sorted(rooms(r, len(first))):
                            yield placed(r, kind, code, room, first, second, r.choice((NO_INDEX, NO_INDEX, NO_INDEX, r.randrange(2))))


def with_two_forms(maker, kind, form, count):
    found = []
    while len(found) < count:
        data = maker.record(INSIDE.get(kind, (kind,))[0])
        if any(has_two_forms(held.outer, data) for held in held_by(kind, data, form)):
            found.append(data)
    return found


def judged_less(r, maker):
    """Records that we do not read, and that the crate reads, or refuses otherwise: by their handle type, their tag, their hierarchy."""
    for kind, ours in ((16, maker.record(16)), *((kind, maker.record(kind)) for kind in TAGS)):
        codes = HANDLES if kind == 16 else (*STRUCTURES, 0, 0x8020)
        size = 1 if kind == 16 else 2
        for first in (be(code, size) + ours[size:] for code in codes):
            for code in (own_selector(kind, ours), r.choice(codes_of(kind))):
                for room in (ENOUGH, len(first) - 1):
                    yield placed(r, kind, code, room, first, b'', r.choice((NO_INDEX, 0)))
    for kind, ticket in HIERARCHY_OF.items():
        ours = maker.record(ticket)
        for first in (ours[:2] + be(code, 4) + ours[6:] for code in (*PERMANENT, 0x40000010)):
            for case_kind, code in ((kind, r.choice(codes_of(kind))), (ticket, own_selector(ticket, ours))):
                yield placed(r, case_kind, code, ENOUGH, first, b'', r.choice((NO_INDEX, 0)))


def made(r):
    maker = Maker(r)
    for sort in (relabelled, relabelled_inside, indexed, lists, two_forms, judged_less):
        yield from sort(r, maker)


def held_by(kind, data, form=OURS):
    """The record for that kind, twice the same where two are asked for; none if it holds another arm."""
    try:
        return [Held(kind, 0, data, data, form)]
    except OtherArm:
        return []


def read_by_us(case):
    """The record of a case; none if we do not read it."""
    try:
        return [Held(case.kind, case.code, case.first, case.second)]
    except Unread:
        return []


def arms_of(name):
    return sorted(set(arms(OURS)[name].values()))


def wanted_arms():
    """The kind, the union by its turn, its arm, the code; of kinds 2 and 11 both arms, which come from two records; of a ticket, which has no union,
    none."""
    for kind, names in UNIONS.items():
        for turn, name in enumerate(names):
            yield from product([kind], [turn], arms_of(name), codes_of(kind))
        if kind in (2, 11) or not names:
            yield from product([kind], ['both'], product(*map(arms_of, names)), codes_of(kind))


def met_arms(case):
    for held in read_by_us(case):
        met = tuple(union.arm for union in held.target.unions())
        yield from ((case.kind, turn, arm, case.code) for turn, arm in enumerate(met))
        yield case.kind, 'both', met, case.code


def wanted_indices():
    """A byte field with each index that one can have, an item with each index that both sides can have; and none."""
    for what, counts in (('field', BYTE_FIELDS), ('item', MOST_ITEMS)):
        yield from ((kind, what, index) for kind, count in counts.items() for index in range(count))
    yield from product(KINDS, ('no field', 'no item'), [None])


def met_indices(case):
    for held in read_by_us(case):
        items = held.items() or 0 if case.kind in MOST_ITEMS else 0
        yield (case.kind, 'field', case.index) if case.index < len(held.byte_fields) else (case.kind, 'no field', None)
        yield (case.kind, 'item', case.index) if case.index < items else (case.kind, 'no item', None)


def require_complete(made):
    """Stops unless every arm met every code where there was room enough, and everything that can be asked by index was asked."""
    under = {key for case in made if case.kind in UNIONS and case.room == ENOUGH for key in met_arms(case)}
    indices = {key for case in made if case.kind in KINDS and case.has_index for key in met_indices(case)}
    for what, wanted, met in (('arm under a code', wanted_arms(), under), ('index', wanted_indices(), indices)):
        missing = [key for key in wanted if key not in met]
        if missing:
            raise SystemExit(f'tests/crate/cases.py: {len(missing)} times no case has the {what}; the first is {missing[0]}')
