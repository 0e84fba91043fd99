"""Codes tried one after another, in short records: as each union's selector, and where a code chooses nothing.

The same numbers are tried where none is judged: as the count of Ecdaa, and behind a Xor cipher. And tags are
tried, which are no codes.
These answers come from the tables alone: no decoded record has all of these codes.
"""

from typing import NamedTuple

import answers
import damage
import tables
from records import Field, Record
from tables import CODE, NULL, buffer, number

ALGORITHMS_TRIED = [*range(0x50), 0x0104, 0x0110, 0x1000, 0x8014, 0x8018, 0xFFFF]
CAPABILITIES_TRIED = [*range(0x20), *tables.UNLISTED_CAPABILITIES, *(code << 24 for code in tables.CAPABILITIES[1:])]
TYPES_TRIED = [*range(0x8000, 0x8030), 0x0010, 0x0014, 0x0018, 0x1480, 0x7F18, 0x8118, 0xFFFF]
HIERARCHIES_TRIED = [*range(0x40000000, 0x40000020), *tables.UNLISTED_HIERARCHIES]
TAGS_TRIED = [*range(0x8010, 0x8030), 0, 0x10, *range(0x20, 0x27), 0x2180, 0x2580, 0x7FFF, 0x8121, 0xC021, 0xFFFF]
REFUSED = 'code tried, refused'


class Place(NamedTuple):
    """Where a number is tried. Its parts are those of the tables, or fields: word, size and value."""
    kind: int
    ahead: tuple  # the parts ahead of the code
    between: tuple = ()  # those between the code and the arms that it chooses
    unions: tuple = ()  # what it chooses from; none for a code that chooses nothing
    behind: tuple = ()  # the parts that follow
    listed: list = tables.ALGORITHMS
    tried: list = ALGORITHMS_TRIED
    size: int = 2  # of the code


def code(number_given, size=2):
    return ('code', size, number_given)


def capability_list(capability, count):
    """The code of a capability, and the count of its list."""
    return code(capability, 4), ('number', 4, count)


def filled(part):
    """A part as fields: Null for a code, 1 for a number, a byte in a buffer, no item in a list."""
    if len(part) == 3:
        return [part]
    what, size = part
    if what == 'buffer':
        return [('number', 2, 1), ('bytes', 1, 'a5')]
    if what == 'list':
        return [('number', 4, 0)]
    fillings = {'code': NULL, 'number': 1, 'bytes': damage.PATTERN[:size].hex()}
    return [(what, size, fillings[what])]


def built(kind, parts):
    """The record that has these parts, each filled."""
    fields, data = [], b''
    for what, size, shown in (field for part in parts for field in filled(part)):
        piece = bytes.fromhex(shown) if what == 'bytes' else shown.to_bytes(size, 'big')
        fields.append(Field(len(data), size, what, shown))
        data += piece
    return Record('built', kind, data, tuple(fields))


ATTEST_FRONT = (('number', 4, tables.MAGIC),)
ATTEST_MIDDLE = (buffer(tables.NAME), buffer(tables.DATA), *tables.CLOCK_INFO, number(8))
PUBLIC_MIDDLE = (CODE, number(4), buffer(tables.DIGEST))
UNIQUE = tables.ARMS['unique']
SENSITIVE_MIDDLE = (buffer(tables.AUTH), buffer(tables.DIGEST))
RSA, ECC, SYMCIPHER = code(tables.RSA), code(tables.ECC), code(tables.SYMCIPHER)
XOR, ECDAA = code(tables.XOR), code(tables.ECDAA)
COMMAND_AUDIT = (*ATTEST_FRONT, code(tables.COMMAND_AUDIT), *ATTEST_MIDDLE, number(8))
QUOTE_ITEM = (*ATTEST_FRONT, code(tables.QUOTE), *ATTEST_MIDDLE, ('number', 4, 1))
NO_BITS = (('number', 1, 0), ('bytes', 0, ''))
OWNER, EMPTY = code(tables.OWNER, 4), (('number', 2, 0), ('bytes', 0, ''))
SECOND_POLICY = (*capability_list(tables.AUTH_POLICIES, 2), number(4), CODE, number(4))

SELECTORS = [
    *(Place(kind, (), (), (tables.UNION_OF_KIND[kind],)) for kind in range(1, 11)),
    Place(9, (code(tables.KEYEDHASH),), (), ('keyed hash',)),
    Place(9, (SYMCIPHER,), (), ('cipher',)),
    Place(9, (RSA,), (), ('cipher',), (CODE, number(2), number(4))),
    Place(9, (RSA, CODE), (), ('asymmetric',), (number(2), number(4))),
    Place(9, (RSA, XOR, CODE), (), ('asymmetric',), (number(2), number(4))),
    Place(9, (ECC,), (), ('cipher',), (CODE, CODE, CODE)),
    Place(9, (ECC, CODE), (), ('asymmetric',), (CODE, CODE)),
    Place(9, (ECC, XOR, CODE), (), ('asymmetric',), (CODE, CODE)),
    Place(9, (ECC, CODE, CODE, CODE), (), ('kdf',)),
    Place(9, (ECC, CODE, ECDAA, CODE, number(2), CODE), (), ('kdf',)),
    Place(10, (code(tables.HMAC),), (), ('digest',)),
    Place(11, (), PUBLIC_MIDDLE, ('parameters', 'unique')),
    Place(12, (), SENSITIVE_MIDDLE, ('sensitive',)),
    Place(13, ATTEST_FRONT, ATTEST_MIDDLE, ('attestation',), (), tables.ATTESTATION_TYPES, TYPES_TRIED),
    Place(15, (), (), ('capabilities',), (), tables.CAPABILITIES, CAPABILITIES_TRIED, 4),
    Place(15, SECOND_POLICY, (), ('digest',)),
    Place(16, (), (), ('area',), (), tables.HANDLE_TYPES, range(0x100), 1),
]

PLAIN_CODES = [
    Place(2, (code(tables.AES), number(2))),
    Place(2, (XOR,)),
    Place(3, (code(tables.MGF1),)),
    Place(4, (code(tables.HMAC),)),
    Place(4, (XOR,), behind=(CODE,)),
    Place(4, (XOR, CODE)),
    Place(5, (code(tables.RSASSA),)),
    Place(6, (code(tables.OAEP),)),
    Place(7, (code(tables.ECDSA),)),
    Place(8, (code(tables.OAEP),)),
    *(Place(kind, (ECDAA,), behind=(number(2),)) for kind in (5, 6, 7, 8)),
    Place(9, (ECC, CODE, CODE), behind=(CODE,), listed=tables.CURVES),
    Place(9, (ECC, CODE, ECDAA, CODE, number(2)), behind=(CODE,), listed=tables.CURVES),
    Place(10, (code(tables.RSAPSS),), behind=(buffer(tables.RSA_PUBLIC),)),
    Place(10, (code(tables.ECDSA),), behind=(buffer(tables.ECC_PARAMETER), buffer(tables.ECC_PARAMETER))),
    Place(11, (code(NULL),), behind=(number(4), buffer(tables.DIGEST))),
    Place(13, COMMAND_AUDIT, behind=(buffer(tables.DIGEST), buffer(tables.DIGEST))),
    Place(13, QUOTE_ITEM, behind=(*NO_BITS, buffer(tables.DIGEST))),
    Place(14, (('number', 4, 1),), behind=NO_BITS),
    Place(15, (*capability_list(tables.ALGS, 2), CODE, number(4)), behind=(number(4),)),
    Place(15, (*capability_list(tables.PCRS, 2), CODE, *NO_BITS), behind=NO_BITS),
    Place(15, (*capability_list(tables.ECC_CURVES, 2), code(tables.CURVES[0])), listed=tables.CURVES),
    *(Place(16, (code(held, 1), *arm[:1]), behind=arm[2:]) for held, arm in tables.ARMS['area'].items()),
    *(
        Place(kind, (('number', 2, tag),), (), (), (buffer(tables.DIGEST),), tables.HIERARCHIES, HIERARCHIES_TRIED, 4)
        for kind, tags in tables.TAGS.items() for tag in tags
    ),
]

# Where a ticket's tag is tried.
TICKETS = [
    Place(kind, (), behind=(OWNER, *EMPTY), listed=tags, tried=TAGS_TRIED)
    for kind, tags in tables.TAGS.items()
]

# Where Ecdaa's count is tried.
COUNTS = [
    *(Place(kind, (ECDAA, CODE)) for kind in (5, 6, 7, 8)),
    Place(9, (RSA, CODE, ECDAA, CODE), behind=(number(2), number(4))),
    Place(9, (ECC, CODE, ECDAA, CODE), behind=(CODE, CODE)),
    Place(11, (RSA, *PUBLIC_MIDDLE, CODE, ECDAA, CODE), behind=(number(2), number(4), *UNIQUE[tables.RSA])),
    Place(11, (ECC, *PUBLIC_MIDDLE, CODE, ECDAA, CODE), behind=(CODE, CODE, *UNIQUE[tables.ECC])),
]

# Where a Xor cipher ends the record.
XOR_LAST = [Place(2, (XOR, CODE)), Place(9, (SYMCIPHER, XOR, CODE))]


def arms_chosen(place, number_tried):
    return [tables.ARMS[union].get(number_tried) for union in place.unions]


def record_with(place, number_tried):
    """The record with that code in the place, and with the arms that it chooses, if it has any."""
    arms = [part for arm in arms_chosen(place, number_tried) if arm for part in arm]
    tried_code = code(number_tried, place.size)
    return built(place.kind, (*place.ahead, tried_code, *place.between, *arms, *place.behind))


def tried(place, number_tried):
    """One code in one place: refused; or read, and refused when it is cut right where the arm is due."""
    chosen = arms_chosen(place, number_tried)
    due = len(built(place.kind, (*place.ahead, code(number_tried, place.size), *place.between)).data)
    record = record_with(place, number_tried)
    if number_tried not in place.listed:
        at = len(built(place.kind, place.ahead).data)
        yield damage.refused(REFUSED, place.kind, record.data, (answers.UNKNOWN_CODE, at, number_tried))
    elif None in chosen:
        yield damage.refused(REFUSED, place.kind, record.data, (answers.NO_ARM, due, number_tried))
    else:
        yield damage.whole('code tried, read', record)
        if len(record.data) > due:
            yield ('code tried, cut', *damage.cut_at(record, due)[1:])


def tag_tried(place, number_tried):
    """A tag is judged as a number that is fixed: read, or refused for its value."""
    record = built(place.kind, (('number', 2, number_tried), *place.behind))
    if number_tried in place.listed:
        yield damage.whole('tag tried, read', record)
    else:
        yield damage.refused('tag tried, refused', place.kind, record.data, (answers.BAD_VALUE, 0, number_tried))


def count_tried(place, number_tried):
    """A count is any number, listed as a code or not: read, and refused only when its last byte is cut away."""
    due = len(built(place.kind, place.ahead).data)
    record = built(place.kind, (*place.ahead, ('number', 2, number_tried), *place.behind))
    yield damage.whole('count of Ecdaa tried, read', record)
    yield ('count of Ecdaa tried, cut', *damage.cut_at(record, due + 1)[1:])


def behind_xor(place, number_tried):
    """A Xor cipher has no mode: whatever two bytes follow are a tail."""
    yield damage.whole('two bytes behind Xor', built(place.kind, place.ahead), number_tried.to_bytes(2, 'big'))


def sweeps():
    makers = ((SELECTORS + PLAIN_CODES, tried), (TICKETS, tag_tried), (COUNTS, count_tried), (XOR_LAST, behind_xor))
    for places, make in makers:
        for place in places:
            for number_tried in place.tried:
                yield from make(place, number_tried)


def every_arm():
    """A short record for each selector of each place."""
    for place in SELECTORS:
        for number_tried in place.listed:
            if None not in arms_chosen(place, number_tried):
                yield record_with(place, number_tried)
