"""A record as a writer sees it, and what each side must answer when it is written.

The layouts and arms are those of docs/FORMAT.md (sections 6 and 7), the answers those of its section 9 for our side and of
docs/DIFFERENCES.md (2.5, 2.6, 2.11) for the crate's. Which class a case belongs to is decided here, from the case alone: what is held, the
selector, the room. Two arms have another form in the crate (2.10), and some codes are judged there by longer lists; a record can be taken apart
in either form.
"""

from functools import cache
from typing import NamedTuple

from inputs import (
    ALGS, AREAS, ATTEST, CAPACITIES, CAPS, CURVES, DIGESTS, HANDLES, HIERARCHIES, HIERARCHY_OF, PERMANENT, STRUCTURES, TAGS, be)

XOR, NULL, ECDAA = 0x0A, 0x10, 0x1A
HASHED = (0x14, 0x16, 0x18, ECDAA, 0x1B, 0x1C)
CIPHERS = {0x06: 'Aes', 0x13: 'Sm4', 0x26: 'Camellia', XOR: 'Xor', NULL: 'Null'}
OBJECTS = {0x08: 'KeyedHash', 0x25: 'SymCipher', 0x01: 'Rsa', 0x23: 'Ecc', NULL: 'Null'}
CAPABILITIES = {0: 'Algs', 1: 'Handles', 2: 'Commands', 3: 'PpCommands', 4: 'AuditCommands', 5: 'Pcrs', 6: 'TpmProperties', 8: 'EccCurves',
                9: 'AuthPolicies', 10: 'Act'}
NV_AREAS = {0x01: 'NvIndex', 0x11: 'ExternalNv', 0x12: 'PermanentNv'}


class Form(NamedTuple):
    """How the two arms are laid out: whether the cipher Xor has a mode, and whether the scheme Ecdaa has a count. And whether a ticket's tag, a
    hierarchy and the handle type of an NV area are judged by our lists, or by the crate's."""
    has_mode: bool
    has_count: bool
    has_our_lists: bool = True


CRATES, OURS = Form(True, False, False), Form(False, True)


@cache
def arms(form):
    """Of each union, which arm a selector chooses. A digest's length is part of its arm."""
    ecdaa = {ECDAA: 'Ecdaa'} if form.has_count else {}
    return {
        'digest': {code: f'Digest of {size}' if size else 'Null' for code, size in DIGESTS.items()},
        'key bits': CIPHERS,
        'mode': CIPHERS if form.has_mode else {**CIPHERS, XOR: 'Null'},
        'kdf': {0x07: 'Mgf1', 0x20: 'Kdf1Sp800_56a', 0x21: 'Kdf2', 0x22: 'Kdf1Sp800_108', NULL: 'Null'},
        'keyed hash': {0x05: 'Hmac', XOR: 'Xor', NULL: 'Null'},
        'signing': {0x05: 'Hmac', NULL: 'Null', **dict.fromkeys(HASHED, 'Hash'), **ecdaa},
        'asymmetric': {0x15: 'Null', NULL: 'Null', **dict.fromkeys((*HASHED, 0x17, 0x19, 0x1D), 'Hash'), **ecdaa},
        'parameters': OBJECTS,
        'unique': OBJECTS,
        'sensitive': {0x01: 'Rsa', 0x23: 'Ecc', 0x08: 'Bits', 0x25: 'Sym'},
        'signature': {0x14: 'Rsassa', 0x16: 'Rsapss', 0x18: 'Ecdsa', ECDAA: 'Ecdaa', 0x1B: 'Sm2', 0x1C: 'Ecschnorr', 0x05: 'Hmac', NULL: 'Null'},
        'capabilities': CAPABILITIES,
        'area': NV_AREAS,
        'attestation': {0x8014: 'Nv', 0x8015: 'CommandAudit', 0x8016: 'SessionAudit', 0x8017: 'Certify', 0x8018: 'Quote', 0x8019: 'Time',
                        0x801A: 'Creation', 0x801C: 'NvDigest'},
    }


UNION_OF_KIND = {1: 'digest', 3: 'kdf', 4: 'keyed hash', 5: 'signing', 6: 'asymmetric', 7: 'asymmetric', 8: 'asymmetric',
                 9: 'parameters', 10: 'signature'}

# Kinds 21 to 27: the kind that is read, the arm that it must hold, and which part of that arm has the selector.
INSIDE = {21: (10, 'Hmac', 0), 22: (9, 'KeyedHash', 0), 23: (9, 'SymCipher', 0), 24: (9, 'Rsa', 0), 25: (9, 'Rsa', 1),
          26: (9, 'Ecc', 1), 27: (9, 'Ecc', 3)}

# The limits of the buffers in two unions.
LIMITS = {
    ('unique', 'KeyedHash'): (64,), ('unique', 'SymCipher'): (32,), ('unique', 'Rsa'): (512,), ('unique', 'Ecc'): (66, 66),
    ('sensitive', 'Rsa'): (256,), ('sensitive', 'Ecc'): (66,), ('sensitive', 'Bits'): (256,), ('sensitive', 'Sym'): (32,),
}

# What a selector of that kind can be in the crate, and what it may be here; where a kind has no line, an algorithm.
CODES = {13: STRUCTURES, 15: CAPS, 16: HANDLES, **dict.fromkeys(TAGS, STRUCTURES), **dict.fromkeys(HIERARCHY_OF, PERMANENT)}
OUR_CODES = {**CODES, 13: ATTEST, 16: AREAS, **TAGS, **dict.fromkeys(HIERARCHY_OF, HIERARCHIES)}
BAD_CODE, BAD_VALUE = 2, 6


def codes_of(kind):
    return CODES.get(kind, ALGS)


class Selector(NamedTuple):
    """The place of a structure's selector."""
    size: int


class Union:
    """ARMS says which arm a selector chooses; ARM is the one that is held."""

    def __init__(self, name, arms, arm, parts):
        self.name, self.arms, self.arm, self.parts = name, arms, arm, parts

    def chosen_by(self, selector):
        return self.arms.get(selector) == self.arm


class Structure:
    """Parts in wire order: bytes are a field, and there are the selector's place, unions and structures. NO_ARM is what the crate calls an arm
    that is not the selector's: `Arm`, where the structure and its test are rebuilt."""

    def __init__(self, selector, parts, no_arm='VariantNotAvailable'):
        self.selector, self.parts, self.no_arm = selector, parts, no_arm

    def unions(self):
        return [part for part in self.parts if isinstance(part, Union)]

    def is_cipher(self):
        return any(union.name == 'mode' for union in self.unions())

    def fits(self):
        return all(union.chosen_by(self.selector) for union in self.unions())


class Unread(ValueError):
    """Which record is refused, the crate's name or fault, the value, and how many bytes there were; 0 if nothing is cut."""


class OtherArm(ValueError):
    """Kinds 21 to 27 find another arm than the one that they are for."""


class Reader:
    """Takes a record apart in that form, and keeps its byte fields. What a record of kind 2, 5 to 9, 11, or 14 on is refused for is raised, but for
    a list's count, which is not judged; of the other kinds a record is taken to be legal."""

    def __init__(self, data, form=OURS, which='first'):
        self.data, self.arms, self.which, self.has_our_lists = data, arms(form), which, form.has_our_lists
        self.at, self.byte_fields = 0, []

    def refuse(self, name, value, had=0):
        raise Unread(self.which, name, value, had)

    def take(self, size):
        piece = self.data[self.at:self.at + size]
        if len(piece) < size:
            self.refuse('End', size, len(piece))
        self.at += size
        return piece

    def body(self, size):
        self.byte_fields.append(self.take(size))
        return self.byte_fields[-1]

    def number(self):
        return int.from_bytes(self.take(2), 'big')

    def code(self, listed=ALGS, size=2):
        value = int.from_bytes(self.take(size), 'big')
        if value not in listed:
            self.refuse('Code', value)
        return be(value, size)

    def tag(self, kind):
        """Of a ticket: here a fixed value, and a code in the crate."""
        tag = self.number()
        if tag not in (TAGS[kind] if self.has_our_lists else STRUCTURES):
            self.refuse('Value' if self.has_our_lists else 'Code', tag)
        return tag

    def selector(self):
        return int.from_bytes(self.code(), 'big')

    def numbers(self, *sizes):
        return [self.take(size) for size in sizes]

    def buffers(self, *limits):
        parts = []
        for limit in limits:
            length = self.number()
            if length > limit:
                self.refuse('Length', length)
            parts += [be(length, 2), self.body(length)]
        return parts

    def clock(self):
        return self.numbers(8, 4, 4, 1)

    def items(self, arm='Pcrs'):
        start, parts = self.at, [self.take(4)]
        kept = len(self.byte_fields)
        for _ in range(int.from_bytes(parts[0], 'big')):
            parts += self.item(arm)
        self.byte_fields[kept:] = [self.data[start:self.at]]
        return parts

    def item(self, arm):
        if arm == 'Pcrs':
            return [self.code(), *self.selection()]
        if arm == 'Algs':
            return [self.code(), *self.numbers(4)]
        if arm == 'EccCurves':
            return [self.code(CURVES)]
        if arm == 'AuthPolicies':
            handle, selector = self.take(4), self.selector()
            return [handle, be(selector, 2), *self.union('digest', selector).parts]
        return self.numbers(*{'TpmProperties': (4, 4), 'Act': (4, 4, 4)}.get(arm, (4,)))

    def selection(self):
        size = self.take(1)
        if size[0] > 4:
            self.refuse('Length', size[0])
        return [size, self.take(size[0])]

    def union(self, name, selector):
        arm = self.arms[name].get(selector)
        if arm is None:
            self.refuse('VariantNotAvailable', selector)
        return Union(name, self.arms[name], arm, self.arm(name, arm))

    def arm(self, name, arm):
        if arm == 'Null':
            return []
        if name == 'digest':
            return [self.body(int(arm.split()[-1]))]
        if name == 'key bits' and arm != 'Xor':
            return self.numbers(2)
        if name in ('key bits', 'mode', 'kdf', 'signing', 'asymmetric', 'keyed hash'):
            parts = [self.code()]
            if arm == 'Ecdaa':
                parts += self.numbers(2)
            if (name, arm) == ('keyed hash', 'Xor'):
                parts.append(self.code())
            return parts
        if name == 'parameters':
            return self.parameters(arm)
        if name == 'signature':
            return [self.tagged('digest')] if arm == 'Hmac' else [self.code(), *self.buffers(*((512,) if arm.startswith('Rsa') else (66, 66)))]
        if name == 'attestation':
            return self.attested(arm)
        if name == 'capabilities':
            return self.items(arm)
        if name == 'area':
            return [*self.numbers(4), self.code(), *self.numbers(8 if arm == 'ExternalNv' else 4), *self.buffers(64), *self.numbers(2)]
        return self.buffers(*LIMITS[name, arm])

    def parameters(self, arm):
        if arm == 'KeyedHash':
            return [self.tagged('keyed hash')]
        parts = [self.cipher()]
        if arm == 'Rsa':
            parts += [self.tagged('asymmetric'), *self.numbers(2, 4)]
        if arm == 'Ecc':
            parts += [self.tagged('asymmetric'), self.code(CURVES), self.tagged('kdf')]
        return parts

    def attested(self, arm):
        if arm == 'Quote':
            return self.items() + self.buffers(64)
        if arm == 'CommandAudit':
            return [*self.numbers(8), self.code(), *self.buffers(64, 64)]
        if arm == 'SessionAudit':
            return self.numbers(1) + self.buffers(64)
        if arm == 'Time':
            return self.numbers(8) + self.clock() + self.numbers(8)
        if arm == 'Nv':
            return self.buffers(66) + self.numbers(2) + self.buffers(2048)
        return self.buffers(66, 66 if arm == 'Certify' else 64)

    def tagged(self, name):
        selector = self.selector()
        return Structure(selector, [Selector(2), self.union(name, selector)])

    def cipher(self):
        selector = self.selector()
        return Structure(selector, [Selector(2), self.union('key bits', selector), self.union('mode', selector)])

    def record(self, kind):
        if kind in UNION_OF_KIND:
            return self.tagged(UNION_OF_KIND[kind])
        if kind == 2:
            return self.cipher()
        if kind == 14:
            return Structure(None, self.items())
        if kind == 15:
            selector = int.from_bytes(self.take(4), 'big')
            return Structure(selector, [Selector(4), self.union('capabilities', selector)], 'Arm')
        if kind == 16:
            selector = self.code(AREAS if self.has_our_lists else HANDLES, 1)[0]
            return Structure(selector, [Selector(1), self.union('area', selector)])
        if kind in TAGS:
            tag = self.tag(kind)
            return Structure(tag, [Selector(2), self.code(HIERARCHIES if self.has_our_lists else PERMANENT, 4), *self.buffers(64)])
        magic = self.numbers(4) if kind == 13 else []
        selector = self.number() if kind == 13 else self.selector()
        if kind == 11:
            ahead, unions = [self.code(), *self.numbers(4), *self.buffers(64)], ('parameters', 'unique')
        elif kind == 12:
            ahead, unions = self.buffers(64, 64), ('sensitive',)
        else:
            ahead, unions = self.buffers(66, 66) + self.clock() + self.numbers(8), ('attestation',)
        parts = [*magic, Selector(2), *ahead, *(self.union(name, selector) for name in unions)]
        return Structure(selector, parts, 'Arm') if kind == 13 else Structure(selector, parts)


class Refused(Exception):
    pass


class Room:
    """The crate's writer: field by field, as far as there is room."""

    def __init__(self, room):
        self.room, self.data = room, b''

    def put(self, field):
        if len(self.data) + len(field) > self.room:
            raise Refused('BufferOverflow', len(self.data), len(field))
        self.data += field

    def structure(self, it):
        short = it.is_cipher() and it.selector == NULL  # neither union is looked at, and both are left out
        if not short and not it.fits():
            raise Refused(it.no_arm, len(self.data), it.selector)
        for part in it.parts:
            if isinstance(part, Selector):
                self.put(be(it.selector, part.size))
            elif not isinstance(part, Union):
                self.part(part)
            elif not short:
                for inner in part.parts:
                    self.part(inner)

    def part(self, part):
        if isinstance(part, Structure):
            self.structure(part)
        else:
            self.put(part)


def judged(it, place, listed=ALGS, number=BAD_CODE):
    """Where the structure ends in our output; or the first refusal in wire order. NUMBER is that of a selector that is not listed."""
    for part in it.parts:
        if isinstance(part, Selector):
            if it.selector not in listed:
                raise Refused(number, place, it.selector)
            place += part.size
        elif isinstance(part, Union):
            if it.selector not in part.arms:
                raise Refused(3, place, it.selector)
            if not part.chosen_by(it.selector):
                raise Refused(7, place, it.selector)
            for inner in part.parts:
                place = after(inner, place)
        else:
            place = after(part, place)
    return place


def after(part, place):
    return judged(part, place) if isinstance(part, Structure) else place + len(part)


def size_of(parts, stop=None):
    """How many bytes stand ahead of the structure `stop`, and whether it was found."""
    size = 0
    for part in parts:
        if part is stop:
            return size, True
        if isinstance(part, (Structure, Union)):
            inner, found = size_of(part.parts, stop)
            size += inner
            if found:
                return size, True
        else:
            size += part.size if isinstance(part, Selector) else len(part)
    return size, False


# What a case is about whose selector the crate's list has and ours does not.
OUTSIDE = {13: 'type', 16: 'handle type', **dict.fromkeys(TAGS, 'tag'), **dict.fromkeys(HIERARCHY_OF, 'hierarchy')}


class Held:
    """The record that a case makes: read, its selector replaced, for kinds 2 and 11 with the other record's last union."""

    def __init__(self, kind, code, first, second=b'', form=OURS):
        self.kind = kind
        self.outer, arm, turn = INSIDE.get(kind, (HIERARCHY_OF.get(kind, kind), None, None))
        reader = Reader(first, form)
        self.record = reader.record(self.outer)
        if kind in HIERARCHY_OF:
            self.select_hierarchy()
        self.tail, self.byte_fields = first[reader.at:], reader.byte_fields
        self.target = self.record
        if arm:
            held = self.record.unions()[0]
            if held.arm != arm:
                raise OtherArm
            self.target = held.parts[turn]
        if kind in (2, 11):
            self.take_last_union(Reader(second, form, 'second'))
        self.own = self.target.selector
        if kind != 14:
            self.target.selector = code
        self.begins = size_of(self.record.parts, self.target)[0] if arm else 0

    def select_hierarchy(self):
        """It is replaced in place of the tag."""
        _, hierarchy, *digest = self.record.parts
        self.record = Structure(int.from_bytes(hierarchy, 'big'), [be(self.record.selector, 2), Selector(4), *digest])

    def take_last_union(self, other):
        """From another record, which nothing may follow. Ahead of its unique part a record of kind 11 has one byte field, the policy."""
        self.record.parts[-1] = other.record(self.kind).parts[-1]
        if other.at < len(other.data):
            other.refuse('TrailingData', len(other.data) - other.at)
        self.byte_fields[1:] = other.byte_fields[1:]

    def selectors_around(self):
        """Of the structures in the record's first union but for the one whose selector is replaced."""
        return [part.selector for part in self.record.unions()[0].parts if isinstance(part, Structure) and part is not self.target]

    def items(self):
        """How many items its list has; None without a list."""
        if self.kind == 14:
            return int.from_bytes(self.record.parts[0], 'big')
        held = self.record.unions()[0]
        return int.from_bytes(held.parts[0], 'big') if held.name == 'capabilities' or held.arm == 'Quote' else None

    def sort(self, room):
        """What the case is about: how the two sides' answers are related follows from it."""
        if self.kind in OUTSIDE and self.target.selector not in OUR_CODES[self.kind]:
            return OUTSIDE[self.kind]
        if not self.target.fits():
            if self.target.is_cipher() and self.target.selector == NULL:
                return 'null cipher'
            return 'room first' if room < self.begins else 'arm'
        return 'room' if room < size_of(self.record.parts)[0] else 'written'

    def ours(self, room):
        """Our answer: `again`, or number, place and value."""
        try:
            size = judged(self.record, 0, OUR_CODES.get(self.kind, ALGS), BAD_VALUE if self.kind in TAGS else BAD_CODE)
        except Refused as refusal:
            return refusal.args
        return ('again',) if size <= room else (9, 0, size)

    def crates(self, room):
        """The crate's answer: `again` and the bytes, or the error's name, offset, value and what was left behind."""
        out = Room(room)
        try:
            out.structure(self.record)
        except Refused as refusal:
            return (*refusal.args, out.data.hex() or '-')
        return 'again', out.data.hex()


def outcome(kind, data, form):
    """What comes of reading these bytes in that form: how many bytes the record has, or what it is refused for."""
    reader = Reader(data, form)
    try:
        reader.record(kind)
    except Unread as unread:
        return unread.args
    return (reader.at,)


def has_two_forms(kind, data):
    """Whether a record with the cipher Xor or the scheme Ecdaa has another outcome in the crate's form than in ours."""
    return kind in (2, *range(5, 10), 11) and outcome(kind, data, CRATES) != outcome(kind, data, OURS)


def is_judged_less(kind, data):
    """Whether the bytes have another outcome by the crate's lists than by ours: of an NV area and of a ticket."""
    return kind in (16, *TAGS) and outcome(kind, data, CRATES) != outcome(kind, data, OURS)


def capacities(kind, data):
    """How many items a list takes in the crate, and how many here; none if a record of that kind that begins so has no list."""
    if kind == 15:
        return CAPACITIES.get(int.from_bytes(data[:4], 'big'), (0, 0))
    return CAPACITIES[5] if kind in (13, 14) else (0, 0)


def claimed_items(kind, data):
    """The count of the list that the bytes have; None if there is no list in reach of a reader."""
    reader = Reader(data)
    try:
        if kind == 13 and (reader.numbers(4, 2) != [b'\xffTCG', b'\x80\x18'] or not is_legal_ahead(reader)):
            return None
        if kind == 15:
            reader.take(4)
        return int.from_bytes(reader.take(4), 'big') if any(capacities(kind, data)) else None
    except ValueError:
        return None


def too_long_for(kind, data):
    """`crate` or `us`, if the list that the bytes have is too long for that side alone; else ''."""
    crates, ours = capacities(kind, data)
    count = claimed_items(kind, data) or 0
    return '' if (count > crates) == (count > ours) else 'crate' if count > crates else 'us'


def is_legal_ahead(reader):
    """Whether what stands between the type of an attestation and its arm is legal."""
    for _ in range(2):
        length = reader.number()
        if length > 66:
            return False
        reader.take(length)
    return reader.clock()[-1] in (b'\0', b'\1') and len(reader.take(8)) == 8
