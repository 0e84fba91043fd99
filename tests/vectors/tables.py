"""The lists, tags, arms, limits, forms and greatest sizes of docs/FORMAT.md (sections 3 to 7), written out by hand.

They say which codes a copy may be damaged with, and what a selector or a length is then refused for.
No bytes are parsed with them: where a record's fields stand is known from its decoded fields alone.
"""

from typing import NamedTuple


def codes(ranges):
    """The codes of a list such as '01, 03-08', in rising order."""
    listed = []
    for piece in ranges.split(', '):
        first, _, last = piece.partition('-')
        listed.extend(range(int(first, 16), int(last or first, 16) + 1))
    return listed


ALGORITHMS = codes('01, 03-08, 0A-0D, 10, 12-1D, 20-23, 25-2E, 3F-44')
CURVES = codes('0-5, 10, 11, 20, 30-32, 40, 41')
ATTESTATION_TYPES = codes('8014, 8015, 8016, 8017, 8018, 8019, 801A, 801C')
CAPABILITIES = codes('0-A')
HANDLE_TYPES = codes('01, 11, 12')
HIERARCHIES = codes('40000001, 40000007, 4000000B, 4000000C')

# On none of the three lists of codes of 2 bytes: neighbours of listed codes, listed ones with a bit added, the
# ends of the range. And of 4 bytes, no capabilities: the first of these, and listed ones in each other byte.
# And no handle types, of 1 byte, and no hierarchies: neighbours again, and listed ones without their first byte.
UNLISTED = codes('09, 0E, 0F, 1E, 1F, 24, 2F, 45, FF, 0104, 0110, 7FFF, 8000, 8013, 801B, 801D, 8021, FFFF')
UNLISTED_CAPABILITIES = codes('0B, 0C, 10, 18, 0106, 0800, FFFF, 00010008, 00090000, 04000000, 80000005, FFFFFFFF')
UNLISTED_HANDLE_TYPES = codes('00, 02, 03, 10, 13, 21, 40, 80, 81, 90, 91, FF')
UNLISTED_HIERARCHIES = codes(
    '00, 01, 07, 0B, 0C, 40000000, 40000002, 40000006, 40000008, 4000000A, 4000000D, 40000010, 40000101, 41000001, '
    '01000040, C0000001, FFFFFFFF'
)

RSA, SHA1, HMAC, AES, MGF1, KEYEDHASH = 0x01, 0x04, 0x05, 0x06, 0x07, 0x08
XOR, SHA256, SHA384, SHA512, NULL = 0x0A, 0x0B, 0x0C, 0x0D, 0x10
SM3_256, SM4, RSASSA, RSAES, RSAPSS, OAEP = 0x12, 0x13, 0x14, 0x15, 0x16, 0x17
ECDSA, ECDH, ECDAA, SM2, ECSCHNORR, ECMQV = 0x18, 0x19, 0x1A, 0x1B, 0x1C, 0x1D
KDF1_SP800_56A, KDF2, KDF1_SP800_108, ECC = 0x20, 0x21, 0x22, 0x23
SYMCIPHER, CAMELLIA, SHA3_256, SHA3_384, SHA3_512 = 0x25, 0x26, 0x27, 0x28, 0x29
SHAKE256_192, SHAKE256_256, SHAKE256_512 = 0x2C, 0x2D, 0x2E
NV, COMMAND_AUDIT, SESSION_AUDIT, CERTIFY = 0x8014, 0x8015, 0x8016, 0x8017
QUOTE, TIME, CREATION, NV_DIGEST = 0x8018, 0x8019, 0x801A, 0x801C
ALGS, HANDLES, COMMANDS, PP_COMMANDS, AUDIT_COMMANDS, PCRS, TPM_PROPERTIES = range(7)
ECC_CURVES, AUTH_POLICIES, ACT = 8, 9, 10
NV_INDEX, EXTERNAL_NV, PERMANENT_NV = 0x01, 0x11, 0x12
OWNER = 0x40000001

# The tags that the ticket of each kind may have: a tag is a fixed value, and no code.
TAGS = {17: (0x8021,), 18: (0x8022,), 19: (0x8024,), 20: (0x8023, 0x8025)}
TICKETS = tuple(TAGS)
EVERY_TAG = tuple(tag for tags in TAGS.values() for tag in tags)

MAGIC = 0xFF544347
GREATEST_PCR_SIZE = 4
GREATEST_INPUT = 4096

DIGEST, AUTH, RSA_PUBLIC, RSA_PRIVATE, SENSITIVE_DATA = 64, 64, 512, 256, 256
ECC_PARAMETER, SYMMETRIC_KEY, NAME, DATA, NV_CONTENTS = 66, 32, 66, 66, 2048

# The parts of an arm, in wire order. A buffer is written with its limit, a list with its name.
CODE = ('code', 2)
CURVE = ('curve', 2)
ATTESTATION_TYPE = ('type', 2)
CAPABILITY = ('capability', 4)
HANDLE_TYPE = ('handle type', 1)
HIERARCHY = ('hierarchy', 4)
YES_NO = ('number', 1)
PCR_BITS = ('bits', GREATEST_PCR_SIZE)  # behind their size
NOTHING = ()


def number(size):
    return ('number', size)


def fixed(size, *values):
    """A number that is one of these."""
    return ('fixed', (size, values))


def plain(size):
    return ('bytes', size)


def buffer(limit):
    return ('buffer', limit)


def list_of(name):
    return ('list', name)


def inside(kind):
    """A record of that kind as a part of an arm, or of an item."""
    return ('kind', kind)


def each(arm, *selectors):
    return dict.fromkeys(selectors, arm)


class ListForm(NamedTuple):
    most: int  # how many items the list may have
    item: tuple  # the parts of an item


LISTS = {
    'algorithms': ListForm(128, (CODE, number(4))),
    'handles': ListForm(128, (number(4),)),
    'command attributes': ListForm(128, (number(4),)),
    'commands': ListForm(128, (number(4),)),
    'banks': ListForm(16, (CODE, PCR_BITS)),
    'properties': ListForm(128, (number(4), number(4))),
    'curves': ListForm(128, (CURVE,)),
    'policies': ListForm(16, (number(4), inside(1))),
    'timers': ListForm(16, (number(4), number(4), number(4))),
}

CLOCK_INFO = (number(8), number(4), number(4), YES_NO)


def area(attributes):
    """An NV area whose attributes have that size."""
    return (number(4), CODE, number(attributes), buffer(DIGEST), number(2))


ARMS = {
    'digest': {
        **each((plain(20),), SHA1),
        **each((plain(24),), SHAKE256_192),
        **each((plain(32),), SHA256, SM3_256, SHA3_256, SHAKE256_256),
        **each((plain(48),), SHA384, SHA3_384),
        **each((plain(64),), SHA512, SHA3_512, SHAKE256_512),
        **each(NOTHING, NULL),
    },
    'cipher': {
        **each((number(2), CODE), AES, SM4, CAMELLIA),
        **each((CODE,), XOR),
        **each(NOTHING, NULL),
    },
    'kdf': {
        **each((CODE,), MGF1, KDF1_SP800_56A, KDF2, KDF1_SP800_108),
        **each(NOTHING, NULL),
    },
    'keyed hash': {
        **each((CODE,), HMAC),
        **each((CODE, CODE), XOR),
        **each(NOTHING, NULL),
    },
    'signing': {
        **each((CODE,), HMAC, RSASSA, RSAPSS, ECDSA, SM2, ECSCHNORR),
        **each((CODE, number(2)), ECDAA),
        **each(NOTHING, NULL),
    },
    'asymmetric': {
        **each((CODE,), RSASSA, RSAPSS, ECDSA, SM2, ECSCHNORR, OAEP, ECDH, ECMQV),
        **each((CODE, number(2)), ECDAA),
        **each(NOTHING, RSAES, NULL),
    },
    # As they begin, and whole where every scheme and cipher in them is Null.
    'parameters': {
        **each((CODE,), KEYEDHASH, SYMCIPHER),
        **each((CODE, CODE, number(2), number(4)), RSA),
        **each((CODE, CODE, CODE, CODE), ECC),
        **each(NOTHING, NULL),
    },
    'unique': {
        **each((buffer(DIGEST),), KEYEDHASH),
        **each((buffer(SYMMETRIC_KEY),), SYMCIPHER),
        **each((buffer(RSA_PUBLIC),), RSA),
        **each((buffer(ECC_PARAMETER), buffer(ECC_PARAMETER)), ECC),
        **each(NOTHING, NULL),
    },
    'sensitive': {
        **each((buffer(RSA_PRIVATE),), RSA),
        **each((buffer(ECC_PARAMETER),), ECC),
        **each((buffer(SENSITIVE_DATA),), KEYEDHASH),
        **each((buffer(SYMMETRIC_KEY),), SYMCIPHER),
    },
    # Hmac as it begins, and whole where its digest is Null.
    'signature': {
        **each((CODE, buffer(RSA_PUBLIC)), RSASSA, RSAPSS),
        **each((CODE, buffer(ECC_PARAMETER), buffer(ECC_PARAMETER)), ECDSA, ECDAA, SM2, ECSCHNORR),
        **each((CODE,), HMAC),
        **each(NOTHING, NULL),
    },
    'attestation': {
        CERTIFY: (buffer(NAME), buffer(NAME)),
        CREATION: (buffer(NAME), buffer(DIGEST)),
        QUOTE: (list_of('banks'), buffer(DIGEST)),
        COMMAND_AUDIT: (number(8), CODE, buffer(DIGEST), buffer(DIGEST)),
        SESSION_AUDIT: (YES_NO, buffer(DIGEST)),
        TIME: (number(8), *CLOCK_INFO, number(8)),
        NV: (buffer(NAME), number(2), buffer(NV_CONTENTS)),
        NV_DIGEST: (buffer(NAME), buffer(DIGEST)),
    },
    'capabilities': {
        ALGS: (list_of('algorithms'),),
        HANDLES: (list_of('handles'),),
        COMMANDS: (list_of('command attributes'),),
        PP_COMMANDS: (list_of('commands'),),
        AUDIT_COMMANDS: (list_of('commands'),),
        PCRS: (list_of('banks'),),
        TPM_PROPERTIES: (list_of('properties'),),
        ECC_CURVES: (list_of('curves'),),
        AUTH_POLICIES: (list_of('policies'),),
        ACT: (list_of('timers'),),
    },
    'area': {
        NV_INDEX: area(4),
        EXTERNAL_NV: area(8),
        PERMANENT_NV: area(4),
    },
}

# The union that the first code of a record chooses from. Kind 14 and the tickets have none.
UNION_OF_KIND = {
    1: 'digest', 2: 'cipher', 3: 'kdf', 4: 'keyed hash', 5: 'signing', 6: 'asymmetric', 7: 'asymmetric',
    8: 'asymmetric', 9: 'parameters', 10: 'signature', 11: 'parameters', 12: 'sensitive', 13: 'attestation',
    15: 'capabilities', 16: 'area',
}
KINDS = range(1, 21)

# The greatest size of a record of each kind.
GREATEST = {
    1: 66, 2: 6, 3: 4, **dict.fromkeys(range(4, 9), 6), 9: 20, 10: 518, 11: 606, 12: 392, 13: 2287, 14: 116, 15: 1128,
    16: 83, **dict.fromkeys(TICKETS, 72),
}

# The codes that a union's selector may be; where nothing stands here, the algorithms.
SELECTORS_OF_UNION = {'attestation': ATTESTATION_TYPES, 'capabilities': CAPABILITIES, 'area': HANDLE_TYPES}

# The unions inside of an arm of the parameters, in wire order; with Ecc a curve stands ahead of the last.
UNIONS_OF_PARAMETERS = {
    KEYEDHASH: ['keyed hash'], SYMCIPHER: ['cipher'], RSA: ['cipher', 'asymmetric'],
    ECC: ['cipher', 'asymmetric', 'kdf'], NULL: [],
}

# The limits of the buffers that stand ahead of a kind's arms; a ticket has no arm.
LIMITS_AHEAD = {11: [DIGEST], 12: [AUTH, DIGEST], 13: [NAME, DATA], **dict.fromkeys(TICKETS, [DIGEST])}


def armless(union):
    """The listed codes that have no arm in the union."""
    return [code for code in SELECTORS_OF_UNION.get(union, ALGORITHMS) if code not in ARMS[union]]


def unlisted(kind, size):
    """Codes of that size that are on no list that a record of the kind goes by."""
    if size == 1:
        return UNLISTED_HANDLE_TYPES
    return UNLISTED if size == 2 else UNLISTED_CAPABILITIES if kind == 15 else UNLISTED_HIERARCHIES


def list_held(capability):
    """The list that is the arm of a capability: how many items it may have, and what they are."""
    (_, name), = ARMS['capabilities'][capability]
    return LISTS[name]


def fields_of(part, value):
    """The fields of a part of an item: word and size, None for a size that the field ahead says.

    The value is that of the part's first field: a digest goes by its algorithm.
    """
    what, detail = part
    if what == 'kind':
        return [CODE, *ARMS[UNION_OF_KIND[detail]].get(value, NOTHING)]
    if what == 'bits':
        return [number(1), ('bytes', None)]
    return [part if what == 'number' else ('code', detail)]


def limits(kind, selector):
    """The limits of the buffers of a record, in wire order."""
    ahead = LIMITS_AHEAD.get(kind, [])
    if kind not in (10, 11, 12, 13, 16):
        return ahead
    union = 'unique' if kind == 11 else UNION_OF_KIND[kind]
    return ahead + [limit for what, limit in ARMS[union][selector] if what == 'buffer']


# ---- The record as a writer sees it

# The list that a code is on.
LISTED = {
    'code': ALGORITHMS, 'curve': CURVES, 'type': ATTESTATION_TYPES, 'capability': CAPABILITIES,
    'handle type': HANDLE_TYPES, 'hierarchy': HIERARCHIES,
}

# The selectors that share an arm (section 6). Every other selector has an arm of its own, even where its
# fields are those of another. A digest's arm is told by its length.
SHARED_ARMS = {
    'digest': [(SHA256, SM3_256, SHA3_256, SHAKE256_256), (SHA384, SHA3_384), (SHA512, SHA3_512, SHAKE256_512)],
    'mode': [(XOR, NULL)],
    'signing': [(RSASSA, RSAPSS, ECDSA, SM2, ECSCHNORR)],
    'asymmetric': [(RSASSA, RSAPSS, ECDSA, SM2, ECSCHNORR, OAEP, ECDH, ECMQV), (RSAES, NULL)],
}


# The arms with all that is in them, and the cipher's two unions as two.
WHOLE_ARMS = {
    **ARMS,
    'key bits': {selector: arm[:1] for selector, arm in ARMS['cipher'].items()},
    'mode': {selector: arm[1:] for selector, arm in ARMS['cipher'].items()},
    'parameters': {
        KEYEDHASH: (inside(4),),
        SYMCIPHER: (inside(2),),
        RSA: (inside(2), inside(6), number(2), number(4)),
        ECC: (inside(2), inside(7), CURVE, inside(3)),
        NULL: NOTHING,
    },
    'signature': {**ARMS['signature'], HMAC: (inside(1),)},
}


def arm_of(union):
    return ('arm', union)


# The parts of each kind, in wire order (section 7). The first code of a form is the selector of its arms.
FORMS = {
    2: (CODE, arm_of('key bits'), arm_of('mode')),
    **{kind: (CODE, arm_of(UNION_OF_KIND[kind])) for kind in (1, 3, 4, 5, 6, 7, 8, 9, 10)},
    11: (CODE, CODE, number(4), buffer(DIGEST), arm_of('parameters'), arm_of('unique')),
    12: (CODE, buffer(AUTH), buffer(DIGEST), arm_of('sensitive')),
    13: (fixed(4, MAGIC), ATTESTATION_TYPE, buffer(NAME), buffer(DATA), *CLOCK_INFO, number(8), arm_of('attestation')),
    14: (list_of('banks'),),
    15: (CAPABILITY, arm_of('capabilities')),
    16: (HANDLE_TYPE, arm_of('area')),
    **{kind: (fixed(2, *tags), HIERARCHY, buffer(DIGEST)) for kind, tags in TAGS.items()},
}


def first_size(kind):
    """How many bytes the first field of a kind has; that of a list is its count."""
    what, detail = FORMS[kind][0]
    return 4 if what == 'list' else detail[0] if what == 'fixed' else detail


def arm_chosen(union, selector):
    """The arm that a selector chooses, by the first selector that it belongs to; None where it has no arm."""
    if selector not in WHOLE_ARMS[union]:
        return None
    shared = [selectors for selectors in SHARED_ARMS.get(union, []) if selector in selectors]
    return shared[0][0] if shared else selector


def arms_of(union):
    return sorted({arm_chosen(union, selector) for selector in WHOLE_ARMS[union]})
