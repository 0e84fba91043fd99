"""One case of writing judged: what follows for our answer from the crate's, and the class where the two differ."""

import re
from collections import Counter
from functools import cache

from held import CRATES, INSIDE, OURS, OUTSIDE, Form, Held, OtherArm, Unread, claimed_items, codes_of, is_judged_less, too_long_for
from inputs import HIERARCHY_OF, TAGS

NUMBERS = {'UnexpectedEnd': 1, 'End': 1, 'Code': 2, 'VariantNotAvailable': 3, 'Length': 4, 'TooManyItems': 5, 'Value': 6, 'TrailingData': 11}
SHORT = 1  # the one refusal that says how many bytes there were
TOLD = re.compile(r'm(?P<flags>[01]*) (?P<by>text|rebuilt) (?:again (?P<written>[0-9a-f]+)'
                  r'|err (?P<who>text|rebuilt) (?P<name>\w+) (?P<offset>\d+) (?P<value>\d+) (?P<left>-|[0-9a-f]+))'
                  r'(?: tail (?P<tail>\S+) field (?:none|(?P<field_by>text|rebuilt) (?P<field>\S+)) item (?P<item>\S+))?')
LIST = '2.1, 2.7: more items than the crate holds'
COMMANDS = '2.1: more commands than we read'
# Kinds of a case whose record can have the cipher Xor or the scheme Ecdaa.
TWO_FORMS = (2, *range(5, 10), 11, *range(22, 28))
XOR_FORM = '2.10: the cipher Xor, which has a mode in the crate'
ECDAA_FORM = '2.10: the scheme Ecdaa, which has no count in the crate'
LISTED = {
    'type': '2.5: an attestation type outside the eight (TpmsAttest::marshal is rebuilt)',
    'null cipher': '2.6: a Null cipher that holds another arm; the crate leaves both unions out',
    'room first': '2.6: the room ends ahead of a nested structure whose arm is wrong; the crate does not come to the arm',
    'handle type': '2.5: a handle type outside the three',
    'tag': '2.11: a tag that is not the ticket\'s; the crate has any structure tag',
    'hierarchy': '2.11: a hierarchy outside the four; the crate has any permanent handle',
}
# Kinds of a case that replace what an owned record of the crate cannot have otherwise, and the kinds that they read.
NOT_OWNED = {28: 13, 29: 12, 30: 15, 35: 16, **dict(zip(range(36, 40), TAGS))}
LEFT = '2.6: what a refused writer left behind; the crate left bytes'
# Kinds of a record in which the crate's offset is our place, counted from the record's start (docs/DIFFERENCES.md, 2.4).
ONE_PLACE = (1, 3, 5, 6, 7, 8)


class Wrong(Exception):
    """An answer that is not explained."""


def refusal(kind, number, place, value):
    """The line of a refusal other than Short."""
    return f'kind {kind} refused {number} at {place} value {value}'


def hold(what, found, wanted):
    if found != wanted:
        raise Wrong(f'{what}: not {wanted}')


def kind_read(case):
    """The kind of the record that the case reads."""
    return NOT_OWNED.get(case.kind) or HIERARCHY_OF.get(case.kind) or INSIDE.get(case.kind, (case.kind,))[0]


def asked(case, told):
    """What we must answer to the index, by what the crate owns."""
    none = refusal(case.kind, 10, 0, case.index)
    field = none if told['field'] is None else 'field ' + told['field']
    item = none if told['item'] == 'none' else 'item ' + told['item']
    return ['tail ' + told['tail'], field, item]


def crate_is_right(case, held, told):
    """The crate's answer is the one that the case asks for."""
    unions = held.target.unions()
    hold('matches_tag of the crate', told['flags'], ''.join('01'[union.chosen_by(held.target.selector)] for union in unions))
    wanted = held.crates(case.room)
    if wanted[0] == 'again':
        hold('what the crate writes', (told['written'],), wanted[1:])
        return
    hold('the crate\'s refusal', (told['who'], told['name']), ('rebuilt' if wanted[0] == 'Arm' else 'text', wanted[0]))
    hold('the crate\'s refusal', (int(told['offset']), int(told['value']), told['left']), wanted[1:])


def our_line(case, held, told, sort):
    """What our writer must answer. What is written, and a selector that is refused, are the crate's; the rest is docs/FORMAT.md's."""
    if sort == 'written':
        hold('what the crate answers', told['written'] is not None, True)
        return 'again ' + told['written']
    number, place, value = held.ours(case.room)
    if sort == 'arm':
        hold('the value of the refusal', int(told['value']), value)
    if sort in ('arm', 'room'):
        hold('the crate\'s refusal', told['name'], 'BufferOverflow' if sort == 'room' else held.target.no_arm)
    return refusal(case.kind, number, place, value)


def decided_by(case, told, sort):
    """Text, if no rebuilt structure has a part in the answer."""
    if sort == 'arm':  # the test for the arm is a structure's first deed; 22 to 27 come to it inside a rebuilt structure
        return 'rebuilt' if case.kind in range(22, 28) else told['who']
    return told['by']


def judge_told(case, told, ours, count):
    """A case that the crate has. Answers its class, '' where the two sides agree."""
    held = Held(case.kind, case.code, case.first, case.second)
    sort = held.sort(case.room)
    crate_is_right(case, held, told)
    wanted = [f'm {flag}' for flag in told['flags']] + [our_line(case, held, told, sort)]
    hold('our answer', ours, wanted + (asked(case, told) if case.has_index else []))
    count['unions'] += told['flags'] != ''
    count['matches'] += '0' not in told['flags'] and told['flags'] != ''
    if case.has_index:
        count_asked(told, count)
    if sort in LISTED:
        return listed(count, LISTED[sort], told['who'] if sort in ('type', 'handle type') else told['by'])
    count[f'{sort} {decided_by(case, told, sort)}'] += 1
    if told['left'] in (None, '-'):
        return ''
    count[LEFT, told['by']] += 1
    return LEFT


def listed(count, name, who):
    count[f'differ {who}'] += 1
    count[name, who] += 1
    return name


def count_asked(told, count):
    count[f'tail {told["by"]}'] += 1
    count[f'field {told["field_by"] or "none"}'] += 1
    count['no item' if told['item'] == 'none' else 'item'] += 1


def judge_unread(case, words, ours, count):
    """A case whose first or second record neither side reads."""
    which, who, name, offset, value, had = words
    begins = case.first_at if which == 'first' else case.second_at
    found = re.fullmatch(rf'kind {case.kind} refused (\d+) at (\d+) value (\d+)(?: had (\d+))?', ours[0]) if len(ours) == 1 else None
    hold('our refusal', found and (int(found[1]), found[3]), (NUMBERS[name], value))
    place, least, is_short = int(found[2]), begins + int(offset), NUMBERS[name] == SHORT
    hold('what our refusal had', found[4], had if is_short else None)
    hold('what our refusal had, by its place', int(had), max(0, len(case.records) - place) if is_short else 0)
    # A count of Ecdaa that is cut has the offset of its arm, whose second field it is; its place is settled by what it had.
    exact = kind_read(case) in ONE_PLACE and not parted(case) or name == 'TrailingData'
    hold('the place of our refusal', place == least if exact else least <= place <= max(least, len(case.records)), True)
    count['unread ' + who] += 1
    return ''


def foreseen(case, form):
    """What the crate answers with all that has two forms in that form, but for who makes it and for the offset where a record is not read."""
    try:
        held = Held(NOT_OWNED.get(case.kind, case.kind), case.code, case.first, case.second, form)
    except Unread as unread:
        return 'refused', *unread.args
    except OtherArm:
        return ('another arm',)
    if case.kind in NOT_OWNED:
        return ('no such record: kind',)
    is_code = case.code in codes_of(case.kind)
    if not is_code or case.source:
        return (f'no such record: {"source" if is_code else "selector"}',)
    flags = ''.join('01'[union.chosen_by(held.target.selector)] for union in held.target.unions())
    if not case.has_index:
        return flags, held.crates(case.room), None, None
    field = held.byte_fields[case.index].hex() or '-' if case.index < len(held.byte_fields) else None
    return flags, held.crates(case.room), held.tail.hex() or '-', field


def essence(line):
    """Of a line of the crate's what is foreseen."""
    told, words = TOLD.fullmatch(line), line.split(' ')
    if told and told['name']:
        return told['flags'], (told['name'], int(told['offset']), int(told['value']), told['left']), told['tail'], told['field']
    if told:
        return told['flags'], ('again', told['written']), told['tail'], told['field']
    is_refused = words[0] == 'refused' and len(words) == 7
    return ('refused', words[1], words[3], int(words[5]), int(words[6])) if is_refused else (line,)


def judged_less(case):
    """Of a record that ours does not read, and the crate's text reads or refuses otherwise: which field it is."""
    kind = kind_read(case)
    if int.from_bytes(case.first[:2], 'big') in TAGS.get(kind, ()):
        return 'hierarchy'
    return OUTSIDE[kind]


@cache
def parted(case):
    """The name of the difference, where the crate answers otherwise with the two arms in its own form than with them in ours, or reads by its own
    lists what we do not read; else ''.

    The case alone decides: from its bytes, its selector and its room both answers are foreseen.
    """
    if is_judged_less(kind_read(case), case.first):
        return LISTED[judged_less(case)]
    if case.kind not in TWO_FORMS or foreseen(case, CRATES) == foreseen(case, OURS):
        return ''
    return ECDAA_FORM if foreseen(case, Form(has_mode=False, has_count=False)) == foreseen(case, CRATES) else XOR_FORM


def judge_line(case, line, ours, count):
    told = TOLD.fullmatch(line)
    if told:
        return judge_told(case, told, ours, count)
    words = line.split(' ')
    if words[0] == 'refused' and len(words) == 7:
        return judge_unread(case, words[1:], ours, count)
    if line == 'another arm':
        hold('our answer', ours, [refusal(case.kind, 12, 0, case.kind)])
        count['another arm'] += 1
        return ''
    if line.startswith('no such record: '):
        count['left out'] += 1
        return line
    raise Wrong('the crate is not at one with itself')


def long_for(case):
    """The side that the case's list is too long for, if it is for one of the two alone; its bytes say so."""
    return too_long_for(kind_read(case), case.first)


def is_adapted(case):
    """Whether we are held to the adapted text, in which lists have our capacities, the two arms our form, and codes are judged by our lists."""
    return bool(long_for(case) or parted(case))


def long_list(case, line, ours):
    """A list that is too long for one side: that side refuses its count, and the other goes on. The name of the difference, and who decides."""
    count = claimed_items(kind_read(case), case.first)
    if long_for(case) == 'crate':
        hold('the crate\'s refusal of a list', line, f'refused first text TooManyItems 0 {count} 0')
        return LIST, 'text'
    hold('the crate\'s answer to a list that is too long here', essence(line), foreseen(case, OURS))
    hold('our refusal of a list', ours, [refusal(case.kind, NUMBERS['TooManyItems'], case.first_at + 4, count)])
    return COMMANDS, made_by(line)


def judge(case, line, adapted, ours, count):
    """The class of the case, '' where the two sides agree. What is neither is raised.

    LINE is the crate's answer, ADAPTED the adapted text's, in which there is no such class as these: a list that is too long for one side, and
    what has another form there, or is judged by another list. In these the crate must answer as that class says, and we are held to the adapted
    text.
    """
    if not is_adapted(case):
        return judge_line(case, line, ours, count)
    if long_for(case):
        name, by = long_list(case, line, ours)
    else:
        name, by = parted(case), made_by(line)
        hold('the crate\'s answer in its own form', essence(line), foreseen(case, CRATES))
        hold('the adapted text\'s answer in our form', essence(adapted), foreseen(case, OURS))
    alone = Counter()
    left_out = judge_line(case, adapted, ours, alone)
    if alone['left out']:
        count['left out'] += 1
        return left_out
    return listed(count, name, by)


def made_by(line):
    """Who refused to read; of a record that the crate has, rebuilt if a structure in it is."""
    told = TOLD.fullmatch(line)
    return told['by'] if told else 'text' if ' text ' in line else 'rebuilt'
