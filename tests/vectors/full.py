"""Lists of kind 15, built from the tables: with two items, with as many as there may be, and with one more.

Their numbers are those that are tried as codes elsewhere: in an item only an algorithm and a curve are judged.
"""

import answers
import damage
import sweeps
import tables

NUMBERS = [*sweeps.ALGORITHMS_TRIED, *tables.UNLISTED_CAPABILITIES]
DIGESTS = sorted(tables.ARMS['digest'])


def bytes_given(size, turn):
    return ('bytes', size, damage.PATTERN[turn % 256:][:size].hex())


def digest(turn):
    """A kind 1 with each of its arms in turn."""
    algorithm = DIGESTS[turn % len(DIGESTS)]
    return [sweeps.code(algorithm), *(bytes_given(size, turn) for _, size in tables.ARMS['digest'][algorithm])]


def filled(part, turn):
    """The fields of an item's part, with another value at each turn."""
    what, detail = part
    if what == 'kind':
        return digest(turn)
    if what == 'bits':
        return [('number', 1, detail), bytes_given(detail, turn)]
    if what == 'number':
        return [('number', detail, NUMBERS[turn % len(NUMBERS)])]
    listed = tables.LISTED[what]
    return [sweeps.code(listed[turn % len(listed)])]


def list_record(capability, count):
    form = tables.list_held(capability)
    fields = [
        field for item in range(count) for number, part in enumerate(form.item)
        for field in filled(part, item + 41 * number)
    ]
    return sweeps.built(15, (*sweeps.capability_list(capability, count), *fields))


def lists():
    """Of each list one with two items, and one that is full."""
    return [
        list_record(capability, count)
        for capability in tables.ARMS['capabilities'] for count in (2, tables.list_held(capability).most)
    ]


def too_full():
    """Of each list one with an item more than it may have: the count is refused, and no item is looked at."""
    for capability in tables.ARMS['capabilities']:
        count = tables.list_held(capability).most + 1
        refusal = (answers.TOO_MANY_ITEMS, 4, count)
        yield damage.refused('one item too many', 15, list_record(capability, count).data, refusal)
