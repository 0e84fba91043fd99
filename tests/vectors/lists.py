"""Lists in a source that is not the records: other ones of the same length as the record's own, and spans of any.

What such a list is refused for follows from how it was made; no list is read here.
"""

import answers
import calls
import damage
import held
import tables
from calls import LIST, Asked, Placed, call
from choice import ahead, by_arm, filler, held_arm, listed_codes, own_selector, unlisted_codes
from lent import cut_source
from records import list_form

SMALLEST_ITEM, GREATEST_ITEM = 3, 3 + tables.GREATEST_PCR_SIZE
BANKS, POLICIES = tables.LISTS['banks'], tables.LISTS['policies']


# ---- The lists


def list_bytes(count, items):
    return count.to_bytes(4, 'big') + b''.join(items)


def item_places(items):
    return [4 + sum(map(len, items[:i])) for i in range(len(items))]


def code_ahead(form):
    """How many bytes of an item stand ahead of its code; None if it has none."""
    sizes = 0
    for what, size in form.item:
        if what != 'number':
            return sizes
        sizes += size
    return None


def put(data, place, piece):
    return data[:place] + piece + data[place + len(piece):]


def put_code(data, place, code):
    return put(data, place, code.to_bytes(2, 'big'))


def wrong_counts(form, items):
    """The list with another count: its bytes, and what it is refused for."""
    end, (_, first_size) = len(list_bytes(0, items)), form.item[0]
    for count in (form.most + 1, 0xFFFFFFFF):
        yield list_bytes(count, items), (answers.TOO_MANY_ITEMS, 0, count)
    if len(items) < form.most:
        yield list_bytes(len(items) + 1, items), answers.short(end, first_size, end)
    for count in sorted({0, len(items) - 1}) if items else ():
        place = item_places(items)[count]
        yield list_bytes(count, items), (answers.TRAILING, place, end - place)


def wrong_codes(form, items):
    """The list with an unlisted code, alone and with a count that is too great: each item's."""
    data, inside = list_bytes(len(items), items), code_ahead(form)
    for turn, place in enumerate(item_places(items) if inside is not None else ()):
        code = tables.UNLISTED[(turn + len(data)) % len(tables.UNLISTED)]
        faulty = put_code(data, place + inside, code)
        yield faulty, (answers.UNKNOWN_CODE, place + inside, code)
        yield put(faulty, 0, list_bytes(form.most + 1, ())), (answers.TOO_MANY_ITEMS, 0, form.most + 1)


def wrong_sizes(form, items):
    """The list with a PCR size above 4, alone and behind an unlisted bank: each item's."""
    data = list_bytes(len(items), items)
    for place in item_places(items) if form == BANKS else ():
        for size in (tables.GREATEST_PCR_SIZE + 1, 0xFF):
            yield put(data, place + 2, bytes([size])), (answers.TOO_LONG, place + 2, size)
        both = put(put_code(data, place, 0xFF), place + 2, b'\5')
        yield both, (answers.UNKNOWN_CODE, place, 0xFF)


def wrong_last_size(form, items):
    """The list whose last item has more bits than are there, or fewer, and then perhaps one more item begun."""
    if not items or form != BANKS:
        return
    data, place = list_bytes(len(items), items), item_places(items)[-1]
    end, bits = len(data), len(items[-1]) - SMALLEST_ITEM
    if bits < tables.GREATEST_PCR_SIZE:
        yield put(data, place + 2, bytes([bits + 1])), answers.short(place + 3, bits + 1, end)
    one_more = put(data, 0, (len(items) + 1).to_bytes(4, 'big'))
    if bits >= 1:
        yield put(data, place + 2, bytes([bits - 1])), (answers.TRAILING, end - 1, 1)
        if len(items) < form.most:
            yield put(one_more, place + 2, bytes([bits - 1])), answers.short(end - 1, 2, end)
    if bits >= 2 and len(items) < form.most:
        begun = put(put(one_more, place + 2, bytes([bits - 2])), end - 2, tables.SHA256.to_bytes(2, 'big'))
        yield begun, answers.short(end, 1, end)


def wrong_last_digest(form, items):
    """The list whose last policy has another algorithm: one whose digest has another length, or that has none."""
    if not items or form != POLICIES:
        return
    data, place = list_bytes(len(items), items), item_places(items)[-1] + 4
    due, end = place + 2, len(data)
    for algorithm, size in ((code, digest_size(code)) for code in tables.ALGORITHMS):
        faulty = put_code(data, place, algorithm)
        if size is None:
            yield faulty, (answers.NO_ARM, due, algorithm)
        elif due + size > end:
            yield faulty, answers.short(due, size, end)
        elif due + size < end:
            yield faulty, (answers.TRAILING, due + size, end - due - size)


def digest_size(algorithm):
    """How long its digest is; None if it has none."""
    arm = tables.ARMS['digest'].get(algorithm)
    return None if arm is None else sum(size for _, size in arm)


def an_item(bank, bits):
    return bank.to_bytes(2, 'big') + bytes([bits]) + damage.PATTERN[bank:][:bits]


def split(total, count):
    """So many items of so many bytes together; None if there are no such items."""
    if not SMALLEST_ITEM * count <= total <= GREATEST_ITEM * count or count > BANKS.most:
        return None
    sizes = [total // count + (i < total % count) for i in range(count)]
    banks = [tables.ALGORITHMS[(total + 7 * i) % len(tables.ALGORITHMS)] for i in range(count)]
    return tuple(an_item(bank, size - SMALLEST_ITEM) for bank, size in zip(banks, sizes))


def other_part(part, size, turn):
    """A part of an item with other bytes at each turn; a digest with its algorithm has the size given."""
    what, width = part
    if what == 'number':
        return filler(width, turn)
    codes = [c for c in tables.ALGORITHMS if digest_size(c) == size - 2] if what == 'kind' else tables.LISTED[what]
    code = codes[(turn + 5) % len(codes)]
    return code.to_bytes(2, 'big') + (filler(size - 2, turn + 1) if what == 'kind' else b'')


def other_item(form, size, turn):
    """An item of that size."""
    made = b''
    for part in form.item:
        made += other_part(part, size - len(made), turn)
    return made


def other_lists(form, items):
    """Legal lists of the same length: of banks with the fewest items and with the most, else with as many."""
    if form != BANKS:
        return [tuple(other_item(form, len(item), turn) for turn, item in enumerate(items))]
    total = sum(map(len, items))
    found = [split(total, count) for count in range(form.most + 1)]
    found = [other for other in found if other is not None]
    return found[:1] + found[1:][-1:]


def with_list(placed, data, items=(), fault=None):
    """The records as a source, with another list in the place of theirs."""
    span = held.list_span(placed.row)
    if len(data) != span.length:
        raise SystemExit(f'{placed.record.name}: another list has {len(data)} bytes and not {span.length}')
    return held.Source(put(placed.data, span.start, data), items, fault)


# ---- The cases


def another_list(kind, code, placed):
    for items in other_lists(list_form(placed.record), held.items_of(placed.record)):
        source = with_list(placed, list_bytes(len(items), items), items)
        for index in sorted({0, max(len(items) - 1, 0), len(items)}):
            room = 0 if index else calls.GREATEST_ROOM
            yield 'another list', call(Asked(kind, code, room, index), placed, source)


def faulty_list(kind, code, placed):
    """Its fault is ahead of an index past the items and of a later span past the end, and behind a bad span."""
    form, items, turn = list_form(placed.record), held.items_of(placed.record), 0
    for make in (wrong_counts, wrong_codes, wrong_sizes, wrong_last_size, wrong_last_digest):
        for data, fault in make(form, items):
            turn += 1
            source = with_list(placed, data, (), fault)
            yield 'faulty list', call(Asked(kind, code, turn % 2 * 200, turn % 4), placed, source)
            if turn % 3 == 0:
                end = held.list_span(placed.row).start + len(data)
                for size in (end - 1, end):
                    asked = Asked(kind, code, index=2 + turn % 17)
                    yield 'faulty list, source cut', call(asked, placed, cut_source(source, size))


def under_another_selector(kind, placed):
    """The list is there whatever the selector is."""
    there = len(held.items_of(placed.record))
    for turn, code in enumerate((*listed_codes(kind), *unlisted_codes(kind)[:1])):
        yield 'list under another selector', call(Asked(kind, code, index=turn % (there + 1)), placed)


# ---- Long lists, and spans of any length: kind 15


def full_list(code, placed):
    """The last item, none behind it, and an unlisted code in the second and in the last."""
    form, items = list_form(placed.record), held.items_of(placed.record)
    for index in (form.most - 1, form.most):
        yield 'full list', call(Asked(15, code, calls.GREATEST_ROOM * (index % 2), index), placed)
    faults = list(wrong_codes(form, items))[::2]  # those of the code alone, one of each item
    for data, fault in faults[1:2] + faults[-1:]:
        yield 'full list', call(Asked(15, code, index=1), placed, with_list(placed, data, (), fault))


def list_lengths(record):
    """Where a list's span can end: in a short record at every byte, else at both ends of each field and inside."""
    fields, end = record.fields[1:], len(record.data) - 4
    if len(record.data) <= damage.SHORT_RECORD:
        return range(end)
    return sorted({place - 4 for f in fields if f.size for place in (f.place, f.end - 1)})


def spans_of_any_length(record, turn):
    """A list and three bytes behind it: its span ends in a field, with the list, behind it, or past the source."""
    end, lent = len(record.data) - 4, record.data[4:] + filler(3, turn)
    faults = {end: None, len(lent) + 1: None}
    for length in list_lengths(record):
        field = next(f for f in record.fields[1:] if f.end - 4 > length)
        faults[length] = answers.short(field.place - 4, field.size, length)
    for length in range(end + 1, len(lent) + 1):
        faults[length] = (answers.TRAILING, end, length - end)
    for length, fault in sorted(faults.items(), key=lambda found: found[0]):
        source = held.Source(lent, held.items_of(record), fault)
        asked = Asked(LIST, length, index=length % 3)
        yield 'list of any length', call(asked, Placed(record, ahead(turn)), source)


def capability_lists(found):
    """Of each arm of kind 15: its smallest record, the smallest with two items, and one that is full."""
    for records in by_arm(15, found).values():
        counts = [len(held.items_of(record)) for record in records]
        most = list_form(records[0]).most
        yield tuple(records[counts.index(count)] for count in (0, 2, most))


def capability_cases(found):
    for turn, (empty, short, full) in enumerate(capability_lists(found)):
        code, placed = own_selector(15, short), Placed(short, ahead(turn), filler(turn % 2, turn))
        yield from another_list(15, code, placed)
        yield from faulty_list(15, code, placed)
        yield from faulty_list(15, code, Placed(empty, ahead(turn + 1)))
        yield from under_another_selector(15, placed)
        yield from spans_of_any_length(short, turn)
        yield from full_list(code, Placed(full, ahead(turn)))


def list_cases(found, layouts):
    lists = [r for r in found if r.kind == 14]
    quotes = [r for r in layouts if r.kind == 13 and held_arm(13, r) == tables.QUOTE]
    for turn, record in enumerate(lists + quotes):
        code = own_selector(record.kind, record)
        placed = Placed(record, ahead(turn), filler(turn % 2, turn))
        yield from another_list(record.kind, code, placed)
        yield from faulty_list(record.kind, code, placed)
        if record.kind == 13:
            yield from under_another_selector(13, placed)
    yield from capability_cases(found)
