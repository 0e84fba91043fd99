"""Rows for the program `rows`: records of one kind, one behind the other, and what is answered of them.

A row is put together from records whose fields are decoded: so it is known where each record ends, and which field
is the first that a cut does not hold. A record that is damaged as in damage.py is refused for the same behind other
records, as many bytes further on as these have.
"""

import re
from collections import Counter
from itertools import accumulate
from typing import NamedTuple

import answers
import damage
import tables
from records import Record, blocks, checked, deposit_of, field_of_row, with_number

MOST_CELLS = 256  # that the program can lend
MOST_BYTES = 0xFFFF - 3  # behind the kind and the number of cells
NO_KINDS = (0, 21, 255)
FEW = 3  # how many rows of a kind have the same sort of damage
BY_HAND = re.compile(r'kind (\d+), (\d+) cells?: ([0-9A-F -]+)')
EVERY_REFUSAL = {
    answers.SHORT, answers.UNKNOWN_CODE, answers.NO_ARM, answers.TOO_LONG, answers.TOO_MANY_ITEMS, answers.BAD_VALUE,
    answers.NO_ROOM, answers.BAD_KIND,
}


class Row(NamedTuple):
    kind: int
    records: tuple

    @property
    def data(self):
        return b''.join(record.data for record in self.records)

    @property
    def places(self):
        """Where each record begins, and last where the row ends."""
        return [0, *accumulate(len(record.data) for record in self.records)]

    @property
    def fields(self):
        """All fields, with their places in the row."""
        placed = zip(self.places, self.records)
        return [f._replace(place=place + f.place) for place, record in placed for f in record.fields]


def case(kind, cells, data):
    if cells > MOST_CELLS or len(data) > MOST_BYTES:
        raise SystemExit(f'a row of kind {kind} with {len(data)} bytes and {cells} cells')
    return bytes([kind]) + cells.to_bytes(2, 'big') + data


# ---- Answers


def listing(row):
    placed = enumerate(zip(row.places, row.records), start=1)
    return ''.join(
        f'record {number} at {place}\n' + answers.read(row.kind, record.fields, 0) for number, (place, record) in placed
    )


def divided(row, cells):
    """What `divide` answers of a row that is read."""
    count = len(row.records)
    if cells < count:
        return answers.refused(row.kind, answers.NO_ROOM, 0, count)
    return ' '.join(map(str, ('ends', *row.places[1:]))) + '\n'


def read(sort, row, cells):
    answer = f'count {len(row.records)}\n' + divided(row, cells) + listing(row)
    return sort, case(row.kind, cells, row.data), answer


def refused(sort, kind, cells, data, refusal):
    """Both calls have the same refusal, and nothing is listed."""
    return sort, case(kind, cells, data), answers.refused(kind, *refusal) * 2


def cut_at(sort, row, cut, cells):
    """The first so many bytes: a shorter row, or refused at the first field that they do not hold."""
    places = row.places
    if cut in places:
        return read(sort, row._replace(records=row.records[:places.index(cut)]), cells)
    field = next(f for f in row.fields if f.end > cut)
    return refused(sort, row.kind, cells, row.data[:cut], answers.short(field.place, field.size, cut))


def byte_more(sort, row, byte, cells):
    """A byte behind the row that begins no record: too few for the first field, or an unlisted handle type."""
    end, size = len(row.data), tables.first_size(row.kind)
    refusal = answers.short(end, size, end + 1) if size > 1 else (answers.UNKNOWN_CODE, end, byte)
    return refused(sort, row.kind, cells, row.data + bytes([byte]), refusal)


def cells_by_turns(row, turn):
    """Cells for a row that is refused, where none may be changed: as many as there are records, none, one, all."""
    return (len(row.records), 0, 1, MOST_CELLS)[turn % 4]


# ---- By hand


def records_listed(name, kind, data, lines):
    """The records that the lines of a listing have, each with the bytes that its first line says."""
    found = []
    for line in lines:
        words = line.split()
        if words[0] == 'record':
            place = int(words[3])
        elif words[0] == 'kind':
            found.append(Record(name, kind, data[place:place + int(words[3])], ()))
        else:
            found[-1] = found[-1]._replace(fields=(*found[-1].fields, field_of_row(line)))
    return tuple(checked(record) for record in found)


def row_by_hand(first, answer):
    words = BY_HAND.fullmatch(first)
    if not words:
        raise SystemExit(f'rows.txt: {first}')
    kind, cells = int(words[1]), int(words[2])
    data = deposit_of(words[3])
    if answer.startswith('count '):
        row = Row(kind, records_listed(first, kind, data, answer.splitlines()[2:]))
        if read('', row, cells)[1:] != (case(kind, cells, data), answer):
            raise SystemExit(f'rows.txt: {first}: its listing, count and ends are not of one row')
    return 'by hand', case(kind, cells, data), answer


# ---- Rows of all records of a kind


def whole_and_cut(sort, row, turn):
    """A row as it is; half of its records; cut by a byte, in the last record, and right behind its first field."""
    last, end = row.places[-2:]
    half = len(row.records) // 2
    yield read(f'{sort}, whole', row, len(row.records))
    if half:
        yield cut_at(f'{sort}, cut between two', row, row.places[half], half + turn)
    inside = {end - 1, (last + end) // 2, last + row.records[-1].fields[0].size} - {*row.places}
    for cut in sorted(inside):
        yield cut_at(f'{sort}, cut', row, cut, cells_by_turns(row, turn + cut))


def with_byte_more(sort, row, turn):
    """The bytes 00 and ff, and the first byte of one of the records once more."""
    sort = f'{sort}, a byte more'
    for byte in (0x00, 0xFF):
        yield byte_more(sort, row, byte, cells_by_turns(row, turn + byte))
    longer = row._replace(records=(*row.records, row.records[turn % len(row.records)]))
    yield cut_at(sort, longer, len(row.data) + 1, cells_by_turns(row, turn + 1))


def with_unlisted_code(sort, row, turn):
    """A code that is not listed, in a record in the middle; what stands behind it does not matter."""
    numbers = [n for n, record in enumerate(row.records) if damage.code_indices(record)]
    number = numbers[len(numbers) // 2]
    ahead, record, behind = row.records[:number], row.records[number], row.records[number + 1:]
    codes = damage.code_indices(record)
    index = codes[turn % len(codes)]
    choices = tables.unlisted(row.kind, record.fields[index].size)
    code = choices[turn % len(choices)]
    changed = row._replace(records=(*ahead, with_number(record, index, code), *behind))
    refusal = (answers.UNKNOWN_CODE, row.places[number] + record.fields[index].place, code)
    yield refused(f'{sort}, a code made unlisted', row.kind, cells_by_turns(row, turn), changed.data, refusal)


def all_of_a_kind(sort, rows):
    for turn, row in enumerate(rows):
        yield from whole_and_cut(sort, row, turn)
        yield from with_byte_more(sort, row, turn)
        yield from with_unlisted_code(sort, row, turn)


# ---- Rows of a few


def cells_lent(rows):
    """Just as many cells as there are records, one fewer, none, one more and all."""
    for row in (row._replace(records=row.records[:3]) for row in rows):
        count = len(row.records)
        for cells in (count, count - 1, 0, count + 1, MOST_CELLS):
            yield read('enough cells' if cells >= count else 'too few cells', row, cells)


def cut_everywhere(rows):
    """The two shortest records of a kind, cut at every byte."""
    for turn, row in enumerate(rows):
        shortest = sorted(row.records, key=lambda record: len(record.data))[:2]
        row = row._replace(records=tuple(shortest))
        for cut in range(len(row.data) + 1):
            yield cut_at('two records, cut at every byte', row, cut, 2 + (turn + cut) % 3)


def behind_others(row, copy, turn):
    """A refused copy of a record behind one or two records; by turns ahead of one too, if no byte was missing."""
    sort, deposit, answer = copy
    ahead = row._replace(records=row.records[:1 + turn % 2])
    number, place, value, *had = map(int, answer.split()[3::2])
    behind = b'' if had or turn % 3 else row.records[0].data
    data = ahead.data + deposit[1:] + behind
    refusal = (number, len(ahead.data) + place, value, *had)
    return refused(f'behind others: {sort}', row.kind, cells_by_turns(ahead, turn), data, refusal)


def refused_copies(record, turn):
    """The damaged copies of a record that are refused, by their sort. One without a byte would be no part of a row."""
    found = {}
    for copy in (copy for make in damage.FOR_EACH_LAYOUT for copy in make(record, turn)):
        sort, deposit, answer = copy
        if ' refused ' in answer and len(deposit) > 1:
            found.setdefault(sort, []).append(copy)
    return found


def damaged(rows, layouts):
    """Of each kind and each sort of damage a few copies, each of another layout."""
    for row in rows:
        taken = Counter()
        for turn, record in enumerate(record for record in layouts if record.kind == row.kind):
            for sort, copies in refused_copies(record, turn).items():
                if taken[sort] < FEW:
                    taken[sort] += 1
                    yield behind_others(row, copies[turn * 7 % len(copies)], turn + len(sort))


# ---- Edges


def no_bytes():
    """A row of no bytes under every number of a kind."""
    for kind in range(256):
        cells = (0, 1, MOST_CELLS)[kind % 3]
        if kind in tables.KINDS:
            yield read('no bytes', Row(kind, ()), cells)
        else:
            yield refused('no bytes, no kind', kind, cells, b'', (answers.BAD_KIND, 0, kind))


def no_kind(rows):
    for turn, row in enumerate(rows):
        data = row._replace(records=row.records[:2]).data
        for kind in NO_KINDS:
            yield refused('no kind', kind, cells_by_turns(row, turn + kind), data, (answers.BAD_KIND, 0, kind))


def as_many_as_cells(rows):
    """The shortest record of kind 5 over and over, as often as there are cells, and once more."""
    shortest = min(rows[5].records, key=lambda record: len(record.data))
    for count in (MOST_CELLS, MOST_CELLS + 1):
        yield read('as many as there are cells, and one more', Row(5, (shortest,) * count), MOST_CELLS)


def full(rows):
    """The records of a kind over and over, as many bytes as there may be, and cut there."""
    for kind in (2, 13, 16):
        row = rows[kind]
        row = row._replace(records=row.records * (MOST_BYTES // len(row.data) + 1))
        cut = MOST_BYTES - (MOST_BYTES in row.places)
        yield cut_at('65,532 bytes', row, cut, MOST_CELLS)


# ---- All of them


def rows_of(found):
    """A row of all records of each kind, in their order, by the kind."""
    kinds = sorted({record.kind for record in found})
    return {kind: Row(kind, tuple(r for r in found if r.kind == kind)) for kind in kinds}


def all_rows(path, real, listed, layouts):
    rows = rows_of(real)
    yield from (row_by_hand(first, answer) for first, answer in blocks(path))
    yield from all_of_a_kind('real records', rows.values())
    yield from all_of_a_kind('samples', rows_of(listed).values())
    yield from cells_lent(rows.values())
    yield from cut_everywhere(rows.values())
    yield from damaged(rows.values(), layouts)
    yield from no_bytes()
    yield from no_kind(rows.values())
    yield from as_many_as_cells(rows)
    yield from full(rows)


def require_complete(shelf):
    """Every kind is read, cut, damaged and has too few cells in some row, and every refusal comes up."""
    met = set()
    for row, answer in shelf.answers.items():
        lines = answer.splitlines()[:2]
        numbers = {int(line.split()[3]) for line in lines if ' refused ' in line}
        met.update((row[0], number) for number in numbers or {'read'})
    due = {'read', answers.SHORT, answers.UNKNOWN_CODE, answers.NO_ROOM}
    missed = {(kind, number) for kind in tables.KINDS for number in due} - met
    if missed or {number for _, number in met} != {'read', *EVERY_REFUSAL}:
        raise SystemExit(f'rows: not every refusal comes up, or some kind lacks one: {sorted(missed, key=str)}')
