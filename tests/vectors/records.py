"""Records whose fields are decoded: where they come from, and how one field of a record is changed."""

import json
from typing import NamedTuple, Union

import tables


class Field(NamedTuple):
    place: int
    size: int
    what: str  # code, number or bytes
    value: Union[int, str]  # a number, or the bytes in hexadecimal

    @property
    def end(self):
        return self.place + self.size


class Record(NamedTuple):
    name: str
    kind: int
    data: bytes
    fields: tuple

    @property
    def first_code(self):
        """The code that chooses the record's arm, if it has one; None for a kind 14 without items."""
        return next((f.value for f in self.fields if f.what == 'code'), None)

    @property
    def layout(self):
        """What tells two layouts apart: the fields' words and sizes, empty bytes, and the selectors."""
        shape = tuple((f.what, f.size if f.what != 'bytes' else f.size > 0) for f in self.fields)
        chosen = tuple(self.fields[s.index].value for s in selectors(self))
        return self.kind, shape, chosen


class Refused(NamedTuple):
    name: str
    kind: int
    data: bytes
    refusal: tuple  # number, place, value


class Selector(NamedTuple):
    index: int  # of the field that chooses
    union: str
    ahead: int  # how many fields stand ahead of the arm
    due: int  # the place where the arm begins
    ends: bool  # whether the record ends with the arm


def fault_of(record):
    """What is wrong with a record's fields as a description of its bytes, or None."""
    place = 0
    for f in record.fields:
        piece = record.data[f.place:f.end]
        shown = piece.hex() if f.what == 'bytes' else int.from_bytes(piece, 'big')
        if f.place != place or len(piece) != f.size or shown != f.value:
            return f'its bytes at {f.place} are not the field {f}'
        place = f.end
    return None if place == len(record.data) else 'its fields end before its bytes do'


def checked(record):
    fault = fault_of(record)
    if fault:
        raise SystemExit(f'{record.name}: {fault}')
    return record


def entries(path):
    with open(path, encoding='utf-8') as file:
        return [json.loads(line) for line in file]


def load_real(path):
    found = []
    for entry in entries(path):
        fields = tuple(Field(f['place'], f['size'], f['what'], f['value']) for f in entry['fields'])
        found.append(checked(Record(entry['name'], entry['kind'], bytes.fromhex(entry['hex']), fields)))
    return found


def load_refused(path):
    found = []
    for entry in entries(path):
        refusal = tuple(entry['refusal'][part] for part in ('number', 'place', 'value'))
        found.append(Refused(entry['name'], entry['kind'], bytes.fromhex(entry['hex']), refusal))
    return found


def blocks(path):
    """The blocks of a file that was written by hand: of each its first line, and the text that answers it."""
    with open(path, encoding='utf-8') as file:
        text = ''.join(line for line in file if not line.startswith('#'))
    found = [block.strip('\n').split('\n') for block in text.split('\n\n') if block.strip('\n')]
    return [(first, ''.join(line + '\n' for line in rest)) for first, *rest in found]


def load_samples(path):
    """The blocks of samples.txt: for each its deposit and the text that answers it."""
    return [(deposit_of(first), answer) for first, answer in blocks(path)]


def deposit_of(line):
    return b'' if line == '-' else bytes.fromhex(line)


def record_of_sample(deposit, answer):
    """The record that a sample's answer lists, without its tail; None for a refusal."""
    first, *rows = answer.splitlines()
    words = first.split()
    if words[2] != 'read':
        return None
    fields = tuple(field_of_row(row) for row in rows)
    return checked(Record('sample ' + deposit.hex(), int(words[1]), deposit[1:1 + int(words[3])], fields))


def field_of_row(row):
    place, size, what, value = row.split()
    if what == 'bytes':
        return Field(int(place), int(size), what, '' if value == '-' else value)
    return Field(int(place), int(size), what, int(value))


def with_number(record, index, value):
    """The record with another value in the number or code of that index."""
    f = record.fields[index]
    data = record.data[:f.place] + value.to_bytes(f.size, 'big') + record.data[f.end:]
    fields = record.fields[:index] + (f._replace(value=value),) + record.fields[index + 1:]
    return record._replace(data=data, fields=fields)


def lengths(record):
    """The buffers' lengths: index and limit. A 2-byte number right before bytes is a length."""
    found = [i for i in byte_counts(record) if record.fields[i].size == 2]
    due = tables.limits(record.kind, record.first_code)
    if len(found) != len(due):
        raise SystemExit(f'{record.name}: {len(found)} buffers where its arm has {len(due)}')
    return list(zip(found, due))


def pcr_sizes(record):
    return [i for i in byte_counts(record) if record.fields[i].size == 1]


def byte_counts(record):
    """The numbers that say how many bytes the next field has."""
    pairs = zip(record.fields, record.fields[1:])
    return [i for i, (f, g) in enumerate(pairs) if f.what == 'number' and g.what == 'bytes']


def list_count(record):
    """The index of the list's count, or None."""
    if record.kind in (14, 15):
        return record.kind - 14
    return 11 if record.kind == 13 and record.first_code == tables.QUOTE else None


def list_form(record):
    """How many items the record's list may have, and what they are."""
    return tables.list_held(record.first_code) if record.kind == 15 else tables.LISTS['banks']


def items(record):
    """The items of the record's list: of each the index of its first field, and of the one behind its last."""
    count = list_count(record)
    if count is None:
        return []
    found, at = [], count + 1
    for _ in range(record.fields[count].value):
        begin = at
        for part in list_form(record).item:
            at += len(tables.fields_of(part, record.fields[at].value))
        found.append((begin, at))
    return found


def selectors(record):
    """The fields that choose an arm, in wire order."""
    if record.kind not in tables.UNION_OF_KIND:
        return []
    index, ahead = {11: (0, 5), 12: (0, 5), 13: (1, 11)}.get(record.kind, (0, 1))
    outer = Selector(index, tables.UNION_OF_KIND[record.kind], ahead, record.fields[ahead - 1].end, True)
    return [outer] + inner_selectors(record, ahead) + policy_selectors(record)


def policy_selectors(record):
    """Those inside of a list: a policy's algorithm, behind its handle."""
    if record.kind != 15 or record.first_code != tables.AUTH_POLICIES:
        return []
    return [
        Selector(begin + 1, 'digest', begin + 2, record.fields[begin + 1].end, end == len(record.fields))
        for begin, end in items(record)
    ]


def inner_selectors(record, at):
    """Those inside of the arm that begins with the field of index at."""
    if record.kind == 10 and record.first_code == tables.HMAC:
        unions = ['digest']
    elif record.kind in (9, 11):
        unions = tables.UNIONS_OF_PARAMETERS[record.first_code]
    else:
        unions = []
    found = []
    for union in unions:
        at += union == 'kdf'  # the curve stands ahead of it
        behind = at + 1 + len(tables.ARMS[union][record.fields[at].value])
        found.append(Selector(at, union, at + 1, record.fields[at].end, behind == len(record.fields)))
        at = behind
    return found
