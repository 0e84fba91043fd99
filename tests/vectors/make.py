#!/usr/bin/env python3
"""Makes the input and the expected output of the programs that the gate runs, and the counts in README.md.

    make.py            writes the files
    make.py --check    compares them with those that are there; exit 1 if one differs
"""

import sys
from collections import Counter
from pathlib import Path

sys.dont_write_bytecode = True

import answers
import cases
import damage
import full
import handmade
import records
import replaced
import rows
import sweeps
import tables

HERE = Path(__file__).resolve().parent
CRATES = HERE.parent.parent / 'crates'
README = HERE / 'README.md'
DEPOSIT_COUNTS, CALL_COUNTS, ROW_COUNTS, COUNTS_END = '```counts\n', '```calls\n', '```rows\n', '```\n'
BAD_KINDS = (0, 21, 255)
FIRST_EXAMPLE = bytes.fromhex('02 0006 0080 0043')  # of docs/FORMAT.md, section 11


class Shelf:
    """Deposits with their answers. A deposit that comes twice is kept once, and must have one answer."""

    def __init__(self):
        self.answers = {}
        self.counts = Counter()

    def put(self, sort, deposit, answer):
        if deposit not in self.answers:
            self.answers[deposit] = answer
            self.counts[sort] += 1
        elif self.answers[deposit] != answer:
            raise SystemExit(f'two answers to {deposit.hex()}:\n{self.answers[deposit]}{answer}')

    def put_all(self, deposits):
        for sort, deposit, answer in deposits:
            self.put(sort, deposit, answer)


def bad_kind(sort, kind, data):
    return damage.refused(sort, kind, data, (answers.BAD_KIND, 0, kind))


def sample_deposits(samples):
    for deposit, answer in samples:
        record = records.record_of_sample(deposit, answer)
        yield 'sample', deposit, answer + (answers.again(record.data) if record else '')


def refused_deposits(refused):
    """The real records that the format refuses."""
    for entry in refused:
        yield damage.refused('real record, refused', entry.kind, entry.data, entry.refusal)


def edges(first_of_kind):
    """What is judged ahead of the record: the kind, and whether there are more than 4,096 bytes."""
    for kind in range(256):
        if kind in tables.KINDS:
            yield ('kind byte alone', *damage.cut_at(first_of_kind[kind], 0)[1:])
        else:
            yield bad_kind('kind byte alone', kind, b'')
    for turn, record in enumerate(first_of_kind.values()):
        for kind in BAD_KINDS:
            yield bad_kind('kind byte wrong', kind, record.data)
        yield from padded(record, bytes([turn * 17 % 256]))
    for kind in BAD_KINDS:
        yield bad_kind('4,097 bytes, kind wrong', kind, bytes(tables.GREATEST_INPUT + 1))


def padded(record, filler):
    """4,096 bytes, read and refused; 4,097 bytes, with a record in front and with none."""
    room = tables.GREATEST_INPUT - len(record.data)
    oversize = (answers.OVERSIZE, 0, tables.GREATEST_INPUT + 1)
    tail = filler * room
    yield damage.whole('4,096 bytes, read', record, tail)
    index = damage.code_indices(record)[0]
    choices = tables.unlisted(record.kind, record.fields[index].size)
    code = choices[filler[0] % len(choices)]
    faulty = records.with_number(record, index, code).data + tail
    refusal = (answers.UNKNOWN_CODE, record.fields[index].place, code)
    yield damage.refused('4,096 bytes, refused', record.kind, faulty, refusal)
    yield damage.refused('4,097 bytes', record.kind, record.data + tail + filler, oversize)
    yield damage.refused('4,097 bytes', record.kind, faulty + filler, oversize)


def one_of_each_layout(found):
    """The smallest record of each layout, the earliest of these."""
    chosen = {}
    for record in found:
        kept = chosen.setdefault(record.layout, record)
        if len(record.data) < len(kept.data):
            chosen[record.layout] = record
    return list(chosen.values())


def require_every_arm(found):
    """Every arm of every union is held by some record; a test that missed one would be called complete."""
    held = {(s.union, r.fields[s.index].value) for r in found for s in records.selectors(r)}
    for union, arms in tables.ARMS.items():
        missed = [f'{code:04x}' for code in arms if (union, code) not in held]
        if missed and union != 'unique':  # chosen by the selector of the parameters
            raise SystemExit(f'no record has the arms {missed} of the {union} union')


def require_greatest(shelf):
    """The longest record of each kind that is read is as long as the greatest record of that kind."""
    longest = Counter()
    for answer in shelf.answers.values():
        _, kind, what, size, *_ = answer.split()
        if what == 'read':
            longest[int(kind)] = max(longest[int(kind)], int(size))
    if longest != tables.GREATEST:
        raise SystemExit(f'the longest records that are read have the sizes {dict(sorted(longest.items()))}')


def listed_samples(samples):
    """The records of those samples that are read."""
    return [record for record in (records.record_of_sample(*s) for s in samples) if record]


def fill(real, samples):
    """The shelf of all deposits, and how many records it was filled from."""
    listed, lists = listed_samples(samples), full.lists()
    require_every_arm(real + listed)
    layouts = one_of_each_layout(real + listed + lists)
    shelf = Shelf()
    shelf.put_all(damage.whole('real record', record) for record in real)
    shelf.put_all(sample_deposits(samples))
    shelf.put_all(damage.whole('list of two items, full list', record) for record in lists)
    shelf.put_all(full.too_full())
    shelf.put_all(refused_deposits(records.load_refused(HERE / 'real-refused.jsonl')))
    shelf.put_all(edges({kind: next(r for r in real if r.kind == kind) for kind in tables.KINDS}))
    for makers, chosen in ((damage.FOR_EACH_LAYOUT, layouts), (damage.FOR_EACH_RECORD, real)):
        for make in makers:
            for turn, record in enumerate(chosen):
                shelf.put_all(make(record, turn))
    shelf.put_all(sweeps.sweeps())
    require_greatest(shelf)
    return shelf, {'real records': len(real), 'samples': len(samples), 'layouts': len(layouts)}


def fill_calls(real, samples):
    """The shelf of all cases for `calls`."""
    made = list(cases.all_cases(real, listed_samples(samples) + full.lists(), one_of_each_layout(real)))
    replaced.require_complete([call for _, call in made])
    shelf = Shelf()
    shelf.put_all((sort, call.case, call.answer) for sort, call in made)
    return shelf


def fill_rows(real, samples):
    """The shelf of all rows."""
    listed = listed_samples(samples)
    shelf = Shelf()
    shelf.put_all(rows.all_rows(HERE / 'rows.txt', real, listed, one_of_each_layout(real + listed)))
    rows.require_complete(shelf)
    return shelf


def algorithms_text():
    return ''.join(f'{code}\n' for code in tables.ALGORITHMS) + f'{len(tables.ALGORITHMS)} listed\n'


def framed(deposit):
    return len(deposit).to_bytes(2, 'big') + deposit


def count_lines(shelf, sources):
    read = sum(answer.split()[2] == 'read' for answer in shelf.answers.values())
    lines = [f'{count:6} {what}' for what, count in sources.items()]
    lines += ['', *(f'{count:6} {sort}' for sort, count in shelf.counts.items() if count), '']
    lines += [f'{len(shelf.answers):6} deposits', f'{read:6} of them read', f'{len(shelf.answers) - read:6} refused']
    return lines


def call_count_lines(shelf):
    lines = [f'{count:6} {sort}' for sort, count in shelf.counts.items()]
    return lines + ['', f'{len(shelf.answers):6} cases']


def row_count_lines(shelf):
    read = sum(answer.startswith('count ') for answer in shelf.answers.values())
    lines = [f'{count:6} {sort}' for sort, count in shelf.counts.items()]
    lines += ['', f'{len(shelf.answers):6} rows', f'{read:6} of them read', f'{len(shelf.answers) - read:6} refused']
    return lines


def with_counts(page, begin, counts):
    """The page with these counts in the place that it has for them."""
    front, begin, rest = page.partition(begin)
    _, end, back = rest.partition(COUNTS_END)
    if not end:
        raise SystemExit(f'{README} has no place for the counts')
    return front + begin + counts + end + back


def made_files():
    """The files by their paths, and the counts."""
    real = records.load_real(HERE / 'real.jsonl')
    samples = records.load_samples(HERE / 'samples.txt')
    shelf, sources = fill(real, samples)
    calls = fill_calls(real, samples)
    runs = fill_rows(real, samples)
    counted = {
        DEPOSIT_COUNTS: count_lines(shelf, sources),
        CALL_COUNTS: call_count_lines(calls),
        ROW_COUNTS: row_count_lines(runs),
    }
    counts = {begin: '\n'.join(lines) + '\n' for begin, lines in counted.items()}
    page = README.read_text(encoding='utf-8')
    for begin, text in counts.items():
        page = with_counts(page, begin, text)
    return {
        CRATES / 'cabinet_list/stdin': FIRST_EXAMPLE,
        CRATES / 'cabinet_list/stdout': dict(samples)[FIRST_EXAMPLE].encode(),
        CRATES / 'deposits/stdin': b''.join(framed(d) for d in shelf.answers),
        CRATES / 'deposits/stdout': ''.join(shelf.answers.values()).encode(),
        CRATES / 'algorithms/stdout': algorithms_text().encode(),
        CRATES / 'handmade/stdout': handmade.text((HERE / 'handmade.md').read_text(encoding='utf-8')).encode(),
        CRATES / 'calls/stdin': b''.join(framed(c) for c in calls.answers),
        CRATES / 'calls/stdout': ''.join(calls.answers.values()).encode(),
        CRATES / 'rows/stdin': b''.join(framed(r) for r in runs.answers),
        CRATES / 'rows/stdout': ''.join(runs.answers.values()).encode(),
        README: page.encode(),
    }, '\n'.join(counts.values())


def main(words):
    if words not in ([], ['--check']):
        raise SystemExit(__doc__)
    files, counts = made_files()
    if words:
        differ = [path for path, data in files.items() if not path.is_file() or path.read_bytes() != data]
        for path in differ:
            print(f'{path} is not what make.py makes')
        return 1 if differ else 0
    for path, data in files.items():
        path.parent.mkdir(exist_ok=True)
        path.write_bytes(data)
        print(f'{len(data):8} bytes  {path.relative_to(HERE.parent.parent)}')
    print(counts, end='')
    return 0


if __name__ == '__main__':
    sys.exit(main(sys.argv[1:]))
