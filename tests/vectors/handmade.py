"""What the program `handmade` must print: the table of handmade.md, spread out over the rooms that each record is written into."""

import re

SPACE = 64
SIZE = re.compile(r'(\d+): ([0-9A-F ]+)')
REFUSAL = re.compile(r'(\d+) at (\d+) value (\d+)(?: had (\d+))?')


def rows(page):
    """The case's number and its answer, of each row of the page's table."""
    for line in page.splitlines():
        cells = [cell.strip() for cell in line.strip('|').split('|')]
        if line.startswith('|') and cells[0].isdigit():
            yield int(cells[0]), cells[-1]


def legal(case, size, record):
    written = f'size {size} {record.hex()}'
    full = f'refused 9 at 0 value {size}'
    lines = [f'measured size {size}', f'room {SPACE} {written}', f'room {size} {written}', f'room {size - 1} {full}', f'room 0 {full}']
    return [f'{case} {line}\n' for line in lines]


def refused(case, refusal):
    return [f'{case} {where} refused {refusal}\n' for where in ('measured', f'room {SPACE}', 'room 0')]


def lines_of(case, answer):
    size = SIZE.fullmatch(answer)
    if size:
        record = bytes.fromhex(size[2])
        if len(record) != int(size[1]) or not 1 < len(record) < SPACE:
            raise SystemExit(f'handmade.md: case {case} has {len(record)} bytes')
        return legal(case, len(record), record)
    refusal = REFUSAL.fullmatch(answer)
    if not refusal or (refusal[1] == '1') != (refusal[4] is not None):
        raise SystemExit(f'handmade.md: case {case} has no answer')
    return refused(case, answer)


def text(page):
    table = list(rows(page))
    if [case for case, _ in table] != list(range(1, len(table) + 1)):
        raise SystemExit('handmade.md: the cases are not in order')
    return ''.join(line for case, answer in table for line in lines_of(case, answer))
