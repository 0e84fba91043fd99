"""The cases of cases.txt: their answers were written by hand, and must be those that are derived."""

import re
from pathlib import Path

import held
from calls import NO_INDEX, Asked, Placed, call, record_kind
from records import blocks

CASE = re.compile(r'(\d+) with (\d+)(?:, index (\d+))?: ([0-9A-F ]+)(?:; source ([0-9A-F ]+))?')


def fault_of(answer):
    """What the list of another source is refused for: the last line says it, of the item."""
    words = answer.splitlines()[-1].split()
    return tuple(map(int, words[3::2]))


def case_by_hand(first, answer, found):
    words = CASE.fullmatch(first)
    if not words:
        raise SystemExit(f'cases.txt: {first}')
    kind, selector, index, data, source = words.groups()
    record = next(r for r in found if (r.kind, r.data) == (record_kind(int(kind)), bytes.fromhex(data)))
    asked = Asked(int(kind), int(selector), index=NO_INDEX if index is None else int(index))
    lent = held.Source(bytes.fromhex(source), (), fault_of(answer)) if source else None
    made = call(asked, Placed(record), lent)
    if made.answer != answer:
        raise SystemExit(f'cases.txt: {first}\n{made.answer}is derived')
    return made


def cases_by_hand(found):
    for first, answer in blocks(Path(__file__).resolve().parent / 'cases.txt'):
        yield 'by hand', case_by_hand(first, answer, found)
