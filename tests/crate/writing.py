#!/usr/bin/env python3
"""Compares matches_tag, writing and asking by index with the crate's, on records whose selector was replaced.

    writing.py FOLDER GATE OURS...

FOLDER has the program of writing.rs, in published over the crate's text and in adapted over the adapted text (adapt.py), and is for the cases and
answers. GATE is the folder with the gate's own cases and answers (crates/calls), OURS the command that runs our program `calls`. Ends with 0 only if every answer was alike or differs as docs/DIFFERENCES.md says.
"""

import random
import subprocess
import sys
from collections import Counter
from pathlib import Path

import cases
from inputs import TAGS
from judge import Wrong, judge

UNIONS = {2: 2, 11: 2, 23: 2, 24: 2, 14: 0, **dict.fromkeys(TAGS, 0)}  # of those whose selector is replaced; the others have one


def answers(text, made):
    """Our answers, case by case: a list of lines each."""
    lines = text.split('\n')
    if lines.pop() != '':
        raise Wrong('our answers do not end with a line')
    if 'changed' in lines:
        raise Wrong('a writer of ours changed what it was not to write')
    if 'measured otherwise' in lines:
        raise Wrong('a measure of ours is not what the writer answers')
    at = 0
    for case in made:
        start = at
        unions = UNIONS.get(case.kind, 1) if case.kind in range(1, 28) else 0
        if unions and lines[at:at + 1] and lines[at].startswith('m '):
            at += unions + 1 + 3 * case.has_index
        else:
            at += 1 + 3 * (not unions and lines[at + 1:at + 2] != [] and lines[at + 1].startswith('tail '))
        if at > len(lines):
            raise Wrong('our answers end too early')
        yield lines[start:at]
    if at != len(lines):
        raise Wrong('our answers are more than the cases')


class Tally:
    """What came of the cases."""

    def __init__(self):
        self.kinds, self.classes, self.shortest, self.new = {}, Counter(), {}, []

    def take(self, case, line, adapted, ours):
        count = self.kinds.setdefault(case.kind, Counter())
        count['cases'] += 1
        try:
            name = judge(case, line, adapted, ours, count)
        except (Wrong, ValueError, KeyError) as wrong:
            count['new'] += 1
            self.new.append(f'{wrong}\n' + shown(case, line, ours))
            return
        if name:
            self.classes[name] += 1
            if name not in self.shortest or len(case.records) < len(self.shortest[name][0].records):
                self.shortest[name] = (case, line, ours)


def shown(case, line, ours):
    return f'    {case}\n    ours:  {" | ".join(ours)}\n    crate: {line}'


def tally(made, crate, adapted, ours):
    """All cases judged. CRATE, ADAPTED and OURS are whole answers: the crate's, the adapted text's, and ours."""
    found, lines, others = Tally(), crate.splitlines(), adapted.splitlines()
    try:
        if not made or not len(lines) == len(others) == len(made):
            raise Wrong('the crate did not answer each case, or there is none')
        for case, line, other, answer in zip(made, lines, others, answers(ours, made)):
            found.take(case, line, other, answer)
    except Wrong as wrong:
        found.new.append(str(wrong))
    return found


# Text: no rebuilt structure has a part in it. A refusal for the arm is the text's, but for kind 13, and inside a rebuilt structure (22 to 27).
COLUMNS = [('Cases', 'cases'), ('matches_tag alike, by the text', 'unions'), ('of these yes', 'matches'),
           ('Written alike: text', 'written text'), ('rebuilt', 'written rebuilt'), ('Refused alike for the arm: text', 'arm text'),
           ('rebuilt', 'arm rebuilt'), ('Refused alike for the room: text', 'room text'), ('rebuilt', 'room rebuilt')]
READ = [('Not read alike: text', 'unread text'), ('rebuilt', 'unread rebuilt'), ('for a tail, by neither', 'unread caller'),
        ('Another arm, by neither', 'another arm'), ('Left out', 'left out')]
LAST = [('Listed difference: text', 'differ text'), ('rebuilt', 'differ rebuilt'), ('New', 'new')]
ASKED = [('Tails alike: text', 'tail text'), ('rebuilt', 'tail rebuilt'), ('Byte fields alike: text', 'field text'), ('rebuilt', 'field rebuilt'),
         ('No such field', 'field none'), ('Items alike, rebuilt', 'item'), ('No such item', 'no item')]


def table(kinds, columns):
    print('| Kind |' + ''.join(f' {title} |' for title, _ in columns) + '\n' + '|---' * (len(columns) + 1) + '|')
    rows = [(kind, count) for kind, count in sorted(kinds.items()) if any(count[key] for _, key in columns)]
    for name, count in [*rows, ('all', sum(kinds.values(), Counter()))]:
        print(f'| {name} |' + ''.join(f' {count[key]} |' for _, key in columns))
    print()


def tell(found, columns):
    table(found.kinds, columns)
    table(found.kinds, ASKED)
    total = sum(found.kinds.values(), Counter())
    for name, number in sorted(found.classes.items()):
        text, rebuilt = total[name, 'text'], total[name, 'rebuilt']  # neither, where the crate has no such record
        by = f', {text} by the text, {rebuilt} with a rebuilt structure' if text + rebuilt else ''
        print(f'{name}: {number} cases{by}. The shortest:\n{shown(*found.shortest[name])[:900]}\n')
    for text in found.new[:20]:
        print(f'NOT EXPLAINED. {text[:1500]}\n')
    return not found.new


def run(command, stream):
    done = subprocess.run(command, input=stream, stdout=subprocess.PIPE)
    if done.returncode:
        raise SystemExit(f'tests/crate/writing.py: {command[0]} ended with {done.returncode}')
    return done.stdout.decode()


def crates(folder, stream):
    """The crate's answers, and those of the adapted text."""
    return [run([folder / name / 'writing'], stream) for name in ('published', 'adapted')]


def compare_made(folder, ours):
    made = list(cases.made(random.Random(7)))
    cases.require_complete(made)
    stream = b''.join(case.framed() for case in made)
    sides = [*crates(folder, stream), run(ours, stream)]
    for name, text in zip(('writing.crate', 'writing.adapted', 'writing.ours'), sides):
        (folder / name).write_text(text, encoding='utf-8')
    (folder / 'writing.cases').write_bytes(stream)
    print(f'{len(made)} cases\n')
    found = tally(made, *sides)
    well = tell(found, COLUMNS + LAST)
    if found.kinds and sum(found.kinds.values(), Counter())['left out']:
        print('NOT EXPLAINED. The crate was asked for a record that it cannot have\n')
        well = False
    return well


def compare_gate(folder, gate):
    """The gate's cases; its answers were made from docs/FORMAT.md and real records, without our code."""
    stream = (gate / 'stdin').read_bytes()
    made = list(cases.unframed(stream))
    found = tally(made, *crates(folder, stream), (gate / 'stdout').read_text(encoding='utf-8'))
    well = tell(found, COLUMNS + READ + LAST)
    total = sum(found.kinds.values(), Counter())
    by = {who: sum(total[f'{sort} {who}'] for sort in ('written', 'arm', 'room', 'unread')) for who in ('text', 'rebuilt')}
    neither, listed = total['unread caller'] + total['another arm'], total['differ text'] + total['differ rebuilt']
    print(f"of {len(made)} cases of the gate {by['text']} follow from the text, {by['rebuilt']} with a rebuilt structure or leaf, "
          f"{neither} from neither, {listed} differ as listed, {total['left out']} are left out")
    return well


def main(folder, gate, *ours):
    print('Cases made here')
    well = compare_made(Path(folder), list(ours))
    print('The gate\'s own cases')
    well = compare_gate(Path(folder), Path(gate)) and well
    return 0 if well else 1


if __name__ == '__main__':
    sys.exit(main(*sys.argv[1:]))
