#!/usr/bin/env python3
"""That the comparisons can fail.

    trial.py FOLDER GATE OURS

FOLDER has what the run made: the programs in published and adapted, `inputs`, and `writing.cases`, `writing.crate`, `writing.adapted` and
`writing.ours`. GATE is the folder with the gate's own cases and answers, OURS the command that runs a program of ours by its name.

With nothing changed nothing may be reported. Then single places of our answers are changed (places.py), and of the gate's; single places of
the crate's text (changes.py), of which a variant is built each; and each point of the adapted text is left as published (adapt.py). Ends with 0
only if every change was reported.
"""

import os
import random
import shutil
import subprocess
import sys
from collections import Counter
from concurrent.futures import ThreadPoolExecutor
from pathlib import Path

import cases
import places
import writing
from adapt import POINTS, adapt
from changes import changes
from held import has_two_forms, is_judged_less, too_long_for
from inputs import ATTEST, STRUCTURES, TAGS
from judge import ONE_PLACE, is_adapted, kind_read
from sides import HERE, Claims, Ended, Reading, Writing, all_asked, answer, fail, is_built, parsed

TEXT = HERE / 'text'
# How often each sort of place is changed: 13 sorts of reading, 37 where differences are listed, 11 of writing and of the gate's answers.
ADAPTED_EACH, LISTED_EACH = 10, 4
WRITING = {'what we write': 9, 'the gate\'s answers': 6}
# A kind that is not the input's, and `read` for `refused`, are no answer to the input: there the comparison stops, and says so.
STOPS, STOPPED = ('kind', 'word'), b'ours, kind '
# Places in a refusal of an attestation type outside the eight, where we answer what is listed and the crate another thing.
TYPE_SORTS = {f'type {name}': (name,) for name in ('number', 'place', 'value')}
# Places in a refusal of a list that is too long for us and not for the crate.
COUNT_SORTS = {f'count {name}': (name,) for name in ('number', 'place', 'value')}
# Places in a refusal of what the crate judges less: a handle type outside the three, a tag that is not the ticket's, a hierarchy outside the four.
LESS_SORTS = {f'{what} {name}': (name,) for what in ('handle type', 'tag', 'hierarchy') for name in ('number', 'place', 'value')}
# Places in an answer to an input with Xor or Ecdaa, where both sides answer what is listed, each in its form.
FORM_SORTS = {
    f'form {name}': (name,) for name in ('consumed', 'tail', 'number', 'place', 'value', 'had', 'field_place', 'field_value', 'again_bytes')}


def is_other_type(kind, data):
    code = int.from_bytes(data[4:6], 'big')
    return kind == 13 and data[:4] == b'\xffTCG' and code in STRUCTURES and code not in ATTEST


def judged_less(kind, data):
    """What of an NV area or of a ticket the crate judges less; '' if both sides come to one outcome."""
    if not is_judged_less(kind, data):
        return ''
    return 'handle type' if kind == 16 else 'hierarchy' if int.from_bytes(data[:2], 'big') in TAGS[kind] else 'tag'


def is_held_by_adapted(sort, asked):
    kind, _ = asked
    return sort != 'place' or kind in ONE_PLACE


def is_held_by_published(sort, asked):
    """To a list that is too long for the crate our answer is bounded only."""
    if sort in TYPE_SORTS:
        return is_other_type(*asked)
    if sort in COUNT_SORTS:
        return too_long_for(*asked) == 'us'
    if sort in LESS_SORTS:
        return judged_less(*asked) == sort.rsplit(' ', 1)[0]
    if sort in FORM_SORTS:
        return has_two_forms(*asked)
    return too_long_for(*asked) != 'crate' and is_held_by_adapted(sort, asked)


def is_held_in_writing(sort, asked):
    """A record that the crate cannot have is compared with nothing. Where one is not read the place is bounded only, but for some kinds."""
    line = asked.adapted if is_adapted(asked.case) else asked.crate
    if line.startswith('no such record: '):
        return False
    return sort != 'place' or kind_read(asked.case) in ONE_PLACE or line[0] == 'm' or line == 'another arm'


def chosen(r, sort, groups, parts, is_held):
    """A place of that sort at random: its group, the part of our answers that has it, its bounds there."""
    for _ in range(200):
        group, part = r.choice(groups), r.choice(parts)
        span = part.chosen(r, group, lambda asked: is_held(sort, asked))
        if span:
            return group, part, span
    fail(f'there is no place of the sort {sort}')


def shown(sort, old, new):
    return f'{sort}: {old[:200]!r} is {new[:200]!r}'


def judged(sort, status, said):
    """What became of a changed place: only that the answers differ counts as reported."""
    if status == 1:
        return 'reported'
    if status == 101 and sort in STOPS and STOPPED in said:
        return 'stopped'
    return 'MISSED' if status == 0 else f'ENDED WITH {status}'


class Trial:
    """Changed places of our answers, and what became of them."""

    def __init__(self, what):
        self.what, self.counts, self.sorts = what, Counter(), Counter()

    def take(self, sort, became, old, new):
        self.counts[became] += 1
        self.sorts[sort] += 1
        if became not in ('reported', 'stopped'):
            print(f'{became} in {self.what}: {shown(sort, old, new)}', flush=True)

    def end(self):
        good = self.counts['reported'] + self.counts['stopped']
        bad = sum(self.counts.values()) - good
        stopped = f', {self.counts["stopped"]} of these as no answer' if self.counts['stopped'] else ''
        print(f'{good + bad} changes of {self.what}, {len(self.sorts)} sorts of place: {good} reported{stopped}, {bad} not', flush=True)
        return bad


def answers_to(chunk):
    """Our answers to a chunk of the inputs."""
    inputs = [parsed(line) for line in (chunk / 'inputs').read_text(encoding='utf-8').splitlines()]
    return places.of_reading((chunk / 'ours').read_bytes(), inputs, chunk)


def try_our_reading(reading, work, program, mode, sorts, each, is_held):
    """Against the crate's answers by that program."""
    name = program.parent.name
    r, trial, parts = random.Random(name), Trial(f'what we read, against {name}'), [answers_to(chunk) for chunk in reading.chunks]
    for chunk in reading.chunks:
        answer(program, chunk / 'inputs', chunk / name)
        if reading.differs(mode, chunk, chunk / name, chunk / 'ours'):
            fail(f'reading against {name} reports something though nothing is changed')
    for sort, groups in sorts.items():
        for _ in range(each):
            group, part, (start, end) = chosen(r, sort, groups, parts, is_held)
            text, new = part.text, places.other(r, group, part.text[start:end])
            (work / 'ours').write_bytes(text[:start] + new + text[end:])
            became = judged(sort, *reading.compared(mode, part.folder, part.folder / name, work / 'ours'))
            line = text.rfind(b'\n', 0, start) + 1
            trial.take(sort, became, text[line:end], text[line:start] + new)
    return trial.end()


def try_our_writing(every, what):
    """Each case is judged alone: as it is nothing may be reported, and with the change something has to be."""
    r, trial, parts = random.Random(what), Trial(what), [places.of_writing(every[turn::20]) for turn in range(20)]
    for sort, groups in places.WRITING_SORTS.items():
        for _ in range(WRITING[what]):
            group, part, (start, end) = chosen(r, sort, groups, parts, is_held_in_writing)
            number = part.number(start)
            one, (first, last) = part.asked[number], part.bounds(number)
            old = part.text[first:last]
            new = part.text[first:start] + places.other(r, group, part.text[start:end]) + part.text[end:last]
            if one.is_reported(old.decode()):
                fail(f'{what}: a case is reported though nothing is changed: {one.case}')
            trial.take(sort, 'reported' if one.is_reported(new.decode()) else 'MISSED', old, new)
    return trial.end()


def gates(folder, gate):
    """The gate's cases, the crate's answers to them, and the gate's."""
    stream, ours = (gate / 'stdin').read_bytes(), (gate / 'stdout').read_text(encoding='utf-8')
    crates = [subprocess.run([folder / name / 'writing'], input=stream, capture_output=True, check=True).stdout.decode()
              for name in ('published', 'adapted')]
    made = list(cases.unframed(stream))
    if writing.tally(made, *crates, ours).new:
        fail('the gate\'s answers are reported though nothing is changed')
    return all_asked(made, *crates, ours)


def tried(change, work, sides):
    """What reported the change: the side's name; else `not built`, `ended early`, or `MISSED`."""
    shutil.copytree(TEXT, work / 'text')
    (work / 'text' / change.path).write_text(change.text, encoding='utf-8')
    names = ['claims'] if change.first == 'claims' else sorted({'reading', 'writing'}, key=lambda name: name != change.first)
    try:
        for name in names:
            if not is_built(work / 'text', work / 'built', name):
                return 'not built'
            if sides[name].reports(work / 'built' / name, work):
                return name
        return 'MISSED'
    except Ended:
        return 'ended early'
    finally:
        shutil.rmtree(work)


def try_text(sides, work):
    every = list(changes(TEXT))
    for change in every:
        if change.text == (TEXT / change.path).read_text(encoding='utf-8'):
            fail(f'nothing is changed: {change.path}: {change.what}')

    def one(numbered):
        number, change = numbered
        folder = work / f'change-{number}'
        folder.mkdir()
        return change, tried(change, folder, sides)

    counts, bad = Counter(), 0
    with ThreadPoolExecutor(max_workers=min(2, os.cpu_count() or 1)) as pool:
        for change, became in pool.map(one, enumerate(every)):
            counts[became] += 1
            if became not in sides:
                bad += 1
                print(f'{became}: {change.path}: {change.what}', flush=True)
    reported = ', '.join(f'{counts[name]} reported by {name}' for name in sides)
    print(f'{len(every)} changes of the text: {reported}, {bad} not reported', flush=True)
    return bad


def try_points(reading, work):
    """The adapted text with one of its points as published: without a class, reading has to differ."""
    bad = 0
    for point in POINTS:
        folder = work / 'point'
        folder.mkdir()
        adapt(TEXT, folder / 'text', [change for name, change in POINTS.items() if name != point])
        if not is_built(folder / 'text', folder / 'built', 'reading', ADAPTED='1'):
            fail(f'the adapted text is not built without this: {point}')
        if not reading.reports(folder / 'built/reading', folder, 'same'):
            bad += 1
            print(f'MISSED: not adapted: {point}', flush=True)
        shutil.rmtree(folder)
    print(f'{len(POINTS)} points of the adapted text left as published: {len(POINTS) - bad} reported, {bad} not', flush=True)
    return bad


def try_unchanged(sides, work):
    for name, side in sides.items():
        if not is_built(TEXT, work / name, name):
            fail(f'{name} is not built')
        if side.reports(work / name / name, work):
            fail(f'{name} reports something though nothing is changed')


def main(folder, gate, ours):
    folder = Path(folder)
    work = folder / 'trial'
    shutil.rmtree(work, ignore_errors=True)
    work.mkdir()
    sides = {'reading': Reading(folder, work, ours), 'writing': Writing(folder), 'claims': Claims()}
    print(f'{sides["reading"].size} inputs, {sides["writing"].size} cases', flush=True)
    try_unchanged(sides, work)
    adapted, published = folder / 'adapted/reading', folder / 'published/reading'
    bad = try_our_reading(sides['reading'], work, adapted, 'same', places.READING_SORTS, ADAPTED_EACH, is_held_by_adapted)
    listed = places.READING_SORTS | TYPE_SORTS | COUNT_SORTS | LESS_SORTS | FORM_SORTS
    bad += try_our_reading(sides['reading'], work, published, 'listed', listed, LISTED_EACH, is_held_by_published)
    for every, what in zip((sides['writing'].every, gates(folder, Path(gate))), WRITING):
        bad += try_our_writing(every, what)
    bad += try_text(sides, work) + try_points(sides['reading'], work)
    shutil.rmtree(work)
    return 1 if bad else 0


if __name__ == '__main__':
    sys.exit(main(*sys.argv[1:]))
