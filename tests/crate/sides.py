"""The comparisons in parts, so that one can end with its first difference: reading, writing, and the claims.

Each side has `reports(program, work)`: whether what that program of the crate's answers is reported. WORK is a folder to write in.
"""

import os
import re
import subprocess
from pathlib import Path
from typing import NamedTuple

import cases
import writing

HERE = Path(__file__).resolve().parent
# Of the sorts of input that are many, one in so many; of the others all.
PART = {'sweep': 61, 'code': 5, 'bit': 3, 'random': 16}
READING_CHUNKS, WRITING_CHUNKS = 48, 60


class Ended(Exception):
    """A program did not answer all, which shows nothing of a comparison."""


def fail(text):
    raise SystemExit(f'tests/crate/trial.py: {text}')


def answer(program, given, got):
    with open(given, 'rb') as stream, open(got, 'wb') as out:
        if subprocess.run([program], stdin=stream, stdout=out, stderr=subprocess.DEVNULL).returncode:
            raise Ended


def is_built(text, out, program, **words):
    """WORDS are put into the environment of build.sh."""
    return subprocess.run([HERE / 'build.sh', text, out, '0', program], capture_output=True, env=os.environ | words).returncode == 0


def part_of(path):
    with open(path, encoding='utf-8') as lines:
        for number, line in enumerate(lines):
            if number % PART.get(line.split(' ')[2].strip(), 1) == 0:
                yield line


def parsed(line):
    kind, data, _ = line.split(' ')
    return int(kind), bytes.fromhex(data)


def framed(line):
    kind, data = parsed(line)
    return (1 + len(data)).to_bytes(2, 'big') + bytes([kind]) + data


class Reading:
    """A part of the inputs in chunks, with our answers."""

    def __init__(self, folder, work, ours):
        self.compare, self.chunks = folder / 'published/compare', []
        lines = list(part_of(folder / 'inputs'))
        for turn in range(READING_CHUNKS):
            chunk = work / f'reading-{turn}'
            chunk.mkdir()
            own = lines[turn::READING_CHUNKS]
            (chunk / 'inputs').write_text(''.join(own), encoding='utf-8')
            with open(chunk / 'ours', 'wb') as got:
                subprocess.run([ours, 'deposits'], input=b''.join(map(framed, own)), stdout=got, check=True)
            self.chunks.append(chunk)
        self.size = len(lines)

    def compared(self, mode, chunk, crates, ours):
        """The status of the comparison, and what it said for an error."""
        done = subprocess.run([self.compare, mode, chunk / 'inputs', crates, ours], capture_output=True)
        return done.returncode, done.stderr

    def differs(self, mode, chunk, crates, ours):
        status, _ = self.compared(mode, chunk, crates, ours)
        if status not in (0, 1):
            raise Ended
        return status == 1

    def reports(self, program, work, mode='listed'):
        crates = work / 'crates'
        for chunk in self.chunks:
            answer(program, chunk / 'inputs', crates)
            if self.differs(mode, chunk, crates, chunk / 'ours'):
                return True
        return False


class Asked(NamedTuple):
    """A case of writing and its answers: a line of the published text, a line of the adapted text, our lines."""
    case: cases.Case
    crate: str
    adapted: str
    ours: list

    def is_reported(self, ours):
        return bool(writing.tally([self.case], self.crate + '\n', self.adapted + '\n', ours).new)


def all_asked(made, crate, adapted, ours):
    sides = crate.splitlines(), adapted.splitlines(), list(writing.answers(ours, made))
    if any(len(side) != len(made) for side in sides):
        fail('a side of writing did not answer each case')
    return [Asked(*row) for row in zip(made, *sides)]


class Writing:
    """The cases with all answers to them, and in chunks."""

    def __init__(self, folder):
        texts = [(folder / f'writing.{side}').read_text(encoding='utf-8') for side in ('crate', 'adapted', 'ours')]
        self.every = all_asked(list(cases.unframed((folder / 'writing.cases').read_bytes())), *texts)
        self.size, self.chunks = len(self.every), [self.every[turn::WRITING_CHUNKS] for turn in range(WRITING_CHUNKS)]

    def reports(self, program, work):
        for chunk in self.chunks:
            (work / 'cases').write_bytes(b''.join(one.case.framed() for one in chunk))
            answer(program, work / 'cases', work / 'crates')
            adapted = ''.join(one.adapted + '\n' for one in chunk)
            ours = ''.join(line + '\n' for one in chunk for line in one.ours)
            if writing.tally([one.case for one in chunk], (work / 'crates').read_text(encoding='utf-8'), adapted, ours).new:
                return True
        return False


class Claims:
    """What docs/DIFFERENCES.md says of the crate: a program that says which of it fails."""

    def reports(self, program, work):
        done = subprocess.run([program], capture_output=True)
        fails = re.search(rb'^FAILS ', done.stdout, re.M) is not None
        if done.returncode != int(fails):
            raise Ended
        return fails
